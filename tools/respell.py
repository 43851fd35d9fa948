#!/usr/bin/env python3
"""Brings the definitions and lemmas of this repository to the spelling of today's Rattle.

usage: python3 tools/respell.py [--list]      at the top of the repository

A name that the repository itself declares in specs/ or proofs/ and that has dashes, or capitals inside a
word that begins with a small letter, is put into snake case; a type, into upper camel case. Names that the
check makes (goals, steps, the answers to them) keep their dashes, and so does a dash before an operator.
Only .antt files and the ghost lines and clauses of .rt files are touched. With --list nothing is written.
"""

import os
import re
import sys

IDENT = r"[^\s(){}\[\];,.:@\"`]+"
FROM_CHECK = re.compile(r"^(returns|loop|invariant|decreases|then|else|if|in|index|overflow|bounds)-")


def texts(ending):
    for folder, dirs, names in os.walk("crates"):
        dirs[:] = sorted(d for d in dirs if d != "out")
        for name in sorted(names):
            if name.endswith(ending):
                yield os.path.join(folder, name)


def answers_goals(path):
    """Whether the file lies in the folder of a function's proof."""
    parts = path.split(os.sep)
    return parts[2] == "proofs" and len(parts) > 4


def declared():
    found = {}
    for path in texts(".antt"):
        with open(path, encoding="utf-8") as f:
            lines = f.read().split("\n")
        for line in lines:
            for m in re.finditer(r" as ([\w-]+)", line):
                found.setdefault(m.group(1), set()).add(path)
            if line.lstrip().startswith("--") or line.startswith("use "):
                continue
            m = re.match(r"^(\s*)((?:pub|abbrev|unfoldable)\s+)*((?:record|data|module)\s+)?([^\s:(){}]+)\s", line)
            if m:
                rest = line[m.end(4):]
                if m.group(3) or re.match(r"\s*(\([^)]*\)\s*|\{[^}]*\}\s*)*:", rest):
                    if not (answers_goals(path) and m.group(1) == ""):
                        found.setdefault(m.group(4), set()).add(path)
            for m in re.finditer(r"\blet ([^\s:=]+)\s*[:=]", line):
                found.setdefault(m.group(1), set()).add(path)
            for m in re.finditer(r"[({]([^(){}:→]+?) : ", line):
                for name in m.group(1).split():
                    found.setdefault(name, set()).add(path)
            for m in re.finditer(r"λ ([^.]+)\.", line):
                for name in m.group(1).split():
                    found.setdefault(name, set()).add(path)
    for path in texts(".rt"):
        with open(path, encoding="utf-8") as f:
            for line in f:
                if line.lstrip().startswith("ghost use "):
                    for m in re.finditer(r" as ([\w-]+)", line):
                        found.setdefault(m.group(1), set()).add(path)
    return found


def respelled(name):
    if "◌" in name or "(" in name or ")" in name:
        return name
    if name[0].isupper():
        return "".join(p[0].upper() + p[1:] for p in re.split(r"[-_]", name) if p)
    name = re.sub(r"-(?=\w)", "_", name)
    return re.sub(r"(?<=[a-z])([A-Z])", lambda m: "_" + m.group(1).lower(), name)


def turned(text, names):
    def one(m):
        member = m.start() > 0 and text[m.start() - 1] == "."
        return m.group(0) if member and m.group(0) in MADE_BY_THE_CHECK else names.get(m.group(0), m.group(0))

    return re.sub(IDENT, one, text)


def turned_source(text, names):
    """The ghost lines of a .rt file, and what stands between the braces of its clauses."""
    out, at = [], 0
    pattern = re.compile(r"(?m)^\s*(?:ghost use [^;]*;|(?:pub )?ghost [^{;]*\{|(?:requires|ensures|invariant|decreases)\b[^{]*\{)|^#!?\[tactic\([^\n]*\]")
    for m in pattern.finditer(text):
        if m.start() < at:
            continue
        end = m.end()
        if text[end - 1] == "{":
            depth = 1
            while depth:
                depth += {"{": 1, "}": -1}.get(text[end], 0)
                end += 1
        out += [text[at:m.start()], turned(text[m.start():end], names)]
        at = end
    return "".join(out) + text[at:]


def main(argv):
    found = declared()
    names = {n: respelled(n) for n in found if not FROM_CHECK.match(n) or n in LIKE_THE_CHECKS}
    names = {old: new for old, new in names.items() if old != new}
    if "--list" in argv:
        for old in sorted(names):
            print(old, names[old], " (is declared too)" if names[old] in found else "")
        return 0
    for path in list(texts(".antt")) + list(texts(".rt")):
        with open(path, encoding="utf-8") as f:
            text = f.read()
        new = turned(text, names) if path.endswith(".antt") else turned_source(text, names)
        if new != text:
            with open(path, "w", encoding="utf-8") as f:
                f.write(new)
    return 0


# lemmas whose names begin like the check's own
LIKE_THE_CHECKS = {"in-more", "in-columns", "in-marks", "in-time", "in-with-row", "in-at", "in-items", "in-turn-there", "in-turn-from", "in-turn-more", "in-turn-all", "in-turn-only", "in-append", "in-order-then", "in-turn", "in-matching"}
# names of lemmas that the check also makes, as members of a step
MADE_BY_THE_CHECK = {"count-is"}

if __name__ == "__main__":
    raise SystemExit(main(sys.argv[1:]))
