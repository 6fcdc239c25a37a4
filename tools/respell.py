#!/usr/bin/env python3
"""Brings the names of definitions and lemmas in specs/ and proofs/ to one spelling.

usage: python3 tools/respell.py    at the top of the repository

A fact or a type is in upper camel case, every other name in snake case. Names that the check makes
(goals, steps of a function) and names of the library keep their dashes, and so do functions of
src/, strings and comments of src/. It names each case in which two names fall together, and then
writes nothing.
"""

import os
import re
import sys

KINDS = r"(?:(?:abbrev|unfoldable|record|data|ruleset|pub)\s+)*"
DEFINED = re.compile(r"^\s*(?:where\s+)?" + KINDS + r"([^\s(){}:,;=.]+)(?:\s+[({].*?)?\s+:\s(?!goal\.|given\.)")
LOCAL = re.compile(r"\blet\s+([^\s(){}:,;=.]+)\s*[:=]")
ALIAS = re.compile(r"\bas\s+([^\s(){}:,;=.]+)")
# parts of a clause's left side, which no pattern above finds
ARGUMENTS = ["more-reports", "more-starts", "no-report"]
TOKEN = re.compile(r"[^\s(){}:,;=.⟦⟧\[\]λ∷⌜⌝]+")
IMPORT = re.compile(r"^\s*(?:ghost )?use (Rattle\.std\.|Rattle\.\w+\.proofs\..*\.(?:Goals|Given))")
RENAMED_ALIAS = re.compile(r"(?<![\w'-])([^\s{},]+) as \1(?=[,}])")


def files(root):
    for folder, dirs, names in os.walk(os.path.join(root, "crates")):
        dirs[:] = sorted(d for d in dirs if d != "out")
        for name in sorted(names):
            if name.endswith((".antt", ".rt")):
                yield os.path.join(folder, name)


def respelt(name):
    parts = re.split(r"-(?=[A-Za-z0-9])", name)
    if name[0].isupper():
        return "".join(p[:1].upper() + p[1:] for p in parts)
    return "_".join(parts)


def dashed(name):
    return re.search(r"[A-Za-z0-9]-[A-Za-z0-9]", name) is not None


def code(line, path):
    """The part of a line in which names stand: no comment and, in src/, no string."""
    mark = "//" if path.endswith(".rt") else "--"
    at = line.find(mark)
    return (line, "") if at < 0 else (line[:at], line[at:])


def turned(line, path, names):
    if path.endswith(".rt") and not re.match(r"\s*(ghost|requires|ensures|//|decreases)", line):
        return line
    text, rest = code(line, path)
    text = TOKEN.sub(lambda m: names.get(m.group(0), m.group(0)), text)
    return RENAMED_ALIAS.sub(r"\1", text) + rest


def main():
    texts = {}
    own, made, foreign = set(ARGUMENTS), set(), set()
    for path in files("."):
        with open(path, encoding="utf-8") as f:
            texts[path] = f.read()
    for path, text in texts.items():
        for line in text.splitlines():
            line = code(line, path)[0]
            if IMPORT.match(line):
                foreign.update(w.split(" as ")[0].strip() for g in re.findall(r"\{(.*)\}", line) for w in g.split(","))
                continue
            made.update(re.findall(r"\bgoal\.([^\s(){}:,;=.]+)", line))
            if path.endswith(".antt"):
                found = DEFINED.match(line)
                own.update([found.group(1)] if found else [])
                own.update(LOCAL.findall(line))
                own.update(ALIAS.findall(line))
    names = {n: respelt(n) for n in own if dashed(n) and n not in made and n not in foreign}
    kept = sorted(n for n in own if dashed(n) and (n in made or n in foreign))
    if kept:
        print("kept, since the check or the library has the name too: " + ", ".join(kept))
    bad = 0
    for old, new in sorted(names.items()):
        alike = [p for p, t in texts.items() if re.search(r"(?<![\w'.-])" + re.escape(new) + r"(?![\w'-])", t)
                 and re.search(r"(?<![\w'-])" + re.escape(old) + r"(?![\w'-])", t)
                 and not re.search(re.escape(old) + " as " + re.escape(new) + r"(?![\w'-])", t)]
        for path in alike:
            print(f"fall together: {old} and {new} in {path}")
            bad += 1
    if bad:
        return 1
    changed = 0
    for path, text in texts.items():
        new = "\n".join(turned(l, path, names) for l in text.split("\n"))
        if new != text:
            changed += 1
            with open(path, "w", encoding="utf-8") as f:
                f.write(new)
    print(f"{len(names)} names, {changed} files")
    return 0


if __name__ == "__main__":
    sys.exit(main())
