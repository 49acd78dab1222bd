#!/usr/bin/env python3
"""Brings the definitions and lemmas of crates/ to one spelling; run once, at the top: python3 tools/respell.py

Words of a name are joined by `_`; facts and records, which begin with a capital letter, are in camel case.
Functions of src/, strings and comments of .rt files, and names that Rattle makes keep their spelling.
It stops, and writes nothing, where two names of one file would fall together.
"""
import os
import re
import sys

TOKEN = re.compile(r"[^\s(){}\[\];,.«»\"⌜⌝]+")
DECLARED = re.compile(r"^(  )*((?:pub|abbrev|unfoldable|record|data)\s+)*(?P<name>[^\s(){};,.:]+)(?=\s)(?P<rest>.*)$")
# `errors_met` and `in_hand` are fields of watches
OTHER = {"errors-met": "met_errors", "in-hand": "is_in_hand"}
WORDS = {"use", "where", "let", "in", "unfolding", "elim", "module"}
MADE = re.compile(r"^(invariant|decreases|loop|if|then|else|returns|in|overflow_\w+)-")


def files(*endings):
    for folder, dirs, names in os.walk("crates"):
        dirs[:] = sorted(d for d in dirs if d != "out")
        for name in sorted(names):
            if name.endswith(endings):
                yield os.path.join(folder, name)


def made_there(path, name):
    """A name that Rattle makes, in a file of one function's proof."""
    return re.search(r"/proofs/.*/(Answers|Invariants|Choices|Proof)\.antt$", path) and MADE.match(name)


def spelled(name):
    if name in OTHER:
        return OTHER[name]
    if name[0].isupper():
        return "".join(part[:1].upper() + part[1:] for part in re.split(r"[-_]", name))
    return name.replace("-", "_")


def declared():
    names = set()
    for path in files(".antt"):
        for line in open(path, encoding="utf-8"):
            m = DECLARED.match(line.rstrip("\n"))
            if not m or line.startswith("--") or not re.search(r"(^|\s):(\s|$)", m.group("rest")):
                continue
            if m.group("name") in WORDS or re.search(r":\s*goal\.", line) or made_there(path, m.group("name")):
                continue
            names.add(m.group("name"))
    return {n: spelled(n) for n in names if spelled(n) != n}


def turned(text, names):
    return TOKEN.sub(lambda m: names.get(m.group(0), m.group(0)), text)


def turned_code(text, names):
    """Of a .rt file, all but comments and strings."""
    out = []
    for line in text.split("\n"):
        cut = line.find("//")
        code, rest = (line, "") if cut < 0 else (line[:cut], line[cut:])
        parts = re.split(r'("(?:[^"\\]|\\.)*")', code)
        out.append("".join(p if p.startswith('"') else turned(p, names) for p in parts) + rest)
    return "\n".join(out)


def main():
    names = declared()
    new, bad = {}, []
    for path in files(".antt", ".rt"):
        text = open(path, encoding="utf-8").read()
        there = {t for t in TOKEN.findall(text)}
        seen = {}
        for t in sorted(there):
            to = names.get(t, t)
            if to in seen:
                bad.append(f"{path}: {seen[to]} and {t} fall together")
            seen[to] = t
        new[path] = turned(text, names) if path.endswith(".antt") else turned_code(text, names)
    for b in bad:
        print(b)
    if bad and "--go-on" not in sys.argv:
        return 1
    for path, text in new.items():
        open(path, "w", encoding="utf-8").write(text)
    print(f"{len(names)} names")
    return 0


if __name__ == "__main__":
    sys.exit(main())
