#!/usr/bin/env python3
"""Lists places of the source that an older language would have forced: python3 tools/places.py [ROOT]

One list for each point of docs/DESIGN-PASS.md, and its length. It finds candidates by their shape; which of them are places is said there.
"""
import collections
import pathlib
import re
import sys

ROOT = pathlib.Path(sys.argv[1] if len(sys.argv) > 1 else ".")
FUNCTION = re.compile(r"^( *)(?:pub(?:\(crate\))? )?(?:unsafe )?(?:extern \"C\" )?fn (\w+)(.*?)^\1\{\n(.*?)^\1\}", re.S | re.M)
SHORT_FUNCTION = re.compile(r"^( *)(?:pub(?:\(crate\))? )?fn (\w+)([^{;]*) \{\n(.*?)^\1\}", re.S | re.M)


def sources():
    for path in sorted(ROOT.glob("crates/*/src/**/*.rt")):
        yield path.relative_to(ROOT), path.read_text()


def functions():
    """Each function: its file, line, name, head (from the name to the body) and body."""
    for path, text in sources():
        seen = set()
        for pattern in (FUNCTION, SHORT_FUNCTION):
            for found in pattern.finditer(text):
                line = text.count("\n", 0, found.start()) + 1
                if line not in seen:
                    seen.add(line)
                    yield path, line, found.group(2), found.group(3), found.group(4)


def matches(pattern, flags=re.M):
    for path, text in sources():
        for found in re.finditer(pattern, text, flags):
            line = text.count("\n", 0, found.start()) + 1
            yield f"{path}:{line}: {' '.join(found.group(0).split())}"


def shape(text):
    """The text with literals, numbers and the names of types and constants taken out."""
    text = re.sub(r"//.*", "", text)
    text = re.sub(r'b?"[^"]*"|b?\'[^\']*\'', "S", text)
    text = re.sub(r"\b(?:0x)?[0-9][0-9a-fA-F_]*(?:u8|u16|u32|u64|u128|usize)?\b|\b[ui](?:8|16|32|64|128|size)\b", "N", text)
    text = re.sub(r"\b[A-Z]\w*\b", "T", text)
    return " ".join(text.split())


def twins():
    groups = collections.defaultdict(list)
    for path, line, name, _, body in functions():
        crate = path.parts[1]
        key = re.sub(r"\b[a-z_]+\d+\b", "f", shape(body))
        if len(key) > 25:
            groups[crate, key].append(f"{path}:{line} {name}")
    for (crate, _), names in sorted(groups.items()):
        if len(names) > 1:
            yield f"{crate}: " + ", ".join(names)


def facts():
    clauses = collections.defaultdict(list)
    lists = collections.defaultdict(list)
    for path, line, name, head, _ in functions():
        place = f"{path}:{line} {name}"
        for clause in re.findall(r"requires[^{]*\{ (.*?) \}\n", head):
            clauses[path.parts[1], re.sub(r"\b\d+\b", "N", clause)].append(place)
        given = re.findall(r"(\w+): ([^,()]+)", head.split("->")[0])
        names = [pair for pair in given if pair[0] not in ("self", "rt")]
        for one in range(len(names)):
            for other in range(one + 1, len(names)):
                lists[path.parts[1], names[one], names[other]].append(place)
    for (crate, clause), places in sorted(clauses.items()):
        if len(places) > 2:
            yield f"{crate}: requires {clause}: {len(places)} functions"
    for (crate, one, other), places in sorted(lists.items()):
        if len(places) > 2:
            yield f"{crate}: parameters {one[0]}: {one[1].strip()} and {other[0]}: {other[1].strip()}: {len(places)} functions"


def switches():
    matched = collections.defaultdict(list)
    for path, line, name, _, body in functions():
        for variant in set(re.findall(r"^ *(?:\| )?(\w+)::\w+[^\n]*=>", body, re.M)):
            matched[path.parts[1], variant].append(f"{path}:{line} {name}")
    for (crate, variant), places in sorted(matched.items()):
        if len(places) > 2:
            yield f"{crate}: {variant} in {len(places)} functions: " + ", ".join(places)


POINTS = {
    "1 enums of their own, flags, numbers for kinds": lambda: list(matches(r"^ *(?:pub )?enum \w+"))
    + list(matches(r"\b\w+: bool\b"))
    + list(matches(r"^static \w+: \[u8; \d+\]")),
    "2 twins": lambda: list(twins()),
    "3 loops that count": lambda: list(matches(r"^ *while .*\{"))
    + list(matches(r"^ *for \w+ in [^{]*\.\.[^{]*\{"))
    + list(matches(r"^ *\w+(?:\.\w+)? (?:\+= 1|= \w+ \+ \w+ \+ 1|= \w+\.(?:wrapping|saturating)_add\(1\));"))
    + list(matches(r"\w+\[\w+ \+ \d\],")),
    "4 conversions, tests and texts by hand": lambda: list(matches(r"Word \{\s*low(?:: [^,{}]+)?,\s*top: 0,?\s*\}"))
    + list(matches(r"=> (?:true|false),\s*_ => (?:true|false)"))
    + list(matches(r"fn (?:title|name|number|from_number|print_\w+|tell_fault)\b"))
    + list(matches(r"fn new\(\) -> \w+"))
    + list(matches(r"match [^{]*\{\s*(?:Ok|Some|Err)\([^\n]*\n?[^\n]*\n\s*(?:Err|None|Ok)[^\n]*\n\s*\}")),
    "5 facts and parameters together": lambda: list(facts()),
    "6 buffers with a length, parallel arrays": lambda: list(matches(r"\bat: usize\b"))
    + list(matches(r"calls: &\[Call\],?\s*answers: &(?:mut )?\[Answer\]"))
    + list(matches(r"^(?:pub )?const \w+: (?:&\[u8; \d+\]|\[\w+[^\]]*; \d+\])"))
    + list(matches(r"-> &'static str")),
    "7 switches": lambda: list(switches()),
}

for point, places in POINTS.items():
    found = places()
    print(f"## {point}: {len(found)}")
    for place in found:
        print("   " + place)
lines = sum(len(p.read_text().splitlines()) for p in ROOT.glob("crates/*/proofs/**/*.antt"))
files = sum(1 for p in ROOT.glob("crates/*/proofs/**/*.antt"))
print(f"## 8 proofs: {files} files, {lines} lines")
