#!/usr/bin/env python3
"""Lists, for docs/DESIGN-PASS.md, what can't be seen by one grep: functions of crates/*/src that are alike but for names, types and
numbers, and clauses that three or more functions require.  Usage: tools/places.py [FOLDER]"""
import collections, glob, re, sys

KEPT = {"fn", "let", "mut", "if", "else", "while", "for", "in", "match", "return", "loop", "as", "const"}


def functions(text):
    """Name and body of each function."""
    for start in re.finditer(r"\bfn (\w+)", text):
        brace = text.find("\n{", start.end())
        inline = text.find(" {\n", start.end())
        at = min(p for p in (brace, inline, len(text)) if p >= 0)
        depth = 0
        for i in range(text.find("{", at), len(text)):
            depth += {"{": 1, "}": -1}.get(text[i], 0)
            if depth == 0:
                yield start.group(1), text[at:i + 1]
                break


def shape(body):
    """The body with every name as I and every number as N."""
    body = re.sub(r"//.*", "", body)
    body = re.sub(r"b?'[^']*'|b?\"[^\"]*\"", "N", body)
    words = re.findall(r"\w+|[^\w\s]", body)
    return " ".join(w if w in KEPT or not re.match(r"\w", w) else "N" if w[0].isdigit() or w == "N" else "I" for w in words)


root = sys.argv[1] if len(sys.argv) > 1 else "."
alike, required = collections.defaultdict(list), collections.defaultdict(list)
for path in sorted(glob.glob(f"{root}/crates/*/src/**/*.rt", recursive=True)):
    crate, text = path.split("/crates/")[1].split("/")[0], open(path).read()
    for name, body in functions(re.sub(r"^.*\b(requires|ensures)\b.*\n", "", text, flags=re.M)):
        if len(shape(body).split()) > 7:
            alike[shape(body)].append(f"{crate}::{name}")
    name = ""
    for line in text.split("\n"):
        name = (re.search(r"^[^/]*\bfn (\w+)", line) or [0, name])[1]
        clause = re.match(r"\s*requires\s+(?:\w+ )?\{(.*)\}", line)
        if clause:
            required[re.sub(r"\.(now|old|new)\b", "", clause[1].strip())].append(f"{crate}::{name}")
print("Functions alike but for names, types and numbers:")
for names in sorted(n for n in alike.values() if len(n) > 1):
    print("   ", ", ".join(names))
print("Clauses that three or more functions require:")
for clause, names in sorted(required.items()):
    if len(names) > 2:
        print(f"    {clause}: {', '.join(names)}")
