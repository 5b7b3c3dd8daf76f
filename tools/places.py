#!/usr/bin/env python3
"""Counts the places in crates/*/src that docs/DESIGN-PASS.md speaks of: python3 tools/places.py [--list] [FOLDER]

Each point has one test on the lines of the source, wider than the point: what it finds still has to be read. --list prints each place."""
import collections
import glob
import os
import re
import sys

args = [a for a in sys.argv[1:] if a != "--list"]
root = args[0] if args else "."
files = sorted(glob.glob(os.path.join(root, "crates/*/src/**/*.rt"), recursive=True))
found = collections.OrderedDict()


def put(point, path, line, text):
    found.setdefault(point, []).append((os.path.relpath(path, root), line, text.strip()))


def functions(text):
    """Each function's name, its parameters and its contract."""
    for m in re.finditer(r"\bfn (\w+)(?:<[^>(]*>)?\(", text):
        depth, i = 1, m.end()
        while depth and i < len(text):
            depth += {"(": 1, ")": -1}.get(text[i], 0)
            i += 1
        end = re.search(r"\n\s*\{|\{\n|;\n", text[i:])
        stop = i + (end.start() if end else 0)
        yield m.group(1), text[m.end():i - 1], text[i:stop], text.count("\n", 0, m.start()) + 1


names = ["1a enums", "1b a flag beside a value", "1c numbers for kinds or refusals", "2 see `duplicates`", "3 while", "4a a test that returns a flag", "4b a match to flags or numbers",
         "4c conversions by hand", "5a facts in three or more contracts", "5b parameters that travel together", "6a a buffer with a place or length beside", "6b arrays of fixed size", "7 fn pointers, dyn, matches on a number",
         "8a answers", "8b lines of proofs"]
for n in names:
    found[n] = []

facts, travel = collections.defaultdict(set), collections.defaultdict(set)
for path in files:
    text = open(path, encoding="utf-8").read()
    lines = text.split("\n")
    for k, line in enumerate(lines, 1):
        code = line.split("//")[0]
        if re.match(r"\s*(pub(\(crate\))? )?enum \w+", code):
            put("1a enums", path, k, line)
        if re.match(r"\s*(pub )?(yes|ok|heavy|invalid|known|eof): bool,", code):
            put("1b a flag beside a value", path, k, line)
        if re.match(r"\s*(pub )?(kind|code|action|condition|status|delivery|checksum|step|limit|form): u(8|32|64),", code):
            put("1c numbers for kinds or refusals", path, k, line)
        if re.search(r"\bwhile\b", code):
            put("3 while", path, k, line)
        if re.match(r"\s*return (true|false);", code):
            put("4a a test that returns a flag", path, k, line)
        if re.match(r"\s*[\w:]+(::\w+)?(\(_\)|\(\w\))? => (true|false|\d+),", code):
            put("4b a match to flags or numbers", path, k, line)
        if re.search(r"\b(lesser|wide|bit_of|wrapping_add_u(32|64)|up_to|is)\(", code) and "fn " not in code:
            put("4c conversions by hand", path, k, line)
        if re.search(r"\bout: &mut \[u8\], at: usize|\bs: &\[u8\], at: usize|len: u8,|count: usize,", code):
            put("6a a buffer with a place or length beside", path, k, line)
        if re.search(r"\[\w+[^;\]]*; \d+\]", code):
            put("6b arrays of fixed size", path, k, line)
        if re.search(r"\bfn\(|\bdyn\b|match (kind|code|n|k) \{", code):
            put("7 fn pointers, dyn, matches on a number", path, k, line)
    for name, params, contract, k in functions(text):
        where = (os.path.relpath(path, root), k, name)
        for clause in re.findall(r"requires(?: \w+)? \{([^}]*)\}", contract):
            facts[re.sub(r"\b\w+\.(old|now)\b", "x", clause).strip()].add(where)
        ps = sorted(re.sub(r"\s+", " ", p.strip()) for p in params.split(",") if ":" in p)
        for i in range(len(ps)):
            for j in range(i + 1, len(ps)):
                for l in range(j + 1, len(ps)):
                    travel[(ps[i], ps[j], ps[l])].add(where)
for clause, places in facts.items():
    if len(places) >= 3:
        put("5a facts in three or more contracts", os.path.join(root, sorted(places)[0][0]), len(places), clause)
for group, places in travel.items():
    if len(places) >= 3:
        put("5b parameters that travel together", os.path.join(root, sorted(places)[0][0]), len(places), ", ".join(group))
for path in sorted(glob.glob(os.path.join(root, "crates/*/proofs/**/Answers.antt"), recursive=True)):
    for k, line in enumerate(open(path, encoding="utf-8"), 1):
        if re.match(r"(pub )?\S+ : goal\.", line):
            put("8a answers", path, k, line)
total = 0
for path in glob.glob(os.path.join(root, "crates/*/proofs/**/*.antt"), recursive=True):
    total += sum(1 for _ in open(path, encoding="utf-8"))

for n in names:
    if n.startswith("2"):
        continue
    print("%-45s %6d" % (n, total if n.startswith("8b") else len(found[n])))
    if "--list" in sys.argv:
        for path, line, text in found[n]:
            print("    %s:%d: %s" % (path, line, text))
stays = sum(open(f, encoding="utf-8").read().count("// Stays: ") for f in files)
print("%-45s %6d" % ("places with a reason beside them", stays))
print("%-45s %6d" % ("lines of source", sum(open(f, encoding="utf-8").read().count("\n") for f in files)))
