#!/usr/bin/env python3
"""Says what of the gate falls to each part of the tree, from the gate's own output.

    .ci/run > gate.log; python3 tests/gate_parts.py gate.log

`rt ci` tells each crate that it proves, each must-fail edit and each run, and what it took over from an earlier run of the same files. It prints no seconds, as an older kit did for each
crate and each edit, so a part's share of the gate's time can no longer be told: only how many crates, functions, edits and runs of programs are its.
"""
import collections, re, sys

PARTS = [
    ('leaves: basis, rules_leaves, utf8, checksum', r'basis|rules_leaves|utf8|checksum'),
    ('numbers and PDUs: rules_pdu, the pdu crates, vectors', r'rules_pdu|pdu\w*|vectors'),
    ('the handler\'s definitions and promises: types, rules', r'types|rules'),
    ('the handler: the source crates', r'source\w*'),
    ('the seam', r'seam\w*'),
    ('programs and what is under them', r'\w+'),
]
SAID = [
    ('proved', r'rt: (\w+) proved$'),
    ('kept', r'rt: (\w+) is kept: an earlier run'),
    ('edits', r'rt: must-fail (\w+)/[\w.-]+: refused'),
    ('bad', r'rt: must-fail (\w+)/[\w.-]+: (?:BAD EDIT|NOT REFUSED|NOT TRIED)'),
    ('runs', r'rt: (\w+) ran\b'),
]


def part(crate):
    return next(i for i, (_, crates) in enumerate(PARTS) if re.fullmatch(crates, crate))


def main():
    counts, crate = [collections.Counter() for _ in PARTS], None
    for line in open(sys.argv[1], encoding='utf-8', errors='replace'):
        for what, said in SAID:
            m = re.match(said, line)
            if m:
                counts[part(m[1])][what] += 1
        crate = line[3:].strip() if line.startswith('== ') else crate
        m = re.match(r'logic=proved functions=(\d+)', line)
        if m and crate and ':' not in crate:
            counts[part(crate)]['functions'] += int(m[1])
            crate = None
        m = re.match(r'rt: (\w+): (\d+) of its \d+ must-fail edits were tried by an earlier run', line)
        if m:
            counts[part(m[1])]['old'] += int(m[2])
    print('| Part | Crates proved | Their functions | Crates kept from an earlier run | Must-fail edits refused | of them by an earlier run | bad or not refused | Runs of programs |')
    print('|---|---|---|---|---|---|---|---|')
    for (name, _), c in zip(PARTS + [('all', '')], counts + [sum(counts, collections.Counter())]):
        print('| %s | %s |' % (name, ' | '.join(str(c[what]) for what in ('proved', 'functions', 'kept', 'edits', 'old', 'bad', 'runs'))))


main()
