#!/usr/bin/env python3
"""Holds the names in docs/TRACE.md, OPEN.md, DECISIONS.md and CHECKTIME.md to the tree: every must-fail edit `crate/label`, every function
`crate::name`, every run of `passes` and every statement of TRACE's last table must be there.

    python3 tests/trace_names.py

A function is what stands in backquotes with ::, an edit what stands with / in the column of the must-fail edits; a crate that is not there is told like any other name. Every row of TRACE with that column
has an edit there, or says in words why it has none. Prints each name that is not there, with where it stands now if that is one place; the last line is a count. Status 0 if all are there.
"""
import glob, os, re, sys

ROOT = os.path.join(os.path.dirname(os.path.abspath(__file__)), '..')
CRATES = sorted(os.listdir(os.path.join(ROOT, 'crates')))


def edits(crate):
    return {os.path.basename(p)[:-5] for p in glob.glob(os.path.join(ROOT, 'crates', crate, 'must-fail', '*.edit'))}


def functions(crate):
    found = set()
    for p in glob.glob(os.path.join(ROOT, 'crates', crate, 'src', '**', '*.rt'), recursive=True):
        with open(p, encoding='utf-8') as f:
            found |= set(re.findall(r'\bfn (\w+)', f.read()))
    return found


def functions_named(text):
    return {('::', c, n) for c, n in re.findall(r'`(\w+)::(\w+)`', text)}


def edits_named(text):
    """Those of the tables' column, and how many rows have neither an edit nor a word there."""
    named, empty, column = set(), 0, None
    for line in text.split('\n'):
        cells = [c.strip() for c in line.split('|')]
        if 'Must-fail edit' in cells:
            column = cells.index('Must-fail edit')
        elif not line.startswith('|'):
            column = None
        elif column and not set(cells[column]) <= set('-: '):
            named |= {('/', c, n) for c, n in re.findall(r'\b(\w+)/(\w+)\b(?![./])', cells[column]) if c not in ('tests', 'docs', 'crates')}
        elif column and cells[1].strip('-'):
            empty += 1
            print('no edit, and no word why: ' + line[:120])
    return named, empty


def runs_unknown(text):
    """Runs of the program `passes` that are cited and not there; `all N runs` must have its number."""
    with open(os.path.join(ROOT, 'crates', 'passes', 'stdout'), encoding='utf-8') as f:
        labels = [line.rstrip('\n') for line in f if not line.startswith(' ')]
    cited = re.findall(r'\| passes: (.*?) \|', text)
    return len(cited), [c for c in cited if c not in labels and not c.startswith('all ' + labels[-1])]


def statements_unknown(text):
    """Statements and proofs of the last table that their files don't declare."""
    declared = {}
    for p in glob.glob(os.path.join(ROOT, 'crates', 'rules*', '*', '*.antt')):
        with open(p, encoding='utf-8') as f:
            declared.setdefault(os.path.basename(p)[:-5], set()).update(re.findall(r'^(?:abbrev |unfoldable )?pub (?:record )?([^\s:]+)', f.read(), re.M))
    seen, unknown = 0, []
    for line in text.split('## Where the statements are proved')[-1].split('\n'):
        cells = [c.strip() for c in line.split('|')]
        if len(cells) != 5 or '`' not in cells[1]:
            continue
        proof = cells[3].split(' ')[-1]
        wanted = [(n, cells[2]) for n in re.findall(r'`(.+?)`', cells[1])] + [(n, proof) for n in re.findall(r'`(.+?)`', cells[3])]
        seen += len(wanted)
        unknown += ['%s in %s' % w for w in wanted if w[0] not in declared.get(w[1], ())]
    return seen, unknown


def main():
    have = {'/': {c: edits(c) for c in CRATES}, '::': {c: functions(c) for c in CRATES}}
    seen, missing = 0, 0
    for doc in ('TRACE.md', 'OPEN.md', 'DECISIONS.md', 'CHECKTIME.md'):
        with open(os.path.join(ROOT, 'docs', doc), encoding='utf-8') as f:
            text = f.read()
        named, empty = edits_named(text)
        missing += empty
        for count, unknown in (runs_unknown(text), statements_unknown(text)) if doc == 'TRACE.md' else ():
            seen, missing = seen + count, missing + len(unknown)
            for name in unknown:
                print('%s: %s is not there' % (doc, name))
        for mark, crate, name in sorted(named | functions_named(text)):
            seen += 1
            if name not in have[mark].get(crate, ()):
                missing += 1
                now = [c for c in CRATES if name in have[mark][c]]
                print(f'{doc}: {crate}{mark}{name} is not there' + (f'; {now[0]} has it' if len(now) == 1 else f'; {now}'))
    print(f'{seen} names, {missing} not there')
    return 1 if missing else 0


sys.exit(main())
