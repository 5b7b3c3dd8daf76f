#!/usr/bin/env python3
"""Brings the names of this repository's own definitions and lemmas to today's spelling: words in snake case, types and modules in camel case.

    python3 tools/respell.py [FOLDER]        after port.py, once, at the top of the repository (or of FOLDER)

A name in camel case that begins small gets underscores (`eofOwed`: `eof_owed`). A dash of an own name becomes an underscore, but where both names that it joins are definitions of their own
(`length-take`). It goes by text, and says names that would fall together: there the lemma gets `_lem`. Names that a file takes from elsewhere than this repository stay there. Seven names would be those of proofs (`putSpec`: `put_spec`, which Rattle keeps for a function put): they end in _outcome.
"""
import collections
import glob
import os
import re
import sys

WORD = r'[^\s(){}.;,@"«»`|]+'
DECLARED = re.compile(r"(?m)^( *)((?:(?:abbrev|pub|unfoldable|record|data|let|where|constructor|\|) +)*)(" + WORD + r")(?= *(?:[({][^\n]*)? ?:(?: |$))")
CLAUSED = re.compile(r"(?m)^ *let (" + WORD + r") =")
USE = re.compile(r"^(?:pub )?(?:ghost )?use ([^\s;{]+?)(?:\.?\{([^}]*)\})?(?: as (\S+))?;?$", re.M)
STD = set("length take drop map append reverse replicate true false suc zero eqb ltb leb not and or sym refl trans ap subst max min div mod slice_index get_or set sum all any concat filter zip nil cons some none List Bool Maybe Unit".split())
# `f_spec` is the name of a proof that Rattle makes of a function `f`
CALLED = {c + "Spec": c + "_outcome" for c in ("new", "put", "deliver", "step", "burst", "cancel", "reset")}
NOT_AFTER = re.compile(r"(?:^|[^\w'])(?:c|goal|tie|w|l|Goals|Given|Tie)\.$")


def is_camel(name):
    return bool(re.match(r"[a-z◌]", name)) and bool(re.search(r"[a-z0-9][A-Z]", name))


def in_snake_case(name):
    return re.sub(r"(?<=[a-z0-9])([A-Z])(?=[a-z0-9]|$)", lambda m: "_" + m[1].lower(), name) if is_camel(name) else name


def files(top):
    for kind in ("specs", "proofs"):
        for p in sorted(glob.glob(os.path.join(top, "crates", "*", kind, "**", "*.antt"), recursive=True)):
            yield p, kind, p.split(os.sep + "proofs" + os.sep)[-1].count(os.sep) if kind == "proofs" else 0


def read(p):
    with open(p, encoding="utf-8") as f:
        return f.read()


def code_only(text):
    return re.sub(r"--[^\n]*", "", text)


def own_crates(top):
    return {os.path.basename(os.path.dirname(p)) for p in glob.glob(os.path.join(top, "crates", "*", "src"))}


def is_own(path, own):
    steps = path.split(".")
    return steps[0] == "Rattle" and len(steps) > 1 and steps[1] in own


def names_of(top):
    """Names declared in specs and in lemma files, the places of each, and those that are fields or constructors."""
    places, fields, specs = collections.defaultdict(set), set(), set()
    for p, kind, deep in files(top):
        if deep:
            continue
        for m in DECLARED.finditer(code_only(read(p))):
            if m[3] in ("--", "let", "in", "where", "=", "→", "|"):
                continue
            places[m[3]].add(p)
            if m[1] and "let" not in m[2]:
                fields.add(m[3])
            if kind == "specs":
                specs.add(m[3])
        for m in CLAUSED.finditer(code_only(read(p))):
            places[m[1]].add(p)
    return places, fields, specs


def table(top):
    places, fields, specs = names_of(top)
    plain = {in_snake_case(n) for n in places if "-" not in n} | STD
    turned = {}
    for n in places:
        if not re.match(r"[A-Za-z◌]", n) or "◌" in n:
            continue
        parts = [in_snake_case(x) for x in n.split("-")]
        new = parts[0]
        for a, b in zip(parts, parts[1:]):
            keep = n not in specs and a in plain and b in plain and b[-1:].isalpha() and not n[0].isupper()
            new += ("-" if keep else "_") + b
        if n in CALLED:
            new = CALLED[n]
        if n[0].isupper():
            new = "".join(x[:1].upper() + x[1:] for x in n.split("-"))
        if new != n:
            turned[n] = new
    # names that fall together, in one file: a lemma that would have its definition's name gets _lem
    lemmas = collections.defaultdict(dict)
    for p, kind, deep in files(top):
        if deep:
            continue
        seen = collections.defaultdict(set)
        text = code_only(read(p))
        inside = {m[3] for m in DECLARED.finditer(text)}
        for m in USE.finditer(text):
            inside |= {x.strip().split(" as ")[-1] for x in (m[2] or "").split(",")}
        inside |= set(re.findall(r"(?<![\w.'-])[a-z][\w']*(?![\w'-])", text))
        for n in inside:
            seen[turned.get(n, n)].add(n)
        for new, old in seen.items():
            if len(old) > 1:
                print("falls together in %s: %s" % (os.path.relpath(p, top), sorted(old)))
                for n in sorted(old):
                    if n not in turned:
                        lemmas[p][n] = n + "_lem"
                    elif "-" in n:
                        turned[n] = new + "_lem"
    return {a: b for a, b in turned.items() if a != b}, fields, lemmas


def strangers(text, own):
    """Names that the file takes from elsewhere."""
    found = set()
    for m in USE.finditer(text):
        if not is_own(m[1], own):
            found |= {x.strip().split(" as ")[-1] for x in (m[2] or "").split(",")}
    return found


def brought(text, own):
    found = set()
    for m in USE.finditer(text):
        if is_own(m[1], own):
            found |= {x.strip().split(" as ")[-1] for x in (m[2] or "").split(",")}
            found |= {x.strip().split(" as ")[0] for x in (m[2] or "").split(",")}
            found.add(m[1].split(".")[-1])
    return found


def turn_code(text, turned, fields, allowed):
    def word(m):
        n = m[0]
        if n not in turned or not allowed(n):
            return n
        before = text_now[: m.start()]
        if before.endswith("."):
            line = before[before.rfind("\n") + 1 :]
            if re.match(r"(?:pub )?use ", line):
                return turned[n]
            if is_camel(n) or (n in fields and not NOT_AFTER.search(before[-8:])):
                return turned[n]
            return n
        return turned[n]

    out = []
    for line in re.split(r"(?<=\n)", text):
        at = line.find("--")
        while at > 0 and not line[at - 1].isspace():
            at = line.find("--", at + 2)
        code, comment = (line, "") if at < 0 else (line[:at], line[at:])
        text_now = code
        code = re.sub(WORD, word, code)
        out.append(code + turn_prose(comment, turned))
    return "".join(out)


def turn_prose(text, turned):
    """A comment or a page: camel case everywhere, names with a dash in backquotes and behind the word PROMISE."""
    text = re.sub(r"(?<![\w.-])[a-z]\w*[A-Z][\w'-]*", lambda m: turned.get(m[0], in_snake_case(m[0]) if in_snake_case(m[0]) in turned.values() and m[0] in turned else m[0]), text)
    text = re.sub(r"`([^`\n]+)`", lambda m: "`" + re.sub(WORD, lambda w: turned.get(w[0], w[0]), m[1]) + "`", text)
    return re.sub(r"(PROMISE )([\w-]+)", lambda m: m[1] + m[2].replace("-", "_"), text)


def turn_rt(text, turned, fields, own):
    away = strangers(text, own)

    def piece(m):
        s = m[0]
        if s.startswith("//"):
            return turn_prose(s, turned)
        if s.startswith('"'):
            return s
        return turned[s] if s in turned and is_camel(s) and s not in away else s

    return re.sub(r'//[^\n]*|"(?:\\.|[^"\\])*"|[A-Za-z_][\w\']*', piece, text)


def main():
    top = os.path.abspath(sys.argv[1] if len(sys.argv) > 1 else ".")
    own = own_crates(top)
    turned, fields, lemmas = table(top)
    n = 0
    for p, kind, deep in list(files(top)):
        text = read(p)
        away = strangers(text, own)
        if deep:
            mine = brought(text, own)
            allowed = lambda w: w not in away and (w in mine or is_camel(w))
        else:
            allowed = lambda w: w not in away
        new = turn_code(text, turned | lemmas.get(p, {}), fields, allowed)
        if new != text:
            n += 1
            with open(p, "w", encoding="utf-8") as f:
                f.write(new)
    for p in sorted(glob.glob(os.path.join(top, "crates", "*", "src", "**", "*.rt"), recursive=True)):
        text = read(p)
        new = turn_rt(text, turned, fields, own)
        if new != text:
            n += 1
            with open(p, "w", encoding="utf-8") as f:
                f.write(new)
    for p in [os.path.join(top, "README.md"), *sorted(glob.glob(os.path.join(top, "docs", "**", "*.md"), recursive=True))]:
        text = read(p)
        new = turn_prose(text, turned)
        if new != text:
            n += 1
            with open(p, "w", encoding="utf-8") as f:
                f.write(new)
    print("%d names, %d files" % (len(turned), n))
    for a in sorted(turned):
        print("  %s %s" % (a, turned[a]))


if __name__ == "__main__":
    main()
