#!/usr/bin/env python3
"""Turns proofs of the older form, each a Proof.antt that hands its answers to tie.spec, to Invariants.antt and Answers.antt.

    python3 tools/answers.py CRATE OLD      in crates/CRATE: OLD holds the older proofs/, with folders of functions; its names come from `rt check --generated DIR --old-names`

Answers that only call `search rules` or `omega arith` are left out: the check finds them. Proofs by hand are copied as they are. Used once, for the port (docs/PORT.md).
"""
import json
import os
import re
import shutil
import subprocess
import sys
import tempfile

HEAD = re.compile(r"(?m)^(?:abbrev |unfoldable )?(?:pub )?([^\s:]+) :")
PLAIN = re.compile(r"^(search rules|omega arith|search \(rules, omega arith\)|refl)$")


def same(name):
    return name.replace("_", "-")


def blocks(text):
    """The file's head (comments and use lines) and its declarations, each a list of lines with the blank lines before it dropped."""
    lines = text.split("\n")
    head, rest, i = [], [], 0
    while i < len(lines) and (not lines[i] or lines[i].startswith(("--", "use ", "    ", "}"))):
        head.append(lines[i])
        i += 1
    current = []
    for line in lines[i:]:
        if not line.strip():
            if current:
                rest.append(current)
            current = []
        else:
            current.append(line)
    if current:
        rest.append(current)
    # a blank line inside a declaration's where: join what is indented
    out = []
    for b in rest:
        if out and b[0].startswith(" "):
            out[-1] += [""] + b
        else:
            out.append(b)
    return head, out


def paths(text, places):
    text = re.sub(r"(?<=[\w'\]\)])((?:\.before)+)(?=[.\s)\],;]|$)", "", text)
    text = re.sub(r"\.([\w-]+?)_(?:contract|lem)(\d*)(?=[.\s)\],;]|$)", r".\1\2", text)
    others = set(re.findall(r"let (\w+) = \w+\.[\w.-]+ in", text))
    arms = {}
    for old, new in places:
        if new not in arms.setdefault(old, []):
            arms[old].append(new)
    for old, news in arms.items():
        if old:
            text = re.sub(r"\.%s\.keys(\d+)" % re.escape(old), lambda m: ".\0%s.is" % news[int(m[1]) - 1] if int(m[1]) <= len(news) else m[0], text)
    for old, new in sorted(places, key=lambda p: -len(p[0])):
        if old and new:
            step = "[_-]".join(re.escape(w) for w in re.split("[_-]", old))
            text = re.sub(r"(?<![\w.'\])-])([A-Za-z_]\w*)\.%s(?![\w'-])" % step, lambda m: m[0] if m[1] in others else m[1] + ".\0" + new, text)
    return text.replace("\0", "")


def loop_names(entry):
    return [(l[0][0], l[0][1], l[1]) for l in entry["loops"]]


def invariant(block, entry, at):
    """invariant-loop out₀ at w .. = BODY, with the binders as fields of l."""
    text = "\n".join(block[1:])
    m = re.match(r"(\S+)((?: +[^\s=]+)*) =\s", text)
    unfolding = ""
    if not m:
        return None
    names = m[2].split()
    body = text[m.end() :]
    _, new, live = loop_names(entry)[at]
    changed = entry["changed"][at]
    table, i = {}, 0
    for n, c in zip(live, changed):
        if i >= len(names):
            return None
        table[names[i]] = ("l.initial." if c else "l.") + n
        i += 1
    for n, c in zip(live, changed):
        if c:
            if i >= len(names):
                return None
            table[names[i]] = "l." + n
            i += 1
    if i != len(names):
        return None
    body = re.sub(r"(?<![\w.'₀-])[A-Za-z_α-ωκ][\w'₀-]*", lambda w: table.get(w[0], w[0]), body)
    return new, body


def turn(crate, where, old, name, entry, said):
    with open(old, encoding="utf-8") as f:
        text = f.read()
    folder = os.path.join("proofs", where)
    if "tie.close" not in text or "tie.spec" not in text:
        os.makedirs(folder, exist_ok=True)
        shutil.copy(old, os.path.join(folder, "Proof.antt"))
        said.append("by hand: " + where)
        return
    head, decls = blocks(text)
    needs = {same(a): b for a, b in entry["needs"]}
    places = [tuple(p[2]) for p in entry["places"]]
    by_name = {same(p[0]): n for p, n in zip(entry["places"], entry["places_by_name"])}
    text = re.sub(r"\btie\.([\w-]+)", lambda m: "goal." + by_name[same(m[1])] if same(m[1]) in by_name else m[0], text)
    head, decls = blocks(text)
    uses = [l for l in head if not re.search(r"\.(Statement\.\{statement\}|Tie as tie)$", l) and not re.match(r"-- Assumes nothing", l)]
    inv, ans, other = [], [], []
    loops = [(same(a), b, c) for a, b, c in loop_names(entry)]
    for b in decls:
        first = b[0]
        m = re.match(r"(?:abbrev |unfoldable )?(?:pub )?(\S+) : (?:tie|TheTie)\.(\S+)(.*)", first)
        if re.match(r"pub \S+[_-]spec :", first):
            continue
        if not m:
            other.append(paths("\n".join(b), places))
            continue
        kind = m[2]
        k = re.match(r"(invariant|decreases)-(.+)", kind)
        if k:
            at = [i for i, l in enumerate(loops) if l[0] == same(k[2])]
            got = invariant(b, entry, at[0]) if at else None
            if not got:
                said.append("invariant by hand: %s %s" % (where, kind))
                other.append("\n".join("-- " + l for l in b))
                continue
            inv.append("abbrev pub %s-%s : goal.%s-%s\n%s-%s l = %s" % (k[1], got[0], k[1], got[0], k[1], got[0], got[1]))
            continue
        n = re.match(r"Need-(.+)", kind)
        new = None
        if n:
            word = same(n[1])
            new = needs.get(word) or needs.get(re.sub(r"^overflow-", "", word)) or needs.get(word.replace("slice-bounds", "part"))
            if not new and "unfolding" not in "".join(b) and PLAIN.match("\n".join(b[1:]).split(" = ", 1)[-1].strip()):
                continue
        body = "\n".join(b[1:])
        if not new:
            said.append("no goal: %s %s" % (where, kind))
            continue
        d = re.search(r"(?m)^(\S+)((?: +[^\s=]+)*) =(?=\s)", body)
        if not d:
            said.append("shape: %s %s" % (where, kind))
            other.append("\n".join("-- " + l for l in b))
            continue
        args = [a for a in d[2].split() if a not in ("κs",)]
        right = body[d.end() :].strip()
        lead = body[: d.start()]
        if PLAIN.match(right) and not lead.strip():
            continue
        arm = re.match(r"returns-(in-\w+)", new)
        told = body[d.end() :]
        if arm:
            told = re.sub(r"(?<![\w.])\w+(?:\.before)*\.[\w-]+\.given\.1", "c.%s.is" % arm[1], told)
        ans.append(paths("pub %s : goal.%s\n%s%s %s =%s" % (new, new, lead, new, " ".join(args), told), places))
    os.makedirs(folder, exist_ok=True)
    path = "Rattle.%s.proofs.%s" % (crate, where.replace("/", "."))
    comments = [l for l in uses if l.startswith("--")]
    uses = [l for l in uses if l and not l.startswith("--")]
    if inv:
        with open(os.path.join(folder, "Invariants.antt"), "w", encoding="utf-8") as f:
            f.write("\n".join(comments + uses + ["use %s.Given as goal" % path, ""]) + "\n" + "\n\n".join(inv) + "\n")
    if ans or other:
        with open(os.path.join(folder, "Answers.antt"), "w", encoding="utf-8") as f:
            f.write("\n".join(comments + uses + ["use %s.Goals as goal" % path, ""]) + "\n" + "\n\n".join(other + ans) + "\n")
    said.append("turned: %s, %d invariants, %d answers" % (where, len(inv), len(ans)))


def names_of():
    """The older and today's name of each goal and step of the crate's functions, by the check."""
    with tempfile.TemporaryDirectory() as room:
        names = os.path.join(room, "names")
        r = subprocess.run(["rt", "check", "--generated", names, "--old-names"], capture_output=True, text=True)
        try:
            with open(os.path.join(names, "names.json"), encoding="utf-8") as f:
                return json.load(f)
        except OSError:
            sys.exit(r.stdout[-3000:] + r.stderr[-2000:])


def main():
    crate, old = sys.argv[1:3]
    os.chdir(os.path.join(os.path.dirname(os.path.abspath(__file__)), "..", "crates", crate))
    table = names_of()
    said = []
    for folder, _, files in sorted(os.walk(old)):
        if "Proof.antt" not in files:
            continue
        where = os.path.relpath(folder, old)
        entry = table.get("Rattle-%s-proofs.%s.Lts" % (crate, where.replace("/", ".")))
        if not entry:
            said.append("no names: " + where)
            continue
        turn(crate, where, os.path.join(folder, "Proof.antt"), where, entry, said)
    print("\n".join(said))


if __name__ == "__main__":
    main()
