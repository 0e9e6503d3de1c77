#!/usr/bin/env python3
"""Brings the repository's own names of specs/ and proofs/ to the spelling of today's Rattle, once, after port.py: words in snake case, a dash only between
two names of definitions. Types and facts keep their capital. Names of src/ keep their spelling. From any folder:  tools/port_names.py [--try]
"""

import os
import re
import sys

ROOT = os.path.dirname(os.path.dirname(os.path.realpath(__file__)))
TOKEN = re.compile(r"[^\s(){}.;,«»:\"\[\]!`]+")
DECLARED = re.compile(r"^[ \t]*(?:(?:abbrev|unfoldable|pub) )*([^\s(){}.;,:]+) :(?= )", re.M)
FIELD = re.compile(r"^\s*(?:pub(?:\(crate\))? )?([a-z_0-9]+): [^=(\n]*,$", re.M)
DATA = re.compile(r"^(?:pub )?(?:data|record) ([^\s(){}.;,:]+)", re.M)


def files(folder, *endings):
    for d, subs, names in os.walk(os.path.join(ROOT, folder)):
        subs[:] = sorted(s for s in subs if s not in ("out", "target", ".git"))
        for n in sorted(names):
            if n.endswith(endings):
                yield os.path.join(d, n)


def read(path):
    with open(path, encoding="utf-8") as f:
        return f.read()


def snake(word):
    """A word in snake case; one with a capital in front is a type or a fact."""
    if not word or not word[0].islower():
        return word
    return re.sub(r"(?<=[a-z0-9'])([A-Z]+)", lambda m: "_" + m.group(1).lower(), word)


def own(path):
    """Whether a file of lemmas or definitions; the proof of a function has its own names."""
    parts = os.path.relpath(path, ROOT).split(os.sep)
    return parts[2] == "specs" or parts[2] == "proofs" and len(parts) == 4


def imported(text, crates):
    for path, names in re.findall(r"use ([\w.'-]+)\.\{([^}]*)\}", text):
        parts = path.split(".")
        if not (parts[0] == "Rattle" and len(parts) > 1 and parts[1] in crates):
            yield from (n.strip().split(" ")[0] for n in names.split(","))


def mapping():
    crates = set(os.listdir(os.path.join(ROOT, "crates")))
    defined, declared, foreign = set(), set(), set()
    for p in files("crates", ".antt", ".rt"):
        t = read(p)
        foreign |= set(imported(t, crates))
        if p.endswith(".antt") and own(p):
            names = set(DECLARED.findall(t)) | set(DATA.findall(t))
            declared |= names
            if os.sep + "specs" + os.sep in p:
                defined |= {snake(n) for n in names}
    fields = set()
    for p in files("crates", ".rt"):
        for s in re.findall(r"struct \w+(?:<[^>]*>)? \{(.*?)\n\}", read(p), re.S):
            fields |= set(FIELD.findall(s))
    known = defined | {"length", "take", "drop", "replicate", "append", "map", "ltb", "leb", "eqb", "cond", "min", "max", "sub", "add", "mul", "zero", "suc"}
    found = {}
    for n in sorted(declared - foreign):
        parts = [snake(w) for w in n.split("-")]
        if not n[:1].isalpha() or "" in parts:
            continue
        joint = len(parts) == 2 and all(w in known or w[:1].isupper() for w in parts)
        new = ("-" if joint else "_").join(parts)
        if new != n and new in fields and "-" not in n:
            new += "_of"
        if new != n:
            found[n] = new
    # A lemma that would have the name of a definition gets `_lem`.
    plain = {m for n, m in found.items() if "-" not in n} | (declared - set(found))
    for n in sorted(found):
        if "-" in n and found[n] in plain:
            found[n] += "_lem"
    # The two that are fields of records in specs/.
    found.update({"left-out": "left_out", "lengths-fit": "fitting_lengths"})
    return found


def main():
    names = mapping()
    seen = {}
    for p in files("crates", ".antt", ".rt"):
        for t in set(TOKEN.findall(read(p))):
            seen.setdefault(t, []).append(os.path.relpath(p, ROOT))
    back = {}
    for o, n in names.items():
        back.setdefault(n, []).append(o)
    for n, olds in back.items():
        if len(olds) > 1:
            print("fall together:", olds, "->", n)
        if n in seen and n not in names:
            print("is there already:", olds, "->", n, seen[n][:6])
    print(len(names), "names")
    if "--try" in sys.argv:
        return
    for p in list(files("crates", ".antt", ".rt", ".edit")):
        t = read(p)
        u = TOKEN.sub(lambda m: names.get(m.group(0), m.group(0)), t)
        if u != t:
            with open(p, "w", encoding="utf-8") as f:
                f.write(u)
    for p in [os.path.join(ROOT, "README.md"), *files("docs", ".md"), *files("host", ".md")]:
        t = read(p)
        u = re.sub(r"`[^`\n]*`", lambda b: TOKEN.sub(lambda m: names.get(m.group(0), m.group(0)), b.group(0)), t)
        if u != t:
            with open(p, "w", encoding="utf-8") as f:
                f.write(u)


main()
