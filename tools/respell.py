#!/usr/bin/env python3
"""Respells this repository's own ghost names as today's Rattle spells them: words in snake case, statements in camel case.

usage: python3 tools/respell.py     at the top, right after port.py

A name is the repository's own where a file of specs/ or proofs/ declares it; an answer to a goal keeps the goal's name.
It goes by text alone: a record with parameters is not seen, nor does it know a name from the same word in a string or in
the code, so read the diff of src/. It prints each new spelling that stands somewhere already, as that of a function which
a definition describes, and goes on: see that no two of those are the same kind of thing.
"""

import os
import re
import sys

# these would fall together with the fields that they speak of
APART = {n: n.replace("-", "_") + "_is" for n in ("points-rate", "funding-divisor", "funding-cap", "margin-percent")}
OWN = "slots|terms|arithmetic|book|lots|orders|accounts|reviews|rules|ledger|trials|words|workings|questions|commands|desk"
WORD = r"[^\s(){}\[\]:;,.λ→×∷\"`]+"
DECLARED = re.compile(rf"(?m)^[ ]*(?:(?:abbrev|unfoldable|pub|data|record)\s+)*({WORD})\s+:\s(?!goal\.)")
LOCAL = re.compile(rf"\blet\s+({WORD})\s+[:=]\s")
BOUND = re.compile(rf"\(((?:{WORD} )+): ")
IMPORTED = re.compile(rf"use (?!Rattle\.(?:{OWN})\.)[^;\n{{]*\{{([^}}]*)\}}")
TOKEN = re.compile(r"[A-Za-zʹ0-9_'◌ℤ⊎]+(?:-[A-Za-z0-9_'ℤ]+)*")


def files(ends):
    for folder, dirs, names in os.walk("crates"):
        dirs[:] = sorted(d for d in dirs if d != "out")
        for n in sorted(names):
            if n.endswith(ends):
                yield os.path.join(folder, n)


def read(p):
    with open(p, encoding="utf-8") as f:
        return f.read()


def respelled(name):
    if name in APART:
        return APART[name]
    if name[0].isupper():
        return "".join(w[0].upper() + w[1:] for w in re.split("[-_]", name))
    return re.sub(r"(?<=[a-z])(?=[A-Z])", "_", name).replace("-", "_").lower()


def main():
    own, imported, tokens = set(), set(), set()
    for p in files((".antt", ".rt")):
        t = read(p)
        tokens |= set(TOKEN.findall(t))
        for m in IMPORTED.finditer(t):
            imported |= {w.strip() for part in m.group(1).split(",") for w in part.split(" as ")}
        if p.endswith(".antt"):
            own |= set(DECLARED.findall(t)) | set(LOCAL.findall(t))
            own |= {w for m in BOUND.finditer(t) for w in m.group(1).split()}
    own = {n for n in own if re.fullmatch(r"[A-Za-z][A-Za-z0-9_']*(?:-[A-Za-z0-9_']+)*", n)}
    wanted = {n for n in own - imported if "-" in n or re.search("^[a-z]+[A-Z]", n)}
    new = {}
    for n in sorted(wanted):
        to = respelled(n)
        if to in tokens or to in new.values():
            print(f"falls together: {n} -> {to}")
        new[n] = to
    if "--list" in sys.argv:
        print("\n".join(f"{n} {to}" for n, to in new.items()))
        return 0
    for p in files((".antt", ".rt")):
        t = read(p)
        u = TOKEN.sub(lambda m: new.get(m.group(0), m.group(0)), t)
        if u != t:
            with open(p, "w", encoding="utf-8") as f:
                f.write(u)
    print(f"respelled {len(new)} names")
    return 0


if __name__ == "__main__":
    raise SystemExit(main())
