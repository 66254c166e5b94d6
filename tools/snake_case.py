#!/usr/bin/env python3
"""Brings the repository's own definitions and lemmas to snake case: withVtype becomes with_vtype, length-withBitAt becomes length-with_bit_at.

usage: python3 tools/snake_case.py        at the top of the repository, once, after /opt/rattle/port/port.py

Renamed is each name that a file of specs/ or proofs/ declares, that begins with a small letter and has a capital after a small letter or
a digit. It is renamed wherever it stands as a whole word: in .antt and .rt files, in must-fail edits and in the pages. Types, modules and
constructors keep their capitals; functions of src/, strings, inputs and outputs have no such name (a name that also stands in a string of
the code is listed, and left). Names that would fall together with another name of an .antt file stop the script before anything
is written. A definition may get the name of a Rust function: the two stand in different places, and std has such pairs too.
"""

import os
import re
import sys

WORD = r"[A-Za-z_\u0391-\u03c9\u2080-\u2089\u2119-\u2124][\w'\u2080-\u2089\u2119-\u2124+*<\u2264\u2261\u2262]*(?:-[\w'\u2080-\u2089\u2119-\u2124+*<\u2264\u2261\u2262]+)*"
TOKEN = re.compile(WORD)
CAMEL = re.compile(r"[a-z0-9][A-Z]")
DECLARED = re.compile(r"^\s*(?:(?:abbrev|unfoldable|pub|private)\s+)*([a-z][\w'\u2080-\u2089-]*)\s*:(?!=)", re.M)
PARAMETER = re.compile(r"\(([a-z][\w' \u2080-\u2089-]*)\s+:")
LET = re.compile(r"\blet ([a-z][\w'\u2080-\u2089-]*)")
LAMBDA = re.compile(r"λ ([^.]*)\.")
# Of these the plain snake case is the name of a lemma already.
OWN = {"inPlace": "carried_in_place", "oneByOne": "in_single_steps", "ranSettled": "settled_run"}
PAGES = ("README.md", "docs")


def snake(name):
    """with_bit_at of withBitAt; a run of digits stays with the letters before it, but for a number after 'To'."""
    if name in OWN:
        return OWN[name]
    name = re.sub(r"To(\d)", r"To_\1", name)
    return re.sub(r"(?<=[a-z0-9])([A-Z])", lambda m: "_" + m[1].lower(), name)


def files():
    for folder, dirs, names in os.walk("crates"):
        dirs[:] = sorted(d for d in dirs if d != "out")
        for n in sorted(names):
            if n.endswith((".antt", ".rt", ".edit")):
                yield os.path.join(folder, n)


def pages():
    for p in PAGES:
        if os.path.isfile(p):
            yield p
        for folder, _, names in os.walk(p):
            yield from (os.path.join(folder, n) for n in sorted(names) if n.endswith(".md") and not n.startswith("PORT"))


def read(path):
    with open(path, encoding="utf-8") as f:
        return f.read()


def in_strings(text):
    return " ".join(re.findall(r'"(?:\\.|[^"\\])*"', text))


def main():
    texts = {p: read(p) for p in files()}
    found = set()
    for p, t in texts.items():
        if p.endswith(".antt"):
            found |= {w for w in DECLARED.findall(t)}
            for group in PARAMETER.findall(t):
                found |= set(group.split())
    names = {w for w in found if any(CAMEL.search(part) and part[0].islower() for part in re.split("[-_]", w))}
    to = {w: snake(w) for w in names}
    bound = set(found)
    for p, t in texts.items():
        if p.endswith(".antt"):
            bound |= set(LET.findall(t))
            for group in LAMBDA.findall(t):
                bound |= set(TOKEN.findall(group))
    bad = [f"{w}: {n} is declared or bound already" for w, n in sorted(to.items()) if n in bound]
    bad += [f"{n}: two names fall together" for n in set(to.values()) if list(to.values()).count(n) > 1]
    said = " ".join(in_strings(t) for p, t in texts.items() if p.endswith(".rt"))
    bad += [f"{w} stands in a string" for w in names if w in TOKEN.findall(said)]
    if bad:
        print("\n".join(bad))
        return 1
    for p in [*texts, *pages()]:
        old = texts.get(p) or read(p)
        new = TOKEN.sub(lambda m: to.get(m[0], m[0]), old)
        if new != old:
            with open(p, "w", encoding="utf-8") as f:
                f.write(new)
    print(f"{len(to)} names: " + ", ".join(f"{a} {b}" for a, b in sorted(to.items())))
    return 0


if __name__ == "__main__":
    sys.exit(main())
