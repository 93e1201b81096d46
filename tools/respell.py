#!/usr/bin/env python3
"""Brings the names that this repository declares in specs/ and proofs/ to one spelling.

usage: python3 tools/respell.py [FOLDER]     (the top of a checkout; this one if none is given)

Functions, lemmas, fields, constructors and local names are in snake case: partsOf and parts-of become parts_of.
Types, facts and modules keep their capitals. Names that the prover makes (goals, invariants, measures), names of other
libraries and names of src/ are left alone. Nothing is written where two of the names would become one, or one of them a
word that an .antt file has already, but for the tables below: the names are printed, and the status is 1.
"""

import os
import re
import sys

# Names that would become that of another definition or of a function, and what they are called.
APART = {
    "name-byte": "name_byte_lem",
    "same-rate": "equal_rates",
    "same-rate-right": "equal_rates_right",
    "binders-rename": "binders_rename_lem",
    "none-at-covered": "none_at_covered_lem",
    "table-laws": "table_laws_lem",
    "digitValue": "value_of_digit",
}

# Definitions that say what a function of src/ returns, and are named as it is, though .antt files name its proof folder.
MIRRORS = {
    "decimalRate": "decimal_rate",
    "isName": "is_name",
    "nameCount": "name_count",
    "rateAfter": "rate_after",
    "ratesOf": "rates_of",
}

OTHERWISE = APART | MIRRORS

# Names that the prover makes.
MADE = re.compile(r"^(invariant-|decreases-|ghosts?-|loop-|returns|overflow-|overflow_|bounds-|slice-bounds|nonzero|prove-|ensures-)|-requires(-\d+)?$")
TOKEN = re.compile(r"[^\s(){}\[\].,;:`·\"]+")
DECLARED = re.compile(r"^\s*(?:(?:pub|abbrev|unfoldable|data|record)\s+)*([^\s:({]+)\s*(?:\{[^}]*\}\s*|\([^)]*\)\s*)*:(?:\s|$)")
BOUND = re.compile(r"(?:\blet|\bas|[({])\s*([^\s:=(){},;.]+)(?=\s*(?:[:=},;]|$))")
CLAUSE = re.compile(r"^\s*(ghost|requires|ensures)\b")


def texts(top, endings):
    for folder, dirs, files in os.walk(os.path.join(top, "crates")):
        dirs[:] = sorted(d for d in dirs if d not in ("out", "must-fail", "data"))
        for name in sorted(files):
            if name.endswith(endings):
                yield os.path.join(folder, name)


def read(path):
    with open(path, encoding="utf-8") as f:
        return f.read()


def snake(name):
    """The name in snake case."""
    return re.sub(r"([a-z0-9])([A-Z])", lambda m: m[1] + "_" + m[2].lower(), name).replace("-", "_")


def is_ours(name):
    return re.match(r"^[a-z]", name) and re.search(r"[a-z][A-Z]|-", name) and not MADE.search(name)


def brought(top):
    """The names that `use` lines bring from other libraries."""
    ours = "|".join(sorted(d for d in os.listdir(os.path.join(top, "crates"))))
    line = re.compile(r"^\s*(?:ghost |pub )?use (?!Rattle\.(?:" + ours + r")\.)[^{]*\{(.*)\}", re.M)
    return {n.strip().split(" as ")[0] for path in texts(top, (".antt", ".rt")) for m in line.finditer(read(path)) for n in m[1].split(",")}


def declared(top):
    """The names that are declared at the start of a line, by `let` or `as`, or as a parameter, and that have another spelling."""
    names = set()
    for path in texts(top, (".antt", ".rt")):
        for line in read(path).split("\n"):
            if path.endswith(".antt") and not line.lstrip().startswith(("--", "use ", "pub use ")):
                found = DECLARED.match(line)
                names.update(n for n in ([found[1]] if found else []) + BOUND.findall(line) if is_ours(n))
            elif line.startswith(("use ", "ghost use ")):
                names.update(n for n in re.findall(r" as ([a-z]\w*)", line) if is_ours(n))
    return names - brought(top)


def collisions(top, new):
    """Pairs of names that would become one."""
    seen, found = {}, []
    for old, to in sorted(new.items()):
        if to in seen:
            found.append((seen[to], old, to))
        seen[to] = old
    used = set()
    for path in texts(top, ".antt"):
        for line in read(path).split("\n"):
            used.update(TOKEN.findall(line.split("--")[0]))
    found += [(to, old, to) for old, to in sorted(new.items()) if to in used and old not in MIRRORS]
    return found


def respelled(path, text, new):
    def one(m):
        return new.get(m[0], m[0])

    def plain(m):
        return m[0] if "-" in m[0] else one(m)

    if path.endswith(".antt"):
        return TOKEN.sub(one, text)
    lines = text.split("\n")
    return "\n".join(TOKEN.sub(one if CLAUSE.match(l) else plain, l) for l in lines)


def main():
    top = sys.argv[1] if len(sys.argv) > 1 else os.path.join(os.path.dirname(os.path.abspath(__file__)), "..")
    new = {n: OTHERWISE.get(n, snake(n)) for n in declared(top)}
    fall = collisions(top, new)
    for a, b, to in fall:
        print(f"fall together: {a} and {b} become {to}")
    if fall:
        return 1
    for path in texts(top, (".antt", ".rt")):
        text = read(path)
        done = respelled(path, text, new)
        if done != text:
            with open(path, "w", encoding="utf-8") as f:
                f.write(done)
    print(f"{len(new)} names respelled")
    return 0


if __name__ == "__main__":
    sys.exit(main())
