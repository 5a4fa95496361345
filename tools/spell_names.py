#!/usr/bin/env python3
"""Spells the repository's own definitions and lemmas in snake case, where the older Rattle had hyphens.

usage: python3 tools/spell_names.py            at the top of the repository: prints the names that fall together, or stand elsewhere too
       python3 tools/spell_names.py --write    and renames them in every file of crates/

A name is one of the repository's own if a file right in a crate's specs/ or proofs/ declares or binds it there. What
Rattle makes (the goals and steps that proof files cite) and what its library declares keep their spelling. Comments and
strings are left alone.
"""

import collections
import pathlib
import re
import sys

HYPHENED = re.compile(r"(?<![A-Za-z0-9'_\u00b7-])(?:nextNumber|[A-Za-z][A-Za-z0-9'_]*(?:-[A-Za-z0-9'_]+)+)(?![A-Za-z0-9'_-])")
PLAIN = re.compile(r"(?<![A-Za-z0-9'_-])[A-Za-z][A-Za-z0-9'_]*(?![A-Za-z0-9'_-])")
DECLARED = re.compile(r"^[ \t]*(?:(?:abbrev|unfoldable|pub|data|record)[ \t]+)*((?:[A-Za-z][A-Za-z0-9'_-]*[ \t]+)*[A-Za-z][A-Za-z0-9'_-]*)(?:[ \t]+[({][^\n]*)?[ \t]+:(?=[ \t\n])", re.M)
USED = re.compile(r"\buse[ \t]+([A-Za-z0-9_.\u00b7-]+)\.\{([^}]*)\}")
BOUND = re.compile(r"(?:\blet[ \t]+|λ[ \t]*|[({])((?:[A-Za-z][A-Za-z0-9'_-]*[ \t]+)*[A-Za-z][A-Za-z0-9'_-]*)[ \t]*(?:[:.=][ \t\n])")
# where the plain spelling is a field of the same file
SPECIAL = {
    "nextNumber": "next_number",
    "adjusted-obligation": "adjusted_obligation_of",
    "clearing-credit": "clearing_credit_of",
    "opportunity-cost-credit": "opportunity_cost_credit_of",
}


def code_of(text, comment):
    """The text in pieces, of which those at even places are code and the others are comments and strings."""
    return re.split(r"(" + comment + r"[^\n]*|\"(?:[^\"\\\n]|\\.)*\")", text)


def comment_of(path):
    return "//" if path.suffix == ".rt" else "--(?=[ \t\n-])"


def main():
    root = pathlib.Path("crates")
    if not root.is_dir():
        sys.exit("run it at the top of the repository")
    files = sorted(f for f in root.rglob("*") if f.suffix in (".rt", ".antt") and "out" not in f.parts)
    crates = {c.name for c in root.iterdir()}
    own, library = {"nextNumber", "by-cumulative", "near-c", "near-o"}, set()
    for f in files:
        for m in USED.finditer("".join(code_of(f.read_text(), comment_of(f))[::2])):
            path = m[1].split(".")
            for word in m[2].split(","):
                parts = word.split()
                if path[0] != "Rattle" or path[1] not in crates:
                    library.update(p for p in parts if p != "as")
                elif "as" in parts and "-" in parts[-1]:
                    own.add(parts[-1])
        if f.suffix == ".antt" and f.parent.name in ("specs", "proofs") and f.parent.parent.parent == root:
            code = "".join(code_of(f.read_text(), comment_of(f))[::2])
            for pattern in (DECLARED, BOUND):
                for m in pattern.finditer(code):
                    own.update(n for n in m[1].split() if "-" in n)
    own -= library
    names = {n: SPECIAL.get(n, n.replace("-", "_")) for n in own}
    together = collections.defaultdict(set)
    for n, s in names.items():
        together[s].add(n)
    for f in files:
        if f.suffix == ".antt":
            for piece in code_of(f.read_text(), comment_of(f))[::2]:
                for m in PLAIN.finditer(piece):
                    if m[0] in together:
                        together[m[0]].add(f"{m[0]} in {f}")
    clashes = {s: ns for s, ns in together.items() if len(ns) > 1}
    for s, ns in sorted(clashes.items()):
        print(f"{s}: {', '.join(sorted(ns))}")
    if "--write" not in sys.argv[1:]:
        print(f"{len(names)} names, {len(clashes)} fall together or stand elsewhere; nothing was written")
        return
    changed = 0
    for f in files:
        old = f.read_text()
        pieces = code_of(old, comment_of(f))
        pieces[::2] = [HYPHENED.sub(lambda m: names.get(m[0], m[0]), p) for p in pieces[::2]]
        new = "".join(pieces)
        if new != old:
            f.write_text(new)
            changed += 1
    print(f"{len(names)} names, {changed} files changed")


main()
