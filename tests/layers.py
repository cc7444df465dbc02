#!/usr/bin/env python3
"""Says where the crates break the rules of their layers.

usage: tests/layers.py

A crate uses the public contracts of the crates below it, and what it needs of their proofs they offer as laws: so no
file names the proofs of another crate of this repository. A crate's line in crates.txt names the crates that it uses,
and no others. No crate stands on itself. One line is printed for each breach, and the last line counts them; the
status is 1 where there is any. The proofs of the kit's crates and of std may be named.
"""
import os
import re
import sys

TOP = os.path.dirname(os.path.dirname(os.path.abspath(__file__)))
# in a proof, a definition or a clause, and in an attribute
PROOFS = re.compile(r"\bRattle\.(\w+)\.proofs\b|\b(\w+)::proofs::")
# a path that begins with a crate
NAMED = re.compile(r"\bRattle\.(\w+)|(?<![\w:.])(\w+)::")
COMMENT = re.compile(r"^\s*(?:--|//).*$", re.MULTILINE)


def stands_on():
    """The crates that each crate is said to stand on, in the order of crates.txt."""
    with open(os.path.join(TOP, "crates.txt")) as file:
        lines = [line.split("#")[0].strip() for line in file]
    named = (line.partition(":") for line in lines if line)
    # a crate's name may be followed by counts, and a kind of use may stand behind the crates
    return {head.split()[0]: behind.partition(":")[0].split() for head, _, behind in named}


def files_of(crate):
    """The text of each file of a crate that is written by hand, without its comments."""
    for part in ("src", "specs", "proofs"):
        for folder, _, names in os.walk(os.path.join(TOP, "crates", crate, part)):
            for name in sorted(names):
                if name.endswith((".rt", ".antt")):
                    path = os.path.join(folder, name)
                    with open(path) as file:
                        yield os.path.relpath(path, TOP), COMMENT.sub("", file.read())


def names_in(pattern, text):
    return {name for match in pattern.finditer(text) for name in match.groups() if name}


def cycle_from(crate, below, way=()):
    """The crates by which a crate stands on itself, if it does."""
    if crate in way:
        return [*way[way.index(crate) :], crate]
    ways = (cycle_from(lower, below, (*way, crate)) for lower in below.get(crate, []))
    return next((way for way in ways if way), None)


def foreign_proofs(below):
    for crate in below:
        for path, text in files_of(crate):
            for other in sorted(names_in(PROOFS, text) & set(below) - {crate}):
                yield f"{path} names the proofs of {other}"


def unused(below):
    for crate, lower in below.items():
        used = set()
        for _, text in files_of(crate):
            used |= names_in(NAMED, text)
        yield from (f"{crate} stands on {name} in crates.txt and doesn't name it" for name in lower if name not in used)


def cycles(below):
    found = (cycle_from(crate, below) for crate in below)
    yield from sorted({"a cycle: " + " ".join(sorted(set(way))) for way in found if way})


def main():
    if len(sys.argv) > 1:
        sys.exit(__doc__)
    below = stands_on()
    breaches = 0
    for rule, found in (("proofs of other crates", foreign_proofs), ("unused lines", unused), ("cycles", cycles)):
        lines = list(found(below))
        print(*lines, sep="\n", end="\n" if lines else "")
        print(f"{rule}: {len(lines)}")
        breaches += len(lines)
    print(f"{breaches} breaches in {len(below)} crates")
    sys.exit(1 if breaches else 0)


main()
