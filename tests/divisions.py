#!/usr/bin/env python3
"""Shows that docs/PROMISES.md lists every division in the code of the operations on states, and that the walk needs none.

Looked at is src/ of the crates that reading, the safe states, the implementation check, the search, the check and the
widest table use, by crates.txt; comments and contracts are no code. In the section "A division taken out" of
docs/PROMISES.md the table of divisions names each function, or constant, that has `/` or `%`, or calls a method that
divides, as `crate::name`; every one that is named has one; and none of them is in a crate that goes from states to
locations and clock values (WALKING).
Run it at the repository's root; the exit status is 0 when all of it holds.
"""
import glob
import re
import sys

OPERATIONS = ("clocks_read", "safe_states", "implementation_check", "search", "tables", "two_operations")
WALKING = ("clocks", "clocks_states", "clocks_walk", "clocks_regions", "clocks_marks", "clocks_edges", "clocks_ticks",
           "clocks_table", "pairing", "two_texts")
SECTION = "## A division taken out"
HEAD = "| Where | Divides |"
NAME = re.compile(r"\b(?:fn|const) (\w+)")
DIVIDES = re.compile(r"[/%]|\.(?:\w+_)?(?:div|rem)(?:_\w+)?\(|multiple_of\(")  # also `n.div_ceil(8)`, `n.is_multiple_of(8)`
CLAUSE = re.compile(r"\b(?:requires|ensures)\b[^{]*\{")


def dependencies():
    """The crates of crates.txt, each with those that it names."""
    lines = [line for line in open("crates.txt", encoding="utf-8").read().split("\n") if line and not line.startswith("#")]
    return {name.split()[0]: rest.split() for name, rest in (line.split(":") for line in lines)}  # `NAME staticlib: ..` too


def reached():
    """The crates that the operations use, themselves among them."""
    needs, found, left = dependencies(), set(), list(OPERATIONS)
    while left:
        crate = left.pop()
        if crate in needs and crate not in found:
            found.add(crate)
            left += needs[crate]
    return sorted(found)


def code(text):
    """The text without comments, contracts and ghost lines."""
    text = re.sub(r"^ghost [^;]*;", "", re.sub(r"//[^\n]*", "", text), flags=re.M)
    parts, at = [], 0
    for clause in CLAUSE.finditer(text):
        if clause.start() >= at:
            parts.append(text[at:clause.start()])
            at = closed(text, clause.end())
    return "".join([*parts, text[at:]])


def closed(text, at):
    """The place behind the brace that closes the one before a place; braces may stand within."""
    depth = 1
    while depth:
        depth += {"{": 1, "}": -1}.get(text[at], 0)
        at += 1
    return at


def divisions(crate):
    """The functions and constants of a crate that divide."""
    found = set()
    for file in sorted(glob.glob(f"crates/{crate}/src/**/*.rt", recursive=True)):
        name = ""
        for line in code(open(file, encoding="utf-8").read()).split("\n"):
            begun = NAME.search(line)
            name = begun.group(1) if begun else name
            if DIVIDES.search(line):
                found.add(f"{crate}::{name}")
    return found


def listed():
    """The names in the first column of the table of divisions."""
    part = open("docs/PROMISES.md", encoding="utf-8").read().split(SECTION, 1)[1].split("\n## ", 1)[0]
    rows = [line for line in part.split(HEAD, 1)[1].split("\n\n", 1)[0].split("\n") if line.startswith("|")]
    return {name for row in rows for name in re.findall(r"`(\w+::\w+)`", row.split("|")[1])}


def main():
    crates = reached()
    there, named = set().union(*(divisions(crate) for crate in crates)), listed()
    faults = [f"{name}: divides, and docs/PROMISES.md does not list it" for name in sorted(there - named)]
    faults += [f"{name}: listed in docs/PROMISES.md, but does not divide" for name in sorted(named - there)]
    faults += [f"{name}: divides on the way from states to clock values" for name in sorted(there)
               if name.split("::")[0] in WALKING]
    print("\n".join(faults + [f"{len(crates)} crates, {len(there)} functions and constants that divide, {len(faults)} faults"]))
    return 1 if faults else 0


if __name__ == "__main__":
    sys.exit(main())
