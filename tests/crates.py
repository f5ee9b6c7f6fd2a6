#!/usr/bin/env python3
"""Finds crates that crates.txt lists for a crate which doesn't name them, in its code, definitions or proofs.

A superfluous name costs time: for each library the gate sums up the files of the crates below it once for each way that leads
down to them through crates.txt. It prints how many ways there are in all, too, and how many lead down from the highest crate.

    tests/crates.py            fails where a name is superfluous
    tests/crates.py --write    takes the superfluous names out of crates.txt
    tests/crates.py --cuts     says which names would save most ways, if what is taken of them were passed on by another crate of the line
"""

import os
import re
import sys

TOP = os.path.dirname(os.path.dirname(os.path.abspath(__file__)))
LIST = os.path.join(TOP, "crates.txt")
COMMENTS = {".rt": re.compile(r"//.*"), ".antt": re.compile(r"--\s.*")}


def listed():
    """The crates of each crate's line, by its name."""
    with open(LIST, encoding="utf-8") as file:
        rows = [line.partition(":") for line in file if line.strip() and not line.startswith("#")]
    return {head.split()[0]: names.split() for head, _, names in rows}


def words(crate):
    """The words of a crate's files, without their comments."""
    found = set()
    for part in ("src", "specs", "proofs"):
        for at, _, names in os.walk(os.path.join(TOP, "crates", crate, part)):
            for name in names:
                comment = COMMENTS.get(os.path.splitext(name)[1])
                if comment:
                    with open(os.path.join(at, name), encoding="utf-8") as file:
                        found.update(re.findall(r"\w+", comment.sub("", file.read())))
    return found


def below(lists):
    """The crates below each crate of crates.txt."""
    found = {}

    def collect(crate):
        if crate not in found:
            found[crate] = set()
            for it in lists[crate]:
                if it in lists:
                    found[crate] |= {it} | collect(it)
        return found[crate]

    for crate in lists:
        collect(crate)
    return found


def ways(lists):
    """How many ways lead down from each crate, itself counted."""
    found = {}

    def count(crate):
        if crate not in found:
            found[crate] = 1 + sum(count(it) for it in lists[crate] if it in lists)
        return found[crate]

    for crate in lists:
        count(crate)
    return found


def cuts(lists):
    """The names without which fewer ways are left, though the crate stays below, with the ways that are saved."""
    under, all_ways = below(lists), sum(ways(lists).values())
    for crate, names in lists.items():
        for it in names:
            others = [other for other in names if other != it and other in lists]
            if it in lists and any(it in under[other] for other in others):
                yield all_ways - sum(ways({**lists, crate: [other for other in names if other != it]}).values()), crate, it


def main():
    lists = listed()
    wanted = {}
    for crate, names in lists.items():
        named = words(crate)
        wanted[crate] = [it for it in names if it not in lists or it in named]
        for it in sorted(set(names) - set(wanted[crate])):
            print(f"{crate} doesn't name {it}")
    found = ways(wanted)
    highest = max(found, key=found.get)
    print(f"{sum(found.values())} ways, {found[highest]} of them from {highest}")
    if "--cuts" in sys.argv:
        for saved, crate, it in sorted(cuts(wanted), reverse=True)[:10]:
            print(f"{saved} ways fewer if {crate} took what it needs of {it} from another crate of its line")
    if "--write" in sys.argv:
        with open(LIST, encoding="utf-8") as file:
            rows = file.read().splitlines()
        with open(LIST, "w", encoding="utf-8") as file:
            for row in rows:
                head, colon, _ = row.partition(":")
                names = wanted.get(head.split()[0]) if colon and not row.startswith("#") else None
                file.write((row if names is None else f"{head}: {' '.join(names)}".rstrip()) + "\n")
    sys.exit(wanted != lists and "--write" not in sys.argv)


if __name__ == "__main__":
    main()
