#!/usr/bin/env python3
"""Says of what kind the lines `unknown` are: how methods differ that should mean the same and of which no proof is found.

It has the program compare pairs of class files, by the core and, where a line says `unknown`, by all axioms. Of each method of such a line
tests/converter.py makes the least graph of it and its partner. The first row that holds gives the kind:

    callees      one calls a method that the other doesn't call, or calls it in another way
    fields       one reads or writes a field, or arrays of a kind, that the other doesn't
    loops        a node that only one of them has is of an iteration: theta, eval, pass or shift
    choices      both have the same operations, but for choices, comparisons, narrowings and constants
    operations   one has an operation that the other doesn't have

It prints for each kind what is said by the core and by all axioms, without numbers.

    tests/kinds.py [--list] JAR..                       classes of JARs before and after ProGuard, as in tests/pairs.py
    tests/kinds.py [--list] --compilers FOLDER..        Java sources by two compilers, likewise
    tests/kinds.py [--list] --pairs BEFORE AFTER        class files in two folders, which have the same paths there

With --list each line stands behind its kind. The program is the one that `cd crates/punthizha && rt run` leaves, or the one that the
environment variable PUNTHIZHA names.
"""

import os
import sys
import tempfile
from collections import Counter

from checked import methods_of
from converter import least_graph, with_deep_calls
from pairs import called, class_files, pairs_of, pairs_of_sources

CALLS = ("callend", "callres", "callfault", "callheap")
MEMBERS = ("getstatic", "putstatic", "getfield", "putfield", "load", "store")
ITERATIONS = ("theta", "eval", "pass", "shift")
CHOICES = ("phi", "ieq", "ilt", "aeq", "leq", "lcmp", "i2b", "i2c", "i2s", "iand", "int", "long", "null", "root", "unit", "clear", "both")
KINDS = ("callees", "fields", "loops", "choices", "operations")


def reached(graph, root):
    """The nodes below a root."""
    found, work = set(), [root]
    while work:
        n = work.pop()
        if n not in found:
            found.add(n)
            work += graph.nodes[n][1]
    return found


def kind(graph, first, second):
    """How two roots of a graph differ."""
    one, other = (reached(graph, root) for root in (first, second))
    ops = [{graph.nodes[n][0] for n in side} for side in (one, other)]

    def differ(words):
        """Whether the operations with these words differ, parameters and all, but for which value of a call is used."""
        named = [{(op[0] in CALLS, *op[op[0] in CALLS :]) for op in side if op[0] in words} for side in ops]
        return named[0] != named[1]

    if differ(CALLS):
        return "callees"
    if differ(MEMBERS):
        return "fields"
    if any(graph.nodes[n][0][0] in ITERATIONS for n in one ^ other):
        return "loops"
    others = [{op for op in side if op[0] not in CHOICES} for side in ops]
    return "choices" if others[0] == others[1] else "operations"


def words_of(one, other, axioms):
    """What is said of each method, without numbers."""
    out, status, *_ = called("validate", "--axioms", axioms, one, other)
    lines = [line.split(" ") for line in out.splitlines()] if status in (0, 1) else []
    return [(f"{line[0]} {line[1]}", " ".join(line[2:4])) for line in lines]


def compare(name, one, other, found, is_listed):
    """Counts the lines `unknown` of two class files, by their kinds."""
    core = words_of(one, other, "core")
    if not any(word.startswith("unknown") for _, word in core):
        return
    every = words_of(one, other, "all")
    first, second = (methods_of(open(path, "rb").read()) for path in (one, other))
    for (title, by_core), (_, by_all) in zip(core, every):
        if not by_core.startswith("unknown"):
            continue
        # Where two methods have one name and descriptor, the static one of each file is meant, or the other one.
        method = next(it for it in first[title] if it.code)
        partner = next(it for it in second[title] if it.is_static == method.is_static)
        how = kind(*least_graph(method, partner))
        found[how, by_core, by_all] += 1
        if is_listed:
            print(f"{how:10} {name} {title}: {by_core}, by all axioms {by_all}", flush=True)


def pairs_named(words, options, work):
    """The pairs of class files that the words name."""
    if "--pairs" in options:
        one, other = words
        return [(it, os.path.join(one, it), os.path.join(other, it)) for it in sorted(class_files(one) & class_files(other))]
    return pairs_of_sources(words, work) if "--compilers" in options else pairs_of(words, work, False)


def main():
    options = [it for it in sys.argv[1:] if it.startswith("--")]
    words = [it for it in sys.argv[1:] if not it.startswith("--")]
    found = Counter()
    with tempfile.TemporaryDirectory() as work:
        for pair in pairs_named(words, options, work):
            compare(*pair, found, "--list" in options)
    for how in KINDS:
        rows = {(core, every): count for (it, core, every), count in found.items() if it == how}
        core, every = (Counter() for _ in range(2))
        for (by_core, by_all), count in rows.items():
            core[by_core] += count
            every[by_all] += count
        said = [", ".join(f"{count} {word}" for word, count in sorted(it.items())) for it in (core, every)]
        print(f"{sum(rows.values()):6} {how}: by the core {said[0] or 'none'}; by all axioms {said[1] or 'none'}")


if __name__ == "__main__":
    with_deep_calls(main)
