#!/usr/bin/env python3
"""Checks by a second checker the certificates of random methods and their twins, which do the same and are written otherwise.

Each method has sums, products and shifts, choices or a loop, and its twin has the terms of a sum exchanged, a shift for a product, a test turned
about, a loop that counts in eights where the other multiplies by 8, and so on: a search is needed to join the two. The program compares them
(`validate --cert`). Each section of its certificates must be accepted by tests/checker.py over least graphs of tests/converter.py (as in
tests/checked.py), and there must be one for each line `.. equivalent`. It prints how many methods are equivalent,
how many sections have steps, how long they are, and how often each step and each axiom occurs.

    tests/twins.py [--seed N] [--changes N] [--all] [METHODS]

METHODS is how many methods there are, 10000 if left out, 50 in a class. With --changes the program checks N changed sections of each too, and its answers
must be those of the second checker. With --all the searches go by all axioms. The program is the one that `cd crates/punthizha && rt run` leaves, or the
one that the environment variable PUNTHIZHA names. It needs a JDK.
"""

import os
import random
import sys
import tempfile
import time

from checked import Counts, Pair
from converter import with_deep_calls
from mutants import Method, compiled

METHODS = 50


class Twin(Method):
    """A random method, written twice, each of whose statements is written in two ways."""

    def change(self):
        """A statement that changes b."""
        kind = self.chance.random()
        if kind < 0.25:
            test, one, other = self.test(), self.assignment(), self.assignment()
            return tuple(f"if ({t}) {{ {x} }} else {{ {y} }}" for t, x, y in zip(test, one, other))
        return self.loop() if kind < 0.6 else self.assignment()

    def assignment(self):
        return tuple(f"b = {it};" for it in self.term(2))

    def loop(self):
        """A loop up to a small number, written in two ways."""
        self.loops += 1
        i, j, bound = f"i{self.loops}", f"j{self.loops}", self.chance.choice(["(a & 7)", "(c & 3)", "5"])
        term, other = self.term(1)
        head = f"for (int {i} = 0; {i} < {bound}; {i}++)"
        turned = f"int {i} = 0; while ({bound} > {i})"
        return self.chance.choice(
            [
                (f"{head} {{ b = b + ({term}); }}", f"{head} {{ b = ({other}) + b; }}"),
                (f"{head} {{ b = b + {i} * c; }}", f"{head} {{ b = c * {i} + b; }}"),
                (f"{head} {{ b += {i} * 8; }}", f"int {j} = 0; {head} {{ b += {j}; {j} += 8; }}"),
                (f"{head} {{ b += {i} * 4; }}", f"{head} {{ b += {i} << 2; }}"),
                (f"{head} {{ b ^= {term}; }}", f"{turned} {{ b ^= {other}; {i} = 1 + {i}; }}"),
                (f"{head} {{ b -= {term}; }}", f"{turned} {{ b = -({other}) + b; {i}++; }}"),
                (f"{head} {{ if ({i} == c) {{ b += {i}; }} }}", f"{head} {{ if (c == {i}) {{ b = {i} + b; }} }}"),
            ]
        )

    def written(self, name):
        """The method and its twin, whose results are sums in another order."""
        (one, other), (x, y) = self.change(), self.term(1)
        begin = f"static int {name}(int a, int b, int c)"
        return f"{begin} {{ {one} return {x} + b; }}", f"{begin} {{ {other} return b + {y}; }}"


def written_twins(seed, classes, methods, one, other):
    """Writes the class files of random methods into two folders: as they are, and written otherwise."""
    for number in range(classes):
        chance = random.Random(f"{seed} {number}")
        written = [Twin(chance).written(f"m{it}") for it in range(methods)]
        for place, side in ((one, 0), (other, 1)):
            with open(os.path.join(place, f"C{number}.java"), "w", encoding="ascii") as file:
                file.write(f"interface C{number} {{ {' '.join(it[side] for it in written)} }}\n")
    compiled(one)
    compiled(other)


def main(args):
    seed = int(args.pop(args.index("--seed") + 1)) if "--seed" in args else 1
    changes = int(args.pop(args.index("--changes") + 1)) if "--changes" in args else 0
    count = int(next((arg for arg in args if arg.isdigit()), 10000))
    counts, rand, began, classes = Counts(), random.Random(seed), time.time(), -(-count // METHODS)
    with tempfile.TemporaryDirectory() as work:
        one, other = places = [os.path.join(work, it) for it in ("one", "other")]
        for place in places:
            os.mkdir(place)
        written_twins(seed, classes, METHODS, one, other)
        for name in (f"C{number}.class" for number in range(classes)):
            pair = Pair(name, os.path.join(one, name), os.path.join(other, name), os.path.join(work, "cert"), "all" if "--all" in args else "core")
            counts.add(pair, rand, changes)
    print(f"{classes * METHODS} methods, {len(counts.lengths)} of them equivalent, {sum(1 for it in counts.lengths if it)} with steps")
    counts.show(time.time() - began)
    return counts.wrong


if __name__ == "__main__":
    sys.exit(with_deep_calls(lambda: main(sys.argv[1:])) > 0)
