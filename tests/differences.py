#!/usr/bin/env python3
"""Compares what `refute` says of random methods with their results on a JVM.

It works on the program that `cd crates/punthizha && rt run` leaves, or on the one that the environment variable PUNTHIZHA names, and
needs a JDK. The methods are those of mutants.py, with three ints; each is compared with itself after one instruction was exchanged for
another one. Both are run on the JVM on the arguments of each try, which are worked out here from what README says of tries. Where
`differs try T args ..` is printed, these must be the arguments of try T, the JVM must give different results for them, and the same
results for each try before T; where `tried N`, the same results for all of them. A try says nothing on which one of the two takes longer,
or doesn't end at all, on a JVM that interprets: the run may have more steps than `refute` makes.

    tests/differences.py [SEED [CLASSES [METHODS]]]      by default 1, 40 classes of 50 methods each
"""

import os
import sys
import tempfile
from collections import Counter

from mutants import compiled_runner, results, written_classes
from pairs import called

TRIES = 512
# Ten thousand instructions take a JVM that interprets some 300 microseconds.
LONGEST = 100_000
CHOICES = [0, 1, -1, 2, 7, -8, 2**31 - 1, -(2**31)]


def arguments(number):
    """The three ints of a try, by its number."""
    return [CHOICES[(number - 1) // 8**place % 8] for place in range(3)]


def parted(left, right, number):
    """Whether two methods give different results for a try on the JVM; None where one of them came to none soon enough."""
    if number > min(len(left), len(right)):
        return None
    one, other = left[number - 1], right[number - 1]
    return None if "slow" in (one, other) else one != other


def fault(words, left, right):
    """What is wrong with a line of `refute`, if something is."""
    if words[2:] == ["tried", str(TRIES)]:
        last = TRIES
    elif words[2:4] == ["differs", "try"]:
        last = int(words[4]) - 1
        if words[5:] != ["args", *map(str, arguments(last + 1))]:
            return "other arguments than those of the try"
        if parted(left, right, last + 1) is False:
            return "no difference on the JVM"
    else:
        return "another line"
    early = [it for it in range(1, last + 1) if parted(left, right, it)]
    return f"they differ on try {early[0]} on the JVM" if early else None


def compare(number, one, mutants, left, right):
    """The kinds of lines on two classes, and what is wrong with them."""
    out, status, *_ = called("refute", os.path.join(one, f"C{number}.class"), os.path.join(mutants, f"C{number}.class"))
    found, wrong = Counter(), [] if status == 1 else [f"C{number}: status {status}"]
    for line in out.splitlines():
        words = line.split(" ")
        name = f"C{number}.{words[0]}"
        found[words[2]] += 1
        if words[2] == "differs" and parted(left[name], right[name], int(words[4])):
            found["differs, confirmed by the JVM"] += 1
        why = fault(words, left[name], right[name])
        if why:
            wrong.append(f"{name}: {why}: {line}")
    return found, wrong


def main():
    seed, classes, methods = [int(it) for it in sys.argv[1:]] + [1, 40, 50][len(sys.argv) - 1 :]
    with tempfile.TemporaryDirectory() as work:
        one, other, mutants, runner = places = [os.path.join(work, it) for it in ("one", "other", "mutants", "runner")]
        for place in places:
            os.mkdir(place)
        compiled_runner(runner, [arguments(it) for it in range(1, TRIES + 1)])
        written_classes(seed, classes, methods, one, other, mutants)
        left, right = (results(it, runner, classes, LONGEST, "-Xint") for it in (one, mutants))
        answers = [compare(it, one, mutants, left, right) for it in range(classes)]
    found = sum((it[0] for it in answers), Counter())
    wrong = [text for it in answers for text in it[1]]
    print(", ".join(f"{count} {kind}" for kind, count in sorted(found.items())))
    print("".join(f"WRONG   {text}\n" for text in wrong[:20]), end="")
    sys.exit(bool(wrong))


if __name__ == "__main__":
    main()
