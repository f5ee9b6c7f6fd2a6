#!/usr/bin/env python3
"""Runs the built program by several numbers of workers, and compares what it prints and what it places.

It works on the program that `cd crates/punthizha && rt run` leaves, or on the one that the environment variable PUNTHIZHA names, and
needs a JDK. The pairs of class files are: two sums of some ints in random order and brackets, of which one search is most of the work
(`tests/wide.py`); a class of many methods, each a sum of four ints, and the same sums in another order; and the files of a folder of
pairs, FOLDER/first/NAME and FOLDER/second/NAME, if one is given. Each pair is validated by 1, 2, 4 and 16 workers, with a certificate, and the certificate
is checked by as many. Status, report and certificate must be the same each time. It prints the seconds that each number of workers took.

    tests/workers.py [METHODS [FOLDER]]      by default 2000 methods
"""

import os
import random
import subprocess
import sys
import tempfile
import time

from cases import sample_class
from programs import punthizha
from wide import compiled, pair_of_sums

NUMBERS = (1, 2, 4, 16)


def ran(*words):
    """The status and the report of a run, and the seconds that it took."""
    begin = time.time()
    done = subprocess.run([punthizha(), *words], capture_output=True, check=False)
    return (done.returncode, done.stdout), time.time() - begin


def contents(path):
    """The bytes of a file, or None where there is none."""
    if not os.path.exists(path):
        return None
    with open(path, "rb") as file:
        return file.read()


def said_by(number, one, other, cert):
    """What is said of two files by a number of workers, with a certificate and of it, and the seconds without and with one and of its check."""
    limit = ["--workers", str(number)]
    if os.path.exists(cert):
        os.remove(cert)
    plain, bare = ran("validate", *limit, one, other)
    shown, made = ran("validate", *limit, "--cert", cert, one, other)
    text = contents(cert)
    checked, seen = ran("check", *limit, one, other, cert) if text is not None else (None, 0.0)
    return (plain, shown, text, checked), (bare, made, seen)


def compared(name, pairs, cert):
    """How many of these pairs differ by some number of workers, after a line with the seconds of all of them by each number."""
    wrong, spent = 0, {it: [0.0, 0.0, 0.0] for it in NUMBERS}
    for one, other in pairs:
        said = []
        for number in NUMBERS:
            found, seconds = said_by(number, one, other, cert)
            said.append(found)
            spent[number] = [a + b for a, b in zip(spent[number], seconds)]
        if any(it != said[0] for it in said):
            print(f"differs: {one} {other}")
            wrong += 1
    times = "; ".join(f"{number}: {' '.join(f'{it:.2f}' for it in spent[number])}" for number in NUMBERS)
    print(f"{name}: {len(pairs)} pairs, {wrong} differ; seconds by workers, for validate, validate --cert and check: {times}", flush=True)
    return wrong


def wide_pair(work):
    """The class files of two sums of thirteen ints."""
    chance = random.Random(11)
    words, first, second = pair_of_sums(chance, 13)
    return compiled(os.path.join(work, "first"), [(words, first)])[0], compiled(os.path.join(work, "second"), [(words, second)])[0]


def sum_code(order):
    """The code that adds the parameters of these numbers, from the left, and returns the sum, in hexadecimal."""
    loads = [f"{0x1A + it:02x}" for it in order]
    return loads[0] + "".join(f"{load}60" for load in loads[1:]) + "ac"


def many_sums(work, methods):
    """The class files of this many methods, each a sum of four ints, and of the same sums in other orders."""
    chance, paths = random.Random(7), []
    for name in ("many", "others"):
        words = [f"m{it},(IIII)I,0009,2,4,{sum_code(chance.sample(range(4), 4))}" for it in range(methods)]
        paths.append(os.path.join(work, name))
        with open(paths[-1], "wb") as file:
            file.write(sample_class(words, {}))
    return tuple(paths)


def folder_pairs(folder):
    """The pairs of files of one name below two folders."""
    found = []
    for at, _, names in os.walk(os.path.join(folder, "first")):
        for name in sorted(names):
            one = os.path.join(at, name)
            other = os.path.join(folder, "second", os.path.relpath(one, os.path.join(folder, "first")))
            if os.path.isfile(other):
                found.append((one, other))
    return found


def main():
    methods = int(sys.argv[1]) if len(sys.argv) > 1 else 2000
    with tempfile.TemporaryDirectory() as work:
        cert = os.path.join(work, "cert")
        wrong = compared("sums of thirteen ints", [wide_pair(work)], cert)
        wrong += compared(f"{methods} sums of four ints", [many_sums(work, methods)], cert)
        if len(sys.argv) > 2:
            wrong += compared(sys.argv[2], folder_pairs(sys.argv[2]), cert)
    sys.exit(1 if wrong else 0)


if __name__ == "__main__":
    main()
