#!/usr/bin/env python3
"""Measures what a certificate costs where a search joins far more than its proof rests on.

It works on the program that `cd crates/punthizha && rt run` leaves, or on the one that the environment variable PUNTHIZHA names, and
needs a JDK. A method is a sum of some ints in random order and brackets, and its partner the same sum in another order. A search
joins nearly all orders of such a sum, and the proof takes a few of them. Each pair is validated without a certificate and with one,
which `check` must accept. For each it prints the verdict, the processor seconds and the memory of both runs, and the steps.

    tests/wide.py [SEED [PARTS [PAIRS [BUDGET]]]]      by default 11, 13 parts, 3 pairs, 400000 places in a round
"""

import os
import random
import subprocess
import sys
import tempfile

from pairs import called, check


def bracketed(chance, parts):
    """These parts in order, with random brackets."""
    if len(parts) == 1:
        return parts[0]
    at = chance.randint(1, len(parts) - 1)
    return f"({bracketed(chance, parts[:at])} + {bracketed(chance, parts[at:])})"


def pair_of_sums(chance, number):
    """The parameters of a method, and two sums of them."""
    parts = [f"p{it}" for it in range(number)]
    words = ", ".join(f"int {it}" for it in parts)
    first = bracketed(chance, parts)
    chance.shuffle(parts)
    return words, first, bracketed(chance, parts)


def compiled(folder, terms):
    """The class files of these terms, each of one method with these parameters."""
    os.makedirs(folder)
    sources = [os.path.join(folder, f"Wide{it}.java") for it in range(len(terms))]
    for number, (words, term) in enumerate(terms):
        with open(sources[number], "w", encoding="ascii") as file:
            file.write(f"class Wide{number} {{ static int sum({words}) {{ return {term}; }} }}\n")
    subprocess.run(["javac", "-d", folder, *sources], check=True)
    return [it.replace(".java", ".class") for it in sources]


def measured(one, other, budget):
    """What is wrong with the certificate for two files, or None, after a line that says what it cost."""
    cert, limits = other + ".cert", ["--budget", str(budget)]
    _, _, bare, small = called("validate", *limits, one, other)
    out, _, used, memory = called("validate", *limits, "--cert", cert, one, other)
    fault, steps = check(one, other, cert, out)
    verdict = out.splitlines()[-1].split(" ", 2)[2]
    print(f"{verdict} | {bare:.2f}, {small} | {used:.2f}, {memory} | {max(steps, default=0)}", fault or "", flush=True)
    return fault


def main():
    given = [int(it) for it in sys.argv[1:]]
    seed, parts, pairs, budget = (given + [11, 13, 3, 400000][len(given) :])[:4]
    chance = random.Random(seed)
    sums = [pair_of_sums(chance, parts) for _ in range(pairs)]
    with tempfile.TemporaryDirectory() as work:
        ones = compiled(os.path.join(work, "before"), [(words, first) for words, first, _ in sums])
        others = compiled(os.path.join(work, "after"), [(words, second) for words, _, second in sums])
        print("verdict | without: s, kB | with: s, kB | steps", flush=True)
        faults = [measured(one, other, budget) for one, other in zip(ones, others)]
    return any(faults)


if __name__ == "__main__":
    sys.exit(main())
