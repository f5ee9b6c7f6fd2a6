#!/usr/bin/env python3
"""Looks at what `make` writes: by `javap`, and by `validate`.

For each seed from 1 on, `make SEED N A.class B.class` must print `made N methods` and end with 0, the same words must give the same two files again, `javap -c`
must read both, with the instructions of the listing that tests/listings.py makes from its own draws, and `validate` must say `equivalent` of each method, in order.

    tests/makes.py [SEEDS [COUNT]]      by default 20 seeds, with 100 methods each

It works on the program that `cd crates/punthizha && rt run` leaves, or on the one that the environment variable PUNTHIZHA names, and takes a JDK. In the end it prints how
long `make 7 2000` takes.
"""

import os
import re
import subprocess
import sys
import tempfile
import time

from listings import made
from programs import punthizha

FILES = ["A.class", "B.class"]
INSN = re.compile(r"^\s+\d+: (\w+)(?:\s+(.*))?$")


def run(words, folder):
    return subprocess.run([punthizha(), *words], capture_output=True, text=True, cwd=folder, timeout=3600)


def shown(path):
    """The mnemonics of each method by javap, with the numbers after them but those of branches."""
    text = subprocess.run(["javap", "-c", "-p", path], capture_output=True, text=True, check=True).stdout
    methods = []
    for line in text.splitlines():
        head = re.match(r"^  public static int (m\d+)\(int, int\);", line)
        insn = INSN.match(line)
        if head:
            methods.append([head[1]])
        elif insn:
            branch = insn[1] in ("goto", "if_icmpge")
            methods[-1].append(" ".join([insn[1]] if branch or not insn[2] else [insn[1], *insn[2].replace(",", "").split()]))
    return methods


def listed(text):
    """The same of a listing."""
    methods = []
    for line in text.decode().splitlines():
        words = line.split()
        if words[0] == "method":
            methods.append([words[2]])
        elif words[0] not in ("class", "end") and not line.endswith(":"):
            methods[-1].append(words[0] if words[0] in ("goto", "if_icmpge") else line)
    return methods


def wrong(seed, count, folder):
    """What is wrong with a seed; None for nothing."""
    paths = [os.path.join(folder, name) for name in FILES]
    seen = []
    for _ in range(2):
        ran = run(["make", str(seed), str(count), *FILES], folder)
        if (ran.returncode, ran.stdout, ran.stderr) != (0, f"made {count} methods\n", ""):
            return f"status {ran.returncode}: {ran.stdout} {ran.stderr}"
        seen.append([open(path, "rb").read() for path in paths])
    if seen[0] != seen[1]:
        return "two runs give other files"
    for path, twin in zip(paths, (False, True)):
        if shown(path) != listed(made(seed, count, twin)):
            return f"javap shows other instructions in {path}"
    ran = run(["validate", *FILES], folder)
    if ran.returncode or ran.stdout != "".join(f"m{i} (II)I equivalent\n" for i in range(count)):
        return f"validate ends with {ran.returncode}: {[line for line in ran.stdout.splitlines() if not line.endswith(' equivalent')][:3]}"
    return None


def main(args):
    seeds = int(args[0]) if args else 20
    count = int(args[1]) if len(args) > 1 else 100
    failed = 0
    with tempfile.TemporaryDirectory() as folder:
        for seed in range(1, seeds + 1):
            found = wrong(seed, count, folder)
            if found:
                failed += 1
                print(f"seed {seed}: {found}")
        begin = time.time()
        run(["make", "7", "2000", *FILES], folder)
        taken = time.time() - begin
        size = os.path.getsize(os.path.join(folder, FILES[0]))
    print(f"{seeds} seeds of {count} methods, {failed} wrong; make 7 2000 takes {taken:.2f} s and writes {size} bytes each")
    return failed > 0


if __name__ == "__main__":
    sys.exit(main(sys.argv[1:]))
