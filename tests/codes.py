#!/usr/bin/env python3
"""Decodes the code of each method in every class file of a JDK, and spells it back.

It works on the program that `cd crates/cases && rt run < stdin` leaves: a line `respell-file PATH` decodes
each code of a class file, spells what was decoded back, and compares. The class files, of major version
45 to 69, are extracted from the JDK's image with `jimage`.

    tests/codes.py [IMAGE]      IMAGE is the file lib/modules of a JDK
"""

import os
import re
import sys
import tempfile
import time
from concurrent.futures import ThreadPoolExecutor

from programs import ask, jdk_classes

BATCH = 400


def major(path):
    with open(path, "rb") as file:
        head = file.read(8)
    return int.from_bytes(head[6:8], "big")


def run(work, paths):
    """The counts of files, methods and bytes, and the lines of what is wrong."""
    names = [os.path.relpath(path, work) for path in paths]
    answers = ask([f"respell-file {name}" for name in names], seconds=600, folder=work)
    methods, size, wrong = 0, 0, []
    for name, answer in zip(names, answers):
        counts = re.fullmatch(r"(\d+) methods, (\d+) bytes", answer)
        if counts is None:
            wrong.append(f"{name} {answer}")
        else:
            methods += int(counts[1])
            size += int(counts[2])
    return (len(names), methods, size), wrong


def main():
    with tempfile.TemporaryDirectory() as work:
        found = jdk_classes(work, *sys.argv[1:2])
        paths = [path for path in found if 45 <= major(path) <= 69]
        batches = [paths[i : i + BATCH] for i in range(0, len(paths), BATCH)]
        begin = time.monotonic()
        with ThreadPoolExecutor(2) as pool:
            answers = list(pool.map(lambda batch: run(work, batch), batches))
        took = time.monotonic() - begin
    wrong = [line for _, lines in answers for line in lines]
    for line in wrong[:20]:
        print("FAILED ", line)
    files, methods, size = (sum(counts[i] for counts, _ in answers) for i in range(3))
    print(f"{files} files, {methods} methods, {size} bytes, {len(found) - len(paths)} files of other versions")
    print(f"{took:.1f} s, {len(wrong)} wrong")
    sys.exit(1 if wrong or not files else 0)


main()
