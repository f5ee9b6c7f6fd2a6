#!/usr/bin/env python3
"""Runs the built program on every class file of a JDK against itself.

It works on the program that `cd crates/punthizha && rt run` leaves, or on the one that the environment
variable PUNTHIZHA names. The class files are extracted from
the JDK's image with `jimage`. For each of major version 45 to 69 the status must be 0 or 1, with a line
for each method, in the order of the file; the methods are counted by a reader of its own. It prints how
many lines say what, without places. No method of the JDK may be `types` or `code`.

    tests/jdk.py [--workers] [IMAGE]      IMAGE is the file lib/modules of a JDK

With --workers each file is read by 1, 2, 4 and 16 workers, and what is said must be the same each time.
"""

import os
import struct
import subprocess
import sys
import tempfile
import time
from collections import Counter
from concurrent.futures import ThreadPoolExecutor

from programs import jdk_classes, punthizha

PROGRAM = punthizha()
WORKERS = [["--workers", str(it)] for it in (1, 2, 4, 16)]
SIZES = {3: 4, 4: 4, 5: 8, 6: 8, 7: 2, 8: 2, 9: 4, 10: 4, 11: 4, 12: 4, 15: 3, 16: 2, 17: 4, 18: 4, 19: 2, 20: 2}


def members(data, at):
    """The (name index, descriptor index) of each member of a table, and the offset after it."""
    (count,) = struct.unpack_from(">H", data, at)
    at += 2
    found = []
    for _ in range(count):
        _, name, desc, attributes = struct.unpack_from(">4H", data, at)
        at += 8
        for _ in range(attributes):
            (length,) = struct.unpack_from(">I", data, at + 2)
            at += 6 + length
        found.append((name, desc))
    return found, at


def methods(data):
    """The major version, and the name and descriptor of each method."""
    _, _, major, count = struct.unpack_from(">IHHH", data, 0)
    at, index, texts = 10, 1, {}
    while index < count:
        tag = data[at]
        if tag == 1:
            (length,) = struct.unpack_from(">H", data, at + 1)
            texts[index] = data[at + 3 : at + 3 + length]
            at += 3 + length
        else:
            at += 1 + SIZES[tag]
        index += 2 if tag in (5, 6) else 1
    (interfaces,) = struct.unpack_from(">H", data, at + 6)
    _, at = members(data, at + 8 + 2 * interfaces)
    found, _ = members(data, at)
    return major, [(texts[name], texts[desc]) for name, desc in found]


def shown(text):
    bytes_ = ("%c" % b if 0x21 <= b <= 0x7E and b != 0x25 else "%%%02X" % b for b in text)
    return "".join(bytes_) or "%-"


def answer(path, options):
    """What the program says of a file against itself."""
    return subprocess.run([PROGRAM, "validate", *options, path, path], capture_output=True, timeout=60)


def run(path, ways):
    """Whether what is said of a file is right and the same in each of these ways, how many methods it has, the seconds of the first way, and what is said."""
    with open(path, "rb") as file:
        data = file.read()
    major, wanted = methods(data)
    if not 45 <= major <= 69:
        return path, None, 0, 0.0, Counter()
    begin = time.monotonic()
    done = answer(path, ways[0])
    took = time.monotonic() - begin
    same = all((it.returncode, it.stdout) == (done.returncode, done.stdout) for it in (answer(path, way) for way in ways[1:]))
    lines = done.stdout.decode().splitlines()
    fronts = [shown(name) + " " + shown(desc) + " " for name, desc in wanted]
    right = (
        same
        and done.returncode in (0, 1)
        and not done.stderr
        and len(lines) == len(fronts)
        and all(line.startswith(front) for line, front in zip(lines, fronts))
        and (done.returncode == 0) == all(line.endswith(" equivalent") for line in lines)
    )
    return path, right, len(lines), took, Counter(said(line, front) for line, front in zip(lines, fronts))


def said(line, front):
    """What a line says of its method, without the address."""
    return line[len(front) :].split(" at ")[0]


def main():
    options = [it for it in sys.argv[1:] if it == "--workers"]
    images = [it for it in sys.argv[1:] if it not in options]
    ways = WORKERS if options else [[]]
    with tempfile.TemporaryDirectory() as work:
        paths = jdk_classes(work, *images[:1])
        begin = time.monotonic()
        with ThreadPoolExecutor(2) as pool:
            answers = list(pool.map(lambda path: run(path, ways), paths))
        took = time.monotonic() - begin
    read = [a for a in answers if a[1] is not None]
    wrong = [a for a in read if not a[1]]
    slowest = max(read, key=lambda a: a[3])
    said_of = sum((a[4] for a in read), Counter())
    bad = [word for word in said_of if word.endswith((" types", " code"))]
    for path, *_ in wrong[:20]:
        print("FAILED ", os.path.relpath(path, work))
    print(f"{len(read)} files, {sum(a[2] for a in read)} methods, {len(answers) - len(read)} of other versions")
    print(f"{took:.1f} s, the slowest {slowest[3]:.3f} s: {os.path.relpath(slowest[0], work)}")
    for word, count in said_of.most_common():
        print(f"{count:8} {word}")
    sys.exit(1 if wrong or bad else 0)


main()
