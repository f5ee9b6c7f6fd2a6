#!/usr/bin/env python3
"""Migrates random certificates of version 1 by the built program, and compares what it says and writes with the reader of tests/certs.py.

It takes the methods of the rows `section` of crates/cases/stdin, and makes certificates for their classes: of the sections that the program
finds (`validate --cert`), and of the steps of the rows, changed at random. Each is written in version 1, and in half of them the text is changed
as in tests/certs.py. Where that has a reading, the program must say how many sections it has, and place the same text but for its first
line, of which `check` must say what it said of the certificate in version 2. Else it must say the first fault, with status 3, and place nothing.
It prints each difference, and counts.

    tests/migrate.py [--seed N] [COUNT]

COUNT is how many certificates there are, 2000 if left out. The program is the one that `cd crates/punthizha && rt run` leaves, or the one that
the environment variable PUNTHIZHA names.
"""

import hashlib
import os
import random
import re
import sys
import tempfile
import time
from collections import Counter

from cases import sample_class
from certs import changed, parted, read, with_lemmas
from checked import methods_of
from pairs import called
from sections import changed as with_changed_steps
from sections import rows

OLD, NEW = b"peggy-cert 1\n", b"peggy-cert 2\n"


def contents(path):
    """What a file holds, or None where there is none."""
    if not os.path.exists(path):
        return None
    with open(path, "rb") as file:
        return file.read()


class Pair:
    """The class files of two methods, and steps of sections for them."""

    def __init__(self, methods, folder):
        os.mkdir(folder)
        self.one, self.other, self.cert, self.out = (os.path.join(folder, name) for name in ("A", "B", "cert", "out"))
        self.head, self.steps = [], []
        for word, path, side in zip(("first", "second"), (self.one, self.other), methods.split("; ")):
            data = sample_class(side.split(" "), {})
            self.write(path, data)
            self.head.append(f"{word} {hashlib.sha256(data).hexdigest()}")
        self.title = next(iter(methods_of(contents(self.one))))
        called("validate", "--cert", self.cert, self.one, self.other)
        lemmas, sections = parted(contents(self.cert).decode("ascii").split("\n")[3:-1])
        self.steps += [steps for _, steps in sections if not lemmas]

    def write(self, path, data):
        with open(path, "wb") as file:
            file.write(data)

    def some(self, rand):
        """A certificate of version 1 of some sections, changed or not."""
        lines = list(self.head)
        for _ in range(rand.choice([0, 1, 1, 2, 3])):
            steps = rand.choice(self.steps)
            steps = with_changed_steps(steps, self.steps, rand) if rand.random() < 0.5 else steps
            lines += [f"method {self.title}", *steps, "end"]
        text = OLD + "".join(line + "\n" for line in lines).encode()
        if rand.random() < 0.5:
            text = changed(with_lemmas(text, rand) if rand.random() < 0.3 else text, rand)
        return NEW + text.removeprefix(OLD) if rand.random() < 0.02 else text

    def fault(self, text, in_place):
        """What is wrong with what the program says of a certificate that it is to migrate, to another file or to its own."""
        want, new, out = said_of(text), NEW + text.removeprefix(OLD), self.cert if in_place else self.out
        if os.path.exists(self.out):
            os.remove(self.out)
        self.write(self.cert, text)
        said = called("migrate", self.cert, out)[:2]
        if said != want:
            return f"{want} wanted, {said}"
        if contents(out) != (new if want[1] == 0 else text if in_place else None):
            return f"{contents(out)} is placed"
        if want[1] != 0:
            return None
        self.write(self.cert, new)
        before, after = (called("check", self.one, self.other, path)[:2] for path in (self.cert, out))
        return None if before == after else f"{before} of version 2, {after} of what was migrated"


def said_of(text):
    """What is to be said, and the status."""
    fault = read(text, 1)
    if fault == "same":
        return f"migrated {len(parted(text.decode('ascii').splitlines()[3:])[1])} sections\n", 0
    return f"bad certificate {fault.lower() if fault[:4] != 'Step' else f'line {fault[5:-1]}'}\n", 3


def main(args):
    seed = int(args.pop(args.index("--seed") + 1)) if "--seed" in args else 1
    count = int(next((arg for arg in args if arg.isdigit()), 2000))
    rand, began, wrong, kinds = random.Random(seed), time.time(), 0, Counter()
    with tempfile.TemporaryDirectory() as work:
        pairs = {}
        for methods, lemmas, steps, _ in rows():
            if methods not in pairs:
                pairs[methods] = Pair(methods, os.path.join(work, str(len(pairs))))
            pairs[methods].steps += [] if lemmas else [steps]
        for _ in range(count):
            pair = rand.choice([it for it in pairs.values() if it.steps])
            text = pair.some(rand)
            fault = pair.fault(text, rand.random() < 0.2)
            kinds[re.sub(r"\d+", "N", said_of(text)[0].strip())] += 1
            if fault:
                wrong += 1
                print(f"{fault}: {text!r}")
    print(f"{count} certificates in {time.time() - began:.0f} s, {wrong} differ;", ", ".join(f"{n} {it}" for it, n in kinds.most_common()))
    return wrong > 0


if __name__ == "__main__":
    sys.exit(main(sys.argv[1:]))
