#!/usr/bin/env python3
"""Checks the certificates that the program writes by a second checker, over graphs of a second conversion.

It has the program compare pairs of class files (`validate --cert`), and goes over the certificate of each pair by itself: tests/converter.py
makes the least graph of two methods from the class files, and tests/checker.py says whether each step of their section is right. The
certificate must name both files by their digests, and have a section for each line `.. equivalent`, in order. It prints each section that
isn't accepted, with the number of the first step that isn't right, how many sections there are, the median and the greatest of
their lengths in steps, and how often each step and each axiom occurs.

Then it changes each section that has steps at random, as tests/sections.py does, and has the program check the changed ones (`check`): the answers
must be those of the second checker. Half of the changed ones use lemmas in place of axioms (`with_uses` of tests/certs.py), where the certificate has none.

    tests/checked.py [--changes N] [--seed N] [--same] JAR..             classes of JARs before and after ProGuard, as in tests/pairs.py
    tests/checked.py [--changes N] [--seed N] A.class B.class            two class files
    tests/checked.py [--changes N] [--seed N] --random CLASSES METHODS   random methods as in tests/mutants.py, each written otherwise and changed

N is how many changed sections there are of each section, 5 if left out. With --all the searches go by all axioms, and else by the core. The
program is the one that `cd crates/punthizha && rt run` leaves, or the one that the environment variable PUNTHIZHA names.
"""

import argparse
import hashlib
import os
import random
import sys
import tempfile
import time
from collections import Counter

from certs import ROWS, fits, parted, with_uses
from checker import AXIOMS, accepted_lemmas, verdict
from converter import ClassFile, least_graph, shown, with_deep_calls
from mutants import written_classes
from pairs import called, pairs_of
from sections import changed


class Section:
    """A section of a certificate, with the least graph of its two methods."""

    def __init__(self, title, steps, least):
        self.title, self.steps, self.least = title, steps, least

    def lines(self):
        return [f"method {self.title}", *self.steps, "end"]


class Pair:
    """Two class files, and the certificate that the program writes for them."""

    def __init__(self, name, one, other, cert, axioms):
        self.name, self.one, self.other, self.cert, self.axioms = name, one, other, cert, axioms
        self.faults, self.files, self.lemmas = [], [], []
        for path in (one, other):
            with open(path, "rb") as file:
                self.files.append(file.read())
        self.head = ["peggy-cert 2"] + [f"{word} {hashlib.sha256(data).hexdigest()}" for word, data in zip(("first", "second"), self.files)]

    def fault(self, text):
        self.faults.append(f"{self.name}: {text}")

    def sections(self):
        """The sections of the certificate, where it is the one for the report; its lemmas are kept."""
        if os.path.exists(self.cert):
            os.remove(self.cert)
        out, status, *_ = called("validate", "--axioms", self.axioms, "--cert", self.cert, self.one, self.other)
        if status not in (0, 1):
            self.fault(f"status {status}")
            return []
        with open(self.cert, encoding="ascii") as file:
            lines = file.read().split("\n")
        self.lemmas, found = parted(lines[3:-1])
        wanted = [line.removesuffix(" equivalent") for line in out.splitlines() if line.endswith(" equivalent")]
        if lines[:3] != self.head or lines[-1] or [title for title, _ in found] != wanted:
            self.fault("not the certificate for the report")
            return []
        first, second = (methods_of(data) for data in self.files)
        return [Section(title, steps, self.least(title, first, second)) for title, steps in found]

    def least(self, title, first, second):
        """The least graph of a method of the first file and of its partner."""
        (method,) = first[title]
        (partner,) = (it for it in second[title] if it.is_static == method.is_static)
        return least_graph(method, partner)

    def check(self, lemmas, sections):
        """What the program says of a certificate with these lemmas, and sections, each of which is a title and steps."""
        lines = self.head + [line for lemma in lemmas for line in lemma]
        lines += [line for title, steps in sections for line in (f"method {title}", *steps, "end")]
        with open(self.cert, "w", encoding="ascii") as file:
            file.write("".join(line + "\n" for line in lines))
        out, *_ = called("check", self.one, self.other, self.cert)
        return out.splitlines()


def methods_of(data):
    """The methods of a class file by their names and descriptors, of which there may be one that is static and one that isn't."""
    found = {}
    for method in ClassFile(data).methods:
        found.setdefault(f"{shown(method.name)} {shown(method.desc)}", []).append(method)
    return found


class Counts:
    """What was found in all pairs."""

    def __init__(self):
        self.pairs, self.wrong, self.lengths, self.rows, self.axioms = 0, 0, [], Counter(), Counter()
        self.changed = Counter()

    def add(self, pair, rand, changes):
        """Goes over a pair."""
        self.pairs += 1
        sections = pair.sections()
        lemmas = accepted_lemmas(pair.lemmas)
        if len(lemmas) < len(pair.lemmas):
            pair.fault(f"of {len(pair.lemmas)} lemmas {len(lemmas)} are accepted")
        for section in sections:
            self.lengths.append(len(section.steps))
            self.rows.update(step.split(" ")[0] for step in section.steps)
            self.axioms.update(int(step.split(" ")[1]) for step in section.steps if step.startswith("axiom "))
            wrong = verdict(section.least, section.steps, lemmas) if all(fits(ROWS, step.encode()) for step in section.steps) else "of spelling"
            if wrong is not None:
                steps = section.steps
                pair.fault(f"{section.title} is not accepted: {wrong}: {steps[wrong - 1] if wrong in range(1, len(steps) + 1) else ''}")
        some = [it for it in sections if it.steps]
        self.compare(pair, pair.lemmas, some, rand, changes)
        if not pair.lemmas:
            lemmas, found = parted(with_uses([line for it in some for line in it.lines()]))
            self.compare(pair, lemmas, [Section(it.title, steps, it.least) for it, (_, steps) in zip(some, found)], rand, changes)
        for fault in pair.faults:
            print(fault, flush=True)
        self.wrong += len(pair.faults)

    def compare(self, pair, lemmas, sections, rand, changes):
        """Compares what the program and the second checker say of changed sections after lemmas."""
        accepted = accepted_lemmas(lemmas)
        batch = [(it, changed(it.steps, [it.steps], rand)) for it in sections for _ in range(changes)]
        said = pair.check(lemmas, [(it.title, steps) for it, steps in batch]) if batch else []
        if len(said) != len(batch):
            pair.fault(f"{len(said)} answers to {len(batch)} changed sections: {said[:1]}")
        for (section, steps), answer in zip(batch, said):
            wrong = verdict(section.least, steps, accepted)
            want = f"{section.title} " + ("equivalent" if wrong is None else f"rejected {wrong}")
            self.changed["accepted" if wrong is None else "rejected"] += 1
            if answer != want:
                self.changed["differ"] += 1
                pair.fault(f"{want} wanted, {answer}: {steps}")

    def show(self, took):
        some = sorted(n for n in self.lengths if n)
        median = some[len(some) // 2] if some else 0
        print(f"{self.pairs} pairs, {len(self.lengths)} sections, {len(some)} with steps, of these the median {median}, the longest {max(some, default=0)}")
        print(f"{sum(self.rows.values())} steps:", ", ".join(f"{count} {row}" for row, count in self.rows.most_common()))
        print(f"{len(self.axioms)} of the {len(AXIOMS)} axioms:", ", ".join(f"{count} of {axiom}" for axiom, count in sorted(self.axioms.items())))
        print(f"{sum(self.changed.values()) - self.changed['differ']} changed sections, {self.changed['accepted']} accepted, {self.changed['differ']} differ")
        print(f"{self.wrong} wrong, {took:.0f} s")


def random_pairs(seed, classes, methods, work):
    """Pairs of class files with random methods: written otherwise, and with an instruction exchanged."""
    one, other, mutants = places = [os.path.join(work, it) for it in ("one", "other", "mutants")]
    for place in places:
        os.mkdir(place)
    written_classes(seed, classes, methods, one, other, mutants)
    names = [f"C{number}.class" for number in range(classes)]
    return [(f"{os.path.basename(place)} {name}", os.path.join(one, name), os.path.join(place, name)) for place in (other, mutants) for name in names]


def main():
    parser = argparse.ArgumentParser(description=__doc__, formatter_class=argparse.RawDescriptionHelpFormatter)
    parser.add_argument("--changes", type=int, default=5)
    parser.add_argument("--seed", type=int, default=1)
    parser.add_argument("--all", action="store_true")
    parser.add_argument("--same", action="store_true")
    parser.add_argument("--random", type=int, nargs=2)
    parser.add_argument("files", nargs="*")
    args = parser.parse_args()
    counts, rand, began = Counts(), random.Random(args.seed), time.time()
    with tempfile.TemporaryDirectory() as work:
        if args.random:
            pairs = random_pairs(args.seed, *args.random, work)
        elif args.files and args.files[0].endswith(".class"):
            pairs = [(args.files[0], *args.files)]
        else:
            pairs = pairs_of(args.files, work, args.same)
        for name, one, other in pairs:
            counts.add(Pair(name, one, other, os.path.join(work, "cert"), "all" if args.all else "core"), rand, args.changes)
    counts.show(time.time() - began)
    return counts.wrong


if __name__ == "__main__":
    sys.exit(with_deep_calls(main) > 0)
