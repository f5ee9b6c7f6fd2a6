#!/usr/bin/env python3
"""Pads sections of certificates with steps that nothing needs, and compares what the program leaves of them with a trimmer of its own.

It takes the accepted sections of the rows `section` of crates/cases/stdin that need no lemma, some of them changed, and puts further
right steps between their steps: facts the other way round, chains, sets, axioms once more, nodes, inductions and ending blocks, in whose
blocks also nodes stand that are needed later. The program of cases trims each by the axioms alone (`trim BYTES`). The trimmer below goes
from the last step back and keeps what a kept step cites. What the program prints must be what it gives, and the checker of
tests/checker.py must accept it. It prints each difference, and counts.

    tests/trims.py [--seed N] [COUNT]

COUNT is how many padded sections there are, 10000 if left out. The program is found as in tests/sections.py.
"""

import random
import sys
import time

from checker import Section
from programs import ask
from sections import Growing, certificate, changed, check, kinds, known, least, rows

BATCH = 2000


def under(line, nodes, steps):
    """A step under other numbers of nodes and of steps."""
    words = line.split(" ")
    for at, (kind, word) in enumerate(zip(kinds(words), words)):
        if kind == "n":
            words[at] = str(nodes.get(int(word), int(word)))
        elif kind in "fr" and "." in word:
            step, place = word.split(".")
            words[at] = f"{steps[int(step)]}.{place}"
    return " ".join(words)


def cited(line):
    """The nodes and the steps that a step names, but for the node that it makes."""
    words = line.split(" ")
    found = list(zip(kinds(words), words))
    nodes = {int(word) for kind, word in (found[2:] if words[0] == "node" else found) if kind == "n"}
    return nodes, {int(word.split(".")[0]) for kind, word in found if kind in "fr" and "." in word}


def sides(line):
    """The two nodes that are equal by a step that states one equality."""
    words = line.split(" ")
    return {int(word) for word in (words[2:4] if words[0] in ("axiom", "use") else words[1:3])}


def needed(steps, uses=()):
    """The numbers of the steps that the last one needs, where those of `uses` rest on no step, and need only the nodes of their two sides."""
    opened, stack, made = {}, [], {}
    for k, line in enumerate(steps, 1):
        row = line.split(" ")[0]
        if row in ("open", "assume"):
            stack.append(k)
        elif row in ("close", "finish"):
            opened[k] = stack.pop()
        elif row == "node":
            made[int(line.split(" ")[1])] = k
    kept = {len(steps)} if steps else set()
    for k in range(len(steps), 0, -1):
        if k in kept:
            nodes, facts = (sides(steps[k - 1]), set()) if k in uses else cited(steps[k - 1])
            kept |= facts | {made[n] for n in nodes if n in made} | ({opened[k]} if k in opened else set())
    return kept


def trimmed(methods, steps):
    """The steps that the last one needs, under new numbers."""
    graph, one, two = least(methods)
    if one == two:
        return []
    kept = needed(steps)
    made = {int(line.split(" ")[1]): k for k, line in enumerate(steps, 1) if line.startswith("node ")}
    order = sorted(kept)
    left = [n for n, k in sorted(made.items()) if k in kept]
    nodes = {n: len(graph.nodes) + at for at, n in enumerate(left)}
    numbers = {k: at for at, k in enumerate(order, 1)}
    return [under(steps[k - 1], nodes, numbers) for k in order]


class Padding(Growing):
    """A section that grows: the steps of another one in their order, and right steps between them."""

    def __init__(self, methods, steps, rand):
        super().__init__(Section(least(methods)[0].copy(), known(())), rand)
        self.old, self.at, self.nodes, self.steps = list(steps), 0, {}, {}

    def next_old(self):
        """Puts the next step of the other section."""
        line = self.old[self.at]
        if line.startswith("node "):
            self.nodes[int(line.split(" ")[1])] = len(self.section.graph.nodes)
        self.at += 1
        self.steps[self.at] = len(self.lines) + 1
        return self.put(under(line, self.nodes, self.steps))

    def some_fact(self):
        """A visible fact, and what it states."""
        inside = self.section.open
        facts = [
            (f"{k}.{place}", pair)
            for k, (around, pairs) in enumerate(self.section.stated, 1)
            if list(around) == inside[: len(around)]
            for place, pair in enumerate(pairs, 1)
        ]
        return self.rand.choice(facts) if facts else None

    def flip(self):
        fact = self.some_fact()
        if fact:
            name, (a, b) = fact
            if self.put(f"flip {b} {a} {name}") and self.rand.random() < 0.5:
                self.put(f"chain {a} {a} {name} {len(self.lines)}.1")

    def same(self, n=None):
        n = self.rand.randrange(len(self.section.graph.nodes)) if n is None else n
        return self.put(" ".join([f"set {n} {n}"] + ["="] * len(self.section.graph.nodes[n][1])))

    def node(self):
        ints = [n for n, sort in enumerate(self.section.graph.sorts) if sort == "I"]
        if ints:
            x, y = self.rand.choice(ints), self.rand.choice(ints)
            op = self.rand.choice(["iadd", "isub", "imul", "ior"])
            self.put(f"node {len(self.section.graph.nodes)} {op} {x} {y}")

    def again(self):
        lines = [line for line in self.lines if line.split(" ")[0] in ("axiom", "set", "chain", "flip")]
        if lines:
            self.put(self.rand.choice(lines))

    def old_nodes(self):
        """Puts some of the next steps of the other section, as long as they make nodes."""
        while self.at < len(self.old) - 1 and self.old[self.at].startswith("node ") and self.rand.random() < 0.6:
            if not self.next_old():
                return

    def induction(self):
        depths = [d for d in range(1, 17) if all(block[1:3] != ("open", d) for block in self.section.open)]
        d, x = self.rand.choice(depths), self.rand.randrange(len(self.section.graph.nodes))
        zero = self.there(("zero",))
        first, later = self.there(("eval", str(d)), (x, zero)), self.there(("shift", str(d)), (x,))
        if first is None or later is None or not self.same(first):
            return
        start = len(self.lines)
        if self.put(f"open {d} {x} {x}"):
            self.old_nodes()
            self.some()
            self.same(later)
            end = len(self.lines)
            self.some()
            self.put(f"close {d} {start}.1 {end}.1")

    def ending(self):
        if not self.section.open and self.section.graph.nodes[0][0] == ("root",) and self.put("assume 0"):
            self.old_nodes()
            self.some()
            self.put("finish 0 0 = = = =")

    def some(self):
        """Puts some steps that nothing needs."""
        while self.rand.random() < 0.4:
            self.rand.choice([self.flip, self.flip, self.same, self.node, self.node, self.again, self.again])()


def padded(methods, steps, rand):
    padding = Padding(methods, steps, rand)
    while padding.at < len(steps):
        padding.some()
        if rand.random() < 0.1:
            rand.choice([padding.induction, padding.induction, padding.ending])()
        if padding.at < len(steps) and not padding.next_old():
            return None
    return padding.lines


def asked(batch):
    """What the program leaves of sections, each with its methods."""
    return ask([f"trim {certificate((), [steps]).hex().upper()}; {methods}" for methods, steps in batch], seconds=3000)


def some_section(pool, others, rand):
    """The methods and the steps of a section, changed or not; `others` has the sections of the methods."""
    methods, steps = rand.choice(pool)
    return methods, changed(steps, others[methods], rand) if rand.random() < 0.3 else steps


def main(args):
    seed = int(args.pop(args.index("--seed") + 1)) if "--seed" in args else 1
    count = int(next((arg for arg in args if arg.isdigit()), 10000))
    rand, began, wrong, before, after, done = random.Random(seed), time.time(), 0, 0, 0, 0
    pool, sections = [], {}
    for methods, lemmas, steps, answer in rows():
        sections.setdefault(methods, []).append(steps)
        pool += [(methods, steps)] if answer == "Accepted" and not lemmas else []
    while done < count:
        batch = []
        while len(batch) < min(BATCH, count - done):
            methods, steps = some_section(pool, sections, rand)
            steps = padded(methods, steps, rand) if check(methods, (), steps) == "Accepted" else None
            if steps is not None and check(methods, (), steps) == "Accepted":
                batch.append((methods, steps))
        for (methods, steps), said in zip(batch, asked(batch)):
            left = trimmed(methods, steps)
            want = "; ".join(["Accepted", "method a ()V", *left, "end", "Accepted"])
            before, after = before + len(steps), after + len(left)
            if said != want or check(methods, (), left) != "Accepted":
                wrong += 1
                print(f"{want} wanted, {said}: {methods}: {steps}")
        done += len(batch)
    print(f"{done} sections in {time.time() - began:.0f} s, {wrong} differ; {before} steps, of which {after} are left")
    sys.exit(wrong > 0)


if __name__ == "__main__":
    main(sys.argv[1:])
