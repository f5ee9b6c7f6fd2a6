#!/usr/bin/env python3
"""Closes the classes of random graphs, and finds their inductions, by `pv_classes` and `pv_induct` and by a plain reading of the
definitions, and compares them.

It works on the program that `cd crates/cases && rt run < stdin` leaves. The reading knows no list of waiting nodes: it
closes by sweeping over all nodes until nothing changes, and finds inductions by trying all partitions of the thetas of
a depth, with inductions over greater depths inside each (pv_induct/specs/Joined). A graph has ints, parameters, sums,
negations, and thetas, evals, passes and shifts of at most three depths; a part of it stands there twice with some changes,
so that inductions hold.

    tests/classes.py [SEED [GRAPHS [NODES]]]      by default 1, 100000 graphs of at most 40 nodes each
"""

import random
import sys

from programs import ask

DEPTHS = 3
LOOKS = ("theta", "eval", "pass", "shift")


class Nodes:
    """A graph that is being made: each node an operation, as its words, and kids; a theta that isn't tied has none."""

    def __init__(self):
        self.nodes, self.steps, self.known = [], [], {}

    def add(self, operation, *kids):
        if (operation, kids) not in self.known:
            self.known[operation, kids] = len(self.nodes)
            self.nodes.append((operation, kids))
            self.steps.append(" ".join([operation, *map(str, kids)]))
        return self.known[operation, kids]

    def begin(self, depth):
        self.nodes.append((f"theta {depth}", ()))
        self.steps.append(f"begin {depth} I")
        return len(self.nodes) - 1

    def tie(self, theta, first, second):
        operation = self.nodes[theta][0]
        self.nodes[theta] = operation, (first, second)
        self.known.setdefault((operation, (first, second)), theta)
        self.steps.append(f"tie {theta} {first} {second}")


def random_graph(r, most):
    """A graph, and which of its nodes are ints."""
    g = Nodes()
    ints = [g.add("int 0"), g.add("int 1"), g.add("param 0 I"), g.add("param 1 I")]
    thetas = []
    for _ in range(r.randint(1, 4)):
        thetas.append(g.begin(r.randint(1, DEPTHS)))
    first_copy = grow(r, g, ints + thetas, (most - len(g.nodes)) // 3)
    ties = [(t, r.choice(ints + thetas), r.choice(first_copy)) for t in thetas]
    for tie in ties:
        g.tie(*tie)
    ints += thetas + first_copy
    if r.random() < 0.9:
        twin(r, g, thetas, ties, ints)
    return g, sorted(set(n for n in ints if not g.nodes[n][0].startswith("pass")))


def grow(r, g, ints, count):
    """Adds operations over the ints, and answers the new ints."""
    new = []
    for _ in range(max(count, 1)):
        old, depth = ints + new, r.randint(1, DEPTHS)
        kind = r.random()
        if kind < 0.45:
            new.append(g.add("iadd", r.choice(old), r.choice(old)))
        elif kind < 0.6:
            new.append(g.add("ineg", r.choice(old)))
        elif kind < 0.75:
            new.append(g.add(f"shift {depth}", r.choice(old)))
        else:
            ends = g.add(f"pass {depth}", r.choice(old))
            new.append(g.add(f"eval {depth}", r.choice(old), ends))
    return new


def twin(r, g, thetas, ties, ints):
    """Makes the thetas and what stands over them once more, with some changes."""
    copies = {t: g.begin(int(g.nodes[t][0].split()[1])) for t in thetas}
    changes = r.choice([0, 0, 0.1, 0.3])

    def copy(n):
        operation, kids = g.nodes[n]
        if n not in copies:
            made = [copy(kid) for kid in kids]
            if operation == "iadd" and r.random() < changes:
                made.reverse()
            copies[n] = g.add(operation, *made)
        return copies[n]

    for theta, first, second in ties:
        g.tie(copies[theta], copy(first) if r.random() < 0.5 else first, copy(second))
    ints += [n for n in copies.values() if n not in ints]


# ---- the plain reading: a relation is a list with the least joined node of each node


def closed(nodes, fixed, relation, pairs=()):
    """The least congruence, outside the fixed depths, that holds the relation and the pairs."""
    least = list(relation)

    def join(a, b):
        a, b = least[a], least[b]
        if a != b:
            low, high = min(a, b), max(a, b)
            for n, of in enumerate(least):
                if of == high:
                    least[n] = low
        return a != b

    for a, b in pairs:
        join(a, b)
    changed = True
    while changed:
        changed, found = False, {}
        for n, (operation, kids) in enumerate(nodes):
            word, *depth = operation.split()
            if not (word in LOOKS and int(depth[0]) in fixed):
                form = operation, tuple(least[kid] for kid in kids)
                changed |= join(n, found.setdefault(form, n))
    return least


def partitions(things):
    """All partitions of a list."""
    if not things:
        yield []
        return
    first, *rest = things
    for parts in partitions(rest):
        yield [[first], *parts]
        for i in range(len(parts)):
            yield [*parts[:i], [first, *parts[i]], *parts[i + 1 :]]


def joined(nodes, fixed, relation, pairs=()):
    """What may be joined, with all inductions over depths above the fixed ones."""
    least = closed(nodes, fixed, relation, pairs)
    again = True
    while again:
        again = False
        for depth in range(max(fixed, default=0) + 1, DEPTHS + 1):
            thetas = [n for n, (operation, _) in enumerate(nodes) if operation == f"theta {depth}"]
            for parts in partitions(thetas):
                pairs = [(a, b) for part in parts for a, b in zip(part, part[1:])]
                if is_new(least, pairs) and is_induction(nodes, fixed, depth, least, pairs):
                    least, again = closed(nodes, fixed, least, pairs), True
    return least


def is_new(least, pairs):
    return any(least[a] != least[b] for a, b in pairs)


def is_induction(nodes, fixed, depth, least, pairs):
    kids = lambda k: [(nodes[a][1][k], nodes[b][1][k]) for a, b in pairs]
    if any(least[p] != least[r] for p, r in kids(0)):
        return False
    inside = joined(nodes, fixed + [depth], least, pairs)
    return all(inside[q] == inside[s] for q, s in kids(1))


def firsts(nodes, least):
    """The nodes that are the first of their form in their class."""
    seen = {}
    for n, (operation, kids) in enumerate(nodes):
        seen.setdefault((least[n], operation, tuple(least[kid] for kid in kids)), n)
    return list(seen.values())


def case(r, most):
    """A line, and its answers."""
    g, ints = random_graph(r, most)
    given = [tuple(r.sample(ints, 2)) for _ in range(r.choice([0, 0, 1, 1, 2]))] if len(ints) > 1 else []
    fixed = r.choice([[], [1], [2], [1, 2]])
    depths = " ".join(map(str, fixed))
    tried = r.choice(ints), r.choice(ints)
    steps = [f"join {a} {b} 1" for a, b in given]
    steps += [f"close {depths}", "numbers", "firsts", f"inside {tried[0]} {tried[1]} {depths}", "numbers", "induct", "numbers", "induct"]
    start = closed(g.nodes, fixed, range(len(g.nodes)), given)
    inside = closed(g.nodes, fixed, start, [tried])
    answers = start, firsts(g.nodes, start), inside, joined(g.nodes, [], start)
    return f"classes {'; '.join(g.steps)}; seal | {'; '.join(steps)}", answers


def is_right(line, answers, told):
    """Whether the program answers these numbers, that it joined something where they differ, and nothing the second time."""
    parts = told.split("; ")[line.split("|")[1].count("join ") :]
    start, first, inside, end = answers
    tried = parts[3].startswith(f"{inside} ")
    return tried and parts[1:3] + parts[4:] == [str(start), str(first), str(start), str(start != end).lower(), str(end), "false"]


def main():
    given = [int(word) for word in sys.argv[1:]]
    seed, count, most = given + [1, 100000, 40][len(given) :]
    r = random.Random(seed)
    cases = [case(r, most) for _ in range(count)]
    told = ask([line for line, _ in cases], seconds=3600)
    wrong = [(line, answer, text) for (line, answer), text in zip(cases, told) if not is_right(line, answer, text)]
    inductions = sum(answer[0] != answer[3] for _, answer in cases)
    for line, answer, text in wrong[:5]:
        print(line, answer, text, sep="\n")
    print(f"seed {seed}: {len(told)} of {count} graphs answered, {inductions} with inductions or a closing that joins more, {len(wrong)} wrong")
    sys.exit(1 if wrong or len(told) != count else 0)


if __name__ == "__main__":
    main()
