#!/usr/bin/env python3
"""Compares the trees of `pv_decide` with plain walks, path by path, on random flows.

It works on the program that `cd crates/cases && rt run < stdin` leaves, and takes the loops from `loops.py`, which
finds them by dominators. For each region and target of a flow, the tree is written again by a walk that goes down
each path by itself, without an order of the blocks and with nothing kept; and for random answers of the tests, one
way is followed from the first block of the region: the tree must lead to the same exit, or be dead where the way is.

    tests/trees.py [SEED [FLOWS [BLOCKS]]]      by default 1, 3000 flows of at most 10 blocks each
"""

import random
import re
import sys

from loops import DEEPEST, forest, random_shape
from programs import ask

ENDS = ("return", "throw")


def random_flow(r, most):
    """For each block its exits: numbers of blocks and ends, in any order, some twice."""
    flow = []
    for targets in random_shape(r, most):
        exits = list(targets) + [r.choice(ENDS) for _ in range(r.choice((0, 0, 0, 1)))]
        if exits and r.random() < 0.2:
            exits.append(r.choice(exits))
        r.shuffle(exits)
        flow.append(exits or [r.choice(ENDS)])
    return flow


class Walks:
    """The walks of a region for a target."""

    def __init__(self, flow, found, region, target):
        self.flow, self.target = flow, target
        self.bodies = {h: set(members) for h, _, _, members in found[0]}
        self.header = None if region == "top" else found[0][region][0]
        self.region = set(range(len(flow))) if region == "top" else self.bodies[self.header]
        self.first = 0 if region == "top" else self.header

    def is_hit(self, exit):
        if exit in ENDS or self.target in ("exit", "return", "leave"):
            return exit in ENDS
        return exit == (self.header if self.target == "back" else self.target)

    def is_dead(self, block):
        """Whether neither an end nor the target is ahead, along any edges of the method."""
        seen, todo = set(), [block]
        while todo:
            at = todo.pop()
            if any(self.is_hit(exit) for exit in self.flow[at]):
                return False
            seen.add(at)
            todo += [exit for exit in self.flow[at] if exit not in seen]
        return self.target != "leave"

    def step(self, block, exit):
        """What an exit of a block is: looked for, a block to go on at, or neither."""
        if exit in ENDS:
            ends = self.target == "exit" or self.target == exit == "return"
            return "leaf" if self.target == "leave" or ends and self.header is None else None
        if exit not in self.region:
            return "leaf" if self.target == "leave" else None
        if exit == self.header:
            return "leaf" if self.target in ("back", "leave") else None
        if block in self.bodies.get(exit, ()):
            return None
        return "leaf" if exit == self.target else exit

    def tree(self, block):
        """The tree from a block, as the program writes it."""
        if self.is_dead(block):
            return "dead"
        text = "nothing"
        for number in reversed(range(len(self.flow[block]))):
            to = self.step(block, self.flow[block][number])
            yes = "nothing" if to is None else f"{block}.{number}" if to == "leaf" else self.tree(to)
            if text == "nothing" or yes == text:
                text = yes
            elif yes != "nothing":
                text = f"({block}.{number} ? {yes} : {text})"
        return text

    def way(self, answers):
        """The exit that one way gets to, `dead`, or `nothing`."""
        block = self.first
        while not self.is_dead(block):
            exits = self.flow[block]
            number = next((n for n in range(len(exits) - 1) if answers(block, n)), len(exits) - 1)
            to = self.step(block, exits[number])
            if to in ("leaf", None):
                return f"{block}.{number}" if to else "nothing"
            block = to
        return "dead"


def end_of(text, answers):
    """Where a tree leads by these answers."""
    found = re.match(r"\((\d+)\.(\d+) \? ", text)
    if not found:
        return text
    depth, start = 0, found.end()
    for at in range(start, len(text)):
        depth += {"(": 1, ")": -1}.get(text[at], 0)
        if depth == 0 and text.startswith(" : ", at + (text[at] == ")")):
            at += text[at] == ")"
            yes, no = text[start:at], text[at + 3:-1]
            return end_of(yes if answers(int(found[1]), int(found[2])) else no, answers)
    raise ValueError(text)


def asked(flow, found):
    """The regions with their targets."""
    loops, homes = found
    headers = [loop[0] for loop in loops]
    for region in ["top"] + list(range(len(loops))):
        place = None if region == "top" else region
        nodes = [n for n in range(len(flow)) if homes[n] == place]
        nodes += [h for h, _, around, _ in loops if around == place]
        others = ["exit", "return"] if region == "top" else ["back", "leave"]
        for target in others + [n for n in nodes if region == "top" or n != headers[region]]:
            yield region, target


def is_right(r, walks, answer):
    if answer != walks.tree(walks.first):
        return False
    for _ in range(5):
        drawn = {}
        answers = lambda block, number: drawn.setdefault((block, number), r.random() < 0.5)
        way = walks.way(answers)
        if way != "nothing" and end_of(answer, answers) != way:
            return False
    return True


def main():
    given = [int(word) for word in sys.argv[1:]]
    seed, count, most = given + [1, 3000, 10][len(given):]
    r = random.Random(seed)
    cases = []
    for _ in range(count):
        flow = random_flow(r, most)
        found = forest([sorted({e for e in exits if e not in ENDS}) for exits in flow])
        if found and all(depth <= DEEPEST for _, depth, _, _ in found[0]):
            cases += [(flow, found, region, target) for region, target in asked(flow, found)]
    lines = [
        f"tree {region} {target} " + " ".join(",".join(map(str, exits)) for exits in flow)
        for flow, _, region, target in cases
    ]
    answers = ask(lines, seconds=600)
    wrong = [(l, a) for c, l, a in zip(cases, lines, answers) if not is_right(r, Walks(*c), a)]
    for line, answer in wrong[:5]:
        print(line, "|", answer)
    print(f"seed {seed}: {len(answers)} of {len(cases)} trees of {count} flows answered, {len(wrong)} wrong")
    sys.exit(1 if wrong or len(answers) != len(cases) else 0)


if __name__ == "__main__":
    main()
