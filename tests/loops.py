#!/usr/bin/env python3
"""Finds the loops of random shapes by `pv_loops` and by dominators, and compares them.

It works on the program that `cd crates/cases && rt run < stdin` leaves. A shape is reducible where the edges to
a node that doesn't dominate their source are those of no cycle; its loops are then the natural loops of the
headers, the targets of edges from nodes that they dominate. Where the program says that a shape is irreducible, its
steps are replayed: T1 drops an edge from a node to itself, T2 merges a node into its only predecessor.

    tests/loops.py [SEED [SHAPES [NODES]]]      by default 1, 100000 shapes of at most 12 nodes each
"""

import random
import re
import sys

from programs import ask

DEEPEST = 16


def reached(edges, without=None):
    """The nodes that are reached from the entry, not through one of them."""
    seen, todo = set(), [0] if without != 0 else []
    while todo:
        node = todo.pop()
        if node not in seen:
            seen.add(node)
            todo += [target for target in edges[node] if target != without]
    return seen


def random_shape(r, most):
    """A shape whose nodes are all reached, with more edges forward than back."""
    count = r.randint(1, most)
    edges = [set() for _ in range(count)]
    for node in range(1, count):
        edges[r.randrange(node)].add(node)
    for _ in range(r.randint(0, count)):
        edges[r.randrange(count)].add(r.randrange(count))
    order = [0] + r.sample(range(1, count), count - 1)
    place = {node: k for k, node in enumerate(order)}
    return [sorted(place[target] for target in edges[node]) for node in order]


def dominators(edges):
    """For each node the nodes through which every way from the entry to it goes."""
    doms = [set() for _ in edges]
    for node in range(len(edges)):
        for other in set(range(len(edges))) - reached(edges, node):
            doms[other].add(node)
        doms[node].add(node)
    return doms


def is_acyclic(edges):
    degree = [0] * len(edges)
    for targets in edges:
        for target in targets:
            degree[target] += 1
    todo, done = [node for node, n in enumerate(degree) if n == 0], 0
    while todo:
        done += 1
        for target in edges[todo.pop()]:
            degree[target] -= 1
            if degree[target] == 0:
                todo.append(target)
    return done == len(edges)


def forest(edges):
    """The loops as (header, depth, place of the loop around it, members), and the home of each node; None if
    the shape is irreducible."""
    doms = dominators(edges)
    if not is_acyclic([[t for t in targets if t not in doms[node]] for node, targets in enumerate(edges)]):
        return None
    bodies = {}
    for node, targets in enumerate(edges):
        for header in set(targets) & doms[node]:
            body, todo = bodies.setdefault(header, {header}), [node]
            while todo:
                member = todo.pop()
                if member not in body:
                    body.add(member)
                    todo += [source for source, goes in enumerate(edges) if member in goes]
    headers = sorted(bodies)
    inside = {h: [o for o in headers if o != h and h in bodies[o]] for h in headers}
    loops = []
    for h in headers:
        around = min(inside[h], key=lambda o: len(bodies[o]), default=None)
        loops.append((h, len(inside[h]) + 1, headers.index(around) if inside[h] else None, sorted(bodies[h])))
    homes = []
    for node in range(len(edges)):
        of = [h for h in headers if node in bodies[h]]
        homes.append(headers.index(min(of, key=lambda o: len(bodies[o]))) if of else None)
    return loops, homes


def is_stuck(edges, steps):
    """Whether each step applies where it is taken, and then none does, with two nodes or more left."""
    nodes = set(range(len(edges)))
    arrows = {(node, target) for node, targets in enumerate(edges) for target in targets}
    sources = lambda n: {a for a, b in arrows if b == n}
    for kind, n, p in steps:
        if kind == "T1":
            if (n, n) not in arrows:
                return False
            arrows.discard((n, n))
        else:
            if n == 0 or n == p or sources(n) != {p}:
                return False
            nodes.discard(n)
            arrows = {(p if a == n else a, b) for a, b in arrows if b != n}
    free = all(a != b for a, b in arrows) and all(n == 0 or len(sources(n)) != 1 for n in nodes)
    return free and len(nodes) > 1


def shown(found):
    """A forest as the program writes it."""
    number = lambda n: "-" if n is None else str(n)
    loops, homes = found
    texts = [f"{h} depth {d} in {number(p)} of {','.join(map(str, m))}" for h, d, p, m in loops]
    return "; ".join(texts + [f"homes {','.join(map(number, homes))}"])


def is_right(edges, answer):
    found = forest(edges)
    if found is None:
        steps = re.findall(r"(T1|T2)\((\d+)(?:, (\d+))?\)", answer)
        steps = [(kind, int(n), int(p or 0)) for kind, n, p in steps]
        return answer.startswith("irreducible ") and is_stuck(edges, steps)
    if any(depth > DEEPEST for _, depth, _, _ in found[0]):
        return answer == f"deep {DEEPEST + 1}"
    return answer == shown(found)


def main():
    given = [int(word) for word in sys.argv[1:]]
    seed, count, most = given + [1, 100000, 12][len(given):]
    r = random.Random(seed)
    shapes = [random_shape(r, most) for _ in range(count)]
    answers = ask(["loops " + " ".join(",".join(map(str, t)) or "-" for t in edges) for edges in shapes], seconds=600)
    wrong = [(e, a) for e, a in zip(shapes, answers) if not is_right(e, a)]
    irreducible = sum(answer.startswith("irreducible") for answer in answers)
    for edges, answer in wrong[:5]:
        print(edges, answer)
    print(f"seed {seed}: {len(answers)} of {count} shapes answered, {irreducible} irreducible, {len(wrong)} wrong")
    sys.exit(1 if wrong or len(answers) != count else 0)


if __name__ == "__main__":
    main()
