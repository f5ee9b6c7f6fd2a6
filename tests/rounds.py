#!/usr/bin/env python3
"""Measures one round of a search in a large graph: what it takes to look for all matches, and to make the round.

It works on the program that `cd crates/cases && rt run < stdin` leaves, or on the one that the environment variable CASES names. The graphs
are sums of ints: a chain, in which each sum is the next one's left kid, and a tree of all sums of two parameters, the same height
everywhere. Nearly each node has a match of two axioms (x + y = y + x; (x + y) + z = x + (y + z)). For each graph three runs
make it, make it and look, and make it, look and make the round, so what a step takes is a difference of two runs. It prints the nodes
before and after the round, the matches, and for each run the processor seconds and the greatest memory. Then all matches are looked for
by 1, 2 and 4 workers, several times in a run, with a limit of one less than there are, so that no list is printed: it prints the
seconds by the clock that one time takes, which say something on an idle machine alone.

    tests/rounds.py [NODES]      by default 100000
"""

import os
import re
import subprocess
import sys
import tempfile
import time

from programs import cases

PARAMETERS, LIMIT, TIMES = 330, 500_000, 12


def chain(nodes):
    """Steps that make a chain of sums, and its last node."""
    steps = ["param 0 I", "param 1 I", "iadd 0 1"]
    while len(steps) < nodes:
        steps.append(f"iadd {len(steps) - 1} 1")
    return steps, len(steps) - 1


def tree(nodes):
    """Steps that make a tree over sums of two parameters, and its root."""
    steps = [f"param {it} I" for it in range(PARAMETERS)]
    pairs = ((one, other) for one in range(PARAMETERS) for other in range(one + 1, PARAMETERS))
    steps += [f"iadd {one} {other}" for (one, other), _ in zip(pairs, range((nodes - PARAMETERS) // 2))]
    level = list(range(PARAMETERS, len(steps)))
    while len(level) > 1:
        above = []
        for at in range(0, len(level) - 1, 2):
            above.append(len(steps))
            steps.append(f"iadd {level[at]} {level[at + 1]}")
        level = above + level[len(level) - len(level) % 2 :]
    return steps, len(steps) - 1


def ran(line):
    """What the program answers to a line, its processor seconds and its greatest memory in MB."""
    with tempfile.TemporaryFile("w+", encoding="ascii") as file:
        file.write(line + "\n")
        file.seek(0)
        process = subprocess.Popen([cases()], stdin=file, stdout=subprocess.PIPE, text=True)
        out = process.stdout.read()
        _, status, used = os.wait4(process.pid, 0)
        process.returncode = status
    return out.strip(), used.ru_utime + used.ru_stime, used.ru_maxrss // 1024


def matching(graph, limit, workers):
    """The seconds that it takes to look for all matches."""
    begin = time.monotonic()
    ran(graph)
    made = time.monotonic()
    ran(graph + f"; matches {limit} {workers}" * TIMES)
    return (time.monotonic() - made - (made - begin)) / TIMES


def main():
    nodes = int(sys.argv[1]) if len(sys.argv) > 1 else 100_000
    failed = False
    for name, made in (("chain", chain(nodes)), ("tree", tree(nodes))):
        steps, root = made
        graph = f"search {root} {root}; {'; '.join(steps)}; seal | {LIMIT}; count"
        for asked in ("", "; look", "; round; count"):
            out, seconds, memory = ran(graph + asked)
            failed = failed or not re.search(r"\d", out)
            print(f"{name}{asked or '; made'}: {out[-80:]} | {seconds:.2f} s, {memory} MB", flush=True)
            found = re.search(r"open (\d+)", out)
            count = int(found[1]) if found else 0
        times = ", ".join(f"{matching(graph, count - 1, it):.2f} s by {it}" for it in (1, 2, 4))
        print(f"{name}; all {count} matches: {times}", flush=True)
    return 1 if failed else 0


if __name__ == "__main__":
    sys.exit(main())
