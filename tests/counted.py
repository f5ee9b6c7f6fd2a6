#!/usr/bin/env python3
"""Compares the values of cleared roots with the machine's runs, on random methods with loops of which many are counted.

It works on the program that `cd crates/cases && rt run < stdin` leaves. A method has loops up to two deep and one after another, whose
counter goes up by 1 mostly, and else by 2 or from the left, to a bound that is a number, a parameter or what was computed before; some
change the bound. What the loops compute is used at the end, or isn't. For random arguments the program says how the machine's run of the method
ends (`machine`) and what the value of the root of its cleared graph is (`cleared-root`): where the run ends, the two must be the
same. It counts the methods in which some loop is counted, and the values of runs that hadn't ended.

    tests/counted.py [SEED [METHODS [ARGUMENTS [STEPS]]]]      by default 1, 1000 methods, 10 lists of arguments each, 300 steps, and as much fuel
"""

import random
import subprocess
import sys
from concurrent.futures import ThreadPoolExecutor

from programs import ask

# A value takes time that grows with the product of iterations and slots, so some methods are left out. Methods are asked of in groups, and
# those of a group that takes longer one after another.
SECONDS, GROUP = 5, 50

LOAD, STORE, PUSH, INCREASE, RETURN = 0x15, 0x36, 0x11, 0x84, 0xAC
AT_LEAST, LESS, JUMP = 0xA2, 0xA1, 0xA7
ADD, SUBTRACT, MULTIPLY, AND = 0x60, 0x64, 0x68, 0x7E
PARAMS, VALUES = 2, 3


class Method:
    """The code of a method, whose locals are the parameters, some values, and the counters of its loops."""

    def __init__(self, r):
        self.r, self.code, self.counters = r, [], 0

    def local(self):
        return self.r.randrange(PARAMS + VALUES)

    def push(self, number):
        self.code += [PUSH, *number.to_bytes(2, "big", signed=True)]

    def operand(self):
        if self.r.random() < 0.3:
            self.push(self.r.randrange(-2, 12))
        else:
            self.code += [LOAD, self.local()]

    def assign(self):
        self.operand()
        self.operand()
        self.code += [self.r.choice([ADD, SUBTRACT, MULTIPLY, AND]), STORE, PARAMS + self.r.randrange(VALUES)]

    def offset(self, place, target):
        self.code[place + 1 : place + 3] = (target - place).to_bytes(2, "big", signed=True)

    def step(self, counter):
        kind = self.r.random()
        if kind < 0.7:
            self.code += [INCREASE, counter, 1]
        elif kind < 0.85:
            self.push(1)
            self.code += [LOAD, counter, ADD, STORE, counter]
        else:
            self.code += [INCREASE, counter, 2]

    def loop(self, depth):
        counter = PARAMS + VALUES + self.counters
        self.counters += 1
        self.operand()
        self.code += [STORE, counter]
        bound = self.local()
        start = len(self.code)
        is_tested_first = self.r.random() < 0.7
        if is_tested_first:
            self.code += [LOAD, counter, LOAD, bound]
            test = len(self.code)
            self.code += [AT_LEAST, 0, 0]
        for _ in range(self.r.randrange(2)):
            self.statement(depth + 1)
        self.step(counter)
        if is_tested_first:
            back = len(self.code)
            self.code += [JUMP, 0, 0]
            self.offset(back, start)
            self.offset(test, len(self.code))
        else:
            self.code += [LOAD, counter, LOAD, bound]
            back = len(self.code)
            self.code += [LESS, 0, 0]
            self.offset(back, start)

    def statement(self, depth):
        if depth < 2 and self.counters < 5 and self.r.random() < 0.6:
            self.loop(depth)
        else:
            self.assign()

    def text(self):
        for local in range(PARAMS, PARAMS + VALUES):
            self.push(self.r.randrange(-2, 12))
            self.code += [STORE, local]
        self.loop(0)
        for _ in range(self.r.randrange(3)):
            self.statement(0)
        self.operand()
        self.code.append(RETURN)
        return f"f,(II)I,0009,4,{PARAMS + VALUES + self.counters},{bytes(self.code).hex().upper()}"


def argument(r):
    return r.choice([0, 1, -1, 2**31 - 1, -(2**31), *(r.randrange(-3, 15) for _ in range(6))])


def lines(name, method, lists, steps):
    """What is asked of a method: its counted nodes, and of each list of arguments how the run ends and what the value of the cleared root is."""
    asked = [f"make {name} {method}", f"counted ${name} 0 ${name} 0"]
    for args in lists:
        asked += [f"machine {steps} {args}; {method}", f"cleared-root {steps} {args}; {method}"]
    return asked


def answers(group):
    """The answers on the methods of a group, None for one whose values take too long."""
    asked = [lines(*it) for it in group]
    try:
        said = iter(ask([line for it in asked for line in it], seconds=SECONDS))
    except subprocess.TimeoutExpired:
        return [None] if len(group) == 1 else [answers([it])[0] for it in group]
    found = [[next(said) for _ in it] for it in asked]
    return [(it[1], list(zip(it[2::2], it[3::2]))) for it in found]


def main():
    given = [int(word) for word in sys.argv[1:]]
    seed, count, arguments, steps = given + [1, 1000, 10, 300][len(given):]
    r = random.Random(seed)
    methods = [Method(r).text() for _ in range(count)]
    lists = [[f"{argument(r)} {argument(r)}" for _ in range(arguments)] for _ in methods]
    named = [(f"m{k}", method, args, steps) for k, (method, args) in enumerate(zip(methods, lists))]
    with ThreadPoolExecutor(max_workers=3) as pool:
        groups = [named[k:k + GROUP] for k in range(0, count, GROUP)]
        found = [it for answered in pool.map(answers, groups) for it in answered]
    left = sum(1 for it in found if it is None)
    counted = sum(1 for it in found if it is not None and it[0] != "[]")
    rows = [(m, a, pair) for m, args, it in zip(methods, lists, found) if it is not None for a, pair in zip(args, it[1])]
    wrong = [row for row in rows if row[2][0] != "running" and row[2][0] != row[2][1]]
    for method, args, (run, value) in wrong[:5]:
        print(args, "|", method, "|", run, "|", value)
    running = [value for _, _, (run, value) in rows if run == "running"]
    print(f"seed {seed}: {len(rows)} runs of {count - left} methods, of which {counted} have counted loops, {len(wrong)} differ")
    print(f"{len(running)} runs had not ended, and {sum(1 for it in running if it != 'None')} of them have a value")
    if left:
        print(f"{left} methods left out, whose values take more than {SECONDS} seconds")
    sys.exit(1 if wrong or not counted else 0)


if __name__ == "__main__":
    main()
