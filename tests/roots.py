#!/usr/bin/env python3
"""Compares the values of roots with the machine's runs, on random methods.

It works on the program that `cd crates/cases && rt run < stdin` leaves. A method is a few blocks of random actions
on ints, longs, an array, a field, a static field, calls, static ones and on a receiver, casts, type tests and an array of references, each of which
branches on to later blocks, or returns or throws. With --loops it has loops up to three deep, tested at the top, at the bottom, or entered at a test below,
which are left from inside too; each iteration counts itself in the static field. For random arguments, heaps, facts about types and
replies of one call the program says how the machine's run of the method ends (`machine`) and what the value of its
root is (`root`): the two lines must be the same, and None where the call has no reply. With --cleared it is the root of the
cleared graph, from which the tokens that end because of counted loops are gone (`cleared-root`): where the run ends, it must have that value too.

    tests/roots.py [--loops] [--cleared] [SEED [METHODS [ARGUMENTS]]]      by default 1, 2000 methods, 10 lists of arguments each
"""

import random
import subprocess
import sys
from concurrent.futures import ThreadPoolExecutor

from programs import ask

STEPS = 3000
# A value takes time that grows with the product of iterations and slots, so some methods are left out.
SECONDS = 5

# Of the constant pool's entries: the field f of A, an int, as a static one and as one of an object, and the method
# f of A, without parameters and result, of a class and of an interface; and the class B.
ENTRIES = "010001+'I+0C00050008+0900020009+010003+'()V+0C0005000B+0A0002000C+0B0002000C+010001+'B+07000F"
FIELD, CALL, INTERFACE_CALL = 0x0A, 0x0D, 0x0E
# The classes A and B, by their indices.
CLASSES = {"A": 0x02, "B": 0x10}

# The parameters: two ints, a long, an array of ints, an object and an array of objects, then locals of the method's own.
PARAMS = "IIJ[ILA%3B[LA%3B"
INTS, LONGS, ARRAY, OBJECT, OBJECTS = [0, 1, 7, 8], [2, 9], 4, 5, 6
LOCALS = 11
# A loop's counter, by its depth, and how often a loop's body has begun.
COUNTERS, COUNT = [11, 12, 13], 14

INT_OPS = [0x60, 0x64, 0x68, 0x78, 0x7A, 0x7C, 0x7E, 0x80, 0x82]
LONG_OPS = [0x61, 0x65, 0x69, 0x7F, 0x81, 0x83]
INT_DIVISIONS, LONG_DIVISIONS = [0x6C, 0x70], [0x6D, 0x71]
LONG_SHIFTS = [0x79, 0x7B, 0x7D]
UNARY = [0x74, 0x91, 0x92, 0x93]
# a static call, and one on the object by invokevirtual, invokespecial and invokeinterface
CALLS = [(0xB8, 0, CALL), (0x19, OBJECT, 0xB6, 0, CALL), (0x19, OBJECT, 0xB7, 0, CALL), (0x19, OBJECT, 0xB9, 0, INTERFACE_CALL, 1, 0)]
INT_TESTS = list(range(0x9F, 0xA5))
ZERO_TESTS = list(range(0x99, 0x9F))


class Block:
    """The bytes of a block, with the places of offsets to other blocks."""

    def __init__(self):
        self.code, self.jumps = [], []

    def put(self, *code):
        self.code += code

    def jump(self, op, target):
        self.jumps.append((len(self.code), target))
        self.put(op, 0, 0)


def push_int(r, b, known, depth=0):
    """Puts the code of an int on the stack."""
    kind = r.randrange(13) if depth < 3 else r.randrange(3)
    if kind == 0:
        n = r.randrange(-128, 128)
        b.put(0x10, n & 0xFF)
    elif kind <= 2:
        b.put(0x15, r.choice([k for k in INTS if k in known]))
    elif kind <= 6:
        push_int(r, b, known, depth + 1)
        push_int(r, b, known, depth + 1)
        b.put(r.choice(INT_DIVISIONS if r.random() < 0.1 else INT_OPS))
    elif kind == 7:
        push_int(r, b, known, depth + 1)
        b.put(r.choice(UNARY))
    elif kind == 8:
        push_long(r, b, known, depth + 1)
        b.put(0x88)
    elif kind == 9:
        push_long(r, b, known, depth + 1)
        push_long(r, b, known, depth + 1)
        b.put(0x94)
    elif kind == 10:
        b.put(*r.choice([(0xB2, 0, FIELD), (0x19, OBJECT, 0xB4, 0, FIELD), (0x19, ARRAY, 0xBE)]))
    elif kind == 11:
        push_object(r, b, known, depth + 1)
        b.put(0xC1, 0, r.choice(list(CLASSES.values())))
    else:
        b.put(0x19, ARRAY)
        push_index(r, b, known, depth + 1)
        b.put(0x2E)


def push_object(r, b, known, depth):
    """Puts the code of a reference on the stack: null, the object, the array of objects, one of its elements, or a cast of one of these."""
    kind = r.randrange(8)
    if kind == 0:
        b.put(0x01)
    elif kind <= 4:
        b.put(0x19, OBJECT)
    elif kind == 5:
        b.put(0x19, OBJECTS)
    elif kind == 6 or depth > 2:
        b.put(0x19, OBJECTS)
        push_index(r, b, known, depth + 1)
        b.put(0x32)
    else:
        push_object(r, b, known, depth + 1)
        b.put(0xC0, 0, r.choice(list(CLASSES.values())))


def push_index(r, b, known, depth):
    """Puts the code of an index, most often a small one."""
    if r.random() < 0.8:
        b.put(r.choice([0x03, 0x04, 0x05]))
    else:
        push_int(r, b, known, depth)


def push_long(r, b, known, depth=0):
    """Puts the code of a long on the stack."""
    kind = r.randrange(6) if depth < 3 else r.randrange(2)
    if kind <= 1:
        b.put(0x16, r.choice([k for k in LONGS if k in known]))
    elif kind == 2:
        push_int(r, b, known, depth + 1)
        b.put(0x85)
    elif kind == 3:
        push_long(r, b, known, depth + 1)
        push_int(r, b, known, depth + 1)
        b.put(r.choice(LONG_SHIFTS))
    else:
        push_long(r, b, known, depth + 1)
        push_long(r, b, known, depth + 1)
        b.put(r.choice(LONG_DIVISIONS if r.random() < 0.1 else LONG_OPS))


def act(r, b, known, counted=False):
    """Puts the code of one statement; where iterations are counted, it leaves the static field."""
    kind = r.randrange(12)
    if counted and kind == 6:
        kind = 7
    if kind <= 3:
        push_int(r, b, known)
        k = r.choice(INTS)
        b.put(0x36, k)
        known.add(k)
    elif kind == 4:
        push_long(r, b, known)
        k = r.choice(LONGS)
        b.put(0x37, k)
        known.add(k)
    elif kind == 5:
        b.put(0x84, r.choice([k for k in INTS if k in known]), r.randrange(256))
    elif kind == 6:
        push_int(r, b, known)
        b.put(0xB3, 0, FIELD)
    elif kind == 7:
        b.put(0x19, OBJECT)
        push_int(r, b, known)
        b.put(0xB5, 0, FIELD)
    elif kind == 8:
        b.put(0x19, ARRAY)
        push_index(r, b, known, 1)
        push_int(r, b, known)
        b.put(0x4F)
    elif kind == 9:
        b.put(0x19, OBJECTS)
        push_index(r, b, known, 1)
        push_object(r, b, known, 1)
        b.put(0x53)
    elif kind == 10:
        push_object(r, b, known, 1)
        b.put(0xC0, 0, r.choice(list(CLASSES.values())), *r.choice([(0x57,), (0x3A, OBJECT)]))
    else:
        b.put(*r.choice([(0x00,), (0x15, 0, 0x59, 0x58), (0x15, 0, 0x15, 1, 0x5F, 0x57, 0x57)] + CALLS))


def method(r):
    """The bytes of a random method's code, whose branches go forward."""
    count = r.randrange(1, 7)
    blocks = [Block() for _ in range(count + 1)]
    # what each block may read: what all blocks that lead to it know
    known = [None] * (count + 1)
    known[0] = {0, 1, 2, ARRAY, OBJECT, OBJECTS}

    def leads(k, names):
        known[k] = set(names) if known[k] is None else known[k] & names

    for k, b in enumerate(blocks):
        names = known[k]
        if names is None:
            names = {0, 1, 2, ARRAY, OBJECT, OBJECTS}
        for _ in range(r.randrange(4)):
            act(r, b, names)
        later = list(range(k + 1, count + 1))
        end = r.randrange(8)
        if not later or end == 0:
            if r.random() < 0.2:
                b.put(0x19, OBJECT, 0xBF)
            else:
                push_int(r, b, names)
                b.put(0xAC)
            continue
        if end == 1:
            targets = [r.choice(later)]
            b.jump(0xA7, targets[0])
        elif end == 2:
            targets = [r.choice(later) for _ in range(3)]
            push_int(r, b, names)
            b.put(0x10, 3, 0x70)
            b.jumps.append((len(b.code), targets))
            b.put(0xAB)
        elif end <= 5:
            targets = [r.choice(later), k + 1]
            push_int(r, b, names)
            push_int(r, b, names)
            b.jump(r.choice(INT_TESTS), targets[0])
        elif end == 6:
            targets = [r.choice(later), k + 1]
            push_int(r, b, names)
            b.jump(r.choice(ZERO_TESTS), targets[0])
        else:
            targets = [r.choice(later), k + 1]
            b.put(0x19, OBJECT)
            b.jump(r.choice([0xC6, 0xC7]), targets[0])
        for target in targets:
            leads(target, names)
    return assembled(blocks)


class Looped:
    """A method with loops: its blocks, each of which goes on to the next."""

    def __init__(self, r):
        self.r, self.blocks = r, [Block()]
        self.known = set(INTS + LONGS)

    def here(self):
        """A new block, by its number."""
        self.blocks.append(Block())
        return len(self.blocks) - 1

    def last(self):
        return self.blocks[-1]

    def jump_if(self):
        """A jump to a block that isn't known yet, where a test of two ints or of a reference holds."""
        b = self.last()
        if self.r.random() < 0.8:
            push_int(self.r, b, self.known, 2)
            push_int(self.r, b, self.known, 2)
            return b, self.r.choice(INT_TESTS)
        b.put(0x19, OBJECT)
        return b, self.r.choice([0xC6, 0xC7])

    def statements(self, depth, leave):
        """A few statements inside so many loops; `leave` has for each of these the jumps out of it."""
        for _ in range(self.r.randrange(1, 3)):
            kind = self.r.randrange(10 if depth == 0 else 14)
            if kind <= 3 or kind >= 10:
                act(self.r, self.last(), self.known, counted=True)
            elif kind <= 6:
                b, op = self.jump_if()
                self.here()
                act(self.r, self.last(), self.known, counted=True)
                b.jump(op, self.here())
            elif kind == 8 and 0 < depth < 3:
                self.loop(depth, leave)
            elif leave:
                b, op = self.jump_if()
                self.r.choice(leave).append((b, len(b.code), op))
                b.put(op, 0, 0)
                self.here()
            elif kind == 9 and self.r.random() < 0.3:
                b, op = self.jump_if()
                self.here()
                push_int(self.r, self.last(), self.known)
                self.last().put(0xAC)
                b.jump(op, self.here())

    def body(self, depth, leave):
        """What a loop does in an iteration, which is counted."""
        self.last().put(0x84, COUNT, 1, 0x15, COUNT, 0xB3, 0, FIELD)
        self.statements(depth + 1, leave)
        self.last().put(0x84, COUNTERS[depth], 0xFF)

    def loop(self, depth, leave):
        counter, mine = COUNTERS[depth], []
        self.last().put(0x10, self.r.randrange(4, 8) if depth == 0 else self.r.randrange(1, 4), 0x36, counter)
        kind = self.r.randrange(3)
        if kind == 0:
            test = self.here()
            b = self.last()
            b.put(0x15, counter)
            self.here()
            self.body(depth, leave + [mine])
            self.last().jump(0xA7, test)
            after = self.here()
            b.jump(0x9E, after)
        elif kind == 1:
            b = self.last()
            first = self.here()
            self.body(depth, leave + [mine])
            b.jump(0xA7, self.here())
            self.last().put(0x15, counter)
            self.last().jump(0x9D, first)
            after = self.here()
        else:
            first = self.here()
            self.body(depth, leave + [mine])
            self.last().put(0x15, counter)
            self.last().jump(0x9D, first)
            after = self.here()
        for block, place, op in mine:
            block.jumps.append((place, after))


def looped(r):
    """The bytes of a random method's code with loops."""
    m = Looped(r)
    b = m.last()
    b.put(0x1A, 0x36, INTS[2], 0x1B, 0x36, INTS[3], 0x20, 0x37, LONGS[1], 0x03, 0x36, COUNT)
    m.statements(0, [])
    m.loop(0, [])
    m.statements(0, [])
    push_int(r, m.last(), m.known)
    m.last().put(0xAC)
    return assembled(m.blocks)


def assembled(blocks):
    """The code of blocks one after another, with the offsets of their jumps."""
    starts, at = [], 0
    for b in blocks:
        starts.append(at)
        at += len(b.code)
        for place, targets in b.jumps:
            if b.code[place] == 0xAB:
                at += -(at - len(b.code) + place + 1) % 4 + 8 + 8 * (len(targets) - 1)
    code = []
    for start, b in zip(starts, blocks):
        assert len(code) == start
        for k, byte in enumerate(b.code):
            found = [t for place, t in b.jumps if place == k]
            code.append(byte)
            if not found:
                continue
            here = len(code) - 1
            if byte == 0xAB:
                code += [0] * (-len(code) % 4)
                words = [starts[found[0][0]] - here, len(found[0]) - 1]
                for key, target in enumerate(found[0][1:]):
                    words += [key, starts[target] - here]
                for word in words:
                    code += list((word & 0xFFFFFFFF).to_bytes(4, "big"))
            else:
                offset = starts[found[0]] - here
                b.code[k + 1 : k + 3] = list((offset & 0xFFFF).to_bytes(2, "big"))
    return bytes(code)


def facts(r):
    """What is known of types at the start: of most objects of which class they are, and whether they fit the array of objects."""
    told = lambda symbol, objects, args: f"returns {symbol} ({objects})Z {r.choice([0, 1, 1, 1, 1, 2])} static:A:x:I 0 {args}"
    one = "Ljava/lang/Object%3B"
    found = []
    for n in (4, 5, 7):
        found += [told(f"{name} %FFis", one, f"{n}R") for name in CLASSES if r.random() < 0.7]
        if r.random() < 0.8:
            found.append(told("%FFarray %FFfits", one + one, f"5R {n}R"))
    return found


def setting(r):
    """Arguments, and what is so of the world and of the heap."""
    ints = [r.choice([0, 1, -1, 5, 2**31 - 1, -(2**31), r.randrange(-(2**31), 2**31)]) for _ in range(2)]
    long = r.choice([0, 1, -1, 2**63 - 1, -(2**63), r.randrange(-(2**63), 2**63)])
    array, thing, things = (0 if r.random() < 0.05 else n for n in (3, 4, 5))
    args = f"{ints[0]} {ints[1]} {long}L {array}R {thing}R {things}R"
    steps = [f"length {n} {r.choice([0, 2, 3, 3, 3, 3, 3, 3])}" for n in (3, 5)] + ["literal %FFcast 8", "literal %FFstore 9"]
    for place in ("static:A:f:I", "field:4:A:f:I", "int:3:0", "int:3:1"):
        if r.random() < 0.5:
            steps.append(f"put {place} {r.randrange(-9, 10)}")
    for place in ("ref:5:0", "ref:5:1"):
        if r.random() < 0.5:
            steps.append(f"put {place} {r.choice([4, 5, 7])}")
    steps += facts(r)
    if r.random() < 0.8:
        form = r.choice(["", "%FFv", "%FFs", "%FFi"])
        callee, given = (f"A f{form} (Ljava/lang/Object%3B)V", f" {thing}R") if form else ("A f ()V", "")
        left = f"static:A:f:I {r.randrange(-9, 10)}"
        steps.append(r.choice([f"throws {callee} {r.randrange(1, 9)}{given}", f"returns {callee} - {left}{given}"]))
    steps += [f"get {place}" for place in ("static:A:f:I", "field:4:A:f:I", "int:3:0", "int:3:1", "int:3:2", "ref:5:0", "ref:5:1")]
    return args, "; ".join(steps)


def answers(call, lines):
    """How the machine's run ends and what the root's value is by this call, for each line, or None where that takes too long."""
    try:
        found = ask([f"{word} {line}" for line in lines for word in ("machine", call)], seconds=SECONDS)
    except subprocess.TimeoutExpired:
        return None
    return list(zip(found[::2], found[1::2]))


def iterations(run):
    """How often a loop's body has begun, by the static field at the end of a run."""
    texts = run.split("; ")
    return int(texts[1]) if len(texts) > 1 and texts[1].lstrip("-").isdigit() else 0


def main():
    loops, cleared = "--loops" in sys.argv, "--cleared" in sys.argv
    given = [int(word) for word in sys.argv[1:] if not word.startswith("--")]
    seed, count, lists = given + [1, 2000, 10][len(given):]
    r = random.Random(seed)
    lines = []
    for _ in range(count):
        code = looped(r) if loops else method(r)
        text = f"pool=9,{ENTRIES} f,({PARAMS})I,0009,40,{LOCALS + 4 * loops},{code.hex().upper()}"
        for _ in range(lists):
            args, steps = setting(r)
            lines.append(f"{STEPS} {args}; {text}; {steps}")
    with ThreadPoolExecutor(max_workers=3) as pool:
        groups = [lines[k:k + lists] for k in range(0, len(lines), lists)]
        found = list(pool.map(lambda group: answers("cleared-root" if cleared else "root", group), groups))
    left = sum(1 for pairs in found if pairs is None)
    lines = [line for group, pairs in zip(groups, found) if pairs is not None for line in group]
    pairs = [pair for pairs in found if pairs is not None for pair in pairs]
    same = lambda m, v: m == v or (m == "running" and (cleared or v == "None"))
    wrong = [(line, pair) for line, pair in zip(lines, pairs) if not same(*pair)]
    for line, (run, value) in wrong[:5]:
        print(line, "|", run, "|", value)
    kinds = {}
    for run, _ in pairs:
        kind = run.split("(")[0].split(" at ")[0]
        kinds[kind] = kinds.get(kind, 0) + 1
    print(f"seed {seed}: {len(pairs)} of {len(lines)} runs of {count - left} methods, {len(wrong)} differ; {kinds}")
    if left:
        print(f"{left} methods left out, whose values take more than {SECONDS} seconds")
    if loops:
        many = sum(1 for run, _ in pairs if iterations(run) > 3)
        print(f"{many} end after more than three iterations")
    if cleared:
        print(f"{sum(1 for run, value in pairs if run == 'running' and value != 'None')} have a value though the run hasn't ended")
    sys.exit(1 if wrong or len(pairs) != len(lines) else 0)


if __name__ == "__main__":
    main()
