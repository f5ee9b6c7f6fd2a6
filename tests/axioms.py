#!/usr/bin/env python3
"""Compares the two sides of each axiom at random instances, in random worlds and at four random indices.

It works on the program that `cd crates/cases && rt run < stdin` leaves. The program says what the axioms are (`axioms`,
`axiom`), and of nodes made for an instance whether they are one (`instance`), which must be so, and what both sides are
(`den`, and `at` for heaps), which must be the same, or neither has a value.

    tests/axioms.py [SEED [INSTANCES]] [--only NUMBER ..] [--no-conditions] [--jobs N]

By default the seed is 1, with 20000 instances of each axiom. With --no-conditions the axioms that have conditions are
taken without them: each must differ somewhere, and the last line has those that do not.
"""

import argparse
import itertools
import multiprocessing
import random
import re
import sys

from programs import ask

IN_A_LINE, FUEL, MORE_FUEL = 20, 40, 120

# The operations: the sorts of the kids and of the value; s is any sort.
INT_OPS = "iadd isub imul idiv irem ishl ishr iushr iand ior ixor ieq ilt".split()
LONG_OPS = "ladd lsub lmul ldiv lrem".split()
LONG_SHIFTS = "lshl lshr lushr".split()
LONG_BITS = "land lor lxor".split()
SORTS = {op: ("II", "I") for op in INT_OPS}
SORTS |= {op: ("I", "I") for op in "ineg i2b i2c i2s".split()}
SORTS |= {op: ("LL", "L") for op in LONG_OPS + LONG_BITS}
SORTS |= {op: ("LI", "L") for op in LONG_SHIFTS}
SORTS |= {"i2l": ("I", "L"), "leq": ("LL", "I"), "lcmp": ("LL", "I"), "lneg": ("L", "L"), "l2i": ("L", "I")}
SORTS |= {"succ": ("N", "N"), "thrown": ("A", "F"), "isclear": ("F", "I"), "both": ("TT", "T"), "phi": ("Iss", "s")}
SORTS |= {"aeq": ("AA", "I"), "length": ("A", "I"), "zero": ("", "N"), "unit": ("", "T"), "this": ("", "A"), "null": ("", "A")}
SORTS |= {"theta": ("ss", "s"), "eval": ("sN", "s"), "pass": ("I", "N"), "shift": ("s", "s")}
NUMBERED = dict(enumerate("succ thrown isclear both phi".split(), 14))
NUMBERED |= dict(enumerate(INT_OPS + "ineg i2b i2c i2s i2l".split(), 30))
NUMBERED |= dict(enumerate(LONG_OPS + LONG_SHIFTS + LONG_BITS + "leq lcmp lneg l2i aeq".split(), 50))
NUMBERED |= dict(enumerate("getstatic putstatic getfield putfield load store length".split(), 70))
NUMBERED |= dict(enumerate("callend callres callfault callheap".split(), 80))

# What the names of operations on ints and on longs have in common.
NAMES = "add sub mul div rem shl shr ushr and or xor eq lt neg".split()

# Fields by class, name and descriptor; D f I may lie in the class C. Methods, with the sorts of their arguments and results.
FIELDS = ["C f I", "D f I", "C g I", "C f B", "C f C", "C f S", "C f Z", "C f J", "C f LC%3B", "C g LC%3B"]
METHODS = {"P k (I)I": ("I", "I"), "P m (JI)J": ("LI", "L"), "P v ()V": ("", None), "P a (LC%3B)LC%3B": ("A", "A")}
KINDS = {"int": "I", "long": "L", "ref": "A", "byte": "I", "char": "I", "short": "I"}
NARROWS = {"B": "i2b", "C": "i2c", "S": "i2s", "char": "i2c", "short": "i2s"}
PLACES = [f"static:{f.replace(' ', ':')}" for f in FIELDS]
PLACES += [f"field:{o}:{f.replace(' ', ':')}" for o in (0, 1, 3) for f in FIELDS]
PLACES += [f"{k}:{a}:{i}" for k in KINDS for a in (0, 3) for i in (0, 1)]
INTS = [0, 1, -1, 2, 3, 31, 32, 33, 63, 64, 255, 2**31 - 1, -(2**31)]
LONGS = [0, 1, -1, 2, 3, 2**31, -(2**31), 2**32, 2**63 - 1, -(2**63)]


def field_sort(field):
    return {"J": "L", "L": "A"}.get(field.split()[2][0], "I")


def wrapped(n, bits):
    return (n + 2 ** (bits - 1)) % 2**bits - 2 ** (bits - 1)


def value(op, *kids):
    """The value of an operation on numbers, and its sort."""
    takes, gives = SORTS[op]
    bits = 32 if takes[0] == "I" else 64
    a, b = (kids + (0,))[:2]
    quotient = 0 if b == 0 else abs(a) // abs(b) * (1 if (a < 0) == (b < 0) else -1)
    shift = b % bits
    name = {"l2i": "l2i", "lcmp": "cmp"}.get(op, op[1:] if op[1:] in NAMES else op)
    n = {
        "add": a + b, "sub": a - b, "mul": a * b, "div": quotient, "rem": 0 if b == 0 else a - quotient * b,
        "shl": a << shift, "shr": a >> shift, "ushr": (a % 2**bits) >> shift, "and": a & b, "or": a | b, "xor": a ^ b,
        "eq": int(a == b), "lt": int(a < b), "neg": -a, "cmp": (a > b) - (a < b), "i2b": wrapped(a, 8), "i2c": a % 2**16,
        "i2s": wrapped(a, 16), "i2l": a, "l2i": a,
    }[name]
    return wrapped(n, 32 if gives == "I" else 64), gives


class Line:
    """A line of steps on one graph: a base with thetas, a world, and the nodes and questions of some instances."""

    def __init__(self, r):
        self.r, self.steps, self.wanted, self.ids, self.sorts = r, [], {}, {}, []
        self.thetas = []
        self.base()
        self.ask("seal", "true")
        self.world()

    def ask(self, step, answer=None):
        """A step, with the answer that it must have; its place."""
        if answer is not None:
            self.wanted[len(self.steps)] = answer
        self.steps.append(step)
        return len(self.steps) - 1

    def new(self, text, sort, step=None):
        n = self.ids[text] = len(self.sorts)
        self.sorts.append(sort)
        self.ask(step or text, str(n))
        return n

    def node(self, op, *kids):
        """The number of a node, which is made if there is none."""
        text = " ".join([op, *map(str, kids)])
        return self.ids[text] if text in self.ids else self.new(text, self.sort(op, kids))

    def sort(self, op, kids):
        name, *words = op.split()
        if name in ("int", "long", "param"):
            return {"int": "I", "long": "L"}.get(name) or words[1]
        if name == "literal":
            return "A"
        if name in ("heap0", "putstatic", "putfield", "store", "callheap"):
            return "H"
        if name in ("getstatic", "getfield"):
            return field_sort(" ".join(words))
        if name == "load":
            return KINDS[words[0]]
        if name == "callres":
            return METHODS[" ".join(words)][1]
        if name in ("never", "callend"):
            return "T"
        if name in ("clear", "fnull", "farith", "findex", "callfault"):
            return "F"
        gives = SORTS[name][1]
        return self.sorts[kids[-1] if name in ("phi", "theta") else kids[0]] if gives == "s" else gives

    def base(self):
        """Thetas that count, write and choose as they go round; each cycle is of one depth."""
        zero, one, heap = self.node("int 0"), self.node("int 1"), self.node("heap0")
        array, null = self.node("param 4 A"), self.node("null")
        for d in (1, 2):
            count = self.new(f"count {d}", "I", f"begin {d} I")
            self.tie(d, count, zero, self.node("iadd", count, one))
            power = self.new(f"power {d}", "L", f"begin {d} L")
            self.tie(d, power, self.node("param 3 L"), self.node("lmul", power, self.node("long 3")))
            steps = self.new(f"steps {d}", "N", f"begin {d} N")
            self.tie(d, steps, self.node("zero"), self.node("succ", steps))
            writes = self.new(f"writes {d}", "H", f"begin {d} H")
            put = self.node("store int", writes, array, one, count) if d == 1 else self.node("putstatic C f I", writes, count)
            self.tie(d, writes, heap, put)
            other = self.new(f"other {d}", "A", f"begin {d} A")
            self.tie(d, other, null, array)
            flips = self.new(f"flips {d}", "I", f"begin {d} I")
            self.tie(d, flips, self.node("param 0 I"), self.node("isub", one, flips))

    def tie(self, d, theta, first, second):
        self.ids[f"theta {d} {first} {second}"] = theta
        self.thetas.append((d, theta))
        self.ask(f"tie {theta} {first} {second}", "tied")

    def world(self):
        r = self.r
        args = [str(r.choice([0, 1, 2, 3, r.choice(INTS), r.randrange(-(2**31), 2**31)])) for _ in range(3)]
        args += [f"{r.choice([*LONGS, r.randrange(-(2**63), 2**63)])}L", f"{r.choice([0, 1, 3])}R", f"{r.choice([0, 1, 3])}R"]
        self.ask("say args " + " ".join(args), "-")
        self.ask(f"say length 3 {r.randrange(4)}", "-")
        for step in ("boolean 3", "home D f I C", "literal hi 3"):
            if r.random() < 0.5:
                self.ask("say " + step, "-")
        for place in r.sample(PLACES, 12):
            self.ask(f"say put {place} {r.choice(INTS)}", "-")
        reply = r.choice([f"throws P k (I)I 3 {args[0]}", f"returns P k (I)I {r.choice(INTS)} static:C:f:I 8 {args[0]}"])
        for step in (reply, "returns P v ()V - int:3:0 5"):
            if r.random() < 0.7:
                self.ask("say " + step, "-")

    def depth(self):
        return self.r.choice([1, 1, 2])

    def gen(self, sort, size, settled=False, banned=0):
        """A random node of a sort: settled if that is wanted, and in which no banned depth is free."""
        r = self.r
        if size <= 0 or r.random() < 0.15:
            return self.leaf(sort, settled, banned)
        more = lambda s, b=banned: self.gen(s, size - 1, settled, b)
        kind = r.randrange(12)
        if kind == 0:
            return self.node("phi", more("I"), more(sort), more(sort))
        if kind == 1 and (d := self.depth()) != banned:
            return self.node(f"theta {d}", more(sort), more(sort))
        if kind == 2:
            d = self.depth()
            return self.node(f"eval {d}", more(sort, 0 if d == banned else banned), more("N"))
        if kind == 3:
            return self.node(f"shift {self.depth()}", more(sort))
        if sort == "N":
            return self.count(size, settled, banned)
        op, sorts = self.operation(sort, settled)
        return self.node(op, *[more(s) for s in sorts])

    def leaf(self, sort, settled, banned):
        r = self.r
        found = [n for d, n in self.thetas if self.sorts[n] == sort and d != banned]
        if found and r.random() < 0.4:
            return r.choice(found)
        if sort == "T" and not settled and r.random() < 0.2:
            return self.node("never")
        return self.node({
            "I": r.choice([f"int {r.choice(INTS)}", f"param {r.randrange(3)} I"]),
            "L": r.choice([f"long {r.choice(LONGS)}", "param 3 L"]),
            "A": r.choice(["null", "this", "param 4 A", "param 5 A", "literal hi"]),
            "N": "zero", "T": "unit", "H": "heap0", "F": r.choice(["clear", "fnull", "farith", "findex"]),
        }[sort])

    def count(self, size, settled, banned):
        """A random count: a successor, or a pass, whose condition most often becomes true."""
        r = self.r
        if settled or r.random() < 0.4:
            return self.node("succ", self.gen("N", size - 1, settled, banned))
        d = self.depth()
        if r.random() < 0.3:
            return self.node(f"pass {d}", self.gen("I", 1, True, 0 if d == banned else banned))
        return self.node(f"pass {d}", self.node("ilt", self.node(f"int {r.randrange(-1, 4)}"), self.ids[f"count {d}"]))

    def operation(self, sort, settled):
        """An operation that gives a sort, and the sorts of its kids."""
        r = self.r
        field, kind, method = r.choice(FIELDS), r.choice(list(KINDS)), r.choice(list(METHODS))
        takes = "H" + METHODS[method][0]
        if sort == "H":
            v = field_sort(field)
            puts = [(f"putstatic {field}", "H" + v), (f"putfield {field}", "HA" + v), (f"store {kind}", "HAI" + KINDS[kind])]
            return r.choice([*puts, (f"callheap {method}", takes)])
        if sort == "F":
            return r.choice([("thrown", "A"), (f"callfault {method}", takes)])
        if sort == "T":
            return r.choice([("both", "TT")] if settled else [("both", "TT"), (f"callend {method}", takes)])
        reads = [("getstatic " + f, "H") for f in FIELDS if field_sort(f) == sort]
        reads += [("getfield " + f, "HA") for f in FIELDS if field_sort(f) == sort]
        reads += [(f"load {k}", "HAI") for k, s in KINDS.items() if s == sort]
        reads += [(f"callres {m}", "H" + t) for m, (t, s) in METHODS.items() if s == sort]
        plain = [(op, kids) for op, (kids, gives) in SORTS.items() if gives == sort and kids and "s" not in kids]
        return r.choice(plain if plain and r.random() < 0.7 else reads)


def parse(text):
    """A side of an equation, as a name and its kids."""
    words = re.findall(r"-?\d+L?|[A-Za-z]\w*|[(),]", text)

    def term():
        name, kids = words.pop(0), []
        if words and words[0] == "(":
            while words[0] != ")":
                words.pop(0)
                kids.append(term())
            words.pop(0)
        return name, kids

    return term()


def parse_all(text):
    """The sides of an equation, with its conditions."""
    left, right = text.split(" = ")
    right, *conditions = re.split(r" (?=[\[{])", right)
    return left, right, conditions


class Instance:
    """A random instance of an axiom in a line: its choices, and the nodes of its sides."""

    def __init__(self, line, equation, free):
        self.line, self.r, (left, right, self.conditions) = line, line.r, equation
        self.free = free
        self.d = line.depth()
        self.choose_names()
        family = re.search(r"operation (\d+) of", left)
        if family:
            self.family(int(family[1]), left.startswith("eval"))
        else:
            self.single(parse(left), parse(right))

    def has(self, condition):
        return condition in self.conditions and not self.free

    def choose_names(self):
        r = self.r
        while True:
            self.s, self.k = r.choices(FIELDS, k=2), r.choices(list(KINDS), k=2)
            if self.has("{s0,s1 differ}") and self.s[0].split()[1:] == self.s[1].split()[1:]:
                continue
            if self.has("{K0,K1 differ}") and self.k[0] == self.k[1] or self.has("{K0 not Byte}") and self.k[0] == "byte":
                continue
            return

    def named(self, name):
        """The operation that a name stands for, with the sorts of its kids and of its value."""
        name, _, which = name.partition("_")
        if which == "d":
            return f"{name} {self.d}", *SORTS[name]
        if which and which[0] == "s":
            field = self.s[int(which[1:])]
            v = field_sort(field)
            sorts = {"getstatic": ("H", v), "putstatic": ("H" + v, "H"), "getfield": ("HA", v), "putfield": ("HA" + v, "H")}
            return f"{name} {field}", *sorts[name]
        if which:
            kind = self.k[int(which[1:])]
            return f"{name} {kind}", *{"load": ("HAI", KINDS[kind]), "store": ("HAI" + KINDS[kind], "H")}[name]
        return name, *SORTS[name]

    def infer(self, term, sort, sorts):
        """The sort of a term that has this sort, if it is known; puts those of its variables into sorts."""
        name, kids = term
        if re.match(r"-?\d", name):
            return "L" if name.endswith("L") else "I"
        if re.match(r"[xk]\d", name):
            sorts[name] = sorts.get(name) or sort
            return sorts[name]
        _, takes, gives = self.named(name)
        any_sort = sort if gives == "s" else None
        for _ in range(2):
            for kid, take in zip(kids, takes):
                found = self.infer(kid, any_sort if take == "s" else take, sorts)
                if take == "s":
                    any_sort = any_sort or found
        return any_sort if gives == "s" else gives

    def single(self, left, right):
        sorts = {}
        found = self.infer(left, None, sorts)
        if not found:
            self.infer(left, self.r.choice("ILANFTH"), sorts)
        for name in sorts:
            sorts[name] = sorts[name] or self.r.choice("ILANFTH")
        order = sorted(sorts, key=lambda name: int(name[1:]))
        self.known, self.numbers = {}, {}
        for name in order:
            self.known[name] = self.constant(name, sorts[name]) if name[0] == "k" else self.variable(name, sorts[name])
        self.nodes = [self.known[name] for name in order]
        self.left, self.right = self.build(left), self.build(right)

    def variable(self, name, sort):
        if self.free and f"[{name}]" in self.conditions and self.r.random() < 0.3:
            return self.endless(sort)
        banned = self.d if self.has(f"{{d:{name}}}") else 0
        return self.line.gen(sort, self.r.choice([0, 0, 1, 1, 2, 3]), self.has(f"[{name}]"), banned)

    def endless(self, sort):
        """A node without a value."""
        never = self.line.node("pass 1", self.line.node("int 0"))
        return self.line.node("eval 1", self.line.leaf(sort, True, 0), never)

    def constant(self, name, sort):
        r, taken = self.r, []
        if any("k" in c and name in c for c in self.conditions) and not self.free:
            taken = list(self.numbers.values())
        choices = [n for n in (INTS if sort == "I" else LONGS) + [r.randrange(-(2**31), 2**31)] if n not in taken]
        self.numbers[name] = r.choice(choices)
        return self.line.node(f"{'int' if sort == 'I' else 'long'} {self.numbers[name]}")

    def build(self, term):
        name, kids = term
        if name in self.known:
            return self.known[name]
        if re.match(r"-?\d", name):
            return self.line.node(f"long {name[:-1]}" if name.endswith("L") else f"int {name}")
        if name == "fold":
            return self.fold(*kids[0])
        if name.startswith("nar_"):
            return self.narrowed(name[4:], self.build(kids[0]))
        return self.line.node(self.named(name)[0], *map(self.build, kids))

    def fold(self, op, kids):
        n, sort = value(op, *[self.numbers.get(k, 0) if k in self.numbers else int(k.rstrip("L")) for k, _ in kids])
        return self.line.node(f"{'int' if sort == 'I' else 'long'} {n}")

    def narrowed(self, which, kid):
        t = self.s[0].split()[2] if which == "s0" else self.k[0]
        if t == "Z":
            return self.line.node("iand", kid, self.line.node("int 1"))
        return self.line.node(NARROWS[t], kid) if t in NARROWS else kid

    def family(self, number, is_eval):
        """shift or eval over the operation of this number."""
        line, r, op = self.line, self.r, NUMBERED[number]
        if number >= 80:
            method = r.choice([m for m in METHODS if METHODS[m][1] or op != "callres"])
            op, takes = f"{op} {method}", "H" + METHODS[method][0]
        elif op in ("load", "store"):
            op, takes, _ = self.named(f"{op}_K0")
        elif number in range(70, 74):
            op, takes, _ = self.named(f"{op}_s0")
        else:
            takes = SORTS[op][0].replace("s", r.choice("ILANFTH"))
        kids = [line.gen(s, r.choice([0, 1, 1, 2])) for s in takes]
        over, last = (f"eval {self.d}", [line.gen("N", 2)]) if is_eval else (f"shift {self.d}", [])
        self.left = line.node(over, line.node(op, *kids), *last)
        self.right = line.node(op, *[line.node(over, kid, *last) for kid in kids])
        self.nodes = kids + last


def questions(line, instance, number):
    """Asks whether the nodes are an instance, and for the values of both sides; the places of the answers."""
    r, asked = line.r, []
    nodes = ",".join(map(str, instance.nodes)) or "-"
    # the first of a line on a prepared copy too, the others with the node of 0 assumed to end, which asks for none
    first = not any(step.startswith("instance") for step in line.steps)
    is_one = line.ask(f"instance {number} {instance.left} {instance.right} {nodes}{'' if first else ' 0'}")
    for _ in range(4):
        index = " ".join(str(r.choice([0, 0, 1, 2, 3, 5])) for _ in range(2))
        words = [f"at {p}" for p in r.sample(PLACES, 5)] if line.sorts[instance.left] == "H" else ["den"]
        for word in words:
            asked.append([line.ask(f"{word} {n} {{fuel}} {index}") for n in (instance.left, instance.right)])
    return is_one, asked


def answers(lines, fuel):
    """What the program answers to the steps of each line with this fuel."""
    given = ["graph " + "; ".join(line.steps).replace("{fuel}", str(fuel)) for line in lines]
    found = [text.split("; ") for text in ask(given)]
    for line, said in zip(lines, found):
        wrong = [k for k, a in line.wanted.items() if len(said) != len(line.steps) or said[k] != a]
        if wrong:
            sys.exit(f"step {wrong[0]} of: graph {'; '.join(line.steps)}\nanswers: {'; '.join(said)}")
    return found


def with_more_fuel(line, pair):
    """The two answers with more fuel, where one side alone has a value with little."""
    short = Line.__new__(Line)
    questions = {step for step in range(len(line.steps)) if "{fuel}" in line.steps[step]}
    kept = [k for k in range(len(line.steps)) if k in pair or k not in questions]
    short.steps, short.wanted = [line.steps[k] for k in kept], {}
    said = answers([short], MORE_FUEL)[0]
    return [said[kept.index(k)] for k in pair]


def compared(line, said, pairs):
    """The pairs of answers that differ, and how many have no value."""
    differ, none = [], 0
    for pair in pairs:
        found = [said[k] for k in pair]
        none += found == ["None", "None"]
        if found[0] != found[1] and "None" in found:
            found = with_more_fuel(line, pair)
        if found[0] != found[1]:
            differ.append([line.steps[k] for k in pair] + found)
    return differ, none


def lines_of(number, equation, r, count, free):
    """Lines with random instances of an axiom, and what each asks of them."""
    for start in range(0, count, IN_A_LINE):
        line = Line(r)
        some = range(min(IN_A_LINE, count - start))
        yield line, [questions(line, Instance(line, equation, free), number) for _ in some]


def trial(job):
    """Compares the sides of one axiom: its number, and how many pairs there are, have no value and differ."""
    number, text, seed, count, free = job
    lines = lines_of(number, parse_all(text), random.Random(f"{seed} {number}"), count, free)
    pairs = none = wrong = differ = 0
    while part := list(itertools.islice(lines, 20)):
        for (line, asked), said in zip(part, answers([line for line, _ in part], FUEL)):
            for is_one, values in asked:
                found, without = compared(line, said, values)
                pairs, none, differ = pairs + len(values), none + without, differ + bool(found)
                if free:
                    if found:
                        return number, pairs, none, wrong, differ
                    continue
                if said[is_one] not in ("(true, true)", "true"):
                    wrong += 1
                    found.append([line.steps[is_one], said[is_one]])
                if found:
                    print(f"{number}: {found[0]} in graph {'; '.join(line.steps)}")
    return number, pairs, none, wrong, differ


def main():
    reader = argparse.ArgumentParser()
    reader.add_argument("seed", type=int, nargs="?", default=1)
    reader.add_argument("instances", type=int, nargs="?", default=20000)
    reader.add_argument("--only", type=int, nargs="*")
    reader.add_argument("--no-conditions", action="store_true")
    reader.add_argument("--jobs", type=int, default=1)
    given = reader.parse_args()
    numbers = given.only or [int(n) for n in ask(["axioms"])[0].replace(";", "").split()]
    texts = ask([f"axiom {n}" for n in numbers])
    jobs = [(n, text, given.seed, given.instances, given.no_conditions) for n, text in zip(numbers, texts)]
    if given.no_conditions:
        jobs = [job for job in jobs if parse_all(job[1])[2]]
    with multiprocessing.Pool(given.jobs) as pool:
        found = list(pool.imap(trial, jobs))
    pairs, none, wrong, differ = (sum(entry[k] for entry in found) for k in range(1, 5))
    print(
        f"seed {given.seed}: {len(found)} axioms at {given.instances} instances each, {pairs} pairs of values, {none} of"
        f" them without one; {wrong} no instance, {differ} differ"
    )
    if given.no_conditions:
        print("without their conditions these do not differ:", [entry[0] for entry in found if not entry[4]])
    sys.exit(1 if wrong or differ else 0)


if __name__ == "__main__":
    main()
