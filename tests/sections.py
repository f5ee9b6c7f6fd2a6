#!/usr/bin/env python3
"""Checks changed sections of certificates, and compares the answers with the second checker of tests/checker.py.

It takes the sections that rows `section` of crates/cases/stdin accept or reject, puts random instances of random axioms into them, changes
them at random (a number, a fact or a reason is exchanged, two words are swapped, a step is left out, doubled, moved or taken from
another section of the same methods, with its facts and nodes numbered anew or not), and has the program of cases check them. Many stand
after lemmas, which are made of random instances of axioms and uses of earlier lemmas over random variables, and changed in the same way, or
in their variables and sides; and uses of them with random nodes are put into the sections. It prints each difference, and counts.
Before that the answers of the rows themselves, and the equations of the rows `axiom`, must be those of the second checker. The graphs of the
methods are made by the second conversion, tests/converter.py.

    tests/sections.py [--seed N] [--steps] [COUNT]

With --steps it asks of each step of a changed section whether it is right, in place of whether the section is accepted. COUNT is
how many changed sections there are, 1000000 if left out. The program is the one that
`cd crates/cases && rt run < stdin` leaves; another one is named by CASES in the environment.
"""

import functools
import random
import re
import sys
import time
from collections import Counter

from cases import case_rows, plain_words, sample_class, written
from certs import BLOCKS, ROWS, fits, parted
from checker import AXIOMS, EQUATIONS, FIXED, KINDS, NUMBERS, OVER_ANY, PARAMETERS, Family, Lemma, Names, Section
from checker import accepted_lemmas, each_step, exact_sorts, variables_section, verdict
from converter import ClassFile, least_graph
from programs import ask

BATCH = 6000
# How many certificates of a batch have lemmas of their own.
LEMMAS = 300
NO_AXIOMS = [0, 35, 99, 300, 4294967295]
FEW = [0, 1, 2, 7, 16, 17, 4294967295]
INTS = [0, 1, -1, 2, 3, 31, 33, 255, 2**31 - 1, -(2**31)]

# ---- the rows, and the graphs of their methods


@functools.cache
def least(methods):
    """The least graph of two methods, as rows write them with plain bytes, and its roots."""
    return least_graph(*(ClassFile(sample_class(side.split(" "), {})).methods[0] for side in methods.split("; ")))


@functools.lru_cache(10000)
def known(lemmas):
    """The accepted ones of lemmas, each of which is a tuple of its lines."""
    return accepted_lemmas(lemmas)


def check(methods, lemmas, steps):
    """What is to be answered."""
    wrong = verdict(least(methods), steps, known(lemmas))
    return "Accepted" if wrong is None else f"Rejected({wrong})"


def rows():
    """The methods, the lemmas, the steps and the answer of each row that accepts or rejects one section."""
    for line, answer, named in case_rows():
        if line.startswith("section ") and re.fullmatch(r"Accepted|Rejected\(\d+\)", answer):
            word, *sides = line[8:].split("; ")
            methods = "; ".join(" ".join(plain_words(side.split(" "), named)) for side in sides)
            lemmas, [(_, steps)] = parted(written(word, named).decode().splitlines()[3:])
            yield methods, tuple(map(tuple, lemmas)), steps, answer


def as_cases_write(number):
    """The equation of an axiom as the cases write it, with variables by the order of their first places."""
    axiom = AXIOMS[number]
    if isinstance(axiom, Family):
        left = f"{axiom.look}_d(%s)" if axiom.look == "shift" else "eval_d(%s,x0)"
        return f"{left % f'operation {axiom.number} of kids'} = operation {axiom.number} of {left % 'kids'}"
    text = EQUATIONS[number]
    order = {name: f"{'k' if name in 'km' else 'x'}{place}" for place, name in enumerate(axiom.names)}
    order |= {"d": "d", "s": "s0", "t": "s1", "u": "s1", "K": "K0", "M": "K1"}
    text = re.sub(r"(?<![A-Za-z0-9])(-?\d+)([il])\b", lambda found: found[1] + found[2].replace("i", "").upper(), text)
    return re.sub(r"(?<![A-Za-z0-9])[A-Za-z](?![A-Za-z0-9_])", lambda name: order[name[0]], text)


def table_faults():
    """What differs between the axioms of the rows `axioms` and `axiom` and those of the second checker."""
    for line, answer, _ in case_rows():
        word, _, number = line.partition(" ")
        if line == "axioms" and answer.replace(";", "").split() != [str(it) for it in sorted(AXIOMS, key=in_tables)]:
            yield f"{answer}: other numbers"
        if word == "axiom" and (as_cases_write(int(number)) if int(number) in AXIOMS else "?") != answer:
            yield f"axiom {number}: {answer} and not {as_cases_write(int(number))}"


def in_tables(number):
    """The table in which an axiom stands, and its number."""
    return (3 if number >= 3000 else 2 if 501 <= number <= 515 else 0 if number < 300 else 1), number


# ---- sections that grow


class Growing:
    """A section, or one of a lemma's own, that grows by right steps."""

    def __init__(self, section, rand):
        self.section, self.rand, self.lines = section, rand, []

    def put(self, line):
        """Puts a step, if it is right."""
        before = list(self.section.open)
        if self.section.takes(line):
            self.lines.append(line)
            return True
        self.section.stated.pop()
        self.section.open = before
        return False

    def there(self, op, kids=()):
        """The number of a node, which is put where it isn't there; None where it can't be."""
        graph = self.section.graph
        found = graph.there.get((op, tuple(kids)))
        if found is not None:
            return found
        n = len(graph.nodes)
        return n if None not in kids and self.put(" ".join(["node", str(n), *op, *map(str, kids)])) else None


SYMBOLS = [("C", "f", desc) for desc in ("I", "B", "C", "S", "Z", "J")] + [("D", "f", "I"), ("C", "g", "I"), ("C", "g", "[J")]
CALLEES = [("P", "k", "(I)I"), ("P", "m", "(JI)J"), ("P", "v", "()V"), ("P", "a", "(LC;)LC;")]
SOME = {"int": ("1",), "long": ("2",), "literal": ("hi",), "param": ("3", "I"), "theta": ("1",), "eval": ("1",), "pass": ("1",), "shift": ("1",)}
SOME |= {"load": ("Int",), "store": ("Byte",), "getfield": SYMBOLS[0], "putstatic": SYMBOLS[1], "callres": CALLEES[0], "callend": CALLEES[2]}


class Instances(Growing):
    """A section that grows by instances of axioms, and of lemmas, which needn't be accepted."""

    def __init__(self, section, rand, shapes):
        super().__init__(section, rand)
        self.shapes = shapes

    def some_symbol(self):
        return self.rand.choice(SYMBOLS)

    def some_kind(self):
        return (self.rand.choice(list(KINDS)),)

    def some_depth(self):
        return (self.rand.choice(["1", "1", "1", "2", "16"]),)

    def constant(self, sort):
        return self.there(("int" if sort == "I" else "long", str(self.rand.choice(INTS))))

    def some(self, sort, size=2):
        """A random node of a sort."""
        there = [n for n, other in enumerate(self.section.graph.sorts) if other == sort]
        if there and (size == 0 or self.rand.random() < 0.6):
            return self.rand.choice(there)
        op, kids = self.operation(sort)
        if size == 0 and kids:
            return None
        return self.there(op, [self.some(kid, size - 1) for kid in kids])

    def operation(self, sort):
        """A random operation that gives a sort, and the sorts of its kids."""
        rand, symbol, callee = self.rand, self.some_symbol(), self.rand.choice(CALLEES)
        word = rand.choice(["phi", "theta", "eval", "shift", "pass"])
        if rand.random() < 0.3 and (word != "pass" or sort == "N"):
            op = (word,) if word == "phi" else (word, *self.some_depth())
            return op, OVER_ANY[word][0].replace("s", sort)
        if sort in "IL" and rand.random() < 0.2:
            return ("int" if sort == "I" else "long", str(rand.choice(INTS))), ""
        found = [((word,), kids) for word, (kids, gives) in FIXED.items() if gives == sort and word not in PARAMETERS]
        others = [(word, *symbol) for word in ("getstatic", "putstatic", "getfield", "putfield")]
        others += [(word, *callee) for word in ("callend", "callres", "callfault", "callheap")]
        others += [("load", *self.some_kind()), ("store", *self.some_kind()), ("param", str(rand.randrange(3)), sort), ("literal", "hi")]
        for op in others:
            exact = exact_sorts(op)
            if exact and exact[1] == sort:
                found.append((op, exact[0]))
        return rand.choice(found)

    def instance(self, number):
        """Puts nodes for an instance of an axiom, and gives the step for it, right or not; None where the nodes can't be."""
        axiom = AXIOMS[number]
        try:
            a, b, nodes = self.of_family(axiom) if isinstance(axiom, Family) else self.of_equation(axiom)
        except LookupError:
            return None
        return " ".join(["axiom", *map(str, (number, a, b, *nodes))]) if None not in (a, b, *nodes) else None

    def use(self):
        """The same for a use of a lemma."""
        number, lemma = self.rand.choice(list(enumerate(self.shapes, 1)))
        nodes = [self.some(variable[0]) for variable in lemma.variables]
        a, b = (self.image(lemma.graph, side, nodes, {}) for side in (lemma.left, lemma.right))
        return " ".join(["use", *map(str, (number, a, b, *nodes))]) if None not in (a, b, *nodes) else None

    def image(self, graph, p, nodes, found):
        """The node at which a node of a lemma stands, where these nodes stand for its variables; `found` keeps those that were put."""
        if p not in found:
            op, kids = graph.nodes[p]
            found[p] = nodes[int(op[1])] if op[0] == "var" else self.there(op, [self.image(graph, kid, nodes, found) for kid in kids])
        return found[p]

    def rule(self):
        """The same for an axiom or a lemma."""
        if self.shapes and self.rand.random() < 0.5:
            return self.use()
        return self.instance(self.rand.choice(list(AXIOMS) if self.rand.random() < 0.6 else CONDITIONED))

    def keep(self, line):
        """Puts a step that isn't right."""
        self.section.takes(line)
        self.lines.append(line)

    def of_family(self, family):
        rand = self.rand
        word = next(word for word, number in NUMBERS.items() if number == family.number)
        op = (word,)
        if word in PARAMETERS:
            op += self.some_kind() if word in ("load", "store") else rand.choice(CALLEES) if word.startswith("call") else self.some_symbol()
        exact = (OVER_ANY[word][0].replace("s", rand.choice("ILANFTH")),) if word in OVER_ANY else exact_sorts(op)
        kids = [self.some(sort) for sort in exact[0]] if exact else [None]
        look, count = (family.look, *self.some_depth()), [self.some("N")] if family.look == "eval" else []
        left = self.there(look, [self.there(op, kids), *count])
        return left, self.there(op, [self.there(look, [kid, *count]) for kid in kids]), kids + count

    def of_equation(self, axiom):
        names, sorts = Names(self.section.graph, {}), {}
        names.found = {"d": self.some_depth(), "K": self.some_kind(), "M": self.some_kind()} | {name: self.some_symbol() for name in "stu"}
        self.want(axiom.left, self.rand.choice("ILANFTH"), names, sorts)
        for name in axiom.names:
            names.variables[name] = self.constant(sorts[name]) if name in "km" else self.some(sorts[name])
        a, b = (self.build(side, names) for side in (axiom.left, axiom.right))
        return a, b, [names.variables[name] for name in axiom.names]

    def want(self, pattern, sort, names, sorts):
        """Finds the sorts of a pattern's variables, where it has this sort."""
        if pattern.is_variable:
            sorts.setdefault(pattern.word, sort)
        if not pattern.parts:
            return
        if pattern.word in OVER_ANY:
            takes = OVER_ANY[pattern.word][0].replace("s", sort)
        else:
            takes, _ = exact_sorts((pattern.word, *names.found.get(pattern.name, ())))
        for part, take in zip(pattern.parts, takes):
            self.want(part, take, names, sorts)

    def build(self, pattern, names):
        """The node at which a pattern stands."""
        if pattern.is_variable:
            return names.variables[pattern.word]
        if pattern.number:
            return self.there(pattern.number)
        if pattern.word == "fold":
            return self.there(pattern.parts[0].fold(names) or ())
        parts = [self.build(part, names) for part in pattern.parts]
        if pattern.word != "nar":
            return self.there((pattern.word, *names.found.get(pattern.name, ())), parts)
        type_ = names.found[pattern.name][-1]
        if type_ == "Z":
            return self.there(("iand",), [*parts, self.there(("int", "1"))])
        word = {"B": "i2b", "C": "i2c", "S": "i2s", "Char": "i2c", "Short": "i2s"}.get(type_)
        return self.there((word,), parts) if word else parts[0]


# The axioms with conditions; the few that ask for a depth not to be free stand there more than once.
CONDITIONED = [number for number, axiom in AXIOMS.items() if not isinstance(axiom, Family) for it in axiom.conditions[:1] for _ in range(5 if "d:" in it else 1)]


def shape(lines):
    """A lemma, accepted or not, or None where it hasn't both sides."""
    section, sides = variables_section(lines[0].split(" ")[2:]), [int(side) for side in lines[-1].split(" ")[1:]]
    for line in lines[1:-1]:
        if line.startswith("node "):
            section.takes(line)
    return Lemma(lines[0].split(" ")[2:], section.graph, *sides) if max(sides) < len(section.graph.nodes) else None


def with_instances(methods, lemmas, shapes, steps, rand):
    """The steps with instances of random axioms and of lemmas before the last of them; those that are accepted, and all as they were made."""
    growing = Instances(Section(least(methods)[0].copy(), lemmas), rand, shapes)
    for line in steps[:-1]:
        growing.section.takes(line)
    growing.lines = list(steps[:-1])
    for _ in range(rand.choice([1, 1, 2])):
        line = growing.rule()
        if line and not growing.put(line) and rand.random() < (0.6 if line.startswith("use ") else 0.2):
            growing.keep(line)
    return growing.lines + steps[-1:]


class Stating(Instances):
    """A lemma that grows."""

    def some(self, sort, size=2):
        """A random node of a sort, some of them looked at by an eval, in which its depth is free no longer."""
        n = super().some(sort, size)
        return self.there(("eval", *self.some_depth()), (n, self.there(("zero",)))) if n is not None and self.rand.random() < 0.1 else n

    def equality(self):
        """Puts a rule's instance, and gives its sides; None where it isn't right, but seldom."""
        line = self.rule()
        if not line:
            return None
        if not self.put(line):
            if self.rand.random() < 0.6:
                return None
            self.keep(line)
        return tuple(map(int, line.split(" ")[2:4]))

    def last(self):
        """The fact that the last step states."""
        return f"{len(self.lines)}.1"

    def turned(self, a, b):
        self.put(f"flip {b} {a} {self.last()}")
        return b, a

    def over(self, a, b):
        """Puts an operation over each of two nodes that are equal by the last step, and gives these."""
        word = self.rand.choice(["phi", "theta", "eval", "shift"])
        op, takes = (word,) if word == "phi" else (word, *self.some_depth()), OVER_ANY[word][0]
        fact, sort, place = self.last(), self.section.graph.sorts[a], takes.index("s")
        kids = [self.some(take) for take in takes.replace("s", sort)]
        p, q = (self.there(op, [*kids[:place], n, *kids[place + 1 :]]) for n in (a, b))
        reasons = ["="] * place + [fact] + ["="] * (len(kids) - place - 1)
        return (p, q) if None not in (p, q) and self.put(" ".join(["set", str(p), str(q), *reasons])) else (a, b)

    def chained(self, a, b):
        """Goes on from b to a choice between b and another node."""
        fact, one = self.last(), self.there(("int", "1"))
        other = self.some(self.section.graph.sorts[b])
        choice = self.there(("phi",), (one, b, other))
        if choice is None or not self.put(f"axiom 202 {choice} {b} {b} {other}"):
            return a, b
        self.put(f"flip {b} {choice} {self.last()}")
        self.put(f"chain {a} {choice} {fact} {self.last()}")
        return a, choice


    def sides(self, a, b):
        """The sides of the lemma: what its last step states, or seldom one node, the two in the other order, or what another step states."""
        stated = [pair for _, pairs in self.section.stated for pair in pairs]
        if not self.section.concludes(a, b):
            return a, a
        return self.rand.choice([(a, b)] * 12 + [(a, a), (b, a), self.rand.choice(stated or [(a, b)])])


def stated(before, rand):
    """The lines of a random lemma after these, which is mostly accepted."""
    number, shapes = len(before) + 1, [shape(lines) for lines in before]
    while True:
        variables = [rand.choice("IIILLAANFTH") + rand.choice(["", "", "!"]) for _ in range(rand.choice([1, 2, 2, 3, 4]))]
        growing = Stating(variables_section(variables, known(tuple(before))), rand, shapes)
        sides = growing.equality() or growing.equality()
        for _ in range(rand.choice([0, 0, 1, 1, 2, 3]) if sides else 0):
            sides = rand.choice([growing.turned, growing.over, growing.chained])(*sides)
        if sides:
            left, right = growing.sides(*sides)
            return [f"lemma {number} {' '.join(variables)}", *growing.lines, f"prove {left} {right}"]


def reordered(lemmas, rand):
    """The lemmas in another order, under new numbers."""
    order = rand.sample(range(len(lemmas)), len(lemmas))
    numbers = {str(old + 1): str(new + 1) for new, old in enumerate(order)}
    return [tuple(re.sub(r"^(lemma|use) (\d+)", lambda m: f"{m[1]} {numbers.get(m[2], m[2])}", line) for line in lemmas[old]) for old in order]


def some_lemmas(rand):
    """Random lemmas, and the same with a change or not."""
    made = []
    for _ in range(rand.choice([1, 1, 2, 3])):
        made.append(tuple(stated(made, rand)))
    made = reordered(made, rand) if rand.random() < 0.2 else made
    given = [tuple(lemma_changed(lines, made, rand)) if rand.random() < 0.25 else lines for lines in made]
    return tuple(made), tuple(given)


# ---- changes

# What the words after the first are, by rows: n a node, f a fact, r a reason, a blank something else; the last goes for all others.
WORDS = {"axiom": " nn", "use": " nn", "flip": "nnf", "chain": "nnf", "open": " n", "close": " f", "assume": "n", "finish": "nnr"}


def kinds(words):
    """What each word of a step is."""
    row, rest = words[0], len(words) - 1
    if row == "node":
        return " n" + " " * (1 + PARAMETERS.get(words[2], 0)) + "n" * rest
    if row == "set":
        found, place = " ", 0
        for word in words[1:]:
            place = 0 if word == ";" else place + 1
            found += " nnr"[min(place, 3)]
        return found
    return " " + WORDS[row] + WORDS[row][-1] * rest


def renumbered(steps, places):
    """The steps with facts of those that moved: `places` has for each step now its number before, or None."""
    now = {before: str(number) for number, before in enumerate(places, 1) if before}
    return [re.sub(r"(?<=[ ])(\d+)(?=\.\d)", lambda m: now.get(int(m[1]), m[1]), step) for step in steps]


def moved(steps, others, rand):
    """The steps with one left out, doubled, moved, or taken from another section."""
    steps, places, at = list(steps), list(range(1, len(steps) + 1)), rand.randrange(len(steps))
    to, what = rand.randrange(len(steps) + 1), rand.randrange(5)
    if what in (0, 3):
        step, place = steps.pop(at), places.pop(at)
        if what == 3:
            steps.insert(to, step)
            places.insert(to, place)
    elif what == 4:
        steps.insert(to, rand.choice(rand.choice(others) or steps))
        places.insert(to, None)
    else:
        steps.insert(to, steps[at])
        places.insert(to, None)
    return renumbered(steps, places) if rand.random() < 0.7 else steps


def some_axiom(number, rand):
    """The number of another axiom, of a twin, or of none."""
    near = number + rand.choice([-1, 1, 100, -100, 1000, -1000])
    return near if near in AXIOMS and rand.random() < 0.5 else rand.choice(list(AXIOMS) * 4 + NO_AXIOMS)


def some_number(word, size, rand):
    near = int(word) + rand.choice([-2, -1, 1, 2])
    return str(max(0, near) if rand.random() < 0.5 else rand.choice([rand.randrange(size), rand.choice(FEW)]))


def sizes(steps):
    """How many nodes and steps there are about, as the steps name them."""
    rows_ = [step.split(" ") for step in steps]
    nodes = [int(word) for words in rows_ for kind, word in zip(kinds(words), words) if kind == "n" and word.isdigit()]
    return max(nodes, default=0) + 3, len(steps) + 3


def word_changed(line, size, rand):
    """A step with a word that is changed, swapped, put in or taken out, in a section of so many nodes and steps."""
    words, (nodes, steps) = line.split(" "), size
    row, place = words[0], rand.randrange(1, len(words))
    word, what = words[place], rand.random()
    if row in ("axiom", "use") and what < 0.03:
        words[0] = "use" if row == "axiom" else "axiom"
    elif what < 0.15:
        other = rand.randrange(1, len(words))
        words[place], words[other] = words[other], word
    elif what < 0.25:
        del words[place]
    elif what < 0.35:
        words.insert(place, rand.choice(["=", "s1", word]))
    elif re.fullmatch(r"\d+\.\d+", word) and rand.random() < 0.8:
        step, fact = word.split(".")
        words[place] = rand.choice(["=", "s1", f"{some_number(step, steps, rand)}.{fact}", f"{step}.{some_number(fact, 3, rand)}"])
    elif word == "=" or re.fullmatch(r"s\d+", word):
        words[place] = rand.choice(["=", f"s{rand.randrange(1, 6)}", f"{rand.randrange(1, steps)}.{rand.randrange(1, 3)}"])
    elif row == "axiom" and place == 1:
        words[place] = str(some_axiom(int(word), rand))
    elif row == "use" and place == 1:
        words[place] = str(rand.randrange(5))
    elif word.isdigit():
        words[place] = some_number(word, nodes, rand)
    elif word in KINDS:
        words[place] = rand.choice(list(KINDS))
    else:
        other = rand.choice([*FIXED, *OVER_ANY, "root", *SOME])
        words[place] = " ".join([other, *SOME.get(other, ())])
    return " ".join(words)


def facts_exchanged(steps, rand):
    """Two facts of the section, one in place of the other."""
    steps = list(steps)
    spots = [(n, place) for n, step in enumerate(steps) for place, word in enumerate(step.split(" ")) if re.fullmatch(r"\d+\.\d+", word)]
    if len(spots) > 1:
        (n, place), (m, other) = rand.sample(spots, 2)
        words, others = steps[n].split(" "), steps[m].split(" ")
        words[place] = others[other]
        steps[n] = " ".join(words)
    return steps


def changed(steps, others, rand):
    """The steps with one to three changes, each of which can be spelled."""
    for _ in range(rand.choice([1, 1, 1, 2, 3])):
        what = rand.random()
        if not steps:
            steps = list(rand.choice(others))
        elif what < 0.3:
            steps = moved(steps, others, rand)
        elif what < 0.4:
            steps = facts_exchanged(steps, rand)
        else:
            steps, at = list(steps), rand.randrange(len(steps))
            new = word_changed(steps[at], sizes(steps), rand)
            if fits(ROWS, new.encode()):
                steps[at] = new
    return steps


def variables_changed(variables, rand):
    """The variables of a lemma with one that is settled or no longer, of another sort, put in or left out."""
    variables, at, what = list(variables), rand.randrange(len(variables)), rand.random()
    if what < 0.6:
        variables[at] = variables[at][0] + ("" if variables[at].endswith("!") else "!")
    elif what < 0.8 or (what < 0.9 and len(variables) == 1):
        variables[at] = rand.choice("ILANFTH") + variables[at][1:]
    elif what < 0.9:
        del variables[at]
    else:
        variables.insert(at, rand.choice("ILANFTH"))
    return variables


def lemma_changed(lines, others, rand):
    """The lines of a lemma with a change in its variables, its sides or its steps."""
    words, steps, sides, what = lines[0].split(" "), list(lines[1:-1]), lines[-1].split(" ")[1:], rand.random()
    if what < 0.3:
        words[2:] = variables_changed(words[2:], rand)
    elif what < 0.4:
        sides = sides[::-1]
    elif what < 0.45:
        nodes = " ".join(str(n) for n in range(len(words) - 2))
        steps = [step for step in steps if step.startswith("node ")] + [f"use {words[1]} {' '.join(sides)} {nodes}"]
    elif what < 0.5:
        sides[rand.randrange(2)] = str(rand.choice([0, 1, *range(sizes(steps)[0])]) if steps else rand.randrange(3))
    else:
        new = changed(steps, [list(other[1:-1]) for other in others if other[1:-1]] or [["node 1 unit"]], rand)
        steps = steps if any(step.encode().startswith(BLOCKS) for step in new) else new
    return [" ".join(words), *steps, f"prove {' '.join(sides)}"]


# ---- the program


def certificate(lemmas, sections):
    """A certificate of two files whose digests are 0, with these lemmas, and sections of these steps."""
    lines = ["peggy-cert 2", "first " + "0" * 64, "second " + "0" * 64, *(line for lemma in lemmas for line in lemma)]
    lines += [line for steps in sections for line in ("method a ()V", *steps, "end")]
    return "".join(line + "\n" for line in lines).encode()


def answers(word, counts, batch):
    """What the program says of sections, each with its methods and its lemmas; `counts` gives how many answers there are to a section."""
    given = {}
    for methods, lemmas, steps in batch:
        given.setdefault((methods, lemmas), []).append(steps)
    said = ask([f"{word} {certificate(lemmas, sections).hex().upper()}; {methods}" for (methods, lemmas), sections in given.items()], seconds=1200)
    return [
        (*key, steps, answer)
        for (key, of), line in zip(given.items(), said)
        for steps, answer in zip(of, split(line, [counts(steps) for steps in of]))
    ]


def split(line, counts):
    """The answers of a line, as many for each section as `counts` says."""
    parts, found = [] if line == "-" else line.split("; "), []
    if len(parts) != sum(counts):
        sys.exit(f"{len(parts)} answers, and not {sum(counts)}: {line[:200]}")
    at = 0
    for count in counts:
        found.append(parts[at : at + count])
        at += count
    return found


def rules_of(steps, right):
    """The axioms of the right steps, and 0 for each right use of a lemma."""
    found = [step.split(" ") for step, is_right in zip(steps, right) if is_right and step.startswith(("axiom ", "use "))]
    return [int(words[1]) if words[0] == "axiom" else 0 for words in found]


def compared(by_step, batch):
    """For each section what it is to be counted as, the rules that are used in it, and what differs, if it does."""
    if by_step:
        for methods, lemmas, steps, said in answers("steps", len, batch):
            right = each_step(least(methods), steps, known(lemmas))
            want = ["right" if it else "wrong" for it in right]
            yield want, rules_of(steps, right), None if said == want else f"{want} wanted, {said}: {methods}: {lemmas}: {steps}"
        return
    for methods, lemmas, steps, (said,) in answers("section", lambda steps: 1, batch):
        want = check(methods, lemmas, steps)
        end = len(steps) if want == "Accepted" else int(want[9:-1]) - 1
        row = "accepted" if want == "Accepted" else "rejected at " + (steps[end].split(" ")[0] if end < len(steps) else "end")
        yield [row], rules_of(steps, [True] * end), None if said == want else f"{want} wanted, {said}: {methods}: {lemmas}: {steps}"


def some_section(pool, others, all_lemmas, rand):
    """The methods, the lemmas and the steps of a changed section; `others` has the sections of the methods. The lemmas come before and after changes."""
    methods, lemmas, steps = rand.choice(pool)
    before = lemmas
    if not lemmas and rand.random() < 0.7:
        before, lemmas = rand.choice(all_lemmas)
    if before or rand.random() < 0.5:
        shapes = [(rand.random() < 0.5 and shape(given)) or shape(made) for made, given in zip(before, lemmas)]
        steps = with_instances(methods, known(lemmas), shapes, steps, rand)
    return methods, lemmas, changed(steps, others[methods], rand) if rand.random() < (0.3 if before else 0.8) else steps


def main(args):
    seed = int(args.pop(args.index("--seed") + 1)) if "--seed" in args else 1
    by_step = "--steps" in args
    count = int(next((arg for arg in args if arg.isdigit()), 1000000))
    rand, began, wrong, counts, used, lemmas_made, accepted = random.Random(seed), time.time(), 0, Counter(), Counter(), 0, 0
    for fault in table_faults():
        wrong += 1
        print(fault)
    sections, pool = {}, []
    for methods, lemmas, steps, answer in rows():
        sections.setdefault(methods, []).append(steps)
        pool += [(methods, lemmas, steps)] * (4 if answer == "Accepted" else 1)
        if check(methods, lemmas, steps) != answer:
            wrong += 1
            print(f"{check(methods, lemmas, steps)} by the second checker, {answer} in stdout: {methods}: {lemmas}: {steps}")
    for first in range(0, count, BATCH):
        made = [some_lemmas(rand) for _ in range(LEMMAS)]
        lemmas_made += sum(len(given) for _, given in made)
        accepted += sum(len(known(given)) for _, given in made)
        batch = [some_section(pool, sections, made, rand) for _ in range(min(BATCH, count - first))]
        for kinds_, rules, fault in compared(by_step, batch):
            counts.update(kinds_)
            used.update(rules)
            if fault:
                wrong += 1
                print(fault)
    print(f"{count} sections in {time.time() - began:.0f} s, {wrong} differ;", ", ".join(f"{counts[kind]} {kind}" for kind in sorted(counts)), end="; ")
    print(f"{lemmas_made} lemmas, {accepted} accepted, {used.pop(0, 0)} right uses; right steps have {len(used)} of the {len(AXIOMS)} axioms")
    sys.exit(wrong > 0)


if __name__ == "__main__":
    main(sys.argv[1:])
