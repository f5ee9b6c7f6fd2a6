#!/usr/bin/env python3
"""Compares the matches and the classes of searches with a plain reading of their definition, on random least graphs and on methods.

It works on the program that `cd crates/cases && rt run < stdin` leaves, or on the one that the environment variable CASES names. The
program gives the nodes of a least graph, and after each round the classes of its nodes and all matches (`search`, `search-methods`). The
reading below is a second one, from the definition over terms (pv_heights/specs), with a table of axioms of its own. It has terms up to
congruence: it makes the right side of each match over the least term of each class, or with --every over each term of small classes,
closes by sweeps over all terms, and finds the inductions of a depth by splitting the thetas until what is left is one. At heights 0 to
3 it compares the matches with their order, whether some match joins more, the classes of all terms and the nodes that count as ending.

    tests/search.py [--every] [--methods | --loops | --java | --files] [SEED [COUNT]]      by default 1, 2000
    tests/search.py [--every] --pairs BEFORE AFTER

Without a word it takes random graphs of all operations, with left sides of axioms; with --methods and --loops those of random methods as
tests/roots.py makes them, each with a copy in which operations are exchanged; with --java those of random methods as tests/mutants.py
writes them twice, for which it needs a JDK; with --files those of the class files in examples/before and examples/after, and with --pairs
those of the class files in two other folders, which have the same paths there.
"""

import itertools
import os
import random
import re
import resource
import sys
import tempfile
import time
from collections import Counter

import mutants
import roots
from axioms import SORTS, value
from programs import TOP, ask

ROUNDS, BUDGET, IN_A_LINE = 3, 400, 50

# ---- the axioms, as the documents of the table write them

SCALAR = """
1 iadd(x,y) = iadd(y,x)
2 iadd(iadd(x,y),z) = iadd(x,iadd(y,z))
3 iadd(x,0) = x
4 isub(x,y) = iadd(x,ineg(y))
5 ineg(ineg(x)) = x
6 iadd(x,ineg(x)) = 0 [x]
7 ineg(iadd(x,y)) = iadd(ineg(x),ineg(y))
8 imul(x,y) = imul(y,x)
9 imul(imul(x,y),z) = imul(x,imul(y,z))
10 imul(x,1) = x
11 imul(x,0) = 0 [x]
12 imul(iadd(x,y),z) = iadd(imul(x,z),imul(y,z))
13 imul(x,-1) = ineg(x)
14 ishl(x,k) = imul(x,fold(ishl(1,k)))
15 iand(x,y) = iand(y,x)
16 iand(iand(x,y),z) = iand(x,iand(y,z))
17 iand(x,x) = x
18 iand(x,0) = 0 [x]
19 iand(x,-1) = x
20 ior(x,y) = ior(y,x)
21 ior(ior(x,y),z) = ior(x,ior(y,z))
22 ior(x,x) = x
23 ior(x,0) = x
24 ior(x,-1) = -1 [x]
25 ixor(x,y) = ixor(y,x)
26 ixor(ixor(x,y),z) = ixor(x,ixor(y,z))
27 ixor(x,x) = 0 [x]
28 ixor(x,0) = x
29 idiv(x,1) = x
30 irem(x,1) = 0 [x]
31 idiv(x,-1) = ineg(x)
32 ishl(x,0) = x
33 ishr(x,0) = x
34 iushr(x,0) = x
"""
OTHERS = """
37 ieq(x,y) = ieq(y,x)
38 ieq(x,x) = 1 [x]
39 ilt(x,x) = 0 [x]
40 i2b(i2b(x)) = i2b(x)
41 i2c(i2c(x)) = i2c(x)
42 i2s(i2s(x)) = i2s(x)
43 l2i(i2l(x)) = x
44 aeq(x,y) = aeq(y,x)
45 aeq(x,x) = 1 [x]
46 aeq(this,null) = 0
137 leq(x,y) = leq(y,x)
138 leq(x,x) = 1 [x]
139 lcmp(x,x) = 0 [x]
201 phi(0,a,b) = b
202 phi(1,a,b) = a
203 phi(c,a,a) = a [c]
204 phi(c,phi(c,a,b),e) = phi(c,a,e)
205 phi(c,a,phi(c,b,e)) = phi(c,a,e)
206 phi(phi(c,a,b),x,y) = phi(c,phi(a,x,y),phi(b,x,y))
210 both(a,b) = both(b,a)
211 both(both(a,b),c) = both(a,both(b,c))
212 both(a,a) = a
213 both(unit,a) = a
301 eval_d(theta_d(a,b),zero) = eval_d(a,zero)
302 eval_d(a,p) = a {a} [p]
303 shift_d(theta_d(a,b)) = b
304 shift_d(a) = a {a}
306 eval_d(a,succ(p)) = eval_d(shift_d(a),p)
307 eval_d(a,phi(c,p,q)) = phi(c,eval_d(a,p),eval_d(a,q))
308 pass_d(c) = phi(eval_d(c,zero),zero,succ(pass_d(shift_d(c))))
309 imul(theta_d(a,b),c) = theta_d(imul(a,c),imul(b,c)) {c}
310 lmul(theta_d(a,b),c) = theta_d(lmul(a,c),lmul(b,c)) {c}
311 iadd(theta_d(a,b),c) = theta_d(iadd(a,c),iadd(b,c)) {c}
312 ladd(theta_d(a,b),c) = theta_d(ladd(a,c),ladd(b,c)) {c}
313 i2l(theta_d(a,b)) = theta_d(i2l(a),i2l(b))
501 getstatic_s(putstatic_s(h,v)) = nar_s(v) [h]
502 getstatic_s(putstatic_t(h,v)) = getstatic_s(h) [v] s!=t
503 getstatic_s(putfield_u(h,o,v)) = getstatic_s(h) [o] [v]
504 getstatic_s(store_K(h,a,i,v)) = getstatic_s(h) [a] [i] [v]
505 getfield_s(putfield_s(h,o,v),o) = nar_s(v) [h] [o]
506 getfield_s(putfield_t(h,p,v),o) = getfield_s(h,o) [p] [v] s!=t
507 getfield_s(putstatic_u(h,v),o) = getfield_s(h,o) [v]
508 getfield_s(store_K(h,a,i,v),o) = getfield_s(h,o) [a] [i] [v]
509 load_K(store_K(h,a,i,v),a,i) = nar_K(v) [h] [a] [i] K!byte
510 load_K(store_M(h,a,i,v),b,j) = load_K(h,b,j) [a] [i] [v] K!=M
511 load_K(putstatic_u(h,v),a,i) = load_K(h,a,i) [v]
512 load_K(putfield_u(h,o,v),a,i) = load_K(h,a,i) [o] [v]
513 load_K(store_K(h,a,k,v),a,m) = load_K(h,a,m) [v] k!=m
514 putstatic_s(putstatic_s(h,v),w) = putstatic_s(h,w) [v]
515 putfield_s(putfield_s(h,o,v),o,w) = putfield_s(h,o,w) [v]
"""
INTS = "iadd isub imul idiv irem ishl ishr iushr iand ior ixor ieq ilt ineg i2b i2c i2s i2l".split()
LONGS = "ladd lsub lmul ldiv lrem lshl lshr lushr land lor lxor leq lcmp lneg l2i aeq".split()
NUMBERED = dict(enumerate("succ thrown isclear both phi".split(), 14)) | dict(enumerate(INTS, 30)) | dict(enumerate(LONGS, 50))
NUMBERED |= dict(enumerate("getstatic putstatic getfield putfield load store length".split(), 70))
NUMBERED |= dict(enumerate("callend callres callfault callheap".split(), 80))
FOLDS = dict(enumerate(INTS, 60)) | dict(enumerate(LONGS[:15], 160))
LOOKS = ("theta", "eval", "pass", "shift")
KINDS = "int long ref byte char short".split()
NARROWS = {"B": "i2b", "C": "i2c", "S": "i2s", "byte": "i2b", "char": "i2c", "short": "i2s"}


def parts(text):
    """A name, and the texts of what stands in brackets after it."""
    name, _, rest = text.partition("(")
    found, depth, last = [], 0, 0
    for at, c in enumerate(rest):
        if depth == 0 and c in ",)":
            found.append(rest[last:at])
            last = at + 1
        depth += (c == "(") - (c == ")")
    return name, found


class Axiom:
    """A left and a right side: ("var", j), ("constant", j), ("fold", operation, atoms), ("narrow", name, side), ("over", word, name, sides),
    where an operation has the name of its parameter or none, or ("each", word, how)."""

    def __init__(self, number, left, right, conditions, long=False):
        self.number, self.letters, self.long, self.names = number, [], long, []
        self.left = self.side(left, True)
        self.right = self.side(right, False)
        self.conditions = [self.condition(it) for it in conditions]

    def side(self, text, binds, count=False):
        word, inner = parts(text)
        if re.fullmatch("-?[0-9]+", word):
            return ("over", "long" if self.long and not count else "int", int(word), [])
        if re.fullmatch("[a-z]", word):
            if word not in self.letters:
                assert binds
                self.letters.append(word)
            j = self.letters.index(word)
            if word in "km" and binds:
                self.name(("constant", j))
            return ("constant" if word in "km" else "var", j)
        if word == "fold":
            operation, atoms = parts(inner[0])
            operation = self.turned(operation)
            return ("fold", operation, [self.atom(it, operation, place) for place, it in enumerate(atoms)])
        head, _, name = word.partition("_")
        if head == "nar":
            return ("narrow", name, self.side(inner[0], binds))
        head, name = self.turned(head), name or None
        if name and binds:
            self.name(name)
        shifts = head in ("lshl", "lshr", "lushr")
        return ("over", head, name, [self.side(it, binds, shifts and place == 1) for place, it in enumerate(inner)])

    def name(self, it):
        if it not in self.names:
            self.names.append(it)

    def turned(self, word):
        return "l" + word[1:] if self.long and word in INTS else word

    def atom(self, text, operation, place):
        if text in self.letters:
            return self.letters.index(text)
        return (SORTS[operation][0][place] == "L" and "long" or "int", int(text))

    def condition(self, text):
        if text[0] in "[{":
            return ("settled" if text[0] == "[" else "unfree", self.letters.index(text[1]))
        if text == "K!byte":
            return ("not byte",)
        one, other = text.split("!=")
        return ("symbols" if one == "s" else "kinds", one, other) if one in "sK" else ("constants", self.letters.index(one), self.letters.index(other))


def family(number, word, head):
    """shift_d or eval_d of an operation."""
    axiom = Axiom(number, "x", "x", [])
    axiom.names = ["d", "operation"]
    axiom.letters = [] if head == "shift" else ["p"]
    rest = [] if head == "shift" else [("var", 0)]
    axiom.left = ("over", head, "d", [("each", word, "bare"), *rest])
    axiom.right = ("each", word, head)
    return axiom


def table():
    found = []
    for text, long in ((SCALAR, False), (SCALAR, True), (OTHERS, False)):
        for line in text.split("\n"):
            if line:
                number, left, _, right, *conditions = line.split(" ")
                found.append(Axiom(int(number) + 100 * long, left, right, conditions, long))
    for number, word in FOLDS.items():
        both = "k,m" if len(SORTS[word][0]) == 2 else "k"
        found.append(Axiom(number, f"{word}({both})", f"fold({word}({both}))", []))
    for number, word in NUMBERED.items():
        found += [family(1000 + number, word, "shift"), family(2000 + number, word, "eval")]
    return found


TABLE = table()
HEADS = {}
for _axiom in TABLE:
    HEADS.setdefault(_axiom.left[1], []).append(_axiom)

# ---- what is joined


class Relation:
    """An equivalence on the first numbers."""

    def __init__(self, of):
        self.of = of

    def find(self, n):
        of = self.of
        while of[n] != n:
            of[n] = of[of[n]]
            n = of[n]
        return n

    def join(self, a, b):
        a, b = self.find(a), self.find(b)
        if a != b:
            self.of[max(a, b)] = min(a, b)
        return a != b

    def copy(self):
        return Relation(list(self.of))


def congruence(things, joined, fixed):
    """Joins things of one operation with joined kids, where it looks at no fixed depth."""
    again = True
    while again:
        again, seen = False, {}
        for n, (op, kids) in enumerate(things):
            if op[0] in LOOKS and op[1] in fixed:
                continue
            m = seen.setdefault((op, tuple(map(joined.find, kids))), n)
            again |= m != n and joined.join(m, n)


def closing(things, thetas, joined, fixed):
    """The least equivalence over this one that is a congruence outside the fixed depths and has the pairs of each induction."""
    again = True
    while again:
        congruence(things, joined, fixed)
        again = False
        for depth in sorted(thetas):
            if all(depth > it for it in fixed):
                for part in induction(things, thetas, joined, fixed, depth):
                    for other in part[1:]:
                        again |= joined.join(part[0], other)


def induction(things, thetas, joined, fixed, depth):
    """The greatest induction at a depth, by its parts: of two thetas of a part the first kids are joined, and inside it the second kids."""
    split = [thetas[depth]]
    place, within = 0, joined
    while True:
        found = []
        for part in split:
            groups = {}
            for n in part:
                groups.setdefault(within.find(things[n][1][place]), []).append(n)
            found += groups.values()
        # (what is joined already has no need of an induction)
        found = [part for part in found if len({joined.find(n) for n in part}) > 1]
        if place == 1 and sum(map(len, found)) == sum(map(len, split)) and len(found) == len(split) or not found:
            return found
        split, place, within = found, 1, joined.copy()
        for part in split:
            for other in part[1:]:
                within.join(part[0], other)
        closing(things, thetas, within, [*fixed, depth])


# ---- walks over the least graph


def open_kids(op, kids, depth):
    """The kids through which a depth is free."""
    if op == ("eval", depth):
        return kids[1:]
    return () if op == ("pass", depth) else kids


def free(nodes, depth):
    """The nodes in which a depth is free."""
    found = {n for n, (op, _) in enumerate(nodes) if op == ("theta", depth)}
    again = True
    while again:
        more = {n for n, (op, kids) in enumerate(nodes) if n not in found and any(k in found for k in open_kids(op, kids, depth))}
        found, again = found | more, bool(more)
    return found


def unsettled(nodes, ends):
    """The nodes that are not settled, where some count as ending."""
    found = {n for n, (op, _) in enumerate(nodes) if op[0] in ("never", "pass", "callend") and n not in ends}
    again = True
    while again:
        more = {n for n, (_, kids) in enumerate(nodes) if n not in found and n not in ends and any(k in found for k in kids)}
        found, again = found | more, bool(more)
    return found


def endings(nodes, root):
    """The closed passes and ends of calls on the spine of the token of a root."""
    if nodes[root][0] != ("root",):
        return []
    spine, work = set(), [nodes[root][1][0]]
    while work:
        n = work.pop()
        if n not in spine:
            spine.add(n)
            op, kids = nodes[n]
            work += kids if op == ("both",) else ()
            # (of an eval the count alone, which is no token: it doesn't go on from there)
            spine.update(kids[1:] if op[0] == "eval" else ())
    opened = set().union(*(free(nodes, depth) for depth in range(1, 17)))
    return sorted(n for n in spine if nodes[n][0][0] in ("pass", "callend") and n not in opened)


# ---- heights


class Height:
    """Terms up to congruence, the first of them the nodes of a least graph, and which of them are joined."""

    def __init__(self, nodes, ends):
        self.nodes, self.ends = nodes, ends
        self.things, self.known = list(nodes), {}
        for n, it in enumerate(nodes):
            self.known.setdefault(it, n)
        self.joined = Relation(list(range(len(nodes))))
        self.close()

    def close(self):
        thetas = {}
        for n, (op, _) in enumerate(self.things):
            if op[0] == "theta":
                thetas.setdefault(op[1], []).append(n)
        closing(self.things, thetas, self.joined, [])
        self.look_up()

    def look_up(self):
        """The forms of each class by their words, and the class of each form."""
        find = self.joined.find
        self.forms, self.class_of, self.members = {}, {}, {}
        for n, (op, kids) in enumerate(self.things):
            c = find(n)
            form = op, tuple(map(find, kids))
            self.members.setdefault(c, []).append(n)
            assert self.class_of.setdefault(form, c) == c
            self.forms.setdefault(c, {}).setdefault(op[0], {})[form] = None
        self.settled = self.least(unsettled(self.nodes, self.ends), lambda op: op[0] not in ("never", "pass", "callend"), lambda op, kids: kids)
        self.unfree = {}

    def not_free(self, depth):
        if depth not in self.unfree:
            self.unfree[depth] = self.least(free(self.nodes, depth), lambda op: op != ("theta", depth), lambda op, kids: open_kids(op, kids, depth))
        return self.unfree[depth]

    def least(self, but, passes, counted):
        """The least set of classes that has those of all nodes but some, and a class that has a form which passes it on from its counted kids."""
        found = {self.joined.find(n) for n in range(len(self.nodes)) if n not in but}
        again = True
        while again:
            again = False
            for (op, kids), c in self.class_of.items():
                if c not in found and passes(op) and all(k in found for k in counted(op, kids)):
                    found.add(c)
                    again = True
        return found

    # ---- matches

    def matches(self, most):
        """All matches by axiom, parameters and classes, each with the class in which its left side stands and what is bound; as soon as there
        are more than these, no more."""
        found = {}
        for word, axioms in HEADS.items():
            starts = [(c, form) for c, forms in self.forms.items() for form in forms.get(word, ())]
            for axiom in axioms:
                for c, form in starts:
                    for bound in self.of_form(axiom.left, form, {}):
                        if all(self.holds(it, bound) for it in axiom.conditions):
                            found[self.key(axiom, bound)] = axiom, c, bound
                    if len(found) > most:
                        return found
        return found

    def read(self, side, c, bound):
        """What binds the names of a side so that it stands in a class."""
        if side[0] == "var":
            if bound.get(side, c) == c:
                yield bound | {side: c}
        elif side[0] == "constant":
            for word in ("int", "long"):
                for op, _ in self.forms[c].get(word, ()):
                    if bound.get(side, op) == op and bound.get(("var", side[1]), c) == c:
                        yield bound | {side: op, ("var", side[1]): c}
        elif side[0] == "each":
            for op, kids in self.forms[c].get(side[1], ()):
                yield bound | {"operation": op, "kids": kids}
        else:
            for form in self.forms[c].get(side[1], ()):
                yield from self.of_form(side, form, bound)

    def of_form(self, side, form, bound):
        _, word, name, sides = side
        op, kids = form
        if isinstance(name, str):
            if bound.get(name, op[1]) != op[1]:
                return
            bound = bound | {name: op[1]}
        elif name is not None and op[1] != name:
            return
        if len(kids) == len(sides):
            found = [bound]
            for inner, kid in zip(sides, kids):
                found = [it for old in found for it in self.read(inner, kid, old)]
            yield from found

    def holds(self, condition, bound):
        kind, *names = condition
        if kind == "settled":
            return bound["var", names[0]] in self.settled
        if kind == "unfree":
            return bound["var", names[0]] in self.not_free(bound["d"])
        if kind == "symbols":
            return bound[names[0]][1:] != bound[names[1]][1:]
        if kind == "kinds":
            return bound[names[0]] != bound[names[1]]
        if kind == "constants":
            return bound["constant", names[0]] != bound["constant", names[1]]
        return bound["K"] != "byte"

    def key(self, axiom, bound):
        params = []
        for name in axiom.names:
            if name == "d":
                params.append(("depth", bound["d"]))
            elif name == "operation":
                params += [parameter(it) for it in bound["operation"][1:]]
            else:
                params.append(bound[name] if name[0] == "constant" else parameter(bound[name]))
        kids = bound.get("kids", ())
        return axiom.number, tuple(params), kids + tuple(bound["var", j] for j in range(len(axiom.letters)))

    # ---- right sides

    def made(self, side, bound, put, chosen):
        """What `put` makes of the right side, over what is chosen for each class; None if there is none."""
        if side[0] == "var":
            return chosen(bound[side])
        if side[0] == "constant":
            return put(bound[side], ())
        if side[0] == "fold":
            atoms = [bound["constant", it] if isinstance(it, int) else it for it in side[2]]
            n, sort = value(side[1], *(it[1] for it in atoms))
            return put(("long" if sort == "L" else "int", n), ())
        if side[0] == "narrow":
            inner = self.made(side[2], bound, put, chosen)
            kind = bound[side[1]]
            kind = kind[2] if isinstance(kind, tuple) else kind
            if kind == "Z":
                return put(("iand",), (inner, put(("int", 1), ())))
            return put((NARROWS[kind],), (inner,)) if kind in NARROWS else inner
        if side[0] == "each":
            d, kids = bound["d"], map(chosen, bound["kids"])
            if side[2] == "shift":
                return put(bound["operation"], tuple(put(("shift", d), (it,)) for it in kids))
            p = chosen(bound["var", 0])
            return put(bound["operation"], tuple(put(("eval", d), (it, p)) for it in kids))
        _, word, name, sides = side
        op = (word,) if name is None else (word, bound[name] if isinstance(name, str) else name)
        return put(op, tuple(self.made(it, bound, put, chosen) for it in sides))

    def stands(self, axiom, bound):
        """The class in which the right side stands, or None."""
        return self.made(axiom.right, bound, lambda op, kids: self.class_of.get((op, kids)), lambda c: c)

    def thing(self, op, kids):
        if (op, kids) not in self.known:
            self.known[op, kids] = len(self.things)
            self.things.append((op, kids))
            self.joined.of.append(len(self.joined.of))
        return self.known[op, kids]

    def choices(self, bound, every):
        """What may be chosen for each class: its least term, or each of them where there are few."""
        classes = sorted({c for name, c in bound.items() if name[0] == "var"} | set(bound.get("kids", ())))
        of = [self.members[c] if every else self.members[c][:1] for c in classes]
        for terms in itertools.islice(itertools.product(*of), 64):
            yield dict(zip(classes, terms))

    def grow(self, found, every):
        """The next height."""
        pairs = []
        for axiom, c, bound in found.values():
            for chosen in self.choices(bound, every):
                pairs.append((c, self.made(axiom.right, bound, self.thing, chosen.get)))
        for a, b in pairs:
            self.joined.join(a, b)
        self.close()


def parameter(it):
    """A depth's, a symbol's or a kind's parameter."""
    if isinstance(it, tuple):
        return ("symbol", it)
    return ("kind", it) if it in KINDS else ("depth", it)


# ---- what the program says

NODE = re.compile(r"(\w+)(?:\(([^()]*)\))? \[([\d, ]*)\](?:, |$)")
MATCH = re.compile(r"(\d+) \((.*?)\) \[([\d, ]*)\](?:, |$)")


def numbers(text):
    return tuple(int(it) for it in text.split(", ") if it)


def texts(text):
    """The names in a value as `Debug` writes it."""
    return tuple(bytes(numbers(it)).decode("latin-1") for it in re.findall(r"bytes: \[([\d, ]*)\]", text))


def operation(word, inside):
    if word == "Scalar":
        return (inside.lower(),)
    word = word.lower()
    if inside is None:
        return (word,)
    if word == "param":
        n, sort = inside.split(", ")
        return word, int(n), sort
    if word in ("load", "store"):
        return word, inside.lower()
    if "bytes" in inside:
        return word, texts(inside) if word != "literal" else texts(inside)[0]
    return word, int(inside)


def nodes_in(text):
    found, at = [], 0
    while at < len(text):
        part = NODE.match(text, at)
        found.append((operation(part[1], part[2]), numbers(part[3])))
        at = part.end()
    return found


def unescaped(word):
    return "" if word == "-" else re.sub("%(..)", lambda m: chr(int(m[1], 16)), word)


def param_in(text):
    kind, *rest = text.split(" ")
    if kind.endswith("[]"):
        return ("kind", kind[:-2])
    if len(rest) == 2:
        return ("symbol", tuple(map(unescaped, (kind, *rest))))
    return (kind, int(rest[0]))


def matches_in(text):
    found, at = [], 0
    while text != "-" and at < len(text):
        part = MATCH.match(text, at)
        found.append((int(part[1]), tuple(param_in(it) for it in part[2].split(", ") if it), numbers(part[3])))
        at = part.end()
    return found


def order(one):
    """The order of matches: by axiom, parameters and classes; parameters by their kinds, and then by content."""
    rank = ["depth", "symbol", "kind", "int", "long"]
    inside = lambda kind, it: KINDS.index(it) if kind == "kind" else it
    return one[0], [(rank.index(kind), inside(kind, it)) for kind, it in one[1]], one[2]


STEPS = "nodes; numbers; matches {0}; round"


def asked(endings_too):
    begin = f"{BUDGET} endings" if endings_too else f"{BUDGET}"
    return f" | {begin}; endings; " + "; ".join([STEPS.format(BUDGET)] * ROUNDS + ["nodes; numbers"] + [f"matches {BUDGET}; look"])


class Wrong(Exception):
    pass


def judge(told, endings_too, every, counts):
    """Compares what the program told of a search with the reading; `Wrong` where they differ."""
    told = told.split("; ")
    ends, told = numbers(told[0][1:-1]), told[1:]
    first = nodes_in(told[0])
    # (the first root of two nodes is node 0 of their least graph)
    if list(ends) != (endings(first, 0) if endings_too else []):
        raise Wrong("endings")
    height = Height(first, set(ends))
    for k in range(ROUNDS + 1):
        graph, classes, list_, look = told[4 * k : 4 * k + 4]
        graph, classes = nodes_in(graph), numbers(classes[1:-1])
        compare_classes(k, height, first, graph, classes, counts)
        counts[f"height {k}"] += 1
        found = height.matches(BUDGET)
        if len(found) > BUDGET or list_.startswith("more"):
            if not (len(found) > BUDGET and list_ == f"more {BUDGET + 1}" and look == f"over {BUDGET + 1}"):
                raise Wrong(f"height {k}: {len(found)} matches, {list_[:40]}, {look}")
            return
        compare_matches(k, height, found, list_, graph, classes, counts)
        more = any(height.stands(axiom, bound) != c for axiom, c, bound in found.values())
        if look != (f"open {len(found)}" if more else "saturated"):
            raise Wrong(f"height {k}: {look}")
        if not more:
            counts["saturated"] += 1
            return
        if k < ROUNDS:
            height.grow(found, every)


def compare_classes(k, height, first, graph, classes, counts):
    """The nodes are terms of this height up to their classes, which are the same, and each class of the reading has a node."""
    if graph[: len(first)] != first:
        raise Wrong(f"height {k}: the nodes of the least graph have changed")
    ours = []
    for n, (op, kids) in enumerate(graph):
        c = height.joined.find(n) if n < len(first) else height.class_of.get((op, tuple(ours[kid] for kid in kids)))
        if c is None:
            raise Wrong(f"height {k}: node {n} is no term")
        ours.append(c)
    height.named = dict(zip(classes, ours))
    if any(height.named[number] != c for number, c in zip(classes, ours)) or len(set(ours)) != len(height.named):
        raise Wrong(f"height {k}: classes {classes} and {tuple(ours)}")
    if set(ours) != set(height.forms):
        raise Wrong(f"height {k}: {len(set(ours))} classes of nodes, {len(height.forms)} of terms")
    counts["classes"] += len(height.forms)


def compare_matches(k, height, found, list_, graph, classes, counts):
    listed = matches_in(list_)
    keys = [order(it) for it in listed]
    if any(x >= y for x, y in zip(keys, keys[1:])):
        raise Wrong(f"height {k}: matches out of order")
    theirs = {(number, params, tuple(height.named[c] for c in over)) for number, params, over in listed}
    if theirs != set(found) or len(theirs) != len(listed):
        raise Wrong(f"height {k}: only the program has {sorted(theirs - set(found))[:3]}, only the reading {sorted(set(found) - theirs)[:3]}")
    counts["matches"] += len(listed)
    for number, *_ in listed:
        counts[number] += 1


# ---- random graphs

FIELDS = ["C f I", "D f I", "C g I", "C f B", "C f Z", "C f J", "C g LC%3B"]
FIELD_SORTS = {"J": "L", "L": "A"}
CALLS = ["P k (I)I", "P v ()V"]
LEAVES = {
    "I": ["int 0", "int 1", "int -1", "int 2", "int 33", "param 0 I", "param 1 I", "param 2 I"],
    "L": ["long 0", "long 1", "long -1", "long 5", "param 3 L", "param 4 L"],
    "A": ["null", "this", "param 5 A", "param 6 A", "literal hi"], "N": ["zero"], "F": ["clear", "fnull", "farith"],
    "T": ["unit", "unit", "never"], "H": ["heap0"],
}


def operations():
    """Operations by the sort of their value: the words, and the sorts of the kids."""
    found = {sort: [] for sort in "ILANFTH"}
    for op, (takes, gives) in SORTS.items():
        if "s" not in takes and gives != "s" and takes and op not in ("pass",):
            found[gives].append((op, takes))
    for field in FIELDS:
        sort = FIELD_SORTS.get(field.split()[2][0], "I")
        found[sort] += [(f"getstatic {field}", "H"), (f"getfield {field}", "HA")]
        found["H"] += [(f"putstatic {field}", "H" + sort), (f"putfield {field}", "HA" + sort)]
    for kind, sort in zip(KINDS, "ILAIII"):
        found[sort].append((f"load {kind}", "HAI"))
        found["H"].append((f"store {kind}", "HAI" + sort))
    for call, takes in zip(CALLS, ("HI", "H")):
        found["T"].append((f"callend {call}", takes))
        found["F"].append((f"callfault {call}", takes))
        found["H"].append((f"callheap {call}", takes))
    found["I"].append((f"callres {CALLS[0]}", "HI"))
    return found


OPERATIONS = operations()


class Made:
    """A graph that is being made: its steps, and its nodes by sorts."""

    def __init__(self, r):
        self.r, self.steps, self.known, self.sorts, self.texts, self.planted = r, [], {}, [], [], []
        self.few = {sort: r.sample(words, min(len(words), r.randint(1, 3))) for sort, words in OPERATIONS.items()}

    def add(self, text, sort):
        if text not in self.known:
            self.known[text] = len(self.sorts)
            self.sorts.append(sort)
            self.texts.append(text)
            self.steps.append(text)
        return self.known[text]

    def some(self, sort, fresh=0.35):
        old = [n for n, it in enumerate(self.sorts) if it == sort]
        if not old or self.r.random() < fresh:
            return self.add(self.r.choice(LEAVES[sort]), sort)
        return self.r.choice(old[-6:])

    def grow(self, count, loops):
        for _ in range(count):
            sort = self.r.choice("IIIIILLAHHTNF")
            kind = self.r.random()
            depth = self.r.choice([1, 1, 2])
            if kind < 0.15:
                self.add(f"phi {self.some('I')} {self.some(sort)} {self.some(sort)}", sort)
            elif kind < 0.4 and loops:
                looks = [f"eval {depth} {self.some(sort)} {self.some('N')}", f"shift {depth} {self.some(sort)}", f"pass {depth} {self.some('I')}"]
                text = self.r.choice(looks)
                self.add(text, "N" if text.startswith("pass") else sort)
            elif OPERATIONS[sort]:
                op, takes = self.r.choice(self.few[sort] if self.r.random() < 0.7 else OPERATIONS[sort])
                self.add(" ".join([op, *(str(self.some(it, 0.2)) for it in takes)]), sort)

    def loops(self):
        """Some thetas, and the same ones once more with exchanged operands."""
        r, thetas = self.r, []
        for _ in range(r.choice([0, 1, 1, 2, 3])):
            sort = r.choice("IIILHAT")
            first = self.some(sort, 0.8)
            self.steps.append(f"begin {(depth := r.choice([1, 1, 2]))} {sort}")
            thetas.append((len(self.sorts), depth, sort, first))
            self.sorts.append(sort)
            self.texts.append(None)
        start = len(self.sorts)
        self.grow(r.randint(1, 5) if thetas else 0, False)
        ties = [(theta, depth, first, self.some(sort, 0.1)) for theta, depth, sort, first in thetas]
        for theta, depth, first, second in ties:
            self.tie(theta, depth, first, second)
        if thetas and r.random() < 0.7:
            self.twin(thetas, ties, start)

    def tie(self, theta, depth, first, second):
        self.steps.append(f"tie {theta} {first} {second}")
        self.known.setdefault(f"theta {depth} {first} {second}", theta)

    def twin(self, thetas, ties, start):
        copies, end = {}, len(self.sorts)
        for theta, depth, sort, _ in thetas:
            self.steps.append(f"begin {depth} {sort}")
            copies[theta] = len(self.sorts)
            self.sorts.append(sort)
            self.texts.append(None)
        for n in range(start, end):
            *words, takes = self.split(self.texts[n])
            kids = [copies.get(kid, kid) for kid in takes]
            if words[0] in ("iadd", "imul", "iand", "ior", "ixor", "ladd", "lmul", "both") and self.r.random() < 0.5:
                kids.reverse()
            copies[n] = self.add(" ".join([*words, *map(str, kids)]), self.sorts[n])
        for theta, depth, first, second in ties:
            self.tie(copies[theta], depth, first, copies.get(second, second))
            self.planted += [theta, copies[theta]]

    def split(self, text):
        """The words of a step but for its kids, and the kids."""
        words = text.split(" ")
        count = 3 if words[0] in ("getstatic", "putstatic", "getfield", "putfield", "callend", "callres", "callfault", "callheap", "param") else 0
        count = {"load": 1, "store": 1, "int": 1, "long": 1, "literal": 1, "param": 2}.get(words[0], count)
        return *words[: 1 + count], [int(it) for it in words[1 + count :]]

    # ---- left sides of axioms

    def plant(self, side, want, bound):
        """The node of a left side of a sort, over nodes that are there or new ones; none where a sort doesn't fit."""
        if side[0] in ("var", "constant"):
            if side not in bound:
                bound[side] = self.variable(want or self.r.choice("IIILAH")) if side[0] == "var" else self.number(want)
            return bound[side] if want in (None, self.sorts[bound[side]]) else None
        if side[0] == "each":
            found = [it for sort in OPERATIONS if want in (None, sort) for it in OPERATIONS[sort] if it[0].split(" ")[0] == side[1]]
            if side[1] == "phi":
                sort = want or self.r.choice("ILAH")
                found = [("phi", "I" + 2 * sort)]
            if not found:
                return None
            op, takes = self.r.choice(found)
            kids = [self.some(it) for it in takes]
            return self.add(" ".join([op, *map(str, kids)]), sort if side[1] == "phi" else self.gives(op))
        return self.over(side, want, bound)

    def variable(self, sort):
        """A node for a variable, at times one that may not be settled."""
        if self.r.random() > 0.1:
            return self.some(sort)
        depth = self.r.choice([1, 1, 2])
        count = self.add(f"pass {depth} {self.some('I')}", "N")
        return self.add(f"eval {depth} {self.some(sort)} {count}", sort)

    def number(self, want):
        word = {"I": "int", "L": "long"}.get(want, "int")
        return self.add(f"{word} {self.r.choice([0, 1, -1, 2, 3, 31, 64])}", word[0].upper())

    def over(self, side, want, bound):
        _, word, name, sides = side
        op, takes, sort = self.chosen(word, name, want, bound)
        kids, open_sort = [], want
        for inner, it in zip(sides, takes):
            kids.append(self.plant(inner, open_sort if it == "s" else it, bound))
            if kids[-1] is None:
                return None
            open_sort = self.sorts[kids[-1]] if it == "s" else open_sort
        sort = sort or open_sort
        if want not in (None, sort):
            return None
        if word != "theta":
            return self.add(" ".join([op, *map(str, kids)]), sort)
        theta = self.known.get(f"{op} {kids[0]} {kids[1]}")
        if theta is None:
            theta = len(self.sorts)
            self.steps.append(f"begin {bound[name]} {sort}")
            self.sorts.append(sort)
            self.texts.append(None)
            self.tie(theta, bound[name], *kids)
        return theta

    def chosen(self, word, name, want, bound):
        """An operation with its parameters, the sorts of its kids and that of its value; `s` and None where that is open."""
        if word in ("int", "long"):
            return f"{word} {name}", "", word[0].upper()
        if name is None:
            takes, gives = SORTS[word]
            return word, takes, None if gives == "s" else gives
        if name == "d":
            depth = bound.setdefault("d", self.r.choice([1, 1, 2]))
            return f"{word} {depth}", {"theta": "ss", "eval": "sN", "shift": "s", "pass": "I"}[word], "N" if word == "pass" else None
        found = [it[0].split(" ", 1)[1] for sort in OPERATIONS for it in OPERATIONS[sort] if it[0].split(" ")[0] == word and (want in (None, sort) or name in bound)]
        param = bound.setdefault(name, self.r.choice(found or FIELDS))
        op = f"{word} {param}"
        return op, *next((takes, sort) for sort in OPERATIONS for it, takes in OPERATIONS[sort] if it == op)

    def gives(self, op):
        return next(sort for sort in OPERATIONS for it, _ in OPERATIONS[sort] if it == op)

    def part(self, sort):
        """A node for a root, most often a left side."""
        found = [n for n in self.planted if self.sorts[n] == sort]
        return self.r.choice(found) if found and self.r.random() < 0.8 else self.some(sort)

    def root(self):
        r = self.r
        tokens = [self.part("T"), self.some("T")]
        if r.random() < 0.5:
            count = self.add(f"pass {r.choice([1, 2])} {self.some('I')}", "N")
            tokens[0] = self.add(f"eval {r.choice([1, 2])} {tokens[0]} {count}", "T")
        token = self.add(f"both {tokens[0]} {tokens[1]}", "T")
        result = r.choice([self.sorts[n] for n in self.planted if self.sorts[n] in "ILA"] or ["I", "L", "A"])
        return self.add(f"root {token} {self.part('F')} {self.part(result)} {self.part('H')}", "R")


def random_line(r):
    made = Made(r)
    for sort in "IILAHT":
        made.some(sort, 1)
    made.loops()
    for _ in range(r.randint(1, 4)):
        n = made.plant(r.choice(TABLE).left, None, {})
        made.planted += [] if n is None else [n]
        made.grow(r.randint(0, 3), True)
    found = [*made.planted, *range(max(0, len(made.sorts) - 3), len(made.sorts))]
    nodes = [made.root(), made.root()] if r.random() < 0.5 else [r.choice(found) for _ in range(2)]
    return f"search {nodes[0]} {nodes[1]}; {'; '.join(made.steps)}; seal"


# ---- methods


def exchanged(r, code):
    """The code with another operation on ints here and there."""
    code = bytearray(code)
    for at, byte in enumerate(code):
        if byte in (0x60, 0x68, 0x7E, 0x80, 0x82) and r.random() < 0.1:
            code[at] = r.choice((0x60, 0x68, 0x7E, 0x80, 0x82))
    return bytes(code)


def method_line(r, loops):
    code = roots.looped(r) if loops else roots.method(r)
    make = lambda name, it: f"make {name} pool=7,{roots.ENTRIES} f,({roots.PARAMS})I,0009,40,{roots.LOCALS + 4 * loops},{it.hex().upper()}"
    return f"{make('one', code)}\n{make('two', exchanged(r, code))}\nsearch-methods $one 0 $two 0"


def methods_of(data):
    """The places of the methods of a class file that have a code, by name and descriptor."""
    texts_, number, count, at = {}, 1, int.from_bytes(data[8:10], "big"), 10
    while number < count:
        tag, size = data[at], int.from_bytes(data[at + 1 : at + 3], "big")
        if tag == 1:
            texts_[number] = data[at + 3 : at + 3 + size]
        at += 3 + size if tag == 1 else {3: 5, 4: 5, 5: 9, 6: 9, 7: 3, 8: 3, 15: 4, 16: 3, 19: 3, 20: 3}.get(tag, 5)
        number += 2 if tag in (5, 6) else 1
    word = lambda place: int.from_bytes(data[place : place + 2], "big")
    at += 8 + 2 * word(at + 6)
    found = {}
    for what in ("fields", "methods"):
        members, at = word(at), at + 2
        for place in range(members):
            name, attributes, at = (texts_[word(at + 2)], texts_[word(at + 4)]), word(at + 6), at + 8
            for _ in range(attributes):
                if what == "methods" and texts_[word(at)] == b"Code":
                    found[name] = place
                at += 6 + int.from_bytes(data[at + 2 : at + 6], "big")
    return found


def class_files(folder):
    """The paths of the class files in a folder."""
    for inner, _, names in os.walk(folder):
        yield from (os.path.relpath(os.path.join(inner, it), folder) for it in names if it.endswith(".class"))


def pair_lines(before, after):
    """A line for each method that two class files of the same path have."""
    for name in sorted(set(class_files(before)) & set(class_files(after))):
        with open(os.path.join(before, name), "rb") as one, open(os.path.join(after, name), "rb") as other:
            one, other = one.read(), other.read()
        places, partners = methods_of(one), methods_of(other)
        for it in sorted(set(places) & set(partners)):
            yield f"let one {one.hex().upper()}\nlet two {other.hex().upper()}\nsearch-methods $one {places[it]} $two {partners[it]}"


def java_lines(seed, count):
    """Lines for random methods in Java, each written twice."""
    with tempfile.TemporaryDirectory() as work:
        one, other = (os.path.join(work, it) for it in ("one", "other"))
        os.mkdir(one)
        os.mkdir(other)
        mutants.sources(seed, (count + 4) // 5, 5, one, other)
        mutants.compiled(one)
        mutants.compiled(other)
        return list(pair_lines(one, other))[:count]


def lines(words, folders, seed, count):
    """Lines without what is asked of the search."""
    r = random.Random(seed)
    if "--pairs" in words:
        return list(pair_lines(*folders))
    if "--files" in words:
        return list(pair_lines(*(os.path.join(TOP, "examples", it) for it in ("before", "after"))))
    if "--java" in words:
        return java_lines(seed, count)
    if "--methods" in words or "--loops" in words:
        return [method_line(r, "--loops" in words) for _ in range(count)]
    return [random_line(r) for _ in range(count)]


def answers(batch):
    """What the program answers, for each line without endings and with them."""
    given = [row for line in batch for row in f"{line}{asked(False)}\n{line}{asked(True)}".split("\n")]
    keep = [it for it, line in zip(ask(given), given) if line.startswith("search")]
    return list(zip(keep[::2], keep[1::2]))


def main():
    words = [it for it in sys.argv[1:] if it.startswith("--")]
    folders = sys.argv[sys.argv.index("--pairs") + 1 :] if "--pairs" in words else []
    given = [int(it) for it in sys.argv[1:] if not it.startswith("--") and it not in folders]
    seed, count = given + [1, 2000][len(given) :]
    todo, counts, wrong, spent, start = lines(words, folders, seed, count), Counter(), 0, 0.0, time.time()
    for at in range(0, len(todo), IN_A_LINE):
        batch = todo[at : at + IN_A_LINE]
        before = time.time()
        found = answers(batch)
        spent += time.time() - before
        for line, both in zip(batch, found):
            wrong += compared(line, both, "--every" in words, counts)
    axioms = sum(1 for it in counts if isinstance(it, int))
    rest = ", ".join(f"{n} {kind}" for kind, n in sorted((str(kind), n) for kind, n in counts.items() if not isinstance(kind, int)))
    print(f"seed {seed}: {len(todo)} least graphs, {wrong} differ; {rest}; {axioms} of {len(TABLE)} axioms")
    memory = resource.getrusage(resource.RUSAGE_CHILDREN).ru_maxrss // 1024
    print(f"{spent:.0f} s and {memory} MB in the program, {time.time() - start:.0f} s in all")
    sys.exit(wrong > 0)


def compared(line, both, every, counts):
    """How many of the answers on a line differ from the reading, which are printed."""
    wrong = 0
    for endings_too, told in enumerate(both):
        if told == "?":
            counts["refused"] += 1
            continue
        try:
            judge(told, bool(endings_too), every, counts)
        except Wrong as fault:
            wrong += 1
            print(f"{line}{asked(endings_too)}\n  {fault}", flush=True)
    return wrong


if __name__ == "__main__":
    main()
