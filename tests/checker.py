"""A second checker of certificates' lemmas and sections, written from the definition and not from the program's code.

It has the operations with their sorts, graphs, the 348 axioms, when a step is right, and when a lemma is accepted. An operation is a tuple
of the words that spell it in a certificate, as ("int", "-5") or ("theta", "1"); a variable of a lemma, which has no spelling, is
("var", its number, its sort). A node is an operation and its kids. The tables below are written out by hand, so that they can differ
from the program's.
"""

import re

# ---- operations

# The sorts of the kids and of the value, where the operation alone says them. The sorts are I int, L long, A reference, N count, F fault, T token,
# H heap and R root.
FIXED = {
    word: (kids.strip("-"), value)
    for words, kids, value in (
        ("int", "-", "I"), ("long", "-", "L"), ("null literal this", "-", "A"), ("heap0", "-", "H"), ("unit never", "-", "T"),
        ("clear fnull farith findex", "-", "F"), ("zero", "-", "N"), ("succ", "N", "N"), ("thrown", "A", "F"), ("isclear", "F", "I"), ("both", "TT", "T"),
        ("iadd isub imul idiv irem ishl ishr iushr iand ior ixor ieq ilt", "II", "I"), ("ineg i2b i2c i2s", "I", "I"), ("i2l", "I", "L"),
        ("ladd lsub lmul ldiv lrem land lor lxor", "LL", "L"), ("lshl lshr lushr", "LI", "L"), ("leq lcmp", "LL", "I"), ("lneg", "L", "L"),
        ("l2i", "L", "I"), ("aeq", "AA", "I"), ("length", "A", "I"),
    )
    for word in words.split()
}
# Those whose kids may be of any sort, which is s, but that of a root.
OVER_ANY = {"phi": ("Iss", "s"), "theta": ("ss", "s"), "eval": ("sN", "s"), "pass": ("I", "N"), "shift": ("s", "s")}
LOOKS = ("theta", "eval", "pass", "shift")
DEPTHS = range(1, 17)
FIELDS = ("getstatic", "putstatic", "getfield", "putfield")
CALLS = ("callend", "callres", "callfault", "callheap")
KINDS = {"Byte": "I", "Char": "I", "Short": "I", "Int": "I", "Long": "L", "Ref": "A"}

# The number of words of an operation's parameters.
PARAMETERS = {"int": 1, "long": 1, "literal": 1, "param": 2, "load": 1, "store": 1} | dict.fromkeys(LOOKS, 1) | dict.fromkeys(FIELDS + CALLS, 3)

# The numbers of the operations over kids.
NUMBERS = {}
for first, words in (
    (14, "succ thrown isclear both phi"),
    (30, "iadd isub imul idiv irem ishl ishr iushr iand ior ixor ieq ilt ineg i2b i2c i2s i2l"),
    (50, "ladd lsub lmul ldiv lrem lshl lshr lushr land lor lxor leq lcmp lneg l2i aeq"),
    (70, "getstatic putstatic getfield putfield load store length"),
    (80, "callend callres callfault callheap"),
):
    NUMBERS |= {word: number for number, word in enumerate(words.split(), first)}

FIELD_TYPE = r"\[*(?:[ZBCSIJFD]|L[^;]+;)"


def meant(word):
    """The text that a word shows, with a character for each byte."""
    return "" if word == "%-" else re.sub("%(..)", lambda found: chr(int(found[1], 16)), word)


def field_sort(text):
    """The sort of a field with this descriptor; None for a float or a double, and where it is no descriptor."""
    if not re.fullmatch(FIELD_TYPE, text):
        return None
    return {"L": "A", "[": "A", "J": "L", "F": None, "D": None}.get(text[0], "I")


def method_sorts(text):
    """The sorts of the parameters of a method with this descriptor, and that of the result, V for none; else None."""
    parts = re.fullmatch(rf"\(((?:{FIELD_TYPE})*)\)({FIELD_TYPE}|V)", text)
    if not parts:
        return None
    params = [field_sort(param) for param in re.findall(FIELD_TYPE, parts[1])]
    result = "V" if parts[2] == "V" else field_sort(parts[2])
    return None if None in params or result is None else ("".join(params), result)


def exact_sorts(op):
    """The sorts that an operation's kids must have, and that of its value, where the operation alone says them; else None."""
    word, params = op[0], op[1:]
    if word in FIXED:
        return FIXED[word]
    if word == "param":
        return ("", params[1]) if params[1] in ("I", "L", "A") else None
    if word == "load":
        return "HAI", KINDS[params[0]]
    if word == "store":
        return "HAI" + KINDS[params[0]], "H"
    if word in FIELDS:
        sort, front = field_sort(meant(params[2])), "H" if word.endswith("static") else "HA"
        return sort and ((front, sort) if word.startswith("get") else (front + sort, "H"))
    if word in CALLS:
        found = method_sorts(meant(params[2]))
        value = found and {"callend": "T", "callres": found[1], "callfault": "F", "callheap": "H"}[word]
        return ("H" + found[0], value) if found and value != "V" else None
    return None


def sorts_of(op, kids):
    """The sort of an operation over kids of these sorts, or None where it doesn't fit."""
    word = op[0]
    if word == "var":
        return None if kids else op[2]
    if word == "root":
        return "R" if re.fullmatch("TF[ILAT]H", kids) else None
    if word not in OVER_ANY:
        exact = exact_sorts(op)
        return exact[1] if exact and exact[0] == kids else None
    takes, gives = OVER_ANY[word]
    some = {kid for kid, take in zip(kids, takes) if take == "s"}
    if word != "phi" and int(op[1]) not in DEPTHS:
        return None
    if len(kids) != len(takes) or len(some) > 1 or "R" in some or any(take not in ("s", kid) for kid, take in zip(kids, takes)):
        return None
    return some.pop() if gives == "s" else gives


def split_node(words):
    """An operation with its parameters, and its kids."""
    end = 1 + PARAMETERS.get(words[0], 0)
    return tuple(words[:end]), tuple(int(kid) for kid in words[end:])


def wrapped(n, bits):
    return (n + 2 ** (bits - 1)) % 2**bits - 2 ** (bits - 1)


def quotient(a, b):
    """The quotient rounded toward zero, 0 for a divisor that is 0."""
    return 0 if b == 0 else abs(a) // abs(b) * (1 if (a < 0) == (b < 0) else -1)


NARROWED = {"i2b": lambda a: wrapped(a, 8), "i2c": lambda a: a % 2**16, "i2s": lambda a: wrapped(a, 16), "i2l": lambda a: a, "l2i": lambda a: a}
COMPUTED = {
    "add": lambda a, b, bits: a + b, "sub": lambda a, b, bits: a - b, "mul": lambda a, b, bits: a * b,
    "div": lambda a, b, bits: quotient(a, b), "rem": lambda a, b, bits: 0 if b == 0 else a - quotient(a, b) * b,
    "shl": lambda a, b, bits: a << b % bits, "shr": lambda a, b, bits: a >> b % bits, "ushr": lambda a, b, bits: a % 2**bits >> b % bits,
    "and": lambda a, b, bits: a & b, "or": lambda a, b, bits: a | b, "xor": lambda a, b, bits: a ^ b,
    "eq": lambda a, b, bits: int(a == b), "lt": lambda a, b, bits: int(a < b), "cmp": lambda a, b, bits: (a > b) - (a < b),
}


def folded(word, numbers):
    """The constant that an operation gives over constants, each as an operation; None where they don't fit."""
    takes, gives = FIXED[word]
    if "".join("I" if op[0] == "int" else "L" for op in numbers) != takes:
        return None
    a, *rest = (int(op[1]) for op in numbers)
    if word in NARROWED:
        value = NARROWED[word](a)
    elif rest:
        value = COMPUTED[word[1:]](a, *rest, 32 if takes[0] == "I" else 64)
    else:
        value = -a
    return ("int", str(wrapped(value, 32))) if gives == "I" else ("long", str(wrapped(value, 64)))


# ---- graphs


class Graph:
    """Nodes with their sorts. The first ones may stand on cycles; each of the others has smaller kids."""

    def __init__(self, nodes):
        self.nodes = list(nodes)
        self.sorts = known_sorts(self.nodes)
        self.there = {node: n for n, node in enumerate(self.nodes)}
        self.free, self.waits = {}, {}

    def copy(self):
        graph = Graph([])
        graph.nodes, graph.sorts, graph.there = list(self.nodes), list(self.sorts), dict(self.there)
        return graph

    def adds(self, number, op, kids):
        """Adds the node, if that is right."""
        if op[0] == "var" or number != len(self.nodes) or any(kid >= number for kid in kids) or (op, kids) in self.there:
            return False
        sort = sorts_of(op, "".join(self.sorts[kid] for kid in kids))
        if sort is None:
            return False
        self.there[(op, kids)] = number
        self.nodes.append((op, kids))
        self.sorts.append(sort)
        return True

    def node(self, n):
        return self.nodes[n] if n < len(self.nodes) else (None, ())

    def leads(self, n, known, is_end, into):
        """Whether a node that is an end is reached from n along the kids that `into` gives of each node; `known` keeps what was found."""
        seen, work = {n}, [n]
        while work:
            m = work.pop()
            if known.get(m) or is_end(m):
                known[n] = True
                return True
            for kid in into(m):
                if kid not in seen and known.get(kid) is not False:
                    seen.add(kid)
                    work.append(kid)
        known.update(dict.fromkeys(seen, False))
        return False

    def is_free(self, depth, n):
        """Whether a depth is free in a node, or may be: a theta of it or a variable is reached, not through the first kid of its eval nor through the
        kid of its pass."""
        own = str(depth)

        def into(m):
            op, kids = self.nodes[m]
            return {("eval", own): kids[1:], ("pass", own): ()}.get(op, kids)

        return self.leads(n, self.free.setdefault(own, {}), lambda m: self.nodes[m][0] == ("theta", own) or self.nodes[m][0][0] == "var", into)

    def is_settled(self, n, assumed):
        """Whether nothing is reached that may not end, with these nodes assumed to end."""
        assumed = frozenset(assumed)
        return not self.leads(
            n,
            self.waits.setdefault(assumed, {}),
            lambda m: m not in assumed and self.nodes[m][0][0] in ("pass", "callend", "never", "var"),
            lambda m: () if m in assumed else self.nodes[m][1],
        )

    def spine(self, token):
        """The token, the spines of the kids of a both, and the count of an eval."""
        found, work = set(), [token]
        while work:
            n = work.pop()
            if n not in found:
                found.add(n)
                op, kids = self.nodes[n]
                work += kids if op[0] == "both" else ()
        return found | {self.nodes[n][1][1] for n in found if self.nodes[n][0][0] == "eval"}


def known_sorts(nodes):
    """The sort of each node, where those of a theta's kids may rest on its own."""
    sorts, users = ["?"] * len(nodes), [[] for _ in nodes]
    for n, (_, kids) in enumerate(nodes):
        for kid in set(kids):
            users[kid].append(n)
    work = [n for n, (_, kids) in enumerate(nodes) if not kids]
    while work:
        n = work.pop()
        op, kids = nodes[n]
        known = "".join(sorts[kid] for kid in kids)
        if op[0] == "theta" and known.replace("?", ""):
            known = known.replace("?", "")[0] * 2
        if sorts[n] == "?" and "?" not in known:
            sorts[n] = sorts_of(op, known) or "!"
            work += users[n]
    if any(sort != sorts_of(op, "".join(sorts[kid] for kid in kids)) for (op, kids), sort in zip(nodes, sorts)):
        raise ValueError("the sorts of a graph don't fit")
    return sorts


# ---- axioms

# Small letters are variables, but k and m are variables for constants. With _d an operation has the axiom's depth, with _s, _t or _u a symbol of
# the axiom, with _K or _M a kind of it. A number ends in i where it is an int and in l where it is a long. fold(..) is the constant that an operation
# gives, and nar_s(v) or nar_K(v) the narrowing to the type of a symbol or of a kind. After the equation stand its conditions: [x] that x is settled,
# {d:x} that the depth isn't free in x, and what differs. A substitution has a node for each variable, in the order of their first places on the left.

# For ints, with i in place of each *; the same for longs, with l, has the number plus 100. Shift counts stay ints.
TWINS = """
1 *add(x,y) = *add(y,x)
2 *add(*add(x,y),z) = *add(x,*add(y,z))
3 *add(x,0*) = x
4 *sub(x,y) = *add(x,*neg(y))
5 *neg(*neg(x)) = x
6 *add(x,*neg(x)) = 0* [x]
7 *neg(*add(x,y)) = *add(*neg(x),*neg(y))
8 *mul(x,y) = *mul(y,x)
9 *mul(*mul(x,y),z) = *mul(x,*mul(y,z))
10 *mul(x,1*) = x
11 *mul(x,0*) = 0* [x]
12 *mul(*add(x,y),z) = *add(*mul(x,z),*mul(y,z))
13 *mul(x,-1*) = *neg(x)
14 *shl(x,k) = *mul(x,fold(*shl(1*,k)))
15 *and(x,y) = *and(y,x)
16 *and(*and(x,y),z) = *and(x,*and(y,z))
17 *and(x,x) = x
18 *and(x,0*) = 0* [x]
19 *and(x,-1*) = x
20 *or(x,y) = *or(y,x)
21 *or(*or(x,y),z) = *or(x,*or(y,z))
22 *or(x,x) = x
23 *or(x,0*) = x
24 *or(x,-1*) = -1* [x]
25 *xor(x,y) = *xor(y,x)
26 *xor(*xor(x,y),z) = *xor(x,*xor(y,z))
27 *xor(x,x) = 0* [x]
28 *xor(x,0*) = x
29 *div(x,1*) = x
30 *rem(x,1*) = 0* [x]
31 *div(x,-1*) = *neg(x)
32 *shl(x,0i) = x
33 *shr(x,0i) = x
34 *ushr(x,0i) = x
"""

SINGLE = """
37 ieq(x,y) = ieq(y,x)
38 ieq(x,x) = 1i [x]
39 ilt(x,x) = 0i [x]
40 i2b(i2b(x)) = i2b(x)
41 i2c(i2c(x)) = i2c(x)
42 i2s(i2s(x)) = i2s(x)
43 l2i(i2l(x)) = x
44 aeq(x,y) = aeq(y,x)
45 aeq(x,x) = 1i [x]
46 aeq(this,null) = 0i
137 leq(x,y) = leq(y,x)
138 leq(x,x) = 1i [x]
139 lcmp(x,x) = 0i [x]

201 phi(0i,a,b) = b
202 phi(1i,a,b) = a
203 phi(c,a,a) = a [c]
204 phi(c,phi(c,a,b),e) = phi(c,a,e)
205 phi(c,a,phi(c,b,e)) = phi(c,a,e)
206 phi(phi(c,a,b),x,y) = phi(c,phi(a,x,y),phi(b,x,y))
210 both(a,b) = both(b,a)
211 both(both(a,b),c) = both(a,both(b,c))
212 both(a,a) = a
213 both(unit,a) = a

301 eval_d(theta_d(a,b),zero) = eval_d(a,zero)
302 eval_d(a,p) = a {d:a} [p]
303 shift_d(theta_d(a,b)) = b
304 shift_d(a) = a {d:a}
306 eval_d(a,succ(p)) = eval_d(shift_d(a),p)
307 eval_d(a,phi(c,p,q)) = phi(c,eval_d(a,p),eval_d(a,q))
308 pass_d(c) = phi(eval_d(c,zero),zero,succ(pass_d(shift_d(c))))
309 imul(theta_d(a,b),c) = theta_d(imul(a,c),imul(b,c)) {d:c}
310 lmul(theta_d(a,b),c) = theta_d(lmul(a,c),lmul(b,c)) {d:c}
311 iadd(theta_d(a,b),c) = theta_d(iadd(a,c),iadd(b,c)) {d:c}
312 ladd(theta_d(a,b),c) = theta_d(ladd(a,c),ladd(b,c)) {d:c}
313 i2l(theta_d(a,b)) = theta_d(i2l(a),i2l(b))

501 getstatic_s(putstatic_s(h,v)) = nar_s(v) [h]
502 getstatic_s(putstatic_t(h,v)) = getstatic_s(h) {s,t differ} [v]
503 getstatic_s(putfield_u(h,o,v)) = getstatic_s(h) [o] [v]
504 getstatic_s(store_K(h,a,i,v)) = getstatic_s(h) [a] [i] [v]
505 getfield_s(putfield_s(h,o,v),o) = nar_s(v) [h] [o]
506 getfield_s(putfield_t(h,p,v),o) = getfield_s(h,o) {s,t differ} [p] [v]
507 getfield_s(putstatic_u(h,v),o) = getfield_s(h,o) [v]
508 getfield_s(store_K(h,a,i,v),o) = getfield_s(h,o) [a] [i] [v]
509 load_K(store_K(h,a,i,v),a,i) = nar_K(v) {K not Byte} [h] [a] [i]
510 load_K(store_M(h,a,i,v),b,j) = load_K(h,b,j) {K,M differ} [a] [i] [v]
511 load_K(putstatic_u(h,v),a,i) = load_K(h,a,i) [v]
512 load_K(putfield_u(h,o,v),a,i) = load_K(h,a,i) [o] [v]
513 load_K(store_K(h,a,k,v),a,m) = load_K(h,a,m) {k,m differ} [v]
514 putstatic_s(putstatic_s(h,v),w) = putstatic_s(h,w) [v]
515 putfield_s(putfield_s(h,o,v),o,w) = putfield_s(h,o,w) [v]

4001 phi(c,a,phi(x,p,q)) = phi(c,a,phi(x,phi(c,a,p),phi(c,a,q)))
4002 phi(c,phi(x,p,q),b) = phi(c,phi(x,phi(c,p,b),phi(c,q,b)),b)
4003 phi(ieq(c,0i),a,b) = phi(c,b,a)
4004 ilt(0i,x) = ieq(ilt(x,1i),0i)
4005 ilt(x,0i) = ieq(ilt(-1i,x),0i)
4014 l2i(ladd(x,y)) = iadd(l2i(x),l2i(y))
4015 l2i(lsub(x,y)) = isub(l2i(x),l2i(y))
4016 l2i(lmul(x,y)) = imul(l2i(x),l2i(y))
4017 l2i(land(x,y)) = iand(l2i(x),l2i(y))
4018 l2i(lor(x,y)) = ior(l2i(x),l2i(y))
4019 l2i(lxor(x,y)) = ixor(l2i(x),l2i(y))
4020 l2i(lneg(x)) = ineg(l2i(x))
4021 i2b(iand(x,255i)) = i2b(x)
4022 i2s(iand(x,65535i)) = i2s(x)
4023 i2c(iand(x,65535i)) = i2c(x)
4024 i2c(x) = iand(x,65535i)
4025 phi(x,1i,0i) = ieq(ieq(x,0i),0i)
4026 phi(x,0i,1i) = ieq(x,0i)
"""

# The tests, in the order of the axioms that say of each that it is 0 or 1: by 4006 to 4009, and by 4010 to 4013.
TESTS = ("ieq(x,y)", "ilt(x,y)", "aeq(x,y)", "leq(x,y)")

# The operations over which shift_d, by 1000 more, and eval_d, by 2000 more, go.
IN_FAMILIES = [*range(14, 19), *range(30, 48), *range(50, 66), *range(70, 77), *range(80, 84)]

# The operations that go into both arms of a choice, with the name that those over a field or an element have, and how many kids these have.
OVER_CHOICES = [14, 15, 16, *range(30, 48), *range(50, 66), 70, 72, 74, 76]
READS = {"getstatic": ("_s", 1), "getfield": ("_s", 2), "load": ("_K", 3)}

CONSTANT = re.compile(r"(-?\d+)([il])")
NARROWING = {"B": "i2b", "C": "i2c", "S": "i2s", "Char": "i2c", "Short": "i2s", "Byte": "i2b"}


class Names:
    """What the names of an axiom stand for: its variables, and its depth, symbols and kinds as they are found."""

    def __init__(self, graph, variables):
        self.graph, self.variables, self.found = graph, variables, {}

    def are(self, name, what):
        """Whether the name stands for this, or for nothing so far."""
        return self.found.setdefault(name, what) == what

    def constant(self, name):
        """The constant that a variable stands for, or None."""
        op, _ = self.graph.node(self.variables[name])
        return op if op and op[0] in ("int", "long") else None


class Pattern:
    """A side of an axiom: a variable, a constant, or an operation over patterns."""

    def __init__(self, text):
        head, _, rest = text.partition("(")
        parts, depth, start = [], 0, 0
        for at, char in enumerate(rest):
            depth += (char == "(") - (char == ")")
            if (char == "," and depth == 0) or depth < 0:
                parts.append(Pattern(rest[start:at]))
                start = at + 1
        self.word, _, self.name = head.partition("_")
        self.parts = parts
        number = CONSTANT.fullmatch(head)
        self.number = ("int" if number[2] == "i" else "long", number[1]) if number else None
        self.is_variable = len(head) == 1

    def variables(self):
        """Its variables, in the order of their first places."""
        found = [self.word] if self.is_variable else []
        for part in self.parts:
            found += [name for name in part.variables() if name not in found]
        return found

    def stands(self, n, names):
        """Whether it stands at node n, by these names."""
        if self.is_variable:
            return names.variables[self.word] == n and (self.word not in "km" or names.constant(self.word) is not None)
        op, kids = names.graph.node(n)
        if self.number:
            return op == self.number
        if self.word == "fold":
            return op is not None and op == self.parts[0].fold(names)
        if self.word == "nar":
            return self.narrows(n, names)
        if op is None or op[0] != self.word or len(kids) != len(self.parts) or (self.name and not names.are(self.name, op[1:])):
            return False
        return all(part.stands(kid, names) for part, kid in zip(self.parts, kids))

    def fold(self, names):
        """The constant that its operation gives over the constants that its parts are."""
        numbers = [part.number or names.constant(part.word) for part in self.parts]
        return None if None in numbers else folded(self.word, numbers)

    def narrows(self, n, names):
        """Whether node n narrows its part to the type of the symbol or of the kind."""
        type_ = meant(names.found[self.name][-1])
        op, kids = names.graph.node(n)
        if type_ == "Z":
            return op == ("iand",) and names.graph.node(kids[1]) == (("int", "1"), ()) and self.parts[0].stands(kids[0], names)
        if type_ in NARROWING:
            return op == (NARROWING[type_],) and self.parts[0].stands(kids[0], names)
        return self.parts[0].stands(n, names)


class Axiom:
    """An equation of two patterns, with its conditions."""

    def __init__(self, text):
        sides, *conditions = re.split(r" (?=[\[{])", text)
        self.left, self.right = (Pattern(side) for side in sides.split(" = "))
        self.conditions = [condition[1:-1] for condition in conditions]
        self.names = self.left.variables()

    def is_instance(self, graph, a, b, nodes, assumed):
        """Whether a and b are its sides where its variables are these nodes, and its conditions hold."""
        if len(nodes) != len(self.names):
            return False
        names = Names(graph, dict(zip(self.names, nodes)))
        return self.left.stands(a, names) and self.right.stands(b, names) and all(self.holds(it, names, assumed) for it in self.conditions)

    def holds(self, condition, names, assumed):
        if condition == "K not Byte":
            return names.found["K"] != ("Byte",)
        if condition == "s,t differ":
            return names.found["s"][1:] != names.found["t"][1:]
        if condition == "K,M differ":
            return names.found["K"] != names.found["M"]
        if condition == "k,m differ":
            return names.constant("k") != names.constant("m")
        if condition.startswith("d:"):
            return not names.graph.is_free(int(names.found["d"][0]), names.variables[condition[2:]])
        return names.graph.is_settled(names.variables[condition], assumed)


class Family:
    """shift_d of an operation as the operation over the shift_d of its kids, or the same of eval_d at one count, which comes after the kids."""

    def __init__(self, look, number):
        self.look, self.number = look, number

    def is_instance(self, graph, a, b, nodes, assumed):
        last = 1 if self.look == "eval" else 0
        if len(nodes) < last:
            return False
        kids, count = tuple(nodes[: len(nodes) - last]), tuple(nodes[len(nodes) - last :])
        (op, below), (other, each) = graph.node(a), graph.node(b)
        if op is None or op[0] != self.look or other is None or NUMBERS.get(other[0]) != self.number:
            return False
        if below[1:] != count or graph.node(below[0]) != (other, kids):
            return False
        return len(each) == len(kids) and all(graph.node(n) == (op, (kid, *count)) for n, kid in zip(each, kids))


def folds():
    """The axioms that an operation over constants is the constant that it gives."""
    words = {number: word for word, number in NUMBERS.items()}
    rows = {number + 30: words[number] for number in range(30, 48)} | {number + 110: words[number] for number in range(50, 65)}
    for number, word in rows.items():
        call = f"{word}({','.join('km'[: len(FIXED[word][0])])})"
        yield number, f"{call} = fold({call})"


def over_choices():
    """The axioms that an operation over a choice is the choice between the operation over each arm, for each place of the choice."""
    words = {number: word for word, number in NUMBERS.items()}
    for number in OVER_CHOICES:
        word = words[number]
        name, count = READS.get(word) or ("", len(FIXED[word][0]))
        for place in range(count):
            over = [f"{word}{name}({','.join([*'xyz'[:place], kid, *'xyz'[place + 1 : count]])})" for kid in ("phi(c,a,b)", "a", "b")]
            yield 3000 + 10 * number + place, f"{over[0]} = phi(c,{over[1]},{over[2]})"


def all_equations():
    """The number and the equation of each axiom, but for the families."""
    for number, row in (line.split(" ", 1) for line in TWINS.strip().splitlines()):
        yield int(number), row.replace("*", "i")
        yield int(number) + 100, row.replace("*", "l")
    for line in SINGLE.split("\n"):
        if line:
            number, row = line.split(" ", 1)
            yield int(number), row
    for place, test in enumerate(TESTS):
        yield 4006 + place, f"ieq(ieq({test},0i),0i) = {test}"
        yield 4010 + place, f"iand({test},1i) = {test}"
    yield from folds()
    yield from over_choices()


EQUATIONS = dict(all_equations())
AXIOMS = {number: Axiom(text) for number, text in EQUATIONS.items()}
AXIOMS |= {1000 + number: Family("shift", number) for number in IN_FAMILIES}
AXIOMS |= {2000 + number: Family("eval", number) for number in IN_FAMILIES}


# ---- sections


class Section:
    """The steps so far: what they state, and the blocks that are open, the outermost first.

    A block is the number of its step, `open` with its depth and its pairs, or `assume` with its root and its nodes. The accepted lemmas that steps may use
    stand by their numbers. In a section that is a lemma's own some variables are settled."""

    def __init__(self, graph, lemmas=None, settled=()):
        self.graph, self.stated, self.open = graph, [], []
        self.lemmas, self.settled = lemmas or {}, settled

    def equality(self, fact):
        """The blocks around a fact, and what it states."""
        step, place = (int(n) for n in fact.split("."))
        if not 1 <= step <= len(self.stated):
            return None
        around, pairs = self.stated[step - 1]
        return (around, pairs[place - 1]) if 1 <= place <= len(pairs) else None

    def shown(self, fact, blocks):
        """What a fact states where it is visible in these open blocks."""
        found = self.equality(fact)
        return found[1] if found and list(found[0]) == blocks[: len(found[0])] else None

    def gives(self, reason, blocks, pairs, a, b):
        if reason == "=":
            return a == b
        if reason[0] == "s":
            place = int(reason[1:])
            return 1 <= place <= len(pairs) and pairs[place - 1] == (a, b)
        return self.shown(reason, blocks) == (a, b)

    def is_outside(self, reason, depth):
        """Whether a reason is no fact that is stated inside a block of this depth."""
        found = self.equality(reason) if "." in reason else None
        return found is None or all(block[1] != "open" or block[2] != depth for block in found[0])

    def is_right_set(self, parts):
        pairs = [(p, q) for p, q, _ in parts]
        for p, q, reasons in parts:
            (op, lefts), (other, rights) = self.graph.node(p), self.graph.node(q)
            if op is None or op != other or not len(reasons) == len(lefts) == len(rights):
                return False
            if not all(self.gives(r, self.open, pairs, a, b) for r, a, b in zip(reasons, lefts, rights)):
                return False
            if op[0] in LOOKS and not all(self.is_outside(r, int(op[1])) for _, _, rs in parts for r in rs):
                return False
        return True

    def is_right_open(self, depth, pairs):
        sorts, size = self.graph.sorts, len(self.graph.nodes)
        if depth not in DEPTHS or any(block[1] == "open" and block[2] == depth for block in self.open):
            return False
        return all(x < size and y < size and sorts[x] == sorts[y] for x, y in pairs)

    def is_right_close(self, depth, facts):
        if not self.open or self.open[-1][1:3] != ("open", depth) or len(self.open[-1][3]) != len(facts):
            return False
        return all(self.closes(str(depth), pair, *both) for pair, both in zip(self.open[-1][3], facts))

    def closes(self, depth, pair, first, later):
        """Whether the two of a pair are equal at iteration 0, by a fact outside the block, and one iteration later."""
        start, after = self.shown(first, self.open[:-1]), self.shown(later, self.open)
        if start is None or after is None:
            return False
        for n, m, x in zip(start, after, pair):
            op, kids = self.graph.node(n)
            if op != ("eval", depth) or kids[0] != x or self.graph.node(kids[1]) != (("zero",), ()):
                return False
            if self.graph.node(m) != (("shift", depth), (x,)):
                return False
        return True

    def is_right_assume(self, p, nodes):
        op, kids = self.graph.node(p)
        if self.open or op != ("root",):
            return False
        spine = self.graph.spine(kids[0])
        return all(
            n in spine and self.graph.node(n)[0][0] in ("pass", "callend") and not any(self.graph.is_free(d, n) for d in DEPTHS) for n in nodes
        )

    def is_right_finish(self, p, q, reasons):
        (one, lefts), (two, rights) = self.graph.node(p), self.graph.node(q)
        if not self.open or self.open[-1][1:3] != ("assume", p) or one != ("root",) or two != ("root",):
            return False
        places = [self.open[:-1]] + [self.open] * 3
        return all(self.gives(r, blocks, [], a, b) for r, blocks, a, b in zip(reasons, places, lefts, rights))

    def takes(self, line):
        """Takes a step, and says whether it is right."""
        words, number = line.split(" "), len(self.stated) + 1
        row, rest = words[0], words[1:]
        around, pairs = list(self.open), []
        if row == "node":
            right = self.graph.adds(int(rest[0]), *split_node(rest[1:]))
        elif row == "set":
            parts = [part.split(" ") for part in line[4:].split(" ; ")]
            parts = [(int(p), int(q), reasons) for p, q, *reasons in parts]
            right, pairs = self.is_right_set(parts), [(p, q) for p, q, _ in parts]
        elif row == "close":
            right = self.is_right_close(int(rest[0]), list(zip(rest[1::2], rest[2::2])))
            around, pairs = around[:-1], self.open[-1][3] if self.open and self.open[-1][1] == "open" else []
        elif row == "finish":
            right = self.is_right_finish(int(rest[0]), int(rest[1]), rest[2:])
            around, pairs = around[:-1], [(int(rest[0]), int(rest[1]))]
        elif row == "open":
            depth, nodes = int(rest[0]), [int(n) for n in rest[1:]]
            pairs = list(zip(nodes[::2], nodes[1::2]))
            right = self.is_right_open(depth, pairs)
            around.append((number, "open", depth, pairs))
        elif row == "assume":
            p, *nodes = (int(n) for n in rest)
            right = self.is_right_assume(p, nodes)
            around.append((number, "assume", p, nodes))
        else:
            a, b = (int(n) for n in (rest[1:3] if row in ("axiom", "use") else rest[:2]))
            right, pairs = self.is_right_equality(row, rest, a, b), [(a, b)]
        self.stated.append((tuple(around), pairs))
        self.open = around
        return right

    def is_right_equality(self, row, rest, a, b):
        if row == "flip":
            return self.shown(rest[2], self.open) == (b, a)
        if row == "chain":
            first, second = (self.shown(fact, self.open) for fact in rest[2:])
            return first is not None and second is not None and first[0] == a and second == (first[1], b)
        assumed = next((block[3] for block in reversed(self.open) if block[1] == "assume"), self.settled)
        rule = (AXIOMS if row == "axiom" else self.lemmas).get(int(rest[0]))
        return rule is not None and rule.is_instance(self.graph, a, b, [int(n) for n in rest[3:]], assumed)

    def concludes(self, a, b):
        """Whether no block is open, and two nodes are one or the last step states that they are equal."""
        return not self.open and (a == b or (bool(self.stated) and (a, b) in self.stated[-1][1]))


def verdict(least, steps, lemmas=None):
    """What is to be answered on a section over a least graph, which comes with its two roots, after these accepted lemmas: None where it is accepted, else
    the number with which it is rejected."""
    graph, one, two = least
    section = Section(graph.copy(), lemmas)
    for number, line in enumerate(steps, 1):
        if not section.takes(line):
            return number
    return None if section.concludes(one, two) else len(steps) + 1


def each_step(least, steps, lemmas=None):
    """Whether each step is right: after a node step that isn't right there is no graph, and no step is right."""
    section, has_graph, said = Section(least[0].copy(), lemmas), True, []
    for line in steps:
        right = section.takes(line) and has_graph
        has_graph = has_graph and (right or not line.startswith("node "))
        said.append(right)
    return said


# ---- lemmas


class Lemma:
    """A lemma after its steps: its variables as its first line has them, the graph that they made, and its two sides."""

    def __init__(self, variables, graph, left, right):
        self.variables, self.graph, self.left, self.right = variables, graph, left, right

    def is_instance(self, graph, a, b, nodes, assumed):
        """Whether a and b are its sides where these nodes stand for its variables, and those that are to be settled are."""
        if len(nodes) != len(self.variables):
            return False
        for n, variable in zip(nodes, self.variables):
            if n >= len(graph.nodes) or graph.sorts[n] != variable[0] or (variable.endswith("!") and not graph.is_settled(n, assumed)):
                return False
        return self.stand([(self.left, a), (self.right, b)], graph, nodes)

    def stand(self, pairs, graph, nodes):
        """Whether each node of the lemma stands at its node of the graph, down to the variables."""
        seen, work = set(pairs), list(pairs)
        while work:
            p, n = work.pop()
            (op, kids), (other, below) = self.graph.node(p), graph.node(n)
            if op[0] == "var":
                if nodes[int(op[1])] != n:
                    return False
            elif op != other or len(kids) != len(below):
                return False
            else:
                work += [pair for pair in zip(kids, below) if pair not in seen]
                seen.update(zip(kids, below))
        return True


def variables_section(variables, lemmas=None):
    """The section of a lemma before its first step, which may use these lemmas."""
    settled = [j for j, variable in enumerate(variables) if variable.endswith("!")]
    return Section(Graph([(("var", str(j), variable[0]), ()) for j, variable in enumerate(variables)]), lemmas, settled)


def accepted_lemma(lines, before):
    """The lemma that these lines state, where it is accepted after these accepted lemmas, or None."""
    variables = lines[0].split(" ")[2:]
    section = variables_section(variables, before)
    left, right = (int(n) for n in lines[-1].split(" ")[1:])
    if not all(section.takes(line) for line in lines[1:-1]) or max(left, right) >= len(section.graph.nodes) or not section.concludes(left, right):
        return None
    return Lemma(variables, section.graph, left, right)


def accepted_lemmas(lemmas):
    """The accepted ones of a certificate's lemmas, each of which is its lines, by their numbers."""
    found = {}
    for number, lines in enumerate(lemmas, 1):
        lemma = accepted_lemma(lines, dict(found))
        if lemma:
            found[number] = lemma
    return found
