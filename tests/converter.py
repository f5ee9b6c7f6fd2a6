"""A second conversion of methods into graphs, written from the definition and not from the program's code.

It reads a class file, finds the blocks and loops of a method and solves the equations of its values by need; and it makes the
least graph of two methods, whose nodes are numbered as a certificate numbers them. It takes methods that the program doesn't refuse,
and loses its way with others.

A part is what a block computes from the slots at its beginning, and an expression is what a slot is in the method; both are
numbers of entries of a table, in which equal ones have one entry. A slot is "token", "fault", "result", "heap", ("local", K) or ("stack", K).
"""

import struct
import sys
import threading

from checker import FIXED, Graph, meant, method_sorts
from loops import forest

# ---- class files


def shown(text):
    """Bytes as a word of a certificate shows them."""
    return "".join(chr(b) if 0x21 <= b <= 0x7E and b != 0x25 else f"%{b:02X}" for b in text) or "%-"


class Code:
    def __init__(self, data):
        _, _, length = struct.unpack_from(">HHI", data)
        self.bytes = data[8 : 8 + length]


class Method:
    """A method of a class file; its code is None where it has none."""

    def __init__(self, file, flags, name, desc, code):
        self.file, self.name, self.desc, self.code = file, name, desc, code
        self.is_static = bool(flags & 8)


class ClassFile:
    """The constant pool and the methods of a class file."""

    # The entries of a constant pool, by their tags.
    FORMS = {3: ">i", 4: ">f", 5: ">q", 6: ">d", 15: ">BH"} | dict.fromkeys((7, 8, 16, 19, 20), ">H") | dict.fromkeys((9, 10, 11, 12, 17, 18), ">HH")

    def __init__(self, data):
        self.data, self.at, self.pool = data, 8, {}
        (count,) = self.take(">H")
        index = 1
        while index < count:
            (tag,) = self.take(">B")
            self.pool[index] = (tag, self.text(self.take(">H")[0]) if tag == 1 else self.take(self.FORMS[tag]))
            index += 2 if tag in (5, 6) else 1
        self.take(">HHH")
        (interfaces,) = self.take(">H")
        self.at += 2 * interfaces
        self.members()
        self.methods = self.members()

    def take(self, form):
        found = struct.unpack_from(form, self.data, self.at)
        self.at += struct.calcsize(form)
        return found

    def text(self, length):
        self.at += length
        return self.data[self.at - length : self.at]

    def members(self):
        """The fields, or the methods."""
        found = []
        for _ in range(self.take(">H")[0]):
            flags, name, desc, attributes = self.take(">HHHH")
            code = None
            for _ in range(attributes):
                attribute, length = self.take(">HI")
                data = self.text(length)
                if self.pool[attribute][1] == b"Code":
                    code = Code(data)
            found.append(Method(self, flags, self.pool[name][1], self.pool[desc][1], code))
        return found

    def symbol(self, index, form=""):
        """The words of a member's class, name and descriptor. The symbol of a call on a receiver has a mark and the letter of its form after the name,
        and the receiver as the first parameter."""
        class_index, pair = self.pool[index][1]
        name, desc = (self.pool[it][1] for it in self.pool[pair][1])
        if form:
            name, desc = name + b"\xff" + form.encode(), b"(Ljava/lang/Object;" + desc[1:]
        return tuple(shown(it) for it in (self.pool[self.pool[class_index][1][0]][1], name, desc))


# ---- instructions

SIGNED = {16: ">b", 17: ">h"}
LOCAL = {21: False, 22: True, 25: False, 54: False, 55: True, 58: False}
INDEX = [19, 20, *range(178, 186), 187, 189, 192, 193, 197]
AFTER_INDEX = {185: 2, 186: 2, 197: 1}
BRANCHES = [*range(153, 169), 198, 199]
SWITCHES = (170, 171)


def instruction(code, at):
    """The opcode of the instruction at a place, its operands, and the place of the next one. A branch has its target, and a switch the place where it goes
    without a key, and its keys with their targets."""
    op = code[at]
    if op == 196:
        op = code[at + 1]
        form = ">Hh" if op == 132 else ">H"
        return op, struct.unpack_from(form, code, at + 2), at + 2 + struct.calcsize(form)
    if op in SWITCHES:
        return op, *switch(code, at)
    if op in BRANCHES or op in (200, 201):
        form = ">h" if op in BRANCHES else ">i"
        return op, (at + struct.unpack_from(form, code, at + 1)[0],), at + 1 + struct.calcsize(form)
    forms = dict.fromkeys(INDEX, ">H") | dict.fromkeys([*range(21, 26), *range(54, 59), 169, 18, 188], ">B") | {132: ">Bb"} | SIGNED
    form = forms.get(op, ">")
    return op, struct.unpack_from(form, code, at + 1), at + 1 + struct.calcsize(form) + AFTER_INDEX.get(op, 0)


def switch(code, at):
    start = at + 1 + -(at + 1) % 4
    default, one, two = struct.unpack_from(">iii", code, start)
    if code[at] == 170:
        offsets = struct.unpack_from(f">{two - one + 1}i", code, start + 12)
        cases = list(zip(range(one, two + 1), offsets))
    else:
        words = struct.unpack_from(f">{2 * one}i", code, start + 8)
        cases = list(zip(words[::2], words[1::2]))
    end = start + (12 + 4 * len(cases) if code[at] == 170 else 8 + 8 * len(cases))
    return (at + default, [(key, at + offset) for key, offset in cases]), end


# The operations on numbers, by their opcodes.
SCALARS = dict(enumerate("iadd ladd - - isub lsub - - imul lmul - - idiv ldiv - - irem lrem - - ineg lneg".split(), 96))
SCALARS |= dict(enumerate("ishl lshl ishr lshr iushr lushr iand land ior lor ixor lxor".split(), 120))
SCALARS |= {133: "i2l", 136: "l2i", 145: "i2b", 146: "i2c", 147: "i2s", 148: "lcmp"}
DIVISIONS = (108, 109, 112, 113)
ELEMENTS = {0: "Int", 1: "Long", 4: "Ref", 5: "Byte", 6: "Char", 7: "Short"}
LOADS = {46 + number: kind for number, kind in ELEMENTS.items()}
STORES = {79 + number: kind for number, kind in ELEMENTS.items() if kind != "Ref"}
ON_RECEIVER = {182: "v", 183: "s", 185: "i"}
RETURNS = (172, 173, 176, 177)
# aastore, checkcast, instanceof
BY_TYPE = (83, 192, 193)
ENDS_BLOCK = {*BRANCHES, 200, *SWITCHES, *RETURNS, *DIVISIONS, *LOADS, *STORES, *ON_RECEIVER, *BY_TYPE, 180, 181, 184, 190, 191}

# What a move of the operand stack takes from the top, and under that, in words; and whether what is taken first stays where it was.
MOVES = {89: (1, 0, True), 90: (1, 1, True), 91: (1, 2, True), 92: (2, 0, True), 93: (2, 1, True), 94: (2, 2, True), 95: (1, 1, False)}


class Exit:
    """Where a block goes, or "return" or "throw", with its slots there."""

    def __init__(self, to, token, heap, fault=None, result=None, held=None):
        self.to, self.token, self.heap, self.fault, self.result = to, token, heap, fault, result
        self.locals, self.stack, self.wide = held or ({}, [], [])


class Block:
    """The tests of a block, each with the exit of yes, and at last none with the exit of no; and what the block writes."""

    def __init__(self, chain, locals_, heap):
        self.chain, self.written, self.writes_heap = chain, locals_, heap


class Run:
    """What a block computes, from its first instruction on."""

    def __init__(self, table, method, wide):
        self.table, self.method = table, method
        self.stack = [(is_wide, table.slot(("stack", j))) for j, is_wide in enumerate(wide)]
        self.locals, self.heap, self.token = {}, table.slot("heap"), table.slot("token")

    def pop(self, count=1):
        """Operands, in the order in which they were pushed."""
        found = self.stack[len(self.stack) - count :]
        del self.stack[len(self.stack) - count :]
        return [part for _, part in found]

    def push(self, part, is_wide=False):
        self.stack.append((is_wide, part))

    def to(self, place):
        held = (dict(self.locals), [part for _, part in self.stack], [is_wide for is_wide, _ in self.stack])
        return Exit(place, self.token, self.heap, held=held)

    def throw(self, word, *kids):
        return Exit("throw", self.token, self.heap, fault=self.table.of((word,), *kids))

    def chain(self, at, end):
        """The tests and exits of the block that begins at a place, whose instructions end before a place at the latest."""
        while True:
            op, args, after = instruction(self.method.code.bytes, at)
            if op in ENDS_BLOCK:
                return self.last(op, args, after)
            self.plain(op, args)
            if after == end or after >= len(self.method.code.bytes):
                return [(None, self.to(after))]
            at = after

    # -- instructions that don't end a block

    def plain(self, op, args):
        of = self.table.of
        if op == 0:
            return
        if op in SCALARS:
            self.scalar(SCALARS[op])
        elif op == 132:
            local, by = args
            self.locals[local] = of(("iadd",), self.local(local), self.table.int(by))
        elif op in MOVES or op in (87, 88):
            self.move(op)
        elif op == 178:
            symbol = self.method.file.symbol(args[0])
            self.push(of(("getstatic", *symbol), self.heap), symbol[2] == "J")
        elif op == 179:
            self.heap = of(("putstatic", *self.method.file.symbol(args[0])), self.heap, *self.pop())
        elif op in LOCAL or 26 <= op <= 45 or 59 <= op <= 78:
            self.access(op, args)
        else:
            self.constant(op, args)

    def scalar(self, word):
        takes, gives = FIXED[word]
        self.push(self.table.of((word,), *self.pop(len(takes))), gives == "L")

    def local(self, number):
        return self.locals.get(number, self.table.slot(("local", number)))

    def access(self, op, args):
        """A load or a store of a local."""
        if op in LOCAL:
            number, is_wide, loads = args[0], LOCAL[op], op < 46
        else:
            loads = op < 46
            kind, number = divmod(op - (26 if loads else 59), 4)
            is_wide = kind == 1
        if loads:
            self.push(self.local(number), is_wide)
        else:
            (self.locals[number],) = self.pop()

    def constant(self, op, args):
        of, pool = self.table.of, self.method.file.pool
        if op == 1:
            self.push(of(("null",)))
        elif 2 <= op <= 8:
            self.push(self.table.int(op - 3))
        elif op in (9, 10):
            self.push(of(("long", str(op - 9))), True)
        elif op in SIGNED:
            self.push(self.table.int(args[0]))
        else:
            tag, value = pool[args[0]]
            found = {3: ("int", str(value[0])), 5: ("long", str(value[0])), 8: ("literal", shown(pool[value[0]][1]) if tag == 8 else "")}
            self.push(of(found[tag]), tag == 5)

    def words(self, count):
        """So many words from the top of the stack, as values."""
        found = []
        while count > 0:
            found.insert(0, self.stack.pop())
            count -= 2 if found[0][0] else 1
        return found

    def move(self, op):
        if op in (87, 88):
            self.words(op - 86)
            return
        above, under, stays = MOVES[op]
        first = self.words(above)
        second = self.words(under)
        self.stack += first + second + (first if stays else [])

    # -- instructions that end one

    def last(self, op, args, after):
        of, null, zero = self.table.of, self.table.of(("null",)), self.table.int(0)
        if op in BRANCHES or op == 200:
            return self.branch(op, args[0], after)
        if op in SWITCHES:
            (x,) = self.pop()
            tests = [(of(("ieq",), x, self.table.int(key)), self.to(target)) for key, target in args[1]]
            return tests + [(None, self.to(args[0]))]
        if op in RETURNS:
            return [(None, self.give(op))]
        if op in DIVISIONS:
            y = self.stack[-1][1]
            word = SCALARS[op]
            test = of(("ieq",), y, zero) if word[0] == "i" else of(("leq",), y, of(("long", "0")))
            x, y = self.pop(2)
            fails = self.throw("farith")
            self.push(of((word,), x, y), word[0] == "l")
            return [(test, fails), (None, self.to(after))]
        if op == 191:
            (x,) = self.pop()
            return [(of(("aeq",), x, null), self.throw("fnull")), (None, self.throw("thrown", x))]
        if op in LOADS or op in STORES:
            return self.element(op, after)
        if op in BY_TYPE:
            return self.store_ref(after) if op == 83 else self.test_type(op, args, after)
        if op in (180, 181, 190):
            return self.member(op, args, after)
        return self.call(op, args, after)

    def branch(self, op, target, after):
        of = self.table.of
        if op in (167, 200):
            return [(None, self.to(target))]
        if op in (165, 166, 198, 199):
            x, y = self.pop(2) if op < 167 else (*self.pop(), of(("null",)))
            test, on_yes = of(("aeq",), x, y), op in (165, 198)
        else:
            x, y = self.pop(2) if op >= 159 else (*self.pop(), self.table.int(0))
            kind = (op - 153) % 6
            # eq, ne; lt, ge; gt, le
            test = of(("ieq",), x, y) if kind < 2 else of(("ilt",), x, y) if kind < 4 else of(("ilt",), y, x)
            on_yes = kind % 2 == 0
        taken, other = self.to(target), self.to(after)
        return [(test, taken), (None, other)] if on_yes else [(test, other), (None, taken)]

    def give(self, op):
        of, desc = self.table.of, self.method.desc.decode("latin-1")
        if op == 177:
            return Exit("return", self.token, self.heap, fault=of(("clear",)), result=of(("unit",)))
        (x,) = self.pop()
        kind = desc[desc.index(")") + 1 :]
        if kind == "Z":
            x = of(("iand",), x, self.table.int(1))
        elif kind in "BCS":
            x = of(("i2" + kind.lower(),), x)
        return Exit("return", self.token, self.heap, fault=of(("clear",)), result=x)

    def element(self, op, after):
        of = self.table.of
        kind = LOADS.get(op) or STORES[op]
        a, i, *value = self.pop(2 if op in LOADS else 3)
        is_null, is_low, is_inside = of(("aeq",), a, of(("null",))), of(("ilt",), i, self.table.int(0)), of(("ilt",), i, of(("length",), a))
        null, index = self.throw("fnull"), self.throw("findex")
        if op in LOADS:
            self.push(of(("load", kind), self.heap, a, i), kind == "Long")
        else:
            self.heap = of(("store", kind), self.heap, a, i, *value)
        return [(is_null, null), (is_low, index), (is_inside, self.to(after)), (None, index)]

    def told(self, owner, name, *references):
        """What the world tells at the heap with which the method starts."""
        desc = "(" + "Ljava/lang/Object;" * len(references) + ")Z"
        return self.table.of(("callres", owner, name, desc), self.table.of(("heap0",)), *references)

    def literal_thrown(self, text):
        return self.throw("thrown", self.table.of(("literal", text)))

    def store_ref(self, after):
        of, null = self.table.of, self.table.of(("null",))
        a, i, v = self.pop(3)
        below = of(("ilt",), i, of(("length",), a))
        no_array, index, unfit = self.throw("fnull"), self.throw("findex"), self.literal_thrown("%FFstore")
        self.heap = of(("store", "Ref"), self.heap, a, i, v)
        tests = [(of(("aeq",), a, null), no_array), (of(("ilt",), i, self.table.int(0)), index), (of(("ieq",), below, self.table.int(0)), index)]
        return tests + [(of(("aeq",), v, null), self.to(after)), (self.told("%FFarray", "%FFfits", a, v), self.to(after)), (None, unfit)]

    def test_type(self, op, args, after):
        """checkcast and instanceof, which goes on from each of its exits with the number that it gives there."""
        pool = self.method.file.pool
        (o,) = self.pop()
        tests = [self.table.of(("aeq",), o, self.table.of(("null",))), self.told(shown(pool[pool[args[0]][1][0]][1]), "%FFis", o), None]
        if op == 192:
            unlike = self.literal_thrown("%FFcast")
            self.push(o)
            exits = [self.to(after), self.to(after), unlike]
        else:
            exits = []
            for n in (0, 1, 0):
                self.push(self.table.int(n))
                exits.append(self.to(after))
                self.pop()
        return list(zip(tests, exits))

    def member(self, op, args, after):
        """getfield, putfield and arraylength."""
        of = self.table.of
        o, *value = self.pop(2 if op == 181 else 1)
        null = self.throw("fnull")
        if op == 190:
            self.push(of(("length",), o))
        else:
            symbol = self.method.file.symbol(args[0])
            if op == 180:
                self.push(of(("getfield", *symbol), self.heap, o), symbol[2] == "J")
            else:
                self.heap = of(("putfield", *symbol), self.heap, o, *value)
        return [(of(("aeq",), o, of(("null",))), null), (None, self.to(after))]

    def call(self, op, args, after):
        of, symbol = self.table.of, self.method.file.symbol(args[0], ON_RECEIVER.get(op, ""))
        params, result = method_sorts(meant(symbol[2]))
        taken = self.pop(len(params))
        kids = (self.heap, *taken)
        tests = [(of(("aeq",), taken[0], of(("null",))), self.throw("fnull"))] if op != 184 else []
        self.heap, self.token = of(("callheap", *symbol), *kids), of(("both",), self.token, of(("callend", *symbol), *kids))
        fault = of(("callfault", *symbol), *kids)
        thrown = Exit("throw", self.token, self.heap, fault=fault)
        if result != "V":
            self.push(of(("callres", *symbol), *kids), result == "L")
        return tests + [(of(("isclear",), fault), self.to(after)), (None, thrown)]


class Parts:
    """The parts of a method's blocks: slots, and operations over parts."""

    def __init__(self):
        self.entries, self.numbers = [], {}

    def entry(self, entry):
        if entry not in self.numbers:
            self.numbers[entry] = len(self.entries)
            self.entries.append(entry)
        return self.numbers[entry]

    def slot(self, slot):
        return self.entry((None, slot))

    def of(self, op, *kids):
        return self.entry((op, kids))

    def int(self, n):
        return self.of(("int", str(n)))


# ---- blocks and loops


class Flow:
    """The blocks of a method that are reached, with the loops around each, the innermost first, as a list of their headers."""

    def __init__(self, method):
        self.method, self.parts = method, Parts()
        self.begins = sorted(begins(method.code.bytes))
        found, work = {}, [(0, [])]
        while work:
            place, wide = work.pop()
            if place not in found:
                found[place] = self.block(place, wide)
                work += [(exit_.to, exit_.wide) for _, exit_ in found[place].chain if exit_.to not in ("return", "throw")]
        self.places = sorted(found)
        number = {place: n for n, place in enumerate(self.places)}
        self.blocks = [found[place] for place in self.places]
        for block in self.blocks:
            for _, exit_ in block.chain:
                exit_.to = number.get(exit_.to, exit_.to)
        self.find_loops()
        self.find_ways()

    def block(self, place, wide):
        later = next((it for it in self.begins if it > place), None)
        run = Run(self.parts, self.method, wide)
        chain = run.chain(place, later)
        return Block(chain, set(run.locals), run.heap != self.parts.slot("heap"))

    def find_loops(self):
        self.edges = [[exit_.to for _, exit_ in block.chain if isinstance(exit_.to, int)] for block in self.blocks]
        loops, homes = forest(self.edges)
        self.around, self.members = [], {header: members for header, _, _, members in loops}
        for home in homes:
            headers = ()
            while home is not None:
                header, _, home, _ = loops[home]
                headers += (header,)
            self.around.append(headers)

    def find_ways(self):
        """Which blocks are reached from each by one edge or more, as the bits of a number, and whether the method's end is."""
        size = len(self.blocks)
        self.reach = [sum(1 << to for to in set(targets)) for targets in self.edges]
        changed = True
        while changed:
            changed = False
            for b in reversed(range(size)):
                now = self.reach[b]
                for to in self.edges[b]:
                    now |= self.reach[to]
                changed |= now != self.reach[b]
                self.reach[b] = now
        leaves = sum(1 << b for b, block in enumerate(self.blocks) if any(not isinstance(exit_.to, int) for _, exit_ in block.chain))
        self.ends = [bool((self.reach[b] | 1 << b) & leaves) for b in range(size)]

    def carries(self, header, slot):
        """Whether a loop may change a slot."""
        if slot == "heap":
            return any(self.blocks[b].writes_heap for b in self.members[header])
        if slot[0] == "local":
            return any(slot[1] in self.blocks[b].written for b in self.members[header])
        return True


def begins(code):
    """The places where blocks begin: the first, each target, and after each instruction that ends one."""
    at, found = 0, {0}
    while at < len(code):
        op, args, after = instruction(code, at)
        if op in SWITCHES:
            found |= {args[0], *(target for _, target in args[1])}
        elif op in BRANCHES or op in (200, 201):
            found.add(args[0])
        if op in ENDS_BLOCK:
            found.add(after)
        at = after
    return found


# ---- expressions


class Expressions:
    """Operations over expressions, and names, which stand for the thetas of loops: a name is a solution of the equations, a header and a slot."""

    def __init__(self):
        self.entries, self.numbers = [], {}

    def entry(self, op, kids):
        if op == ("both",) and self.entries[kids[0]][0] == ("unit",):
            return kids[1]
        if (op, kids) not in self.numbers:
            self.numbers[(op, kids)] = len(self.entries)
            self.entries.append((op, kids))
        return self.numbers[(op, kids)]

    def of(self, *words, kids=()):
        return self.entry(tuple(words), tuple(kids))

    def name(self, values, header, slot):
        return self.entry(None, (values, header, slot))


class Values:
    """The values of a method's slots, found by need: the solution of its equations.

    A region is the header of its loop, or None for the whole method. A target is the number of a block, "back" to the region's header, "finish" at an end,
    "return" at a return, or "leave", which gives 1 where the region's loop is left and 0 where it begins again."""

    def __init__(self, flow, expressions):
        self.flow, self.of, self.entries, self.name = flow, expressions.of, expressions.entries, expressions.name
        self.never, self.unit = self.of("never"), self.of("unit")
        self.trees, self.puts, self.endings, self.free = {}, {}, {}, {}
        self.start = self.starts()

    def starts(self):
        """The slots at the entry."""
        method = self.flow.method
        found = {"token": self.unit, "heap": self.of("heap0"), "fault": self.of("clear"), "result": self.unit}
        local = 0
        if not method.is_static:
            found[("local", 0)] = self.of("this")
            local = 1
        params, _ = method_sorts(method.desc.decode("latin-1"))
        for number, sort in enumerate(params):
            found[("local", local)] = self.of("param", str(number), sort)
            local += 2 if sort == "L" else 1
        return found

    def at_start(self, slot):
        return self.start.get(slot, self.unit)

    def around(self, region):
        return () if region is None else self.flow.around[region]

    def depth(self, header):
        return len(self.flow.around[header])

    # -- slots at blocks

    def value(self, b, slot):
        """A slot where a block begins."""
        around = self.flow.around[b]
        if around and around[0] == b:
            return self.name(self, b, slot) if self.flow.carries(b, slot) else self.entering(b, slot)
        if b == 0:
            return self.at_start(slot)
        return self.given(around[0] if around else None, b, slot)

    def given(self, region, target, slot):
        found = self.tree(region, target, slot, 0 if region is None else region)
        return self.never if found is None else found

    def entering(self, header, slot):
        """A slot where the loop of a header is entered."""
        if header == 0:
            return self.at_start(slot)
        around = self.flow.around[header]
        return self.given(around[1] if len(around) > 1 else None, header, slot)

    def theta(self, header, slot):
        """The kids of the theta that a name stands for."""
        return self.unit if slot == "token" else self.entering(header, slot), self.given(header, "back", slot)

    def ending(self, header):
        """Whether the loop of a header is left."""
        return self.given(header, "leave", "fault")

    def put(self, b, part):
        """The expression of a part of a block."""
        if (b, part) not in self.puts:
            op, kids = self.flow.parts.entries[part]
            self.puts[(b, part)] = self.value(b, kids) if op is None else self.of(*op, kids=[self.put(b, kid) for kid in kids])
        return self.puts[(b, part)]

    # -- trees

    def tree(self, region, target, slot, b):
        """What the tests from block b on give; None where no walk from there comes to the target."""
        key = (region, target, slot, b)
        if key not in self.trees:
            self.trees[key] = self.walked(*key)
        return self.trees[key]

    def walked(self, region, target, slot, b):
        if slot == "token" and not self.is_ahead(region, target, b):
            return self.never
        inside = self.inside(region, b)
        found = None
        for test, exit_ in reversed(self.flow.blocks[b].chain):
            yes = self.at_exit(region, target, slot, b, exit_)
            if yes is None or yes == found:
                continue
            if found is None:
                found = yes
            else:
                found = self.of("phi", kids=(self.outs(inside, self.put(b, test)), yes, found))
        return found

    def inside(self, region, b):
        """The loops around a block inside a region."""
        around = self.flow.around[b]
        return around[: len(around) - len(self.around(region))]

    def is_ahead(self, region, target, b):
        """Whether the target or the end of the method is reached from b."""
        goal = region if target == "back" else target
        return self.flow.ends[b] or (isinstance(goal, int) and bool(self.flow.reach[b] >> goal & 1))

    def at_exit(self, region, target, slot, b, exit_):
        """What an exit gives for a target."""
        if not isinstance(exit_.to, int):
            if target == "leave":
                return self.of("int", "1")
            hit = region is None and (target == "finish" or target == exit_.to == "return")
            return self.leaf(region, slot, b, exit_) if hit else None
        place = self.place(region, b, exit_.to)
        if place == "gone":
            return self.of("int", "1") if target == "leave" else None
        if place == "header":
            if target == "leave":
                return self.of("int", "0")
            return self.leaf(region, slot, b, exit_) if target == "back" else None
        if place == "again":
            return None
        if exit_.to == target and place in ((), (target,)):
            return self.leaf(region, slot, b, exit_)
        return self.tree(region, target, slot, exit_.to)

    def place(self, region, b, to):
        """Where an exit of block b comes to: "gone" out of the region, to its "header", "again" to the header of a loop inside it, or the loops inside the
        region around the block to which it goes on."""
        left, around, outer = self.inside(region, b), self.flow.around[to], self.around(region)
        while True:
            if around == left + outer:
                if around and around[0] == to:
                    return "again" if left else "header"
                return left
            if around == (to, *left, *outer):
                return (to, *left)
            if not left:
                return "gone"
            left = left[1:]

    def leaf(self, region, slot, b, exit_):
        """A slot at an exit of block b, as it is in the region."""
        inside = self.inside(region, b)
        if slot == "token":
            found = self.put(b, exit_.token)
            for header in inside:
                found = self.of("both", kids=(self.entering(header, "token"), self.at_end(header, found)))
            return found
        return self.outs(inside, self.put(b, self.part(exit_, slot)))

    def part(self, exit_, slot):
        parts = self.flow.parts
        if slot == "heap":
            return exit_.heap
        if slot in ("fault", "result"):
            given = exit_.fault if slot == "fault" else exit_.result
            return parts.of(("clear",) if slot == "fault" else ("unit",)) if given is None else given
        kind, number = slot
        if kind == "local":
            return exit_.locals.get(number, parts.slot(slot))
        return exit_.stack[number] if number < len(exit_.stack) else parts.of(("unit",))

    # -- out of loops

    def at_end(self, header, x):
        depth = str(self.depth(header))
        return self.of("eval", depth, kids=(x, self.of("pass", depth, kids=(self.ending(header),))))

    def outs(self, headers, x):
        """An expression, taken out of loops, the innermost first."""
        for header in headers:
            if self.is_free(self.depth(header), x):
                x = self.at_end(header, x)
        return x

    def is_free(self, depth, x):
        """Whether a depth is free in an expression, where the names of deeper loops are followed."""
        known = self.free.setdefault(depth, {})
        seen, work = {x}, [x]
        while work:
            y = work.pop()
            op, kids = self.entries[y]
            if op is None:
                found = self.depth(kids[1])
                if found == depth or known.get(y):
                    known[x] = True
                    return True
                kids = self.theta(*kids[1:]) if found > depth else ()
            elif op == ("eval", str(depth)):
                kids = kids[1:]
            elif op == ("pass", str(depth)):
                kids = ()
            for kid in kids:
                if known.get(kid):
                    known[x] = True
                    return True
                if kid not in seen and known.get(kid) is not False:
                    seen.add(kid)
                    work.append(kid)
        known.update(dict.fromkeys(seen, False))
        return False

    # -- the root

    def root(self):
        desc = self.flow.method.desc.decode("latin-1")
        result = method_sorts(desc)[1]
        none = {"V": self.unit, "L": self.of("long", "0"), "A": self.of("null"), "I": self.of("int", "0")}[result]
        others = (("finish", "token", self.never), ("finish", "fault", self.of("clear")), ("return", "result", none), ("finish", "heap", self.of("heap0")))
        kids = []
        for target, slot, other in others:
            found = self.tree(None, target, slot, 0)
            kids.append(other if found is None else found)
        return self.of("root", kids=kids)


# ---- least graphs


def reached_nodes(expressions, roots):
    """The nodes that are reached from some expressions: their operations and kids, where a name is its theta."""
    nodes, work = {}, list(roots)
    while work:
        x = work.pop()
        if x in nodes:
            continue
        op, kids = expressions.entries[x]
        if op is None:
            values, header, slot = kids
            op, kids = ("theta", str(values.depth(header))), values.theta(header, slot)
        nodes[x] = (op, kids)
        work += kids
    return nodes


def upward(nodes):
    """The nodes in an order in which each but a theta comes after its kids."""
    order, state = [], {}
    for start in nodes:
        work = [start]
        while work:
            x = work[-1]
            op, kids = nodes[x]
            waits = [] if op[0] == "theta" else [kid for kid in kids if kid not in state]
            if x in state or not waits:
                work.pop()
                if x not in state:
                    state[x] = True
                    order.append(x)
            else:
                work += waits
    return order


def numbered(nodes):
    """A number for each node: two nodes have one number where they unfold as the same operations."""
    order = upward(nodes)
    thetas = [x for x in order if nodes[x][0][0] == "theta"]
    classes, count = dict.fromkeys(thetas, 0), 0
    while True:
        keys, number = {}, {}
        for x in order:
            op, kids = nodes[x]
            key = (op, classes[x]) if op[0] == "theta" else (op, *(number[kid] for kid in kids))
            number[x] = keys.setdefault(key, len(keys))
        parts = {}
        for x in thetas:
            key = (number[x], *(number[kid] for kid in nodes[x][1]))
            classes[x] = parts.setdefault(key, len(parts))
        if len(parts) == count:
            return number
        count = len(parts)


def least_graph(first, second):
    """The least graph of two methods, and its two roots."""
    expressions = Expressions()
    roots = [Values(Flow(method), expressions).root() for method in (first, second)]
    nodes = reached_nodes(expressions, roots)
    number = numbered(nodes)
    forms = {number[x]: (op, [number[kid] for kid in kids]) for x, (op, kids) in nodes.items()}
    place, work = {}, [number[root] for root in reversed(roots)]
    while work:
        n = work.pop()
        if n not in place:
            place[n] = len(place)
            work += reversed(forms[n][1])
    graph = Graph((forms[n][0], tuple(place[kid] for kid in forms[n][1])) for n in place)
    return graph, place[number[roots[0]]], place[number[roots[1]]]


def with_deep_calls(run):
    """What a function gives that may call itself very often."""
    found, faults = [], []

    def inside():
        try:
            found.append(run())
        except BaseException as fault:
            faults.append(fault)

    sys.setrecursionlimit(10**6)
    threading.stack_size(2**29)
    thread = threading.Thread(target=inside)
    thread.start()
    thread.join()
    if faults:
        raise faults[0]
    return found[0]
