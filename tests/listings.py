#!/usr/bin/env python3
"""Compares `assemble` with a second reading of listings, on listings that were changed at random, and `generate` with a second generator.

The reader is written from the grammar of listings, as docs/USING.md and `pv_asm/specs` say it, and shares no code with the program: for each
listing both give the same bytes, or the same first line that has no reading. The seeds are listings with every kind of operand, with labels that stand after
their use, with switches, and with the generator's methods. A change repeats, drops, moves or mixes lines, or changes words or single bytes.

    tests/listings.py [SEED [COUNT]]      by default 1, 100000 listings
    tests/listings.py --class FILE        prints the bytes of the class of a listing as hexadecimal digits, or the first line without a reading, by the reader here alone
    tests/listings.py --generate SEED COUNT plain|twin     prints those of the generator's class

It works on the program that `cd crates/cases && rt run < stdin` leaves, or on the one that the environment variable CASES names. It prints each
difference, and in the end how many listings had a class.
"""

import random
import re
import struct
import sys

from programs import ask

BATCH = 2000

# opcodes by their names (JVMS 6.5), by what is written after them
PLAIN = {
    0: "nop aconst_null iconst_m1 iconst_0 iconst_1 iconst_2 iconst_3 iconst_4 iconst_5 lconst_0 lconst_1",
    26: "iload_0 iload_1 iload_2 iload_3 lload_0 lload_1 lload_2 lload_3",
    42: "aload_0 aload_1 aload_2 aload_3 iaload laload",
    50: "aaload baload caload saload",
    59: "istore_0 istore_1 istore_2 istore_3 lstore_0 lstore_1 lstore_2 lstore_3",
    75: "astore_0 astore_1 astore_2 astore_3 iastore lastore",
    84: "bastore castore sastore pop pop2 dup dup_x1 dup_x2 dup2 dup2_x1 dup2_x2 swap iadd ladd",
    100: "isub lsub",
    104: "imul lmul",
    108: "idiv ldiv",
    112: "irem lrem",
    116: "ineg lneg",
    120: "ishl lshl ishr lshr iushr lushr iand land ior lor ixor lxor",
    133: "i2l",
    136: "l2i",
    145: "i2b i2c i2s lcmp",
    172: "ireturn lreturn",
    176: "areturn return",
    190: "arraylength athrow",
}
NOTHING = {name: first + i for first, names in PLAIN.items() for i, name in enumerate(names.split())}
LOCAL = {"iload": 21, "lload": 22, "aload": 25, "istore": 54, "lstore": 55, "astore": 58}
COMPARES = "ifeq ifne iflt ifge ifgt ifle if_icmpeq if_icmpne if_icmplt if_icmpge if_icmpgt if_icmple if_acmpeq if_acmpne goto"
BRANCH = {**{name: 153 + i for i, name in enumerate(COMPARES.split())}, "ifnull": 198, "ifnonnull": 199, "goto_w": 200}
FIELD = {"getstatic": 178, "putstatic": 179, "getfield": 180, "putfield": 181}

LABEL = re.compile(rb"[0-9A-Za-z]+")
NUMBER = re.compile(rb"0|-?[1-9][0-9]*")
SHOWN = re.compile(rb"(?:[!-$&-~]|%[0-9A-F]{2})+")
UTF8 = re.compile(rb"(?:[\x01-\x7f]|[\xc0-\xdf][\x80-\xbf]|[\xe0-\xef][\x80-\xbf]{2})*")
FIELD_TYPE = rb"\[*(?:[BCDFIJSZ]|L[^;]+;)"
FIELD_DESC = re.compile(FIELD_TYPE, re.DOTALL)
METHOD_DESC = re.compile(rb"\((?:" + FIELD_TYPE + rb")*\)(?:V|" + FIELD_TYPE + rb")", re.DOTALL)
INT, LONG = (-(2**31), 2**31 - 1), (-(2**63), 2**63 - 1)


class NoReading(Exception):
    """The line has no reading."""


def need(holds):
    if not holds:
        raise NoReading


def number(word, bounds):
    need(NUMBER.fullmatch(word))
    n = int(word)
    need(bounds[0] <= n <= bounds[1])
    return n


def name(word):
    if word == b"%-":
        return b""
    need(SHOWN.fullmatch(word))
    text = re.sub(rb"%(..)", lambda m: bytes([int(m[1], 16)]), word)
    # a byte that stands for itself isn't written by its digits
    need(b"".join(bytes([b]) if 0x21 <= b <= 0x7E and b != 0x25 else b"%%%02X" % b for b in text) == word)
    need(len(text) <= 65535 and UTF8.fullmatch(text))
    return text


def described(word, pattern):
    text = name(word)
    need(pattern.fullmatch(text))
    return text


def label(word):
    need(LABEL.fullmatch(word))
    return word


def operands(op, words):
    """What is written after a mnemonic: a kind, and its values."""
    if op in NOTHING:
        need(not words)
        return ("nothing", NOTHING[op])
    if op in ("bipush", "sipush"):
        need(len(words) == 1)
        return ("push", 16 if op == "bipush" else 17, number(words[0], (-128, 127) if op == "bipush" else (-32768, 32767)))
    if op in LOCAL:
        need(len(words) == 1)
        return ("local", LOCAL[op], number(words[0], (0, 255)))
    if op == "iinc":
        need(len(words) == 2)
        return ("iinc", 132, number(words[0], (0, 255)), number(words[1], (-128, 127)))
    if op in ("ldc", "ldc_w", "ldc2_w"):
        need(len(words) == 1)
        return (op, {"ldc": 18, "ldc_w": 19, "ldc2_w": 20}[op], number(words[0], LONG if op == "ldc2_w" else INT))
    if op in BRANCH:
        need(len(words) == 1)
        return ("branch", BRANCH[op], label(words[0]))
    if op == "tableswitch":
        need(len(words) >= 3)
        low, default, targets = number(words[0], INT), label(words[1]), [label(w) for w in words[2:]]
        need(low + len(targets) - 1 <= INT[1])
        return ("table", 170, low, default, targets)
    if op == "lookupswitch":
        need(len(words) % 2 == 1)
        keys = [number(w, INT) for w in words[1::2]]
        need(all(a < b for a, b in zip(keys, keys[1:])))
        return ("lookup", 171, label(words[0]), list(zip(keys, (label(w) for w in words[2::2]))))
    if op in FIELD or op == "invokestatic":
        need(len(words) == 3)
        return ("member", FIELD.get(op, 184), name(words[0]), name(words[1]), described(words[2], FIELD_DESC if op in FIELD else METHOD_DESC))
    raise NoReading


def spelled(line):
    """What a line without its line feed spells; None for nothing."""
    words = line.split(b" ")
    try:
        if words[0] == b"class":
            need(len(words) == 2)
            return ("class", name(words[1]))
        if words[0] == b"method":
            need(len(words) == 6 and words[1] in (b"static", b"instance"))
            return ("method", words[1] == b"static", name(words[2]), described(words[3], METHOD_DESC), number(words[4], (0, 65535)), number(words[5], (0, 65535)))
        if words[0].endswith(b":"):
            need(len(words) == 1)
            return ("label", label(words[0][:-1]))
        if line == b"end":
            return ("end",)
        return ("insn", operands(words[0].decode("latin-1"), words[1:]))
    except NoReading:
        return None


def size(insn, at):
    kind, op = insn[0], insn[1]
    if kind == "table":
        return 1 + 3 - at % 4 + 12 + 4 * len(insn[4])
    if kind == "lookup":
        return 1 + 3 - at % 4 + 8 + 8 * len(insn[3])
    return {"nothing": 1, "push": 2 if op == 16 else 3, "local": 2, "iinc": 3, "ldc": 2, "branch": 5 if op == 200 else 3}.get(kind, 3)


class Pool:
    """Entries, each once."""

    def __init__(self):
        self.indices, self.bytes, self.count = {}, b"", 1

    def need(self, tag, contents):
        key = (tag, contents)
        if key not in self.indices:
            self.indices[key] = self.count
            self.bytes += bytes([tag]) + contents
            self.count += 2 if tag == 5 else 1
        return self.indices[key]

    def text(self, text):
        return self.need(1, struct.pack(">H", len(text)) + text)

    def of_class(self, text):
        return self.need(7, struct.pack(">H", self.text(text)))

    def member(self, tag, owner, text, desc):
        owner = self.of_class(owner)
        text = self.text(text)
        named = self.need(12, struct.pack(">HH", text, self.text(desc)))
        return self.need(tag, struct.pack(">HH", owner, named))


def coded(insn, at, labels, pool):
    """The bytes of an instruction at an address."""

    def to(target):
        need(target in labels)
        return labels[target] - at

    kind, op = insn[0], insn[1]
    if kind == "nothing":
        return bytes([op])
    if kind == "push":
        return struct.pack(">Bb" if op == 16 else ">Bh", op, insn[2])
    if kind == "local":
        return bytes([op, insn[2]])
    if kind == "iinc":
        return struct.pack(">BBb", op, insn[2], insn[3])
    if kind in ("ldc", "ldc_w", "ldc2_w"):
        index = pool.need(5, struct.pack(">q", insn[2])) if kind == "ldc2_w" else pool.need(3, struct.pack(">i", insn[2]))
        need(kind != "ldc" or index <= 255)
        need(pool.count <= 65535)
        return bytes([op, index]) if kind == "ldc" else struct.pack(">BH", op, index)
    if kind == "branch":
        offset = to(insn[2])
        if op == 200:
            return struct.pack(">Bi", op, offset)
        need(-32768 <= offset <= 32767)
        return struct.pack(">Bh", op, offset)
    front = bytes([op]) + bytes(3 - at % 4)
    if kind == "table":
        low, targets = insn[2], insn[4]
        return front + struct.pack(f">iii{len(targets)}i", to(insn[3]), low, low + len(targets) - 1, *(to(t) for t in targets))
    if kind == "lookup":
        return front + struct.pack(">ii", to(insn[2]), len(insn[3])) + b"".join(struct.pack(">ii", key, to(t)) for key, t in insn[3])
    index = pool.member(10 if op == 184 else 9, *insn[2:])
    need(pool.count <= 65535)
    return struct.pack(">BH", op, index)


def labels_of(lines):
    """The labels of a method after its head, with their addresses, up to the next `end`."""
    labels, at = {}, 0
    for line in lines:
        if line and line[0] == "end":
            break
        if line and line[0] == "label":
            labels.setdefault(line[1], at)
        if line and line[0] == "insn":
            at += size(line[1], at)
    return labels


class Listing:
    """A class so far."""

    def __init__(self, lines):
        self.lines, self.pool, self.heads, self.methods, self.open, self.this = lines, Pool(), set(), [], None, None

    def take(self, i):
        line = self.lines[i]
        need(line is not None)
        if self.this is None:
            need(line[0] == "class")
            self.this = (self.pool.of_class(line[1]), self.pool.of_class(b"java/lang/Object"))
        elif self.open is None:
            need(line[0] == "method" and line[2:4] not in self.heads and len(self.heads) < 65535)
            self.heads.add(line[2:4])
            indices = [self.pool.text(text) for text in (line[2], line[3], b"Code")]
            need(self.pool.count <= 65535)
            self.open = [line, indices, labels_of(self.lines[i + 1 :]), set(), b""]
        elif line[0] == "label":
            need(line[1] not in self.open[3])
            self.open[3].add(line[1])
        elif line[0] == "insn":
            self.open[4] += coded(line[1], len(self.open[4]), self.open[2], self.pool)
        else:
            need(line[0] == "end" and 1 <= len(self.open[4]) <= 65535)
            self.methods.append(self.open)
            self.open = None

    def bytes(self):
        out = struct.pack(">IHHH", 0xCAFEBABE, 0, 52, self.pool.count) + self.pool.bytes + struct.pack(">HHHHHH", 0x21, *self.this, 0, 0, len(self.methods))
        for head, (text, desc, code_name), _, _, code in self.methods:
            code = struct.pack(">HHI", head[4], head[5], len(code)) + code + bytes(4)
            out += struct.pack(">HHHHHI", 9 if head[1] else 1, text, desc, 1, code_name, len(code)) + code
        return out + bytes(2)


def class_of(text):
    """The bytes of the class of a listing, or the number of its first line that has no reading."""
    parts = text.split(b"\n")
    lines = [spelled(part) for part in parts[:-1]] + ([None] if parts[-1] else [])
    listing = Listing(lines)
    for i in range(len(lines)):
        try:
            listing.take(i)
        except NoReading:
            return i + 1
    if listing.this is None or listing.open is not None:
        return len(lines) + 1
    return listing.bytes()


def made(seed, count, twin):
    """The listing of random methods."""
    x = seed

    def below(n):
        nonlocal x
        x = (x * 6364136223846793005 + 1442695040888963407) % 2**64
        return x // 2**33 % n

    lines = ["class G"]
    for i in range(count):
        t, c = below(3), below(100)
        lines.append(f"method static m{i} (II)I 3 5")
        if t == 0:
            product = ["iload_0", f"bipush {c}", "imul"]
            lines += ["iload_1", *product] if twin else [*product, "iload_1"]
            lines += ["iadd", "ireturn", "end"]
            continue
        factor = "iload_3" if t == 1 else "iload 4"
        product = [factor, f"bipush {c}", "imul"]
        body = [*product, "iload_2", "iadd", "istore_2"] if twin else ["iload_2", *product, "iadd", "istore_2"]
        if t == 2:
            body = ["iconst_0", "istore 4", "K:", "iload 4", "iload_1", "if_icmpge L", *body, "iinc 4 1", "goto K", "L:"]
        lines += ["iload_0", "istore_2", "iconst_0", "istore_3", "H:", "iload_3", "iload_1", "if_icmpge E", *body, "iinc 3 1", "goto H", "E:", "iload_2", "ireturn", "end"]
    return "".join(f"{line}\n" for line in lines).encode()


SEEDS = [
    b"class A\nmethod static f ()I 1 0\niconst_1\nireturn\nend\n",
    b"class a/B%20c\nmethod instance <init> ()V 1 1\nreturn\nend\nmethod static g (JLa/B;[[I)J 4 4\nldc2_w -9223372036854775808\nlload_0\nladd\nlreturn\nend\n",
    b"class S\nmethod static s (I)I 2 1\niload_0\ntableswitch -1 D A B C\nA:\nldc 2147483647\nireturn\nB:\nldc_w 7\nireturn\nC:\nsipush -32768\nireturn\nD:\nbipush -128\nireturn\nend\n",
    b"class S\nmethod static s (I)I 2 1\nnop\niload_0\nlookupswitch D -5 A 0 B 2147483647 A\nA:\niconst_m1\nireturn\nB:\niinc 0 -128\ngoto_w A\nD:\ngoto B\nend\n",
    b"class M\nmethod instance m (Ljava/lang/String;)V 3 2\ngetstatic M f I\nputstatic M f I\naload_0\ngetfield M g [J\npop\ninvokestatic P k ()V\ninvokestatic M k ()V\naconst_null\nifnull E\nathrow\nE:\nreturn\nend\n",
    b"class %-\nmethod static a ()V 0 0\nL1:\ngoto L1\nend\nmethod static a ()I 0 0\nL1:\ngoto L1\nend\nmethod instance b ()V 65535 65535\nldc 1\nldc 1\nldc 2\nreturn\nend\n",
    made(1, 3, False),
    made(7, 4, True),
]
WORDS = (
    b"0 1 -1 00 -0 +1 127 128 -128 -129 255 256 32767 32768 -32768 -32769 65535 65536 2147483647 2147483648 -2147483648 -2147483649 9223372036854775807 9223372036854775808 "
    b"A B D E H L1 x: f g () ()V (I)I ()I I J V [I LA; L; %- %20 %41 %7F %C3%A9 %C3 %FF class method end static instance nop bipush ldc ldc_w ldc2_w goto goto_w ifnull "
    b"tableswitch lookupswitch iinc iload aload wide iload_4 invokevirtual getstatic invokestatic new aastore"
).split(b" ")


def changed(rng, text):
    """A listing with a change."""
    lines = text.split(b"\n")
    i = rng.randrange(len(lines))
    how = rng.randrange(9)
    if how == 0:
        del lines[i]
    elif how == 1:
        lines.insert(rng.randrange(len(lines) + 1), lines[i])
    elif how == 2:
        lines.insert(rng.randrange(len(lines) + 1), lines.pop(i))
    elif how == 3:
        other = rng.choice(SEEDS).split(b"\n")
        lines.insert(i, rng.choice(other))
    elif how == 4:
        j = rng.randrange(len(lines))
        lines = lines[:i] + lines[j:]
    elif how in (5, 6):
        words = lines[i].split(b" ")
        words[rng.randrange(len(words))] = rng.choice(WORDS)
        lines[i] = b" ".join(words)
    elif how == 7:
        words = lines[i].split(b" ")
        at = rng.randrange(len(words) + 1)
        words[at : at + rng.randrange(2)] = [rng.choice(WORDS)] if rng.random() < 0.7 else []
        lines[i] = b" ".join(words)
    else:
        whole = bytearray(b"\n".join(lines))
        if whole:
            at = rng.randrange(len(whole))
            whole[at : at + 1] = rng.choice((b"", b" ", b"\n", b":", b"%", b"\r", bytes([rng.randrange(256)]), whole[at : at + 1] * 2))
        return bytes(whole)
    return b"\n".join(lines)


def long_listings():
    """Listings at the limits: indices past 255, offsets past 32767, codes past 65535 bytes, and a pool past 65535."""
    head = b"class A\nmethod static f ()V 1 0\n"
    numbers = b"".join(b"ldc_w %d\npop\n" % n for n in range(247))
    yield head + numbers + b"ldc 247\nreturn\nend\n"
    yield head + numbers + b"ldc_w 247\nldc 248\nreturn\nend\n"
    for n in (32763, 32764, 32765, 32766):
        yield head + b"goto L\n" + b"nop\n" * n + b"L:\nreturn\nend\n"
        yield head + b"L:\n" + b"nop\n" * n + b"goto L\nend\n"
        yield head + b"goto_w L\n" + b"nop\n" * n + b"L:\nreturn\nend\n"
    for n in (65533, 65534, 65535, 65536):
        yield head + b"nop\n" * n + b"return\nend\n"
    for n in (32763, 32764, 32765):
        code = b"".join(b"ldc2_w %d\n" % k for k in range(n))
        parts = [code[:1]]
        lines = code.split(b"\n")[:-1]
        parts = [b"\n".join(lines[k : k + 20000]) + b"\n" for k in range(0, n, 20000)]
        yield b"class A\n" + b"".join(b"method static f%d ()V 1 0\n" % k + part + b"end\n" for k, part in enumerate(parts))


def compared(listings):
    """How many of the listings have a class; None where an answer differs."""
    same, classes = True, 0
    for text, said in zip(listings, ask([f"assemble {text.hex().upper() or '-'}" for text in listings])):
        meant = class_of(text)
        classes += isinstance(meant, bytes)
        meant = meant.hex().upper() if isinstance(meant, bytes) else f"Line({meant})"
        if said != meant:
            same = False
            print(f"DIFFERS    assemble {text.hex().upper()}\n  said     {said[:200]}\n  expected {meant[:200]}")
    return classes if same else None


def generated(rng):
    """Whether the generator makes the same classes."""
    asked = [(rng.randrange(2**64), rng.randrange(1, 40), twin) for _ in range(100) for twin in (False, True)] + [(2**64 - 1, 2000, True), (0, 1, False)]
    wrong = 0
    for (seed, count, twin), said in zip(asked, ask([f"generate {seed} {count} {'twin' if twin else 'plain'}" for seed, count, twin in asked])):
        if said != class_of(made(seed, count, twin)).hex().upper():
            wrong += 1
            print(f"DIFFERS    generate {seed} {count} {twin}")
    return wrong == 0


def main(args):
    if args[:1] == ["--class"]:
        with open(args[1], "rb") as file:
            found = class_of(file.read())
        print(found.hex().upper() if isinstance(found, bytes) else f"Line({found})")
        return 0
    if args[:1] == ["--generate"]:
        print(class_of(made(int(args[1]), int(args[2]), args[3] == "twin")).hex().upper())
        return 0
    rng = random.Random(int(args[0]) if args else 1)
    count = int(args[1]) if len(args) > 1 else 100000
    whole = [*SEEDS, *long_listings()]
    parts = [compared(whole[i : i + 1]) for i in range(len(whole))]
    fine = generated(rng) and None not in parts
    done, classes = len(whole), sum(n or 0 for n in parts)
    while done < count:
        batch = []
        for _ in range(min(BATCH, count - done)):
            text = rng.choice(SEEDS)
            for _ in range(rng.choice((1, 1, 1, 2, 3, 5))):
                text = changed(rng, text)
            batch.append(text)
        found = compared(batch)
        fine, done, classes = fine and found is not None, done + len(batch), classes + (found or 0)
    print(f"{done} listings, {classes} with a class: {'no difference' if fine else 'DIFFERENT'}")
    return not fine


if __name__ == "__main__":
    sys.exit(main(sys.argv[1:]))
