#!/usr/bin/env python3
"""Runs methods by the machine of `pv_machine` and by a JVM, and compares how they end.

It works on the program that `cd crates/cases && rt run < stdin` leaves, and on the `java` on the path. The
methods are random ones of ints and longs, with arithmetic, branches, switches and loops that end, the
static methods of java.lang that take and give ints and longs and name nothing in the constant pool, and random
ones that cast and test an array and an object of classes of java.lang and store references into the array.

    tests/machine.py [SEED [METHODS [ARGUMENTS]]]      by default 1, 2000 methods, 50 lists of arguments each
"""

import os
import random
import struct
import subprocess
import sys
import tempfile

from programs import ask, jdk_classes

SIZES = {3: 4, 4: 4, 5: 8, 6: 8, 7: 2, 8: 2, 9: 4, 10: 4, 11: 4, 12: 4, 15: 3, 16: 2, 17: 4, 18: 4, 19: 2, 20: 2}
RANGES = {"I": (-(2**31), 2**31 - 1), "J": (-(2**63), 2**63 - 1), "Z": (0, 1), "B": (-128, 127), "C": (0, 65535), "S": (-32768, 32767)}
STEPS = 1000000

# The locals of a random method: two ints, a long, then two ints and a long of its own, and loop counters.
PARAMS = "IIJ"
INTS, LONGS, COUNTERS, LOCALS = [0, 1, 4, 5], [2, 6], [8, 9, 10], 11

# Classes of objects, with those of java.lang, Object apart, that an object of them is of too.
SUPERS = {"Object": [], "Integer": ["Number", "Comparable"], "String": ["CharSequence", "Comparable"], "Thread": ["Runnable"]}
# The classes that casts and type tests name, by the descriptors of arrays and by names.
TESTED = ["Object", "Number", "Integer", "String", "Comparable", "CharSequence", "Runnable", "Cloneable", "[Object", "[Number", "[Comparable"]
OBJECTS_PARAMS = ["[Ljava/lang/Object;", "I", "Ljava/lang/Object;"]
# The references of the array and of the object, and of the objects of the literals that a failed cast and a failed store throw.
ARRAY, OBJECT, CAST, STORE = 3, 4, 8, 9

JAVA = """
import java.io.*; import java.lang.reflect.*; import java.nio.file.*; import java.util.*;
public class Runs {
    static class Loader extends ClassLoader {
        Class<?> of(byte[] b) { return defineClass(null, b, 0, b.length); }
    }
    static Class<?> named(String s) throws Exception { return Class.forName("java.lang." + s); }
    static Object made(String s) throws Exception {
        if (s.equals("null")) return null;
        if (s.startsWith("[")) return Array.newInstance(named(s.substring(1)), 1);
        return s.equals("Integer") ? (Object) 7 : s.equals("String") ? "s" : named(s).getConstructor().newInstance();
    }
    static Object arg(Class<?> t, String s) throws Exception {
        if (t == Object.class) return made(s);
        if (t == Object[].class) return s.equals("null") ? null : Array.newInstance(named(s.split(":")[0]), Integer.parseInt(s.split(":")[1]));
        long n = Long.parseLong(s);
        if (t == int.class) return (int) n;
        if (t == long.class) return n;
        if (t == boolean.class) return n != 0;
        if (t == byte.class) return (byte) n;
        if (t == char.class) return (char) n;
        return (short) n;
    }
    static String shown(Object o) {
        if (o instanceof Long) return "Returned(Some(Long(" + o + ")))";
        if (o instanceof Boolean) return "Returned(Some(Int(" + ((Boolean) o ? 1 : 0) + ")))";
        if (o instanceof Character) return "Returned(Some(Int(" + (int) (Character) o + ")))";
        return "Returned(Some(Int(" + o + ")))";
    }
    static String thrown(Throwable e) {
        if (e instanceof ArithmeticException) return "Threw(Arith)";
        if (e instanceof NullPointerException) return "Threw(Null)";
        if (e instanceof ArrayIndexOutOfBoundsException) return "Threw(Index)";
        if (e instanceof ClassCastException) return "Threw(Thrown(8))";
        if (e instanceof ArrayStoreException) return "Threw(Thrown(9))";
        return "Threw(" + e + ")";
    }
    static String desc(Method m) {
        return java.lang.invoke.MethodType.methodType(m.getReturnType(), m.getParameterTypes()).toMethodDescriptorString();
    }
    public static void main(String[] a) throws Exception {
        Class<?> random = new Loader().of(Files.readAllBytes(Path.of(a[0])));
        Map<String, Method> methods = new HashMap<>();
        PrintStream out = new PrintStream(new BufferedOutputStream(new FileOutputStream(FileDescriptor.out), 1 << 16));
        for (String line : Files.readAllLines(Path.of(a[1]))) {
            String[] w = line.split(" ");
            String key = w[0] + " " + w[1] + " " + w[2];
            Method m = methods.get(key);
            if (m == null) {
                Class<?> c = w[0].equals("G") ? random : Class.forName(w[0]);
                for (Method x : c.getDeclaredMethods()) {
                    x.setAccessible(true);
                    methods.put(w[0] + " " + x.getName() + " " + desc(x), x);
                }
                m = methods.get(key);
            }
            Class<?>[] types = m.getParameterTypes();
            Object[] args = new Object[types.length];
            for (int i = 0; i < types.length; i++) args[i] = arg(types[i], w[3 + i]);
            try {
                out.println(shown(m.invoke(null, args)));
            } catch (InvocationTargetException e) {
                out.println(thrown(e.getCause()));
            }
        }
        out.flush();
    }
}
"""


class Code:
    """A code that is being written: bytes, and labels that are set later."""

    def __init__(self):
        self.items, self.labels = [], 0

    def label(self):
        self.labels += 1
        return self.labels

    def put(self, *bytes_):
        self.items.append(("bytes", bytes(bytes_)))

    def at(self, label):
        self.items.append(("label", label))

    def branch(self, opcode, label):
        self.items.append(("branch", opcode, label))

    def switch(self, low, default, labels):
        self.items.append(("table", low, default, labels))

    def lookup(self, default, pairs):
        self.items.append(("lookup", default, pairs))

    def size(self, item, at):
        kind = item[0]
        if kind == "bytes":
            return len(item[1])
        if kind == "branch":
            return 3
        if kind == "table":
            return 1 + (-(at + 1)) % 4 + 12 + 4 * len(item[3])
        if kind == "lookup":
            return 1 + (-(at + 1)) % 4 + 8 + 8 * len(item[2])
        return 0

    def bytes(self):
        at, places = 0, {}
        for item in self.items:
            if item[0] == "label":
                places[item[1]] = at
            at += self.size(item, at)
        out = b""
        for item in self.items:
            at = len(out)
            pad = bytes((-(at + 1)) % 4)
            if item[0] == "bytes":
                out += item[1]
            elif item[0] == "branch":
                out += struct.pack(">Bh", item[1], places[item[2]] - at)
            elif item[0] == "table":
                _, low, default, labels = item
                out += b"\xaa" + pad + struct.pack(">iii", places[default] - at, low, low + len(labels) - 1)
                out += b"".join(struct.pack(">i", places[label] - at) for label in labels)
            elif item[0] == "lookup":
                _, default, pairs = item
                out += b"\xab" + pad + struct.pack(">ii", places[default] - at, len(pairs))
                out += b"".join(struct.pack(">ii", key, places[label] - at) for key, label in pairs)
        return out


def push_int(r, c):
    n = r.choice([r.randint(-1, 5), r.randint(-128, 127), r.randint(-32768, 32767)])
    if -1 <= n <= 5:
        c.put(3 + n)
    elif -128 <= n <= 127:
        c.put(16, n & 0xFF)
    else:
        c.put(17, (n >> 8) & 0xFF, n & 0xFF)


def int_expression(r, c, depth):
    kind = r.randrange(8) if depth else r.randrange(2)
    if kind == 0:
        push_int(r, c)
    elif kind == 1:
        c.put(21, r.choice(INTS))
    elif kind < 5:
        int_expression(r, c, depth - 1)
        int_expression(r, c, depth - 1)
        c.put(r.choice([96, 100, 104, 108, 112, 120, 122, 124, 126, 128, 130]))
    elif kind == 5:
        int_expression(r, c, depth - 1)
        c.put(r.choice([116, 145, 146, 147]))
    elif kind == 6:
        long_expression(r, c, depth - 1)
        c.put(136)
    else:
        long_expression(r, c, depth - 1)
        long_expression(r, c, depth - 1)
        c.put(148)


def long_expression(r, c, depth):
    kind = r.randrange(7) if depth else r.randrange(2)
    if kind == 0:
        c.put(r.choice([9, 10]))
    elif kind == 1:
        c.put(22, r.choice(LONGS))
    elif kind < 4:
        long_expression(r, c, depth - 1)
        long_expression(r, c, depth - 1)
        c.put(r.choice([97, 101, 105, 109, 113, 127, 129, 131]))
    elif kind == 4:
        long_expression(r, c, depth - 1)
        int_expression(r, c, depth - 1)
        c.put(r.choice([121, 123, 125]))
    elif kind == 5:
        long_expression(r, c, depth - 1)
        c.put(117)
    else:
        int_expression(r, c, depth - 1)
        c.put(133)


def condition(r, c, label):
    if r.randrange(2):
        int_expression(r, c, 2)
        c.branch(r.randint(153, 158), label)
    else:
        int_expression(r, c, 1)
        int_expression(r, c, 1)
        c.branch(r.randint(159, 164), label)


def block(r, c, depth, loops):
    for _ in range(r.randint(1, 3)):
        statement(r, c, depth, loops)


def statement(r, c, depth, loops):
    kind = r.randrange(8) if depth else r.randrange(4)
    if kind < 2:
        int_expression(r, c, 3)
        c.put(54, r.choice(INTS))
    elif kind == 2:
        long_expression(r, c, 3)
        c.put(55, r.choice(LONGS))
    elif kind == 3:
        c.put(132, r.choice(INTS), r.randrange(256))
    elif kind == 4:
        other, end = c.label(), c.label()
        condition(r, c, other)
        block(r, c, depth - 1, loops)
        c.branch(167, end)
        c.at(other)
        block(r, c, depth - 1, loops)
        c.at(end)
    elif kind == 5:
        moves(r, c)
    elif kind == 6:
        end, cases = c.label(), [c.label() for _ in range(r.randint(1, 4))]
        int_expression(r, c, 2)
        if r.randrange(2):
            c.switch(r.randint(-3, 3), end, cases)
        else:
            keys = sorted(r.sample(range(-9, 10), len(cases)))
            c.lookup(end, list(zip(keys, cases)))
        for label in cases:
            c.at(label)
            block(r, c, depth - 1, loops)
            if r.randrange(2):
                c.branch(167, end)
        c.at(end)
    elif loops < len(COUNTERS):
        counter, head = COUNTERS[loops], c.label()
        c.put(16, r.randint(1, 9), 54, counter)
        c.at(head)
        block(r, c, depth - 1, loops + 1)
        c.put(132, counter, 0xFF, 21, counter)
        c.branch(157, head)


def moves(r, c):
    """A move of the operand stack, and operations that put what it leaves into locals."""
    form = r.randrange(6)
    if form == 0:
        int_expression(r, c, 1)
        c.put(89, 96, 54, r.choice(INTS))
    elif form == 1:
        int_expression(r, c, 1)
        int_expression(r, c, 1)
        c.put(95, 100, 54, r.choice(INTS))
    elif form == 2:
        int_expression(r, c, 1)
        int_expression(r, c, 1)
        c.put(90, 100, 104, 54, r.choice(INTS))
    elif form == 3:
        long_expression(r, c, 1)
        c.put(92, 105, 55, r.choice(LONGS))
    elif form == 4:
        int_expression(r, c, 1)
        long_expression(r, c, 1)
        c.put(93, 55, LONGS[0], 54, INTS[0], 55, LONGS[1])
    else:
        long_expression(r, c, 1)
        long_expression(r, c, 1)
        c.put(94, 55, LONGS[0], 101, 55, LONGS[1])


def random_code(seed):
    r = random.Random(seed)
    c = Code()
    c.put(3, 54, 4, 4, 54, 5, 9, 55, 6, 3, 54, 8, 3, 54, 9, 3, 54, 10)
    for _ in range(r.randint(1, 5)):
        statement(r, c, 3, 0)
    result = r.choice("IJZBCS")
    if result == "J":
        long_expression(r, c, 2)
        c.put(173)
    else:
        int_expression(r, c, 2)
        c.put(172)
    return result, c.bytes()


def full_name(class_):
    """The name of a class of java.lang, or of an array of such, as a Class of the constant pool has it."""
    return f"[Ljava/lang/{class_[1:]};" if class_.startswith("[") else f"java/lang/{class_}"


def supers(class_):
    """All classes that an object of this class is of (JVMS 6.5, instanceof)."""
    if class_.startswith("["):
        return {"Object", "Cloneable"} | {"[" + name for name in supers(class_[1:])}
    return {"Object", class_, *SUPERS[class_]}


# The entries of the constant pool with these classes, for a line of `machine`.
TESTED_POOL = f"pool={2 * len(TESTED)}," + "+".join(
    f"01{len(full_name(name)):04X}+'{full_name(name).replace(';', '%3B')}+07{8 + 2 * k:04X}" for k, name in enumerate(TESTED)
)


def random_tests(r):
    """A code with casts, type tests and stores: the array in local 0, an index in 1, the object in 2, and what the tests gave in 3."""
    class_ = lambda: (0, 9 + 2 * r.randrange(len(TESTED)))
    code = [3, 62]
    for _ in range(r.randint(1, 6)):
        kind = r.randrange(5)
        value = r.choice([42, 44, 44, 44])
        index = r.choice([27, 27, 3, 4])
        if kind <= 1:
            code += [value, 193, *class_(), 29, 4, 120, 96, 62]
        elif kind == 2:
            code += [value, 192, *class_(), 87]
        elif kind == 3:
            code += [42, index, r.choice([1, value, value, value]), 83]
        else:
            code += [42, index, 50, 77]
    return bytes(code + [29, 172])


def types_world(array, value):
    """What the world tells of an array and an object of these classes, either of which may be None, for null."""
    one = "Ljava/lang/Object%3B"
    steps = [f"literal %FFcast {CAST}", f"literal %FFstore {STORE}"]
    if array:
        steps.append(f"length {ARRAY} {array[1]}")
    objects = [(ARRAY, supers("[" + array[0]) if array[0] in SUPERS else {"Object", "Cloneable", "[Object", "[" + array[0]})] if array else []
    objects += [(OBJECT, supers(value))] if value else []
    for n, classes in objects:
        steps += [f"returns {full_name(name).replace(';', '%3B')} %FFis ({one})Z 1 static:A:x:I 0 {n}R" for name in TESTED if name in classes]
        if array and array[0] in classes:
            steps.append(f"returns %FFarray %FFfits ({one}{one})Z 1 static:A:x:I 0 {ARRAY}R {n}R")
    return "; ".join(steps)


def class_file(methods):
    pool = []

    def entry(bytes_):
        pool.append(bytes_)
        return len(pool)

    def text(s):
        return entry(b"\x01" + struct.pack(">H", len(s)) + s.encode())

    this = entry(b"\x07" + struct.pack(">H", text("G")))
    top = entry(b"\x07" + struct.pack(">H", text("java/lang/Object")))
    code_name = text("Code")
    # the classes that codes name stand from 9 on, as after the name and the descriptor of one method
    text("-"), text("-")
    for name in TESTED:
        entry(b"\x07" + struct.pack(">H", text(full_name(name))))
    body = b""
    for name, desc, stack, local, code in methods:
        body += struct.pack(">HHHH", 9, text(name), text(desc), 1)
        body += struct.pack(">HIHHI", code_name, 12 + len(code), stack, local, len(code)) + code + bytes(4)
    head = b"\xca\xfe\xba\xbe" + struct.pack(">HHH", 0, 49, len(pool) + 1) + b"".join(pool)
    return head + struct.pack(">HHHHHH", 0x21, this, top, 0, 0, len(methods)) + body + bytes(2)


def plain(code):
    """Whether a code names nothing in the constant pool, and has no float and no array."""
    wide = {16: 2, 17: 3, 21: 2, 22: 2, 54: 2, 55: 2, 132: 3}
    at = 0
    while at < len(code):
        op = code[at]
        if op in wide:
            at += wide[op]
        elif 153 <= op <= 167:
            at += 3
        elif op in (0, *range(2, 11), *range(26, 34), *range(59, 67), *range(87, 98), 100, 101, 104, 105, 108, 109, 112, 113, 116, 117, *range(120, 132), 133, 136, 145, 146, 147, 148, 172, 173):
            at += 1
        else:
            return False
    return True


def jdk_methods(folder):
    """The static methods of java.lang that can be run on numbers alone."""
    for name in ("Math", "StrictMath", "Integer", "Long", "Short", "Byte", "Boolean", "Character", "CharacterData00", "Float", "Double"):
        data = open(os.path.join(folder, "java.base", "java", "lang", name + ".class"), "rb").read()
        (count,) = struct.unpack_from(">H", data, 8)
        at, index, texts = 10, 1, {}
        while index < count:
            tag = data[at]
            if tag == 1:
                (length,) = struct.unpack_from(">H", data, at + 1)
                texts[index] = data[at + 3 : at + 3 + length].decode("latin-1")
                at += 3 + length
            else:
                at += 1 + SIZES[tag]
            index += 2 if tag in (5, 6) else 1
        (interfaces,) = struct.unpack_from(">H", data, at + 6)
        at += 8 + 2 * interfaces
        for table in range(2):
            (members,) = struct.unpack_from(">H", data, at)
            at += 2
            for _ in range(members):
                flags, of, desc, attributes = struct.unpack_from(">4H", data, at)
                at += 8
                for _ in range(attributes):
                    attribute, length = struct.unpack_from(">HI", data, at)
                    if table == 1 and texts[attribute] == "Code" and flags & 8:
                        stack, local, size = struct.unpack_from(">HHI", data, at + 6)
                        code = data[at + 14 : at + 14 + size]
                        (handlers,) = struct.unpack_from(">H", data, at + 14 + size)
                        params, result = texts[desc][1:].split(")")
                        if set(params) <= set(RANGES) and result in RANGES and not handlers and plain(code):
                            yield "java.lang." + name, texts[of], params, result, stack, local, code
                    at += 6 + length


def numbers(r, params):
    def one(t):
        low, high = RANGES[t]
        near = r.choice([0, 1, -1, 2, 31, 32, 63, 64, low, high, low + 1, high - 1])
        return min(max(r.choice([near, r.randint(-99, 99), r.randint(low, high)]), low), high)

    return [one(t) for t in params]


def main():
    seed, count, lists = [int(w) for w in (sys.argv[1:] + ["1", "2000", "50"][len(sys.argv) - 1 :])[:3]]
    r = random.Random(seed)
    with tempfile.TemporaryDirectory() as work:
        jdk_classes(work, only="regex:/java.base/java/lang/[A-Za-z0-9]*.class")
        methods = []
        for k in range(count):
            result, code = random_code(seed * 1000003 + k)
            methods.append(("G", f"m{k}", PARAMS, result, 40, LOCALS, code))
        own = [(name, f"({params}){result}", stack, local, code) for _, name, params, result, stack, local, code in methods]
        tests = [(f"t{k}", random_tests(r)) for k in range(count)]
        own += [(name, f"({''.join(OBJECTS_PARAMS)})I", 5, 4, code) for name, code in tests]
        open(os.path.join(work, "G.class"), "wb").write(class_file(own))
        known = list(jdk_methods(work))
        machine, jvm = [], []
        for owner, name, params, result, stack, local, code in methods + known:
            for _ in range(lists):
                args = numbers(r, params)
                words = " ".join(f"{n}L" if t == "J" else str(n) for t, n in zip(params, args))
                machine.append(f"machine {STEPS} {words}; f,({params}){result},0009,{stack},{local},{code.hex().upper()}")
                jvm.append(f"{owner} {name} ({params}){result} " + " ".join(map(str, args)))
        for name, code in tests:
            for _ in range(lists):
                array = r.choice([None] + [(element, r.randint(0, 3)) for element in ("Object", "Number", "Integer", "String", "Comparable")] * 4)
                value = r.choice([None] + [*SUPERS, "[Integer", "[String"] * 4)
                index = r.choice([0, 0, 0, 1, 2, -1])
                words = f"{ARRAY if array else 0}R {index} {OBJECT if value else 0}R"
                machine.append(f"machine {STEPS} {words}; {TESTED_POOL} f,({''.join(OBJECTS_PARAMS).replace(';', '%3B')})I,0009,5,4,{code.hex().upper()}; {types_world(array, value)}")
                jvm.append(f"G {name} ({''.join(OBJECTS_PARAMS)})I {':'.join(map(str, array)) if array else 'null'} {index} {value or 'null'}")
        open(os.path.join(work, "Runs.java"), "w").write(JAVA)
        open(os.path.join(work, "lines"), "w").write("\n".join(jvm) + "\n")
        told = subprocess.run(
            ["java", "--add-opens", "java.base/java.lang=ALL-UNNAMED", os.path.join(work, "Runs.java"), os.path.join(work, "G.class"), os.path.join(work, "lines")],
            capture_output=True, text=True,
        )
        if told.returncode:
            sys.exit(told.stderr)
        ours, theirs = ask(machine), told.stdout.splitlines()
    wrong = [k for k in range(len(machine)) if k >= len(ours) or k >= len(theirs) or ours[k] != theirs[k]]
    for k in wrong[:10]:
        print(jvm[k], machine[k], ours[k] if k < len(ours) else "-", theirs[k] if k < len(theirs) else "-")
    threw = sum(line.startswith("Threw") for line in theirs)
    print(f"{len(machine)} runs of {count} random methods and {len(known)} of java.lang, {count} with types, {threw} threw, {len(wrong)} differ")
    sys.exit(1 if wrong else 0)


if __name__ == "__main__":
    main()
