#!/usr/bin/env python3
"""Compares the program's verdicts on random methods with their results on a JVM.

It works on the program that `cd crates/punthizha && rt run` leaves, or on the one that the environment variable PUNTHIZHA names, and
needs a JDK. A method takes three ints and has sums, products, shifts, quotients, choices and loops. It is compared with two others:
with one that was written otherwise, as `b + a` for `a + b`, and with itself after one instruction was exchanged for another one.
Both are run on the same lists of arguments. No two may be `equivalent` that differ for one of these, and `check` must accept each
certificate. It prints how many are equivalent, and how many differ.

    tests/mutants.py [SEED [CLASSES [METHODS]]]      by default 1, 40 classes of 50 methods each
"""

import os
import random
import subprocess
import sys
import tempfile
from collections import Counter
from concurrent.futures import ThreadPoolExecutor

from pairs import called, check

ARGUMENTS = 24
RUNNER = """
import java.lang.reflect.*;
import java.nio.file.*;
import java.util.*;

public class Runner {
    static String result(Method method, int[] a) throws Exception {
        try {
            return String.valueOf(method.invoke(null, a[0], a[1], a[2]));
        } catch (InvocationTargetException e) {
            return e.getCause().getClass().getSimpleName();
        }
    }

    static String within(long most, Method method, int[] a) throws Exception {
        for (int times = 0; times < 3; times++) {
            long begin = System.nanoTime();
            String result = result(method, a);
            if (System.nanoTime() - begin <= most)
                return result;
        }
        return "slow";
    }

    static int[] numbers(String line) {
        return Arrays.stream(line.split(" ")).mapToInt(Integer::parseInt).toArray();
    }

    @SuppressWarnings("removal")
    public static void main(String[] words) throws Exception {
        int[][] arguments = Files.readAllLines(Path.of(words[1])).stream().map(Runner::numbers).toArray(int[][]::new);
        long most = Long.parseLong(words[2]);
        for (int number = 0; number < Integer.parseInt(words[0]); number++) {
            Method[] methods = Class.forName("C" + number).getDeclaredMethods();
            for (Method method : methods) {
                List<String> results = Collections.synchronizedList(new ArrayList<>());
                Thread thread = new Thread(() -> {
                    try {
                        for (int[] list : arguments)
                            results.add(within(most, method, list));
                    } catch (Exception e) {
                        throw new IllegalStateException(e);
                    }
                });
                thread.start();
                thread.join(400);
                thread.stop();
                synchronized (results) {
                    System.out.println("C" + number + "." + method.getName() + " " + String.join(" ", results));
                }
            }
        }
        System.exit(0);
    }
}
"""
# Opcodes that may be exchanged for one another: sums to exclusive or, int constants, tests of one int and of two, loads and stores of the parameters.
ALIKE = [[0x60, 0x64, 0x68, 0x78, 0x7A, 0x7C, 0x7E, 0x80, 0x82], range(0x02, 0x09), range(0x99, 0x9F), range(0x9F, 0xA5), range(0x1A, 0x1D), range(0x3B, 0x3E)]
LENGTHS = {0x10: 2, 0x11: 3, 0x12: 2, 0x13: 3, 0x14: 3, 0x84: 3, 0xC8: 5}
LENGTHS |= {op: 2 for op in [*range(0x15, 0x1A), *range(0x36, 0x3B)]} | {op: 3 for op in [*range(0x99, 0xA9), *range(0xB2, 0xB9)]}


class Method:
    """A random method, written twice."""

    def __init__(self, chance):
        self.chance, self.loops = chance, 0

    def term(self, depth):
        """An expression, and another one of the same value."""
        chance = self.chance
        if depth == 0 or chance.random() < 0.2:
            leaf = chance.choice(["a", "b", "c", str(chance.randint(-3, 9))])
            return (f"({leaf})",) * 2 if chance.random() < 0.9 else (f"({leaf})", f"(({leaf}) + 0)")
        (x, u), (y, v) = self.term(depth - 1), self.term(depth - 1)
        op = chance.choice(["+", "-", "*", "&", "|", "^", "+", "*", "<<", ">>", ">>>", "/", "8", "~"])
        if op == "8":
            return f"({x} * 8)", f"({u} << 3)"
        if op == "~":
            return f"(-{x})", f"(0 - {u})"
        if op in "+*&|^" and chance.random() < 0.5:
            return f"({x} {op} {y})", f"({v} {op} {u})"
        return f"({x} {op} {y})", f"({u} {op} {v})"

    def test(self):
        (x, u), (y, v) = self.term(1), self.term(1)
        op = self.chance.choice(["<", "<=", ">", ">=", "==", "!="])
        turned = {"<": ">", "<=": ">=", ">": "<", ">=": "<="}.get(op, op)
        return f"{x} {op} {y}", (f"{v} {turned} {u}" if self.chance.random() < 0.3 else f"{u} {op} {v}")

    def block(self, depth):
        """Some statements, and others that do the same."""
        parts = [self.statement(depth) for _ in range(self.chance.randint(1, 2))]
        return tuple(" ".join(it) for it in zip(*parts))

    def statement(self, depth):
        kind = self.chance.random() if depth else 1
        if kind < 0.3:
            test, body, other = self.test(), self.block(depth - 1), self.block(depth - 1)
            return tuple(f"if ({t}) {{ {x} }} else {{ {y} }}" for t, x, y in zip(test, body, other))
        if kind < 0.4:
            self.loops += 1
            name, body = f"i{self.loops}", self.block(depth - 1)
            return tuple(f"for (int {name} = 0; {name} < (a & 7); {name}++) {{ {x} b += {name}; }}" for x in body)
        place = self.chance.choice("abc")
        return tuple(f"{place} = {it};" for it in self.term(2))

    def written(self, name):
        body, result = self.block(2), self.term(2)
        return tuple(f"static int {name}(int a, int b, int c) {{ {x} return {y}; }}" for x, y in zip(body, result))


def codes(data):
    """Where the code of each method of a class file begins and ends."""
    number, count, at = 1, int.from_bytes(data[8:10], "big"), 10
    while number < count:
        tag = data[at]
        at += 3 + int.from_bytes(data[at + 1 : at + 3], "big") if tag == 1 else {3: 5, 4: 5, 5: 9, 6: 9, 7: 3, 8: 3, 15: 4, 16: 3, 19: 3, 20: 3}.get(tag, 5)
        number += 2 if tag in (5, 6) else 1
    # (no interfaces, and no fields: only the count of methods is left)
    methods, at = int.from_bytes(data[at + 10 : at + 12], "big"), at + 12
    for _ in range(methods):
        # (one attribute, which is the code)
        at += 8
        length = int.from_bytes(data[at + 2 : at + 6], "big")
        begin = at + 14
        yield begin, begin + int.from_bytes(data[at + 10 : at + 14], "big")
        at += 6 + length


def mutated(data, chance):
    """The class file with one instruction exchanged in each method."""
    data = bytearray(data)
    for begin, end in list(codes(data)):
        found, at = [], begin
        while at < end:
            found += [(at, other) for group in ALIKE if data[at] in group for other in group if other != data[at]]
            at += LENGTHS.get(data[at], 1)
        if found:
            at, other = chance.choice(found)
            data[at] = other
    return bytes(data)


def sources(seed, classes, methods, one, other):
    for number in range(classes):
        chance = random.Random(f"{seed} {number}")
        written = [Method(chance).written(f"m{it}") for it in range(methods)]
        for place, side in ((one, 0), (other, 1)):
            with open(os.path.join(place, f"C{number}.java"), "w", encoding="ascii") as file:
                file.write(f"interface C{number} {{ {' '.join(it[side] for it in written)} }}\n")


def compiled(place):
    names = [os.path.join(place, it) for it in sorted(os.listdir(place)) if it.endswith(".java")]
    subprocess.run(["javac", "-g:none", "-nowarn", "--release", "8", "-d", place, *names], check=True, stderr=subprocess.DEVNULL)


def written_classes(seed, classes, methods, one, other, mutants):
    """Writes the class files of random methods into three folders: as they are, written otherwise, and with an instruction exchanged."""
    sources(seed, classes, methods, one, other)
    compiled(one)
    compiled(other)
    for number in range(classes):
        with open(os.path.join(one, f"C{number}.class"), "rb") as file, open(os.path.join(mutants, f"C{number}.class"), "wb") as to:
            to.write(mutated(file.read(), random.Random(f"{seed} mutant {number}")))


def compiled_runner(runner, lists):
    """Writes into a folder the program that runs methods on the JVM, and the lists of arguments on which it does."""
    with open(os.path.join(runner, "Runner.java"), "w", encoding="ascii") as file:
        file.write(RUNNER)
    with open(os.path.join(runner, "arguments"), "w", encoding="ascii") as file:
        file.writelines(" ".join(map(str, it)) + "\n" for it in lists)
    subprocess.run(["javac", "-nowarn", "-d", runner, os.path.join(runner, "Runner.java")], check=True, stderr=subprocess.DEVNULL)


def random_lists(seed):
    chance = random.Random(seed)
    return [[chance.randint(-(2**31), 2**31 - 1) if chance.randrange(3) == 0 else chance.randint(-10, 10) for _ in range(3)] for _ in range(ARGUMENTS)]


def results(place, runner, classes, most=10**12, *flags):
    """What each method gives for the lists of arguments, as far as it came within its time: `slow` where it took more than so many nanoseconds."""
    words = ["java", *flags, "-cp", os.pathsep.join([runner, place]), "Runner", str(classes), os.path.join(runner, "arguments"), str(most)]
    lines = subprocess.run(words, check=True, capture_output=True, text=True).stdout.splitlines()
    return {name: results for name, *results in map(str.split, lines)}


def compare(number, one, other, left, right):
    """How often two methods of the same name are equivalent or not, and differ or not; and what is wrong."""
    first, second = os.path.join(one, f"C{number}.class"), os.path.join(other, f"C{number}.class")
    cert = second + ".cert"
    out, status, *_ = called("validate", "--cert", cert, first, second)
    fault, steps = check(first, second, cert, out) if status in (0, 1) else (f"status {status}", [])
    found, wrong = Counter(), [f"C{number}: {fault}"] if fault else []
    for line in out.splitlines():
        name = f"C{number}.{line.split(' ')[0]}"
        differs = any(x != y for x, y in zip(left[name], right[name]))
        same = line.endswith(" equivalent")
        found[("equivalent" if same else "not equivalent") + (", differ on the JVM" if differs else "")] += 1
        if same and differs:
            wrong.append(f"{name} is equivalent and differs")
    found["sections with steps"] = sum(1 for it in steps if it)
    return found, wrong


def report(what, classes, one, other, left, right):
    with ThreadPoolExecutor(2) as pool:
        answers = list(pool.map(lambda number: compare(number, one, other, left, right), range(classes)))
    found = sum((it[0] for it in answers), Counter())
    print(f"{what}: " + ", ".join(f"{count} {kind}" for kind, count in sorted(found.items())), flush=True)
    wrong = [text for it in answers for text in it[1]]
    print("".join(f"WRONG   {text}\n" for text in wrong[:20]), end="", flush=True)
    return bool(wrong)


def main():
    seed, classes, methods = [int(it) for it in sys.argv[1:]] + [1, 40, 50][len(sys.argv) - 1 :]
    with tempfile.TemporaryDirectory() as work:
        one, other, mutants, runner = places = [os.path.join(work, it) for it in ("one", "other", "mutants", "runner")]
        for place in places:
            os.mkdir(place)
        compiled_runner(runner, random_lists(seed))
        written_classes(seed, classes, methods, one, other, mutants)
        left, right, changed = (results(it, runner, classes) for it in (one, other, mutants))
        wrong = report("written otherwise", classes, one, other, left, right)
        wrong |= report("one instruction exchanged", classes, one, mutants, left, changed)
    sys.exit(wrong)


if __name__ == "__main__":
    main()
