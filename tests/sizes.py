#!/usr/bin/env python3
"""Runs the built program on methods that come to its limits, and says what each takes.

It works on the program that `cd crates/punthizha && rt run` leaves, or on the one that the environment variable PUNTHIZHA names. Each
method is compared with itself. It has at most 8192 bytes of code, max_stack plus max_locals at most 64, at most 512 blocks, and loops
that nest at most 16 deep:

    diamonds    510 blocks, each reached from the two before it, which change 60 locals
    loops       255 loops, one after another, which change 60 locals
    nest        16 loops, one in another, that carry 40 locals besides their counters
    switch      a switch with 1,500 cases in a loop
    widened     an int that is widened to a long and narrowed, 4,095 times

Two more are run only where they are named, since they take longer than that:

    breaks      16 loops, one in another, out of which 225 blocks lead, each to a block of its own
    search      8 loops, one in another, that carry 20 locals, against the same with another innermost test and no round of the search:
                inductions are tried inside one another, so the time is exponential in the depth

For each it prints what the program says, its processor seconds and its greatest memory. It fails where the program ends otherwise
than with a line or with out of memory, where it takes more seconds than 30, and, with MEGABYTES 0, more memory than 3072 MB.

    tests/sizes.py [MEGABYTES [NAME ..]]      MEGABYTES of address space for each run, by default 3072; 0: without a limit
"""

import os
import resource
import subprocess
import sys
import tempfile

from machine import Code, class_file
from programs import punthizha

SECONDS, MEGABYTES, LAST_SECOND = 30, 3072, 600
MOST_BYTES, LOCALS = 8192, 60
NOP, ILOAD, ISTORE, IINC, IADD, IFEQ, IFNE, IFLE, GOTO, IRETURN, I2L, L2I = 0, 0x15, 0x36, 0x84, 0x60, 0x99, 0x9A, 0x9E, 0xA7, 0xAC, 0x85, 0x88


def load(c, local):
    """Puts the int of a local on the stack, in one byte where one is enough."""
    c.put(*([0x1A + local] if local < 4 else [ILOAD, local]))


def set_all(c, first, count):
    """Sets locals, each to the first parameter."""
    for local in range(first, count):
        load(c, 0)
        c.put(ISTORE, local)


def return_sum(c, count):
    """Returns the sum of locals."""
    load(c, 0)
    for local in range(1, count):
        load(c, local)
        c.put(IADD)
    c.put(IRETURN)


def diamonds():
    """Block k goes on to k + 1 or to k + 2, after it has changed two locals."""
    c = Code()
    labels = [c.label() for _ in range(511)]
    set_all(c, 4, LOCALS)
    for at in range(509):
        c.at(labels[at])
        for it in range(2):
            c.put(IINC, (2 * at + it) % LOCALS, 1 + at % 100)
        load(c, at % 4)
        c.branch(IFEQ, labels[at + 2])
    c.at(labels[509])
    c.at(labels[510])
    return_sum(c, LOCALS)
    return "IIII", LOCALS, c


def loops():
    """Each loop counts a local down, and raises two others."""
    c = Code()
    set_all(c, 4, LOCALS)
    for at in range(255):
        top, after = c.label(), c.label()
        c.at(top)
        load(c, at % 4)
        c.branch(IFLE, after)
        c.put(IINC, at % 4, 255)
        for it in range(2):
            c.put(IINC, 4 + (2 * at + it) % (LOCALS - 4), 1)
        c.branch(GOTO, top)
        c.at(after)
    return_sum(c, LOCALS)
    return "IIII", LOCALS, c


def nest():
    """Each loop starts its counter anew, and the innermost raises 40 locals, each by the next one."""
    c = Code()
    carried, counters = range(4, 44), range(44, 60)
    set_all(c, 4, LOCALS)
    ends = []
    for counter in counters:
        top, after = c.label(), c.label()
        load(c, 0)
        c.put(ISTORE, counter)
        c.at(top)
        load(c, counter)
        c.branch(IFLE, after)
        c.put(IINC, counter, 255)
        ends.append((top, after))
    for local in carried:
        load(c, local)
        load(c, 4 + (local - 3) % 40)
        c.put(IADD, ISTORE, local)
    for top, after in reversed(ends):
        c.branch(GOTO, top)
        c.at(after)
    return_sum(c, LOCALS)
    return "IIII", LOCALS, c


def switch():
    """A loop whose switch goes to one of 340 blocks, each of which raises a local and goes to the next."""
    c = Code()
    top, after = c.label(), c.label()
    blocks = [c.label() for _ in range(340)]
    set_all(c, 4, 56)
    c.at(top)
    load(c, 0)
    c.branch(IFLE, after)
    c.put(IINC, 0, 255)
    load(c, 1)
    c.switch(0, blocks[0], [blocks[at % len(blocks)] for at in range(1500)])
    for at, block in enumerate(blocks):
        c.at(block)
        c.put(IINC, 2 + at % 54, 1)
    c.branch(GOTO, top)
    c.at(after)
    return_sum(c, 56)
    return "IIII", 56, c


def breaks():
    """Each loop counts a local down. In the innermost stands a row of blocks, each of which raises a local and may leave all loops."""
    c = Code()
    outs = [c.label() for _ in range(225)]
    set_all(c, 4, LOCALS)
    ends = []
    for counter in range(44, 60):
        top, after = c.label(), c.label()
        c.at(top)
        load(c, counter)
        c.branch(IFLE, after)
        c.put(IINC, counter, 255)
        ends.append((top, after))
    for at, out in enumerate(outs):
        c.put(IINC, 4 + at % 40, 1 + at % 100)
        load(c, 4 + at % 4)
        c.branch(IFEQ, out)
    for top, after in reversed(ends):
        c.branch(GOTO, top)
        c.at(after)
    for at, out in enumerate(outs):
        c.at(out)
        c.put(IINC, 4 + (at + 1) % 40, 2)
    return_sum(c, LOCALS)
    return "IIII", LOCALS, c


def search(innermost=IFNE):
    """Loops that end with a test of a parameter, before which all locals are raised."""
    c = Code()
    tops = [c.label() for _ in range(8)]
    set_all(c, 4, 24)
    for top in tops:
        c.at(top)
        c.put(NOP)
    for at, top in enumerate(reversed(tops)):
        for local in range(4, 24):
            c.put(IINC, local, 1 + at * (local == 4 + at))
        load(c, 0)
        c.branch(IFNE if at else innermost, top)
    return_sum(c, 24)
    return "IIII", 24, c


def searched():
    return search(IFLE)


def widened():
    c = Code()
    load(c, 0)
    c.put(*[I2L, L2I] * 4095)
    c.put(IRETURN)
    return "I", 1, c


METHODS = {"diamonds": diamonds, "loops": loops, "nest": nest, "switch": switch, "widened": widened}
LONGER = {"breaks": breaks, "search": search}


def class_of(name, method):
    params, local, code = method()
    code = code.bytes()
    assert len(code) <= MOST_BYTES
    return class_file([(name, f"({params})I", 4, local, code)]), len(code)


def ran(first, second, limit):
    """What the program prints, its status, its processor seconds and its greatest memory in MB, with at most so much address space."""

    def limits():
        resource.setrlimit(resource.RLIMIT_CPU, (LAST_SECOND, LAST_SECOND))
        if limit:
            resource.setrlimit(resource.RLIMIT_AS, (limit << 20, limit << 20))

    child = subprocess.Popen([punthizha(), "validate", *["--rounds", "0"] * (first != second), first, second], stdout=subprocess.PIPE, stderr=subprocess.DEVNULL, preexec_fn=limits)
    out = child.stdout.read().decode()
    _, status, used = os.wait4(child.pid, 0)
    child.returncode = os.waitstatus_to_exitcode(status)
    return out.strip(), child.returncode, used.ru_utime + used.ru_stime, used.ru_maxrss // 1024


def main():
    limit = int(sys.argv[1]) if len(sys.argv) > 1 else MEGABYTES
    failed = False
    with tempfile.TemporaryDirectory() as work:
        for name in sys.argv[2:] or METHODS:
            made = [METHODS.get(name) or LONGER[name]] + [searched] * (name == "search")
            paths = [os.path.join(work, f"{name}{at}.class") for at in range(len(made))]
            for path, method in zip(paths, made):
                data, length = class_of(name, method)
                with open(path, "wb") as file:
                    file.write(data)
            out, status, seconds, memory = ran(paths[0], paths[-1], limit)
            wrong = status not in (0, 1, 7) or bool(out) != (status in (0, 1)) or seconds > SECONDS or memory > MEGABYTES
            failed = failed or wrong
            print(f"{name}, {length} bytes: {out or 'nothing'}, {status} | {seconds:.1f} s, {memory} MB{' FAILED' * wrong}", flush=True)
    return 1 if failed else 0


if __name__ == "__main__":
    sys.exit(main())
