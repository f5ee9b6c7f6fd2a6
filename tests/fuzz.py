#!/usr/bin/env python3
"""Gives the program hostile inputs: class files, certificates, chains and words that were changed at random.

It works on the program that `cd crates/cases && rt run < stdin` leaves, or on the one that the environment variable CASES names: one process
does many inputs, since its calls take whole files as digits. The seeds are the class files that lines of crates/cases/stdin name, loops, calls and
fields among them, and the certificates that the program makes for the pairs there, also with uses of lemmas in place of axioms. Of each input the
program must say, within 60 seconds, a status and lines that README knows, and change no file but the one that the words name. The kinds:

    self        a changed class file against itself: no line but `equivalent`, `nocode first` and `refused first`
    pair        a class file against another one, one or both changed
    counted     the same with `--counted`
    cert        the same with `--cert`; `check` must then say `equivalent` of the same methods
    refute      the same by `refute`
    check       a changed certificate, mostly under the digests of the files
    migrate     the same in version 1, mostly
    compose     class files and two certificates, changed
    chain       a changed chain, mostly with a middle class and digests that fit
    words       words of commands in any order, with options, values and names that are none

    tests/fuzz.py [SEED [COUNT [KIND ..]]]      by default 1, 100000 inputs of all kinds

It prints each input that fails, as a line for the program of cases, and in the end, or when it is interrupted, how often each kind had each
status. For a long run start it several times with other seeds.
"""

import hashlib
import os
import random
import re
import select
import struct
import subprocess
import sys
import tempfile
import time
from collections import Counter

from cases import case_rows
from certs import with_uses
from converter import ClassFile
from programs import cases

BATCH, SECONDS, LONGEST_SEED = 500, 60, 3000
BYTES = bytes((0, 1, 2, 0x7F, 0x80, 0xFE, 0xFF))

SHOWN = r"(?:[!-$&-~]|%[0-9A-F]{2})+|%-"
NAMED = rf"(?:{SHOWN}) (?:{SHOWN})"
METHOD = r"(?:handler|monitor|long-code|slots|float|code|allocation|dynamic|subroutine|constant|types|blocks|irreducible|depth) at \d+"
FILE = r"(?:truncated|magic|version|pool-tag|pool-utf8|pool-reference|descriptor|code|duplicate|trailing|too-long) at \d+"
TEXT = r"(?:truncated|header|line \d+|too-long"
EQUAL = "equivalent"
NONE = r"missing|nocode (?:first|second)"
LINES = {
    "self": rf"{EQUAL}|nocode first|refused first {METHOD}",
    "validate": rf"{EQUAL}|{NONE}|refused (?:first|second) {METHOD}|unknown (?:apart|rounds \d+|budget \d+)",
    "check": rf"{EQUAL}|{NONE}|refused (?:first|second) {METHOD}|rejected \d+",
    "check-chain": rf"{EQUAL}|missing|nocode (?:first|middle|second)|refused (?:first|middle|second) {METHOD}|rejected (?:first|second) \d+",
    "refute": rf"{NONE}|refused (?:first|second) {METHOD}|calls (?:first|second)|differs try \d+ args(?: -?\d+| @[0-4])*|tried \d+",
}
BAD = {
    "check": rf"bad certificate {TEXT}|(?:first|second) [0-9a-f]{{64}} [0-9a-f]{{64}})",
    "migrate": rf"bad certificate {TEXT})",
    "compose": rf"bad link [12] {TEXT}|digest)",
    "check-chain": r"bad chain (?:too-long|truncated|header|first|second|digest)",
}
BOTH = re.compile(r'(\w+ "(?:[^"\\]|\\.)*"); (\w+ "(?:[^"\\]|\\.)*")')
ANSWER = re.compile(r'(\w+) ("(?:[^"\\]|\\.)*")(?:; (asked(?: fetch \S+| place \S+)*|asked nothing); (held|changed))?')


def is_text(status, text, command):
    """Whether a command may say this text with this status."""
    sides = {"compose": "first|second|third"}.get(command, "first|second")
    lines = LINES.get(command, "(?!)")
    if status == "AllEquivalent" and command == "migrate":
        return re.fullmatch(r"migrated \d+ sections\n", text)
    if status == "AllEquivalent":
        return text == "composed\n" if command == "compose" else re.fullmatch(rf"(?:{NAMED} {EQUAL}\n)*", text) and command != "refute" or text == ""
    if status == "Others":
        return re.fullmatch(rf"(?:{NAMED} (?:{lines})\n)+", text) and not re.fullmatch(rf"(?:{NAMED} {EQUAL}\n)+", text)
    if status == "BadClass":
        return re.fullmatch(rf"bad class (?:{sides}) {FILE}\n", text)
    if status == "BadCert":
        return command in BAD and re.fullmatch(BAD[command] + "\n", text)
    return status == "BadWords" and text == "bad words\n"


def unquoted(word):
    return re.sub(r"\\(.)", lambda m: "\n" if m[1] == "n" else m[1], word[1:-1])


class Seeds:
    """What inputs are made of."""

    def __init__(self):
        self.classes, self.pairs, named = [], [], {}
        for line, _, named in case_rows():
            found = re.fullmatch(r"(?:validate|certified|refute) \$([\w-]+) \$([\w-]+)(?: .*)?", line) or re.fullmatch(r"run validate [^;]*; A=\$([\w-]+) B=\$([\w-]+)", line)
            if found and all(it in named for it in found.groups()):
                self.pairs.append(tuple(named[it] for it in found.groups()))
        self.classes = sorted({it for it in [*named.values(), *(one for pair in self.pairs for one in pair)] if it[:4] == b"\xca\xfe\xba\xbe" and len(it) <= LONGEST_SEED})
        self.pairs = [it for it in dict.fromkeys(self.pairs) if all(one in self.classes for one in it)]
        self.codes = {it: found for it in self.classes if (found := list(codes_in(it)))}
        self.proved = self.certificates()

    def certificates(self):
        """The sections of certificates that the program makes for the pairs, with the files; and lemmas with sections that use them."""
        given = [f"placed C validate --rounds 3 --budget 20000 --cert C A B; A={hexed(one)} B={hexed(other)}" for one, other in self.pairs]
        found = []
        for (one, other), said in zip(self.pairs, answers(given)):
            text = unquoted(said[said.index('; "peggy-cert') + 2 :]) if said and '; "peggy-cert' in said else ""
            if text.count("\n") > 4:
                lines = text.split("\n")[3:-1]
                bodies = dict.fromkeys("".join(line + "\n" for line in body).encode() for body in (lines, with_uses(lines)))
                found += [(one, other, body) for body in bodies]
        return found


def codes_in(data):
    """Where the codes of a class file stand; nothing where it can't be read."""
    try:
        methods = ClassFile(data).methods
    except (KeyError, IndexError, struct.error):
        return
    for method in methods:
        if method.code and method.code.bytes:
            text = len(method.code.bytes).to_bytes(4, "big") + method.code.bytes
            at = data.find(text) + 4
            yield at, at + len(method.code.bytes)


def hexed(data):
    return data.hex().upper() or "-"


def head(one, other):
    """The first lines of a certificate for two files."""
    return b"peggy-cert 2\nfirst " + hashlib.sha256(one).hexdigest().encode() + b"\nsecond " + hashlib.sha256(other).hexdigest().encode() + b"\n"


def chain(middle, first, second, lines=None):
    return b"peggy-chain 1\nmiddle " + middle.hex().encode() + b"\nlines %d\n" % (first.count(b"\n") if lines is None else lines) + first + second


class Inputs:
    """Random inputs."""

    def __init__(self, r, seeds):
        self.r, self.seeds = r, seeds

    def bytes_changed(self, data):
        """Bytes with some of them changed, mostly one or two, and seldom put in, left out or taken from another file."""
        r, data = self.r, bytearray(data)
        for _ in range(r.choice((1, 1, 1, 2, 2, 3, 5))):
            at, what = r.randrange(len(data) + 1), r.random()
            if what < 0.45 and at < len(data):
                data[at] = r.choice(BYTES) if r.random() < 0.4 else r.randrange(256)
            elif what < 0.7 and at < len(data):
                data[at] = data[at] + r.choice((-2, -1, 1, 2)) & 0xFF
            elif what < 0.8 and at < len(data):
                data[at] ^= 1 << r.randrange(8)
            elif what < 0.85:
                data[at:at] = bytes(r.randrange(256) for _ in range(r.randint(1, 4)))
            elif what < 0.9:
                del data[at : at + r.randint(1, 4)]
            elif what < 0.95:
                other = r.choice(self.seeds.classes)
                begin = r.randrange(len(other))
                part = other[begin : begin + r.randint(1, 40)]
                data[at : at + len(part)] = part
            else:
                data[at:] = data[at:][: r.randrange(40)]
        return bytes(data)

    def class_file(self, data=None):
        """A class file, changed mostly in a code, whose length stays, or anywhere."""
        data = data or self.r.choice(self.seeds.classes)
        if data not in self.seeds.codes or self.r.random() < 0.2:
            return self.bytes_changed(data)
        at, end = self.r.choice(self.seeds.codes[data])
        code = self.bytes_changed(data[at:end])[: end - at]
        return data[:at] + code + data[at + len(code) :]

    def text(self, text):
        """A text with changes of its lines, its words or its bytes."""
        r = self.r
        for _ in range(r.choice((0, 1, 1, 1, 2, 3))):
            mark = b"\n" if r.random() < 0.4 else b" "
            parts, what = text.split(mark), r.choice((0, 1, 2, 3, 3, 3, 3, 4))
            at, other = r.randrange(len(parts)), r.randrange(len(parts))
            if what == 0:
                parts[at], parts[other] = parts[other], parts[at]
            elif what == 1:
                parts.insert(at, parts[other])
            elif what == 2:
                del parts[at]
            elif what == 3:
                parts[at] = re.sub(rb"\d+", lambda m: str(r.choice((int(m[0]) + 1, max(int(m[0]) - 1, 0), r.randrange(40), 2**32 - 1, 2**32))).encode(), parts[at], count=1)
            else:
                parts[at] = self.bytes_changed(parts[at])
            text = mark.join(parts)
        return text

    def certificate(self, one, other, body):
        text = head(one, other) if self.r.random() < 0.9 else self.text(head(one, other))
        return text + self.text(body)

    def pair(self):
        one, other = self.r.choice(self.seeds.pairs)
        if self.r.random() < 0.2:
            other = one
        which = self.r.randrange(4)
        return self.class_file(one) if which == 0 else one, self.class_file(other) if which else other

    def limits(self):
        r = self.r
        axioms = r.choice(("", "", " --axioms all"))
        return f" --rounds {r.choice((0, 1, 1, 2, 3))} --budget {r.choice((1, 20, 500, 2000))}{axioms}"

    def words(self):
        r = self.r
        word = lambda: r.choice(("validate", "check", "migrate", "compose", "check-chain", "refute", "A", "B", "C", "-", "--", "--help", "-x", "--rounds", "--budget", "--cert", "--counted", "--axioms", "--tries",
                                 "--steps", "--rounds=2", "--budget=5", "--cert=C", "--axioms=all", "--tries=3", "--steps=9", "all", "core", "0", "1", "03", "17", "500001", "18446744073709551616", '""',
                                 "--counted=1", "--=", "=", "A=B", "é", "--rounds=", "none"))
        words = [word() for _ in range(r.randrange(9))]
        if r.random() < 0.7:
            words = [r.choice(("validate", "refute"))] + ["A", "B"] + [word() for _ in range(r.randrange(4))]
            rest = words[1:]
            r.shuffle(rest)
            words = words[:1] + rest
        one, other = min(self.seeds.pairs, key=lambda pair: sum(map(len, pair)))
        return f"run {' '.join(words)} ; A={hexed(one)} B={hexed(other)} C=41"

    def line(self, kind):
        """A line for the program, and the command that judges the answer."""
        r = self.r
        if kind == "self":
            data = self.class_file()
            return f"run validate{self.limits()} A B; A={hexed(data)} B={hexed(data)}", "self"
        if kind in ("pair", "counted", "refute", "cert"):
            one, other = self.pair()
            files = f"A={hexed(one)} B={hexed(other)}"
            if kind == "refute":
                return f"run refute --tries {r.randint(1, 100)} --steps {r.randint(1, 300)} A B; {files}", "refute"
            if kind == "cert":
                return f"certified {hexed(one)} {hexed(other)}{self.limits()}", "certified"
            return f"run validate{self.limits()}{' --counted' * (kind == 'counted')} A B; {files}", "validate"
        if kind == "words":
            return self.words(), "words"
        one, middle, body = r.choice(self.seeds.proved)
        if r.random() < 0.2:
            middle = self.class_file(middle)
        if kind == "check":
            return f"run check A B C; A={hexed(one)} B={hexed(middle)} C={hexed(self.certificate(one, middle, body))}", "check"
        if kind == "migrate":
            text = self.certificate(one, middle, body)
            return f"run migrate C D; C={hexed(text.replace(b'peggy-cert 2', b'peggy-cert 1', 1) if r.random() < 0.95 else text)}", "migrate"
        last, second = (one, self.text(body)) if r.random() < 0.7 else (middle, body)
        first, second = self.certificate(one, middle, body), head(middle, last) + second
        if kind == "compose":
            return f"run compose A B C X Y D; A={hexed(one)} B={hexed(middle)} C={hexed(last)} X={hexed(first)} Y={hexed(second)}", "compose"
        text = chain(middle, first, second, r.choice((None, None, None, r.randrange(40))))
        text = self.text(text) if r.random() < 0.3 else text
        return f"run check-chain A C D; A={hexed(one)} C={hexed(last)} D={hexed(text)}", "check-chain"


def answers(lines):
    """What the program answers to lines, as far as it comes; a line takes at most 60 seconds."""
    with tempfile.TemporaryFile() as given:
        given.write("".join(line + "\n" for line in lines).encode())
        given.seek(0)
        process = subprocess.Popen([cases()], stdin=given, stdout=subprocess.PIPE)
        data, ended = b"", False
        while select.select([process.stdout], [], [], SECONDS)[0]:
            part = os.read(process.stdout.fileno(), 1 << 20)
            if not part:
                ended = True
                break
            data += part
        if not ended:
            process.kill()
        process.stdout.close()
        process.wait()
    said = data.decode("utf-8", "replace").split("\n")[:-1]
    if len(said) < len(lines):
        said.append(f"NO ANSWER, {'status ' + str(process.returncode) if ended else 'too slow'}")
    return said


def is_right(answer, command):
    """Whether the program may answer this, and its status."""
    if command == "certified":
        both = BOTH.fullmatch(answer)
        ones = [ANSWER.fullmatch(it) for it in both.groups()] if both else [None]
        if not all(ones):
            return False, "none"
        status, text = ones[0][1], unquoted(ones[0][2])
        if status not in ("AllEquivalent", "Others"):
            return is_text(status, text, "validate") and ones[1][1] == "ReadFault", status
        equal = "".join(line + "\n" for line in text.splitlines() if line.endswith(" " + EQUAL))
        return is_text(status, text, "validate") and ones[1][1] == "AllEquivalent" and unquoted(ones[1][2]) == equal, status
    found = ANSWER.fullmatch(answer)
    if not found:
        return False, "none"
    status, text = found[1], unquoted(found[2])
    if command == "words":
        known = status == "ReadFault" and text == "" or any(is_text(status, text, it) for it in ("validate", "refute", *BAD))
        return known and (found[4] == "held" or " place " in found[3]), status
    return is_text(status, text, command) and found[4] == "held", status


KINDS = ("self", "pair", "counted", "cert", "refute", "check", "migrate", "compose", "chain", "words")


def main():
    seed, count = ([int(it) for it in sys.argv[1:3]] + [1, 100000][len(sys.argv[1:3]) :])
    kinds = sys.argv[3:] or KINDS
    inputs = Inputs(random.Random(seed), Seeds())
    print(f"{len(inputs.seeds.classes)} class files, {len(inputs.seeds.pairs)} pairs, {len(inputs.seeds.proved)} certificates", flush=True)
    found, wrong, done, began = Counter(), 0, 0, time.time()
    try:
        while done < count:
            batch = [(*inputs.line(kind), kind) for kind in (inputs.r.choice(kinds) for _ in range(min(BATCH, count - done)))]
            said = answers([line for line, _, _ in batch])
            for (line, command, kind), answer in zip(batch, said):
                right, status = is_right(answer, command)
                found[kind, status] += 1
                if not right:
                    wrong += 1
                    print(f"WRONG: {line}\n  {answer}", flush=True)
            done += len(said)
    except KeyboardInterrupt:
        pass
    for kind in kinds:
        print(kind, ", ".join(f"{n} {status}" for (of, status), n in sorted(found.items()) if of == kind))
    print(f"{done} inputs in {time.time() - began:.0f} s, {wrong} fail")
    return 1 if wrong else 0


if __name__ == "__main__":
    sys.exit(main())
