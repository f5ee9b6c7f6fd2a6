#!/usr/bin/env python3
"""Reads changed certificates, and compares the answers with a reader of its own.

It takes the certificates that lines `let` of crates/cases/stdin name (those with a section), some with lemmas put in, and changes each at
random: a byte, a word or a line is put in, taken out, doubled or exchanged, or the end is cut off; a lemma is put in or moved, and its number,
its variables, its sides or a step of it are changed. The program of cases reads each (`cert BYTES`), and writes it again where it reads.
The reader below is a second one, line by line with patterns, written from the grammar; it also reads version 1, which tests/migrate.py
asks of it. It prints each difference, a certificate that is written otherwise than it was read, and counts.

    tests/certs.py [--seed N] [COUNT]

COUNT is how many changed certificates there are, 1000000 if left out. The program is the one that
`cd crates/cases && rt run < stdin` leaves.
"""

import random
import re
import sys
import time

from cases import case_rows, written
from programs import ask

BATCH = 5000

NUMBER = rb"(?:0|[1-9][0-9]{0,9})"
FACT = NUMBER + rb"\." + NUMBER
REASON = rb"(?:=|" + FACT + rb")"
SET_REASON = rb"(?:=|" + FACT + rb"|s" + NUMBER + rb")"
NAME = rb"(?:%-|(?:[!-$&-~]|%[0-9A-F]{2})+)"
SYMBOL = NAME + b" " + NAME + b" " + NAME
SCALARS = (
    b"iadd isub imul idiv irem ishl ishr iushr iand ior ixor ieq ilt ineg i2b i2c i2s i2l ladd lsub lmul ldiv lrem lshl lshr "
    b"lushr land lor lxor leq lcmp lneg l2i"
).split()
PLAIN = b"null this heap0 unit never clear fnull farith findex zero succ thrown isclear both phi root aeq length".split() + SCALARS
SYMBOLS = b"getstatic putstatic getfield putfield callend callres callfault callheap".split()
OPERATION = (
    rb"(?:int -?[0-9]+|long -?[0-9]+|literal " + NAME + rb"|param " + NUMBER + rb" [ILANFTHR]|(?:theta|eval|pass|shift) " + NUMBER
    + rb"|(?:load|store) (?:Byte|Char|Short|Int|Long|Ref)|(?:" + b"|".join(SYMBOLS) + rb") " + SYMBOL + rb"|" + b"|".join(PLAIN) + rb")"
)
NUMBERS = rb"(?: " + NUMBER + rb")*"
PART = NUMBER + b" " + NUMBER + rb"(?: " + SET_REASON + rb")*"
ROWS = re.compile(
    b"|".join(
        [
            b"node " + NUMBER + b" " + OPERATION + NUMBERS,
            b"(?:axiom|use) " + NUMBER + b" " + NUMBER + b" " + NUMBER + NUMBERS,
            b"flip " + NUMBER + b" " + NUMBER + b" " + FACT,
            b"chain " + NUMBER + b" " + NUMBER + b" " + FACT + b" " + FACT,
            b"set " + PART + rb"(?: ; " + PART + rb")*",
            b"open " + NUMBER + rb"(?: " + NUMBER + b" " + NUMBER + rb")+",
            b"close " + NUMBER + rb"(?: " + FACT + b" " + FACT + rb")+",
            b"assume " + NUMBER + NUMBERS,
            b"finish " + NUMBER + b" " + NUMBER + (b" " + REASON) * 4,
        ]
    )
)
TITLE = re.compile(b"method " + NAME + b" " + NAME)
LEMMA = re.compile(b"lemma " + NUMBER + rb"(?: [ILANFTH]!?)+")
PROVE = re.compile(b"prove " + NUMBER + b" " + NUMBER)
# The steps of blocks, which no lemma has.
BLOCKS = (b"open", b"close", b"assume", b"finish")

# Lemmas without their numbers: sums in another order, a product with 0, a choice between one and the same, the sides in the other order, and one node.
LEMMAS = [
    "I I I; node 3 iadd 0 1; node 4 iadd 3 2; node 5 iadd 1 0; node 6 iadd 2 5; node 7 iadd 5 2; axiom 1 3 5 0 1; set 4 7 6.1 =; "
    "axiom 1 7 6 5 2; chain 4 6 7.1 8.1; prove 4 6",
    "I!; node 1 int 0; node 2 imul 0 1; axiom 11 2 1 0; prove 2 1",
    "I! A A!; node 3 phi 0 1 1; axiom 203 3 1 0 1; prove 3 1",
    "L L; node 2 ladd 0 1; node 3 ladd 1 0; axiom 101 2 3 0 1; flip 3 2 3.1; prove 3 2",
    "H N F T; node 4 getfield C f I 0 1; use 1 4 4 0 1 2; prove 0 0",
]
# Axioms that exchange two kids, with their operations and the sorts of the kids.
EXCHANGES = {1: "iadd I", 8: "imul I", 15: "iand I", 20: "ior I", 25: "ixor I", 37: "ieq I", 44: "aeq A", 137: "leq L", 210: "both T"}
EXCHANGES |= {101: "ladd L", 108: "lmul L", 115: "land L", 120: "lor L", 125: "lxor L"}
# Lines that are put into lemmas, most of which may not stand there.
INNER = (
    b"open 1 0 1;close 1 1.1 1.1;assume 0 1;finish 0 1 = = = =;use 1 0 1;use 2 3 4 0 1;axiom 1 2 3 0 1;method f ()V;end;node 4 var 0 I;lemma 2 I".split(b";")
)


def plain(byte):
    return 0x21 <= byte <= 0x7E and byte != 0x25


def numbers_fit(line):
    """Each number of a line is below 2^32, but for an int's or a long's constant, and each escape is one that is needed."""
    words = line.split(b" ")
    skip = None
    if words[0] == b"node" and len(words) > 3 and words[2] in (b"int", b"long"):
        skip = 3
        bits = 31 if words[2] == b"int" else 63
        n = int(words[3])
        if words[3] != str(n).encode() or not -(1 << bits) <= n < 1 << bits:
            return False
    names = set()
    if words[0] == b"method":
        names = {1, 2}
    elif words[0] == b"node" and len(words) > 3 and words[2] == b"literal":
        names = {3}
    elif words[0] == b"node" and len(words) > 5 and words[2] in SYMBOLS:
        names = {3, 4, 5}
    for place, word in enumerate(words):
        if place in names:
            if word != b"%-" and any(plain(int(digits, 16)) for digits in re.findall(rb"%(..)", word)):
                return False
        elif place != skip and place > 0 and any(int(n) >= 1 << 32 for n in re.findall(rb"(?<![0-9a-z])s?([0-9]+)", word)):
            return False
    return True


def fits(pattern, line):
    return pattern.fullmatch(line) is not None and numbers_fit(line)


def read(text, version=2):
    """What is to be answered: a fault, or `same`."""
    if not text.endswith(b"\n"):
        return "Truncated"
    lines = text[:-1].split(b"\n")
    heads = [b"peggy-cert %d" % version, rb"first [0-9a-f]{64}", rb"second [0-9a-f]{64}"]
    if len(lines) < 3 or not all(re.fullmatch(head, line) for head, line in zip(heads, lines)):
        return "Header"
    place = ("between", 0, False)
    for number, line in enumerate(lines[3:], 4):
        place = after(line, place, version)
        if place is None:
            return f"Step({number})"
    return "same" if place[0] == "between" else "Truncated"


def after(line, place, version):
    """Where the reader stands after a line, or None where the line may not stand there: between lemmas and sections, in a lemma or in a section, after so
    many lemmas, and whether there was a section."""
    where, lemmas, has_section = place
    if where == "between":
        if fits(TITLE, line):
            return "section", lemmas, True
        is_next = version == 2 and not has_section and fits(LEMMA, line) and int(line.split(b" ")[1]) == lemmas + 1
        return ("lemma", lemmas + 1, False) if is_next else None
    if fits(PROVE, line) if where == "lemma" else line == b"end":
        return "between", lemmas, has_section
    others = BLOCKS if where == "lemma" else () if version == 2 else (b"use",)
    return place if fits(ROWS, line) and line.split(b" ")[0] not in others else None


def parted(lines):
    """The lemmas and the sections of the lines after a header: of a lemma its lines, and of a section its title and its steps."""
    lemmas, sections, kept = [], [], []
    for line in lines:
        kept.append(line)
        if line.startswith("prove "):
            lemmas.append(kept)
        elif line == "end":
            sections.append((kept[0].removeprefix("method "), kept[1:-1]))
        kept = [] if line.startswith("prove ") or line == "end" else kept
    return lemmas, sections


def with_uses(lines):
    """The lines after a header, with a lemma for each axiom of EXCHANGES that steps name, and with uses in place of these steps; as they are where they have
    lemmas."""
    if lines and lines[0].startswith("lemma "):
        return lines
    steps = [re.match(r"axiom (\d+) ", line) for line in lines]
    found = sorted({int(step[1]) for step in steps if step} & set(EXCHANGES))
    numbers = {axiom: number for number, axiom in enumerate(found, 1)}
    lemmas = []
    for axiom, number in numbers.items():
        word, sort = EXCHANGES[axiom].split(" ")
        lemmas += [f"lemma {number} {sort} {sort}", f"node 2 {word} 0 1", f"node 3 {word} 1 0", f"axiom {axiom} 2 3 0 1", "prove 2 3"]
    used = [f"use {numbers[int(step[1])]} {line[step.end():]}" if step and int(step[1]) in numbers else line for step, line in zip(steps, lines)]
    return lemmas + used


def numbered(lemma, number):
    """The lines of one of LEMMAS."""
    first, *rest = lemma.split("; ")
    return [line.encode() for line in (f"lemma {number} {first}", *rest)]


def with_lemmas(text, rand):
    """The text with some lemmas after its header."""
    lines = text.split(b"\n")
    for number in range(rand.choice([0, 1, 1, 2, 3]), 0, -1):
        lines[3:3] = numbered(rand.choice(LEMMAS), number)
    return b"\n".join(lines)


def variable_changed(line, rand):
    """The first line of a lemma with a variable that is settled or no longer, of another sort, doubled or left out."""
    words = line.split(b" ")
    at, what = rand.randrange(min(2, len(words) - 1), len(words)), rand.randrange(5)
    if what == 0:
        words[at] = words[at].removesuffix(b"!") if words[at].endswith(b"!") else words[at] + b"!"
    elif what == 1:
        words[at] = bytes([rand.choice(b"ILANFTHRi!0")]) + words[at][1:]
    elif what == 2:
        words.insert(at, words[at])
    elif what == 3:
        del words[at]
    else:
        words[at] = rand.choice([b"!" + words[at], words[at] + b"!", words[at] + words[at], b""])
    return b" ".join(words)


def numbers_changed(line, rand):
    """The line with another number."""
    spots = list(re.finditer(rb"\d+", line))
    if not spots:
        return line
    spot = rand.choice(spots)
    new = rand.choice([int(spot[0]) + 1, max(0, int(spot[0]) - 1), 0, 1, 2, 4294967295, 4294967296])
    return line[: spot.start()] + b"%d" % new + line[spot.end() :]


def lemma_changed(text, rand):
    """The text with a change of a lemma: of one of its lines, of where it stands, or of how many there are."""
    lines, what = text.split(b"\n"), rand.randrange(8)
    firsts = [n for n, line in enumerate(lines) if line.startswith(b"lemma ")]
    lasts = [n for n, line in enumerate(lines) if line.startswith(b"prove ")]
    if what == 0 or not firsts or not lasts:
        lines = lemma_added(lines, len(firsts), rand)
    elif what == 1:
        first = rand.choice(firsts)
        lines[first] = numbers_changed(lines[first], rand)
    elif what < 4:
        first = rand.choice(firsts)
        lines[first] = variable_changed(lines[first], rand)
    elif what == 4:
        last = rand.choice(lasts)
        lines[last : last + 1] = last_changed(lines[last], rand)
    elif what == 5:
        lines = lemma_moved(lines, rand.choice(firsts), lasts, rand)
    else:
        lines.insert(rand.randrange(min(firsts), max(firsts + lasts) + 2), rand.choice(INNER))
    return b"\n".join(lines)


def places_between(lines):
    """Where lemmas and sections begin and end."""
    return [n + 1 for n, line in enumerate(lines) if n == 2 or line == b"end" or line.startswith(b"prove ")] or [0]


def lemma_added(lines, count, rand):
    """The lines with a lemma more, under the number after those that there are, or another one."""
    at, number = rand.choice(places_between(lines)), rand.choice([count + 1, count + 1, 0, 1, 2])
    return lines[:at] + numbered(rand.choice(LEMMAS), number) + lines[at:]


def lemma_moved(lines, first, lasts, rand):
    """The lines with a lemma at another place, or at that one too."""
    end = min((n for n in lasts if n > first), default=first) + 1
    whole, rest = lines[first:end], lines[:first] + lines[end:] if rand.random() < 0.5 else lines
    at = rand.choice(places_between(rest))
    return rest[:at] + whole + rest[at:]


def last_changed(line, rand):
    """The lines in place of the last line of a lemma."""
    return rand.choice([[], [line] * 2, [numbers_changed(line, rand)], [line + b" 0"], [line.rsplit(b" ", 1)[0]], [b"end"]])


def changed(text, rand):
    """The text with one to three changes."""
    for _ in range(rand.choice([1, 1, 1, 2, 3])):
        what = rand.randrange(11)
        if what < 3:
            at = rand.randrange(len(text) + 1)
            byte = bytes([rand.choice(b" \n0123456789=.;s%-AFaf\r!" if rand.random() < 0.8 else range(256))])
            text = text[:at] + (byte if what != 1 else b"") + text[at + (what > 0):]
        elif what > 7:
            text = lemma_changed(text, rand)
        else:
            text = parts_changed(text, b"\n" if what < 6 else b" ", what % 3, rand)
    return text[: rand.randrange(len(text) + 1)] if rand.random() < 0.05 else text


def parts_changed(text, mark, what, rand):
    """The text with two lines or words exchanged, or one doubled or left out."""
    parts = text.split(mark)
    one, two = rand.randrange(len(parts)), rand.randrange(len(parts))
    if what == 0:
        parts[one], parts[two] = parts[two], parts[one]
    elif what == 1:
        parts.insert(one, parts[two])
    else:
        del parts[one]
    return mark.join(parts)


def bases():
    """The certificates that lines of the cases name."""
    found = {}
    for line, _, named in case_rows():
        if re.match(r"let \S+ \$header\+", line):
            _, name, word = line.split(" ", 2)
            found[name] = written(word, named)
    return list(found.values())


def main(args):
    seed = int(args.pop(args.index("--seed") + 1)) if "--seed" in args else 1
    count = int(next((arg for arg in args if arg.isdigit()), 1000000))
    rand, texts = random.Random(seed), bases()
    answers, wrong, began = {}, 0, time.time()
    for first in range(0, count, BATCH):
        batch = [changed(with_lemmas(rand.choice(texts), rand), rand) for _ in range(min(BATCH, count - first))]
        said = ask([f"cert {text.hex().upper() or '-'}" for text in batch], seconds=600)
        for text, answer in zip(batch, said):
            end, want = answer.rsplit("; ", 1)[-1], read(text)
            answers[re.sub(r"\d+", "N", want)] = answers.get(re.sub(r"\d+", "N", want), 0) + 1
            if end != want:
                wrong += 1
                print(f"{want} wanted, {answer[:200]}: {text!r}")
    print(f"{count} certificates in {time.time() - began:.0f} s, {wrong} differ;", ", ".join(f"{answers[a]} {a}" for a in sorted(answers)))
    sys.exit(wrong > 0)


if __name__ == "__main__":
    main(sys.argv[1:])
