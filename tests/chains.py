#!/usr/bin/env python3
"""Has the program of cases make and check changed chains of certificates, and compares its answers with a reader and a checker of its own.

It takes classes of random methods and their twins (tests/twins.py), such classes with an instruction exchanged, and some with methods that aren't compared
or have no code; has the program write certificates for each two neighbours of three classes (`validate --cert`), and chains of them (`compose`), which must
be spelled as here, also with uses of lemmas in place of axioms (`with_uses` of tests/certs.py); and changes these at random: a byte, a line or a number, a
digest, a lemma, the names or the steps of sections, the middle class with the digests that go with it, the classes at the ends, or only the front is
left. Then it asks what `check-chain` says of each, and what `compose` says of changed certificates. It prints each difference, and counts. The reader
below is a second one, written from the definitions of `pv_chain` and `pv_links`; the steps of sections are checked by tests/checker.py, over graphs of
tests/converter.py. Whether bytes are a class, and why methods are refused, is asked of the program (`validate` of a class and itself).

At the end the reader has one wrong rule after the other, and each must answer some of the questions otherwise than the program did.

    tests/chains.py [--seed N] [COUNT]

COUNT is how many questions there are, 100000 if left out. Both programs must be there, as tests/programs.py finds them, and a JDK.
"""

import functools
import hashlib
import os
import random
import re
import sys
import tempfile
import time
from collections import Counter

from cases import sample_class
from certs import ROWS, fits, lemma_changed, parted, read, with_uses
from checked import methods_of
from checker import verdict
from converter import least_graph, with_deep_calls
from mutants import mutated
from programs import ask
from sections import changed as with_changed_steps
from sections import known
from sections import lemma_changed as with_changed_lemma
from twins import written_twins

BATCH = 2000
# How many questions of a batch the wrong rules are tried on.
FEW = 500
CLASSES, METHODS = 12, 3
# Methods of small classes: that are compared, have no code, or are refused; static or not, and with other names and descriptors.
SAMPLES = [
    "f,()I,9,1,0,08AC f,(I)I,9,1,1,1AAC g,(II)I,9,2,2,1A1B60AC n,()I,9,1,0,03AC",
    "f,()I,9,1,0,08AC f,(I)I,9,1,1,1AAC g,(II)I,9,2,2,1B1A60AC n,()I,9,1,0,03AC",
    "f,()I,9,1,0,08AC g,(II)I,9,2,2,1A1B60AC n,()I,109",
    "n,()I,109 g,(II)I,9,2,2,1B1A60AC f,()I,9,1,0,08AC f,(I)I,1,1,2,1BAC",
    "g,(II)I,9,2,2,1A1B60AC f,()I,9,1,0,0BAC n,()I,9,1,0,0BAC f,(I)I,9,1,1,1A04BC0ABEAC",
    "f,()I,1,1,1,08AC g,(II)I,9,2,2,1A1B6003AC n,()I,9,1,0,03AC",
    "g,(II)I,29,2,2,1A1B60AC f,()I,9,1,0,08AC n,()I,109",
]
TRIPLES = [(0, 1, 0), (1, 0, 1), (0, 2, 1), (2, 3, 2), (3, 2, 0), (1, 4, 0), (4, 4, 1), (0, 5, 1), (5, 0, 3), (6, 1, 6), (2, 1, 4)]

# ---- the program


def asked(lines):
    """What the program of cases answers."""
    return ask(lines, seconds=3000)


def quoted(text):
    """Text as the program of cases writes it."""
    return '"' + text.replace("\\", "\\\\").replace('"', '\\"').replace("\n", "\\n") + '"'


def unquoted(text):
    return text[1:-1].replace("\\n", "\n").replace('\\"', '"').replace("\\\\", "\\")


def written(data):
    """Bytes as a line of cases writes them."""
    return data.hex().upper() or "-"


# ---- classes


class Class:
    """What is known of bytes: why they are no class, or the methods, and why those that are refused are."""

    def __init__(self, data, said):
        self.data, self.digest = data, hashlib.sha256(data).hexdigest()
        status, text = said.split(" ", 1)
        lines = unquoted(text).splitlines()
        self.fault = lines[0].removeprefix("bad class first ") if status == "BadClass" else None
        self.methods = {} if self.fault else {title: found[0] for title, found in methods_of(data).items()}
        words = [line.split(" ", 4) for line in ([] if self.fault else lines)]
        self.causes = {f"{name} {desc}": rest[2] for name, desc, *rest in words if rest[:2] == ["refused", "first"]}


class Classes:
    """The classes that are known."""

    def __init__(self):
        self.known, self.graphs, self.verdicts = {}, {}, {}

    def learn(self, all_bytes):
        """Asks the program of bytes that aren't known."""
        new = sorted(set(all_bytes) - set(self.known))
        said = asked([f"validate {written(data)} {written(data)}" for data in new]) if new else []
        self.known.update((data, Class(data, answer)) for data, answer in zip(new, said))

    def rejected(self, first, second, section):
        """The number with which a section for a method of two classes is rejected, or None."""
        title, steps, lemmas = section
        key = (first.data, second.data, title)
        if key not in self.graphs:
            self.graphs[key] = least_graph(first.methods[title], second.methods[title])
        if (key, steps, lemmas) not in self.verdicts:
            self.verdicts[key, steps, lemmas] = verdict(self.graphs[key], steps, known(lemmas))
        return self.verdicts[key, steps, lemmas]


# ---- chains and certificates


@functools.lru_cache(20000)
def fault_of(text):
    """What tests/certs.py reads a certificate as: `same`, or its fault."""
    return read(text)


@functools.lru_cache(20000)
def cert_of(text):
    return Cert(text)


class Cert:
    """The digests of a certificate that is read, and its sections, each with its title, its steps, and the lemmas before it."""

    def __init__(self, text):
        lines = text.decode("ascii").split("\n")[:-1]
        self.first, self.second = (line.split(" ")[1] for line in lines[1:3])
        lemmas, sections = parted(lines[3:])
        self.sections = [(title, tuple(steps), tuple(map(tuple, lemmas))) for title, steps in sections]


class Rules:
    """What is to be answered."""

    digits, number = rb"middle ((?:[0-9a-f]{2})+)", rb"lines (0|[1-9][0-9]{0,9})"
    is_first_like = True
    stages = ("first", "middle", "second")

    def __init__(self, classes):
        self.classes = classes

    # ---- a chain

    def is_ended(self, text):
        return text.endswith(b"\n")

    def parts(self, text):
        """The middle, the text of the first certificate and that of the second, if these are there."""
        lines = text.split(b"\n", 3)
        if len(lines) < 4 or lines[0] != b"peggy-chain 1":
            return None
        middle, count = re.fullmatch(self.digits, lines[1]), re.fullmatch(self.number, lines[2])
        if not middle or not count or int(count[1]) >= 1 << 32 or lines[3].count(b"\n") < int(count[1]):
            return None
        after = lines[3].split(b"\n", int(count[1]))
        return bytes.fromhex(middle[1].decode()), b"".join(line + b"\n" for line in after[:-1]), after[-1]

    def check_chain(self, a, c, text):
        """The status and what is said, of two classes and a chain."""
        for word, file in (("first", a), ("second", c)):
            if self.classes.known[file].fault:
                return "BadClass", f"bad class {word} {self.classes.known[file].fault}\n"
        fault = self.chain_fault(a, c, text)
        return ("BadCert", f"bad chain {fault}\n") if fault else self.report(a, c, text)

    def chain_fault(self, a, c, text):
        if not self.is_ended(text):
            return "truncated"
        parts = self.parts(text)
        if parts is None or self.classes.known[parts[0]].fault:
            return "header"
        for word, cert in zip(("first", "second"), parts[1:]):
            if fault_of(cert) != "same":
                return word
        return None if self.are_between(a, parts[0], c, *map(cert_of, parts[1:])) else "digest"

    def are_between(self, a, middle, c, first, second):
        return self.names(first, a, middle) and self.names(second, middle, c)

    def names(self, cert, one, other):
        return (cert.first, cert.second) == (self.classes.known[one].digest, self.classes.known[other].digest)

    def report(self, a, c, text):
        middle, first, second = self.parts(text)
        classes = [self.classes.known[it] for it in (a, middle, c)]
        others = cert_of(second).sections
        lines = []
        for section in cert_of(first).sections:
            other = self.like(section, others)
            if other:
                lines.append(f"{section[0]} {self.finding(classes, section, other)}\n")
        is_all = all(line.endswith(" equivalent\n") for line in lines)
        return "AllEquivalent" if is_all else "Others", "".join(lines)

    def like(self, section, others):
        found = [other for other in others if other[0] == section[0]]
        return found[0 if self.is_first_like else -1] if found else None

    def finding(self, classes, section, other):
        title = section[0]
        methods = [it.methods.get(title) for it in classes]
        if self.are_missing(methods):
            return "missing"
        return self.left_out(classes, title, methods) or self.checked(classes, section, other)

    def are_missing(self, methods):
        return None in methods or len({it.is_static for it in methods}) > 1

    def left_out(self, classes, title, methods):
        for stage, method in zip(self.stages, methods):
            if not method.code:
                return f"nocode {stage}"
        for stage, of in zip(self.stages, classes):
            if title in of.causes:
                return f"refused {stage} {of.causes[title]}"
        return None

    def checked(self, classes, section, other):
        for word, it, one, two in zip(("first", "second"), (section, other), classes, classes[1:]):
            number = self.classes.rejected(one, two, (section[0], *it[1:]))
            if number is not None:
                return f"rejected {word} {number}"
        return "equivalent"

    # ---- a composition

    def compose(self, a, b, c, x, y):
        """The status, what is said, and the chain, if there is one."""
        for word, file in (("first", a), ("second", b), ("third", c)):
            if self.classes.known[file].fault:
                return "BadClass", f"bad class {word} {self.classes.known[file].fault}\n", None
        fault = self.link_fault(a, b, c, x, y)
        return ("BadCert", f"bad link {fault}\n", None) if fault else ("AllEquivalent", "composed\n", spelled(b, x, y))

    def link_fault(self, a, b, c, x, y):
        for number, cert in ((1, x), (2, y)):
            said = fault_of(cert)
            if said != "same":
                return f"{number} " + {"Truncated": "truncated", "Header": "header"}.get(said, f"line {said[5:-1]}")
        for number, cert, one, other in ((1, x, a, b), (2, y, b, c)):
            if not self.names(cert_of(cert), one, other):
                return f"{number} digest"
        return None


def spelled(middle, first, second, count=None):
    """The text of a chain of these certificates."""
    count = b"%d" % first.count(b"\n") if count is None else count
    return b"peggy-chain 1\nmiddle %s\nlines %s\n" % (middle.hex().encode(), count) + first + second


# ---- wrong rules


class LaterLike(Rules):
    is_first_like = False


class AnyLike(Rules):
    def like(self, section, others):
        return super().like(section, others) or section


class MiddleCalledSecond(Rules):
    stages = ("first", "second", "second")


class RefusedFirst(Rules):
    def left_out(self, classes, title, methods):
        found = [f"refused {stage} {of.causes[title]}" for stage, of in zip(self.stages, classes) if title in of.causes]
        return found[0] if found else super().left_out(classes, title, methods)


class LastFirst(Rules):
    def left_out(self, classes, title, methods):
        stages = self.stages
        self.stages = stages[::-1]
        found = super().left_out(classes[::-1], title, methods[::-1])
        self.stages = stages
        return found


class StaticOrNot(Rules):
    def are_missing(self, methods):
        return None in methods


class FirstAlone(Rules):
    def checked(self, classes, section, other):
        said = super().checked(classes, section, other)
        return "equivalent" if said.startswith("rejected second") else said


class SecondAlone(Rules):
    def checked(self, classes, section, other):
        number = self.classes.rejected(classes[1], classes[2], (section[0], *other[1:]))
        return "equivalent" if number is None else f"rejected second {number}"


class NoLemmas(Rules):
    def checked(self, classes, section, other):
        return super().checked(classes, (*section[:2], ()), (*other[:2], ()))


class LemmasOfFirst(Rules):
    def checked(self, classes, section, other):
        return super().checked(classes, section, (*other[:2], section[2]))


class EndsAlone(Rules):
    def are_between(self, a, middle, c, first, second):
        return first.first == self.classes.known[a].digest and second.second == self.classes.known[c].digest


class NoDigests(Rules):
    def names(self, cert, one, other):
        return True


class AnyEnd(Rules):
    def is_ended(self, text):
        return text != b""


class CapitalDigits(Rules):
    digits = rb"middle ((?:[0-9a-fA-F]{2})+)"


class ZerosInFront(Rules):
    number = rb"lines ([0-9]{1,10})"


class OneLineFewer(Rules):
    def parts(self, text):
        found = super().parts(text)
        return found or super().parts(text + b"\n")


class SecondLinkFirst(Rules):
    def link_fault(self, a, b, c, x, y):
        return "2 digest" if fault_of(y) == "same" and not self.names(cert_of(y), b, c) else super().link_fault(a, b, c, x, y)


class MiddleOfTheThird(Rules):
    def compose(self, a, b, c, x, y):
        status, said, chain = super().compose(a, b, c, x, y)
        return status, said, chain and spelled(c, x, y)


WRONG = Rules.__subclasses__()

# ---- questions


class Chain:
    """Two classes, and the parts of a chain between them, with the digits of the number of lines that it says, if they are others."""

    def __init__(self, a, middle, c, first, second):
        self.a, self.middle, self.c, self.first, self.second, self.count = a, middle, c, first, second, None

    def copy(self):
        return Chain(self.a, self.middle, self.c, self.first, self.second)

    def text(self):
        return spelled(self.middle, self.first, self.second, self.count)


def with_digests(cert, one, other):
    """A certificate with the digests of these bytes."""
    lines = cert.split(b"\n")
    if len(lines) > 3:
        lines[1:3] = [word + hashlib.sha256(data).hexdigest().encode() for word, data in ((b"first ", one), (b"second ", other))]
    return b"\n".join(lines)


def byte_changed(text, rand):
    at = rand.randrange(min(len(text), 40) if rand.random() < 0.2 else len(text)) if text else 0
    byte = bytes([rand.choice(b" \n0123456789=.;s%-AFaf\r" if rand.random() < 0.8 else range(256))])
    return text[:at] + rand.choice([byte, byte, b"", byte + text[at : at + 1]]) + text[at + 1 :]


def lines_changed(text, rand):
    """The text with a line dropped, doubled, or in the place of another."""
    lines = text.split(b"\n")[:-1] or [b""]
    one, two = rand.randrange(len(lines)), rand.randrange(len(lines))
    what = rand.randrange(3)
    if what == 0:
        del lines[one]
    elif what == 1:
        lines.insert(one, lines[one])
    else:
        lines[one], lines[two] = lines[two], lines[one]
    return b"".join(line + b"\n" for line in lines)


def number_changed(text, rand):
    spots = list(re.finditer(rb"(?<=[ .s])(?:[0-9]{1,10})(?=[ .\n])", text))
    if not spots:
        return text
    spot = rand.choice(spots[:4] if rand.random() < 0.2 else spots)
    n = int(spot[0])
    new = rand.choice([str(n + 1), str(max(0, n - 1)), "0" + str(n), str(n + rand.randrange(100)), "4294967296", "-" + str(n)])
    return text[: spot.start()] + new.encode() + text[spot.end() :]


def digest_changed(text, rand):
    """A digest that is cut, in capitals, or has a digit exchanged."""
    spots = list(re.finditer(rb"(?<=(?:irst|cond) )[0-9a-f]{64}", text))
    if not spots:
        return text
    spot = rand.choice(spots)
    at = rand.randrange(64)
    new = rand.choice([spot[0][:at], spot[0].upper(), spot[0][:at] + rand.choice([b"0", b"f"]) + spot[0][at + 1 :], rand.choice(spots)[0]])
    return text[: spot.start()] + new + text[spot.end() :]


def sections_of(cert):
    """The head of a certificate with its lemmas, and its sections with their lines."""
    lines = cert.split(b"\n")[:-1]
    first = at = next((n for n, line in enumerate(lines) if line.startswith(b"method ")), len(lines))
    found = []
    while at < len(lines) and b"end" in lines[at:]:
        end = lines.index(b"end", at)
        found.append(lines[at : end + 1])
        at = end + 1
    return lines[:first], found


def joined(head, sections):
    return b"".join(line + b"\n" for line in head + [line for section in sections for line in section])


def sections_changed(cert, titles, rand):
    """The certificate with a section dropped, doubled, moved, or with another title or other steps."""
    head, sections = sections_of(cert)
    what = rand.randrange(6)
    if not sections or what == 0:
        sections.insert(rand.randrange(len(sections) + 1), [b"method " + rand.choice(titles).encode(), b"end"])
        return joined(head, sections)
    at, to = rand.randrange(len(sections)), rand.randrange(len(sections))
    if what == 1:
        del sections[at]
    elif what == 2:
        sections.insert(to, sections[at])
    elif what == 3:
        sections[at], sections[to] = sections[to], sections[at]
    elif what == 4:
        sections[at] = [b"method " + rand.choice(titles).encode(), *sections[at][1:]]
    else:
        steps = [step.decode("ascii") for step in sections[at][1:-1]]
        if all(fits(ROWS, step) for step in sections[at][1:-1]):
            steps = with_changed_steps(steps or ["node 0 unit"], [steps or ["node 0 unit"]], rand)
        sections[at] = [sections[at][0], *(step.encode() for step in steps), b"end"]
    return joined(head, sections)


def lemmas_changed(cert, rand):
    """The certificate with a changed lemma; mostly it can be spelled."""
    head, sections = sections_of(cert)
    if len(head) < 4 or fault_of(cert) != "same" or rand.random() < 0.3:
        return lemma_changed(cert, rand)
    lemmas, _ = parted([line.decode("ascii") for line in head[3:]])
    at = rand.randrange(len(lemmas))
    lemmas[at] = with_changed_lemma(lemmas[at], lemmas, rand)
    return joined(head[:3] + [line.encode() for lemma in lemmas for line in lemma], sections)


def with_lemmas(cert):
    """The certificate with uses of lemmas in place of axioms, where it has no lemmas."""
    lines = cert.decode("ascii").split("\n")[:-1]
    return "".join(line + "\n" for line in lines[:3] + with_uses(lines[3:])).encode()


def changed(chain, pool, titles, rand):
    """The chain with up to three changes, and what was done last."""
    chain, done = chain.copy(), "as it was"
    for _ in range(rand.choice([0, 1, 1, 1, 1, 2, 2, 3])):
        what = rand.randrange(9)
        side = rand.choice(["first", "second"])
        cert = getattr(chain, side)
        if what < 2:
            done = "a line of a certificate"
            setattr(chain, side, lines_changed(cert, rand))
        elif what < 5:
            done = "a section"
            setattr(chain, side, sections_changed(cert, titles, rand))
        elif what == 5:
            done = "the middle or an end"
            place = rand.choice(["middle", "middle", "a", "c"])
            setattr(chain, place, byte_changed(chain.middle, rand) if rand.random() < 0.2 else rand.choice(pool))
            if rand.random() < 0.8:
                chain.first, chain.second = with_digests(chain.first, chain.a, chain.middle), with_digests(chain.second, chain.middle, chain.c)
        elif what == 6:
            done = "a number or a digest of a certificate"
            setattr(chain, side, rand.choice([number_changed, digest_changed])(cert, rand))
        elif what == 7:
            done = "a lemma"
            setattr(chain, side, lemmas_changed(cert, rand))
        else:
            done = "the two certificates"
            chain.first, chain.second = rand.choice([(chain.second, chain.first), (chain.first, chain.first), (b"", chain.second), (chain.first, b"")])
    if rand.random() < 0.05:
        done, n = "the number of lines", chain.first.count(b"\n")
        after = n + chain.second.count(b"\n")
        chain.count = rand.choice([b"%d" % abs(n - 1), b"%d" % (n + 1), b"%d" % after, b"%d" % (after + 1), b"0%d" % n, b"%d" % (n + (1 << 32))])
    return chain, done


def text_changed(text, rand):
    """The text of a chain, often with a change, and what that was."""
    what = rand.random()
    if what < 0.7:
        return text, None
    if what < 0.8:
        return byte_changed(text, rand), "a byte of the text"
    if what < 0.85:
        return lines_changed(text, rand), "a line of the text"
    if what < 0.92:
        return rand.choice([number_changed, digest_changed])(text, rand), "a number or a digest of the text"
    if what < 0.95:
        at = rand.randrange(min(len(text), 3000))
        return text[:at] + text[at : at + 1].upper() + text[at + 1 :], "a capital in the text"
    lines = text.split(b"\n")
    cut = b"\n".join(lines[: rand.randrange(1, len(lines))])
    return rand.choice([text[: rand.randrange(len(text) + 1)], text[:-1], cut, cut + b"\n"]), "the front of the text"


class Question:
    """Files, what is asked of the program about them, and what was done to them."""

    def __init__(self, files, done):
        self.files, self.done = files, done

    def lines(self):
        if len(self.files) == 3:
            a, c, text = map(written, self.files)
            return [f"run check-chain A C D; A={a} C={c} D={text}"]
        given = " ".join(f"{name}={written(data)}" for name, data in zip("ABCXY", self.files))
        return [f"{word}compose A B C X Y D; {given}" for word in ("run ", "placed D ")]

    def bytes(self):
        """The bytes of which it is asked whether they are a class."""
        if len(self.files) == 5:
            return list(self.files[:3])
        found = [CapitalDigits(None).parts(self.files[2]), OneLineFewer(None).parts(self.files[2]), ZerosInFront(None).parts(self.files[2])]
        return [*self.files[:2], *(parts[0] for parts in found if parts)]

    def wanted(self, rules):
        """What the program is to answer."""
        if len(self.files) == 3:
            status, said = rules.check_chain(*self.files)
            return [f"{status} {quoted(said)}; asked fetch A fetch C fetch D; held"]
        status, said, chain = rules.compose(*self.files)
        calls = "asked fetch A fetch B fetch C fetch X fetch Y" + (" place D" if chain else "")
        return [f"{status} {quoted(said)}; {calls}; held", f"{status} {calls}; {quoted((chain or b'').decode('ascii'))}"]


def some_question(chains, pool, titles, rand):
    chain, done = changed(rand.choices(chains, [1 / len(it.text()) for it in chains])[0], pool, titles, rand)
    if rand.random() < 0.15:
        return Question((chain.a, chain.middle, chain.c, chain.first, chain.second), done)
    text, more = text_changed(chain.text(), rand)
    return Question((chain.a, chain.c, text), more or done)


# ---- the chains to begin with


def first_chains(seed):
    """Chains of three classes, and all classes."""
    with tempfile.TemporaryDirectory() as work:
        one, other = places = [os.path.join(work, it) for it in ("one", "other")]
        for place in places:
            os.mkdir(place)
        written_twins(seed, CLASSES, METHODS, one, other)

        def file(place, number):
            with open(os.path.join(place, f"C{number}.class"), "rb") as it:
                return it.read()

        triples = [(file(one, it), file(other, it), file(one, it)) for it in range(CLASSES)]
    triples += [(a, b, mutated(c, random.Random(f"{seed} {it}"))) for it, (a, b, c) in enumerate(triples[::3])]
    samples = [sample_class(words.split(" "), {}) for words in SAMPLES]
    triples += [tuple(samples[it] for it in triple) for triple in TRIPLES]
    pairs = sorted({pair for a, b, c in triples for pair in ((a, b), (b, c))})
    said = asked([f"placed X validate --rounds 3 --budget 3000 --cert X A B; A={written(a)} B={written(b)}" for a, b in pairs])
    certs = {pair: unquoted(answer.split("; ", 1)[1]).encode("ascii") for pair, answer in zip(pairs, said)}
    chains = [Chain(a, b, c, certs[a, b], certs[b, c]) for a, b, c in triples]
    for chain in [it for it in chains if it.a in samples]:
        # So too with a section without steps for each method.
        more = [[b"method " + title.encode(), b"end"] for title in methods_of(chain.a)]
        chains.append(Chain(chain.a, chain.middle, chain.c, *(joined(sections_of(it)[0], more) for it in (chain.first, chain.second))))
    for number, chain in enumerate(list(chains)):
        first, second = with_lemmas(chain.first), with_lemmas(chain.second)
        chains.append(Chain(chain.a, chain.middle, chain.c, *[(chain.first, second), (first, chain.second), (first, second)][number % 3]))
    return chains, sorted({it for triple in triples for it in triple}), len(pairs)


def without_steps(cert):
    head, sections = sections_of(cert)
    return joined(head, [[section[0], section[-1]] for section in sections])


def first_questions(chains):
    """What is asked first, so that each wrong rule is shown: of all chains as they are, and of some in which one thing is wrong."""
    one, other = chains[:2]
    a, middle, c, first, second = one.a, one.middle, one.c, one.first, one.second
    after, title = first.count(b"\n") + second.count(b"\n"), sections_of(second)[1][0][0]
    texts = [
        one.text()[:-1],
        one.text().replace(middle.hex().encode(), middle.hex().upper().encode()),
        spelled(middle, first, second, b"0%d" % first.count(b"\n")),
        spelled(middle, first, second, b"%d" % (after + 1)),
        spelled(other.middle, first, second),
        spelled(middle, first, with_digests(second, other.middle, other.middle)),
        spelled(middle, first, second + title + b"\nflip 0 0 1.1\nend\n"),
        spelled(middle, first, without_steps(second)),
        spelled(middle, without_steps(first), second),
        spelled(middle, first, joined(sections_of(second)[0], sections_of(second)[1][1:])),
    ]
    found = [Question((it.a, it.middle, it.c, it.first, it.second), "as it was") for it in chains]
    found += [Question((it.a, it.c, it.text()), "as it was") for it in chains]
    found += [Question((a, c, text), "one thing") for text in texts]
    return found + [Question((a, middle, c, *certs), "one thing") for certs in ((second, first), (b"", first), (first, first))]


def kind(answer):
    """What an answer is counted as: its status, and its words without names and numbers."""
    status, said = answer.split(" ", 1)
    text = unquoted(said.split("; asked ")[0]) if said.startswith('"') else ""
    if status in ("BadClass", "BadCert"):
        return [re.sub(r"\d+", "N", " ".join(text.split()[:5]))]
    lines = [" ".join(line.split(" ")[2:4]) for line in text.splitlines()] if status != "AllEquivalent" or text != "composed\n" else ["composed"]
    return lines or ["no line"]


def show_wrong(classes, questions, answers, shown):
    """Counts for each wrong rule that wasn't shown to be one how many of some questions show it."""
    for rule in WRONG:
        if not shown[rule.__name__]:
            rules = rule(classes)
            shown[rule.__name__] = sum(question.wanted(rules) != answer for question, answer in zip(questions, answers))


def main(args):
    seed = int(args.pop(args.index("--seed") + 1)) if "--seed" in args else 1
    count = int(next((arg for arg in args if arg.isdigit()), 100000))
    rand, began, classes = random.Random(seed), time.time(), Classes()
    chains, pool, pairs = first_chains(seed)
    classes.learn(pool)
    rules, wrong, kinds, done, shown = Rules(classes), 0, Counter(), Counter(), {rule.__name__: 0 for rule in WRONG}
    titles = sorted({title for data in pool for title in classes.known[data].methods} | {"f ()J", "%- ()I"})
    print(f"{len(chains)} chains of {pairs} pairs of classes, with {sum(len(Cert(it.first).sections) for it in chains)} sections", flush=True)
    questions = first_questions(chains)
    asked_so_far = compositions = 0
    while asked_so_far < count:
        questions += [some_question(chains, pool, titles, rand) for _ in range(max(0, min(BATCH, count - asked_so_far) - len(questions)))]
        classes.learn(data for question in questions for data in question.bytes())
        said = iter(asked([line for question in questions for line in question.lines()]))
        answers = [[next(said) for _ in question.lines()] for question in questions]
        for question, answer in zip(questions, answers):
            want = question.wanted(rules)
            kinds.update(kind(want[0]))
            done[question.done] += 1
            if answer != want:
                wrong += 1
                print(f"{want} wanted, {answer}: {question.lines()[0][:3000]}", flush=True)
        show_wrong(classes, questions[:FEW], answers[:FEW], shown)
        asked_so_far += len(questions)
        compositions += sum(len(question.files) == 5 for question in questions)
        questions = []
        if wrong > 20:
            break
    for name in sorted(it for it in shown if not shown[it]):
        wrong += 1
        print(f"no question shows that {name} is wrong")
    print("changed last: " + ", ".join(f"{n} {it}" for it, n in done.most_common()))
    print("said: " + ", ".join(f"{n} {it}" for it, n in kinds.most_common()))
    print(f"wrong rules, and how many of at most {FEW} questions show each: " + ", ".join(f"{name} {n}" for name, n in sorted(shown.items())))
    print(f"{asked_so_far} questions, {compositions} of compositions, in {time.time() - began:.0f} s, {wrong} wrong")
    return wrong


if __name__ == "__main__":
    sys.exit(with_deep_calls(lambda: main(sys.argv[1:])) > 0)
