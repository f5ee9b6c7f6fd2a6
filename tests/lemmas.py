#!/usr/bin/env python3
"""Counts how many steps of certificates would go by lemmas for what they derive more than once.

A chain is a step that states one equality (axiom, use, flip or chain, or a set of one pair) with all steps that it rests on, if all of these are such steps;
none that rests on a block is one. It has at least 2 steps, and at most 100. Two chains are alike if their steps are the same but for the numbers of
steps and the names of nodes, by a renaming of nodes. Chains that are alike recur if a certificate has at least two of them.

Where a lemma is stated for each kind of chain that recurs, the last step of each chain becomes a use, which rests on no step, and the steps and nodes go that
the last step of the section needs no longer. A kind with one use left, since the others went as parts of longer chains, gets no lemma; the longest
such kind is left out first, and it is counted anew. A lemma has the steps of its chain.

It counts too much rather than too little: a set doesn't say its operation, so chains that are alike may be about other operations, and then need other
lemmas; and the nodes of lemmas aren't counted.

    tests/lemmas.py CERTIFICATE..
    tests/lemmas.py [--all] --pairs A.class B.class ..    certificates that `punthizha validate --cert` makes for two files, and the next two
    tests/lemmas.py [--all] --jars JAR..                  .. for classes before and after ProGuard, as in tests/pairs.py

With --all the searches go by all axioms, and else by the core. The program is found as in tests/programs.py.
"""

import os
import subprocess
import sys
import tempfile
from collections import Counter

from certs import parted
from programs import punthizha
from sections import kinds
from trims import cited, needed

ROWS, LONGEST = ("axiom", "use", "flip", "chain", "set"), 100


def chains(steps):
    """The steps of the chain that ends with a step, for each step that has one; also those of one step."""
    found = {}
    for number, step in enumerate(steps, 1):
        rests = cited(step)[1]
        if step.split(" ")[0] in ROWS and ";" not in step and rests <= found.keys():
            chain = {number}.union(*(found[it] for it in rests))
            if len(chain) <= LONGEST:
                found[number] = chain
    return found


def kind(steps, chain):
    """The steps of a chain, with nodes by the order of their first places and steps by their order."""
    lines, nodes, places = [], {}, {number: str(place) for place, number in enumerate(sorted(chain), 1)}
    for number in sorted(chain):
        words = steps[number - 1].split(" ")
        for at, (is_, word) in enumerate(zip(kinds(words), words)):
            if is_ == "n":
                words[at] = nodes.setdefault(word, f"n{len(nodes)}")
            elif is_ in "fr" and "." in word:
                words[at] = places[int(word.split(".")[0])] + ".1"
        lines.append(" ".join(words))
    return tuple(lines)


class Certificate:
    """The lines of a certificate, the steps of its sections, and the kinds of chains that end with them."""

    def __init__(self, text):
        self.lines = text.split("\n")[:-1]
        self.sections = [steps for _, steps in parted(self.lines[3:])[1]]
        self.kinds = [{last: kind(steps, chain) for last, chain in chains(steps).items() if len(chain) > 1} for steps in self.sections]

    def left(self, recurring):
        """The steps that are left of each section, with lemmas for these kinds."""
        return [needed(steps, {last for last, it in of.items() if it in recurring}) for steps, of in zip(self.sections, self.kinds)]

    def with_lemmas(self):
        """How often each lemma is used, and how many steps go."""
        found = Counter(it for of in self.kinds for it in of.values())
        recurring = {it for it in found if found[it] > 1}
        while True:
            left = self.left(recurring)
            uses = Counter(of[last] for steps, of in zip(left, self.kinds) for last in steps & of.keys() if of[last] in recurring)
            once = [it for it in uses if uses[it] == 1]
            if not once:
                return uses, sum(map(len, self.left(()))) - sum(map(len, left))
            recurring -= {it for it in once if len(it) == max(map(len, once))}


def made(pairs, work, axioms):
    """The certificates that the program makes for pairs of files."""
    cert = os.path.join(work, "cert")
    for one, other in pairs:
        subprocess.run([punthizha(), "validate", "--axioms", axioms, "--cert", cert, one, other], stdout=subprocess.DEVNULL, check=False)
        if os.path.exists(cert):
            yield text_of(cert)
            os.remove(cert)


def text_of(path):
    with open(path, encoding="ascii") as file:
        return file.read()


def texts(args, work):
    """The texts of the certificates that the arguments name."""
    names, axioms = [it for it in args if not it.startswith("--")], "all" if "--all" in args else "core"
    if "--jars" in args:
        from pairs import pairs_of  # which needs the program

        return made([(one, other) for _, one, other in pairs_of(names, work, False)], work, axioms)
    return made(zip(names[::2], names[1::2]), work, axioms) if "--pairs" in args else map(text_of, names)


def main(args):
    count, lines, steps, gone, uses = 0, 0, 0, 0, Counter()
    lemmas, own = 0, 0
    with tempfile.TemporaryDirectory() as work:
        for text in texts(args, work):
            it = Certificate(text)
            used, went = it.with_lemmas()
            count, lines, steps, gone = count + 1, lines + len(it.lines), steps + sum(map(len, it.sections)), gone + went
            lemmas, own = lemmas + len(used), own + sum(map(len, used))
            uses.update(used)
    print(f"{count} certificates, {lines} lines, of these {steps} steps of sections")
    print(f"{lemmas} lemmas for chains that recur in a certificate, with {own} steps besides their nodes; {sum(uses.values())} uses")
    print(f"{gone} steps go, {gone - own} more than the lemmas have ({100 * (gone - own) / max(1, steps):.1f} in 100)")
    for it, n in sorted(uses.items(), key=lambda pair: -pair[1] * (len(pair[0]) - 1))[:5]:
        print(f"{n} uses of {len(it)} steps: {'; '.join(it)[:200]}")


if __name__ == "__main__":
    main(sys.argv[1:])
