#!/usr/bin/env python3
"""Runs each command of the program with one request for memory after the other refused.

A library that goes between the program and malloc (LD_PRELOAD) refuses the Nth request alone, or the Nth and all after it, for each N from 1 until
the program makes no Nth request. Each run must end with status 7, with nothing printed, or with the status and the text of the run
in which no request is refused; what it places is then the same too. It leaves the files that it reads as they were, and no other file but the one that it places.
It prints for each command how many runs there were and how they ended, and each run that ended otherwise.

    tests/memory.py [NAME ..]       the commands with these names, or all

The program is the one that `cd crates/punthizha && rt run` leaves, or the one that the environment variable PUNTHIZHA names. It needs gcc.
"""

import os
import subprocess
import sys
import tempfile
from concurrent.futures import ThreadPoolExecutor

from cases import sample_class
from certs import with_uses
from pairs import PROGRAM

LIBRARY = """
#include <errno.h>
#include <stdatomic.h>
#include <stdlib.h>
#include <unistd.h>

void *__libc_malloc(size_t);
void *__libc_calloc(size_t, size_t);
void *__libc_realloc(void *, size_t);

static atomic_long requests;
static long first, is_rest, told;

__attribute__((constructor)) static void begin(void) {
    first = atol(getenv("REFUSED"));
    is_rest = atol(getenv("REFUSED_REST"));
    told = atol(getenv("REFUSED_TOLD"));
    requests = 0;
}

static int is_refused(void) {
    long n = ++requests;
    if (first == 0 || n < first || (n > first && !is_rest))
        return 0;
    if (n == first && write(told, "!", 1) != 1)
        abort();
    errno = ENOMEM;
    return 1;
}

void *malloc(size_t size) { return is_refused() ? 0 : __libc_malloc(size); }
void *calloc(size_t count, size_t size) { return is_refused() ? 0 : __libc_calloc(count, size); }
void *realloc(void *old, size_t size) { return is_refused() ? 0 : __libc_realloc(old, size); }
"""
SUM, TURNED, DIFFERENCE, TWO = "g,(II)I,9,2,2,1A1B60AC", "g,(II)I,9,2,2,1B1A60AC", "g,(II)I,9,2,2,1A1B64AC", "g,(II)I,9,2,2,1A1B60AC f,()I,9,1,0,08AC"
CLASSES = {"A": SUM, "B": TURNED, "C": SUM, "E": DIFFERENCE, "F": TWO}
# The words of each command, and its status; the last word of those that place something is where they do.
COMMANDS = {
    "validate": ("validate A B", 0),
    "validate-all": ("validate --axioms all --rounds 1 A B", 0),
    "validate-counted": ("validate --counted A E", 1),
    "validate-cert": ("validate A B --cert OUT", 0),
    "check": ("check A B X", 0),
    "check-other": ("check A A X", 3),
    "check-lemma": ("check A B L", 0),
    "migrate": ("migrate V OUT", 0),
    "migrate-other": ("migrate X OUT", 3),
    "refute": ("refute A E", 1),
    "refute-tried": ("refute --tries 8 A E", 1),
    "compose": ("compose A B C X Y OUT", 0),
    "compose-other": ("compose A B C Y X OUT", 3),
    "check-chain": ("check-chain A C D", 0),
    "check-chain-other": ("check-chain A B D", 3),
    "make": ("make 7 3 OUT OUT", 0),
    "missing": ("validate F A", 1),
    "bad-class": ("check-chain A X D", 2),
    "bad-words": ("check-chain A", 4),
}


class Run:
    """How the program ended, what it printed and placed, and whether the request was met."""

    def __init__(self, status, said, placed, is_met):
        self.status, self.said, self.placed, self.is_met = status, said, placed, is_met

    def is_like(self, other):
        return (self.status, self.said, self.placed) == (other.status, other.said, other.placed)


class Folder:
    """A folder with the files that the commands read."""

    def __init__(self, path, library, files):
        self.path, self.library, self.files = path, library, files
        os.mkdir(path)
        for name, data in files.items():
            self.write(name, data)

    def write(self, name, data):
        with open(os.path.join(self.path, name), "wb") as file:
            file.write(data)

    def held(self):
        """What each file holds."""
        found = {}
        for name in os.listdir(self.path):
            with open(os.path.join(self.path, name), "rb") as file:
                found[name] = file.read()
        return found

    def run(self, words, refused=0, is_rest=False):
        """A run with a request refused, and all after it or not; with none if it is 0."""
        seen, told = os.pipe()
        env = {"LD_PRELOAD": self.library, "REFUSED": str(refused), "REFUSED_REST": str(int(is_rest)), "REFUSED_TOLD": str(told)}
        with subprocess.Popen([PROGRAM, *words], cwd=self.path, env=env, pass_fds=[told], stdout=subprocess.PIPE, stderr=subprocess.PIPE) as child:
            os.close(told)
            said, errors = child.communicate(timeout=300)
        with os.fdopen(seen, "rb") as file:
            is_met = file.read() == b"!"
        held = self.held()
        placed = held.pop("OUT", None)
        if placed is not None:
            os.remove(os.path.join(self.path, "OUT"))
        if errors or held != self.files:
            sys.exit(f"{words} with request {refused} refused: {errors!r}, files {sorted(held)}")
        return Run(child.returncode, said, placed, is_met)


def tried(name, folder):
    """What is said of a command: how its runs ended, and which ended otherwise."""
    text, status = COMMANDS[name]
    words, ended, wrong = text.split(" "), {"out of memory": 0, "as without": 0}, []
    own = folder.run(words)
    if own.status != status or (own.placed is not None) != ("OUT" in words and status == 0):
        wrong.append(f"status {own.status} where nothing is refused")
    for is_rest in (False, True):
        refused = 1
        while True:
            run = folder.run(words, refused, is_rest)
            if not run.is_met:
                break
            if run.status == 7 and not run.said:
                ended["out of memory"] += 1
            elif run.is_like(own):
                ended["as without"] += 1
            else:
                wrong.append(f"request {refused}{' and all after it' if is_rest else ''} refused: status {run.status}, {run.said!r}")
            refused += 1
        if refused == 1 or not run.is_like(own):
            wrong.append(f"{refused - 1} requests were refused, and the last run ended with {run.status}")
    if not ended["out of memory"]:
        wrong.append("no run was out of memory")
    return f"{name}: {sum(ended.values())} runs with a request refused: " + ", ".join(f"{n} {it}" for it, n in ended.items()), wrong


def files_of(work, library):
    """The files that the commands read: classes, certificates, one of them with a lemma and one of version 1, and a chain."""
    files = {name: sample_class(words.split(" "), {}) for name, words in CLASSES.items()}
    first = Folder(os.path.join(work, "first"), library, files)
    for name, words in (("X", "validate A B --cert OUT"), ("Y", "validate B C --cert OUT"), ("D", "compose A B C X Y OUT")):
        made = first.run(words.split(" "))
        if made.status != 0 or made.placed is None:
            sys.exit(f"{words}: status {made.status}")
        files[name] = made.placed
        first.write(name, made.placed)
    lines = files["X"].decode("ascii").split("\n")[:-1]
    files["L"] = "".join(line + "\n" for line in lines[:3] + with_uses(lines[3:])).encode()
    files["V"] = files["X"].replace(b"peggy-cert 2", b"peggy-cert 1", 1)
    return files


def main(names):
    with tempfile.TemporaryDirectory() as work:
        source, library = os.path.join(work, "refuse.c"), os.path.join(work, "refuse.so")
        with open(source, "w", encoding="ascii") as file:
            file.write(LIBRARY)
        subprocess.run(["gcc", "-O1", "-shared", "-fPIC", "-o", library, source], check=True)
        files = files_of(work, library)
        names = names or list(COMMANDS)
        with ThreadPoolExecutor(2) as pool:
            count = 0
            for said, wrong in pool.map(lambda name: tried(name, Folder(os.path.join(work, name), library, dict(files))), names):
                print("\n".join([said, *(f"WRONG    {text}" for text in wrong[:20])]), flush=True)
                count += len(wrong)
    print(f"{count} wrong")
    return count > 0


if __name__ == "__main__":
    sys.exit(main(sys.argv[1:]))
