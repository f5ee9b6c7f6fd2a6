#!/usr/bin/env python3
"""Gives the program inputs that AFL++ finds: one that reaches new code is kept, and changed again.

It needs AFL++ and gcc (Debian: afl++, gcc), and the kit. No built program is needed: it takes the module that `rt try` compiles, and compiles
it once more with a count of each edge between blocks. That is proved by nothing, and takes some minutes. The kinds:

    self        a class file against itself: validate, with --cert, --counted and --axioms all, and refute
    pair        a class file against one of those that stand in crates/cases/stdin, as the first or as the second
    check       a certificate for a pair
    migrate     the same in version 1
    chain       a chain, also with its first lines given; and the first or the second certificate for compose
    words       the words of a command, one a line, for any command
    listing     a listing, by `assemble` of the program of cases

The seeds are those of tests/fuzz.py and tests/listings.py, and the certificates that the program makes for the pairs, also with uses of lemmas. A signal and a status over 7
count as crashes. An input that takes more than 5 seconds is ended, and run again if it reaches edges that no such input did before: then more
than 60 seconds count as a hang. In the end each input that was kept is run again, and its lines must be such as docs/LINES.md knows; of a listing the
class must be that of tests/listings.py.

    tests/afl.py [MINUTES [KIND ..]]      by default 1 minute of each kind, two kinds at once

It prints for each kind how many inputs were run and kept, and how many edges they reach, and each input that fails: a file, with the command
that runs it. The files are left then. With the environment variable BUILT all is left in the folder that it names, and programs that are there are taken as they are.
"""

import os
import re
import shutil
import signal
import struct
import subprocess
import sys
import tempfile
import time
from concurrent.futures import ThreadPoolExecutor

import fuzz
import listings
from programs import TOP

CRATES = ("punthizha", "cases")
MODULE_BYTES, MODULE_SECONDS = 1 << 20, 3600
QUICK_MS, SLOW_MS, MEGABYTES, AT_ONCE = 5000, 60000, 2000, 2
RUNTIME = "/usr/lib/afl/afl-compiler-rt.o"
FLAGS = (
    "-march=x86-64 -mllvm -no-trap-after-noreturn -ffunction-sections -fdata-sections -mllvm -trap-unreachable -mllvm -no-x86-call-frame-opt "
    "-mllvm -disable-machine-licm -mllvm -disable-postra-machine-licm -mllvm -sink-common-insts=false --no-default-config -no-canonical-prefixes -fPIE -O1"
).split()
WORD, MOST_WORDS = re.compile(rb"[a-z_-]{2,20}\d?"), 200
STATUSES = ("AllEquivalent", "Others", "BadClass", "BadCert", "BadWords", "ReadFault", "WriteFault", "Memory")
SHORT = "--rounds 2 --budget 2000 --workers"
WAYS = [
    words.split()
    for words in (f"validate {SHORT} 1", f"validate --axioms all {SHORT} 2", f"validate --counted {SHORT} 1", f"validate --cert OUT {SHORT} 1", "refute --tries 20 --steps 200")
]

# The `main` of the programs, which are linked with their own as `program_main`, and end by `program_exit`. Without SETUPS they are as they were. With it, standard input is an
# input: two bytes choose a setup, and the rest follows what the setup begins with. A setup has its words, one a line, an empty line, and that
# beginning. The whole is the file I, or, without words, the words themselves; after the word `line` it is given to standard input in digits.
DRIVER = r"""
#define _GNU_SOURCE
#include <dirent.h>
#include <fcntl.h>
#include <stdio.h>
#include <stdlib.h>
#include <string.h>
#include <sys/mman.h>
#include <unistd.h>

enum { MOST = 1 << 22, WORDS = 64 };
static char input[MOST], setup[MOST], *chosen[WORDS] = {"program"}, **words;
static size_t count;

int program_main(int, char **);

size_t rattle_arg_count(void) { return count; }

ssize_t rattle_arg(size_t i, char *room, size_t size) {
    if (i >= count)
        return -1;
    size_t length = strlen(words[i]);
    if (length > size)
        return -2;
    memcpy(room, words[i], length);
    return length;
}

static size_t whole(int file, char *room) {
    size_t size = 0;
    ssize_t part;
    while (size < MOST - 1 && (part = read(file, room + size, MOST - 1 - size)) > 0)
        size += part;
    return size;
}

static void all(int file, const char *text, size_t size) {
    if (write(file, text, size) != (ssize_t)size)
        _exit(0);
}

static void place(const char *name, const char *text, size_t size) {
    int file = open(name, O_WRONLY | O_CREAT | O_TRUNC, 0600);
    all(file, text, size);
    close(file);
}

static void clear(void) {
    DIR *folder = opendir(".");
    for (struct dirent *entry; (entry = readdir(folder));)
        unlink(entry->d_name);
    closedir(folder);
}

static void copy(const char *from, const char *name) {
    char path[4096];
    snprintf(path, sizeof path, "%s/%s", from, name);
    int file = open(path, O_RDONLY);
    if (file >= 0) {
        size_t size = whole(file, setup);
        close(file);
        place(name, setup, size);
    }
}

static void give_line(char *word, char *text, size_t size) {
    FILE *line = fdopen(memfd_create("line", 0), "w+");
    fprintf(line, "%s ", word);
    for (size_t i = 0; i < size; i++)
        fprintf(line, "%02X", (unsigned char)text[i]);
    fputs(size ? "\n" : "-\n", line);
    rewind(line);
    dup2(fileno(line), 0);
}

static void split(char *text, char *end) {
    for (count = 1; text < end && count < WORDS; count++) {
        chosen[count] = text;
        text += strcspn(text, "\n");
        *text++ = 0;
    }
    words = chosen;
}

static void prepare(const char *setups) {
    char name[16], path[4096];
    size_t size = whole(0, input), which = (size > 0 ? input[0] & 255 : 0) + (size > 1 ? (input[1] & 255) << 8 : 0);
    char *rest = input + (size < 2 ? size : 2);
    size -= rest - input;
    snprintf(name, sizeof name, "%zu", which % atoi(getenv("COUNT")));
    snprintf(path, sizeof path, "%s/%s", setups, name);
    int file = open(path, O_RDONLY);
    size_t length = whole(file, setup);
    close(file);
    setup[length] = 0;
    if (chdir(getenv("PLACE")))
        _exit(0);
    clear();
    if (*setup == '\n') {
        for (size_t i = 0; i < size; i++)
            if (rest[i] == '/')
                rest[i] = '_';
        copy(setups, "A");
        copy(setups, "B");
        copy(setups, "C");
        split(rest, rest + size);
        return;
    }
    char *beginning = strstr(setup, "\n\n") + 2;
    size_t begun = setup + length - beginning;
    if (begun + size > MOST - 2)
        _exit(0);
    memmove(rest + begun, rest, size);
    memcpy(rest, beginning, begun);
    split(setup, beginning - 1);
    if (strcmp(chosen[1], "line") == 0)
        give_line(chosen[2], rest, begun + size);
    else
        place("I", rest, begun + size);
}

void program_exit(int status) {
    if (status < 0 || status > 7)
        abort();
    _exit(status);
}

int main(int argc, char **argv) {
    words = argv;
    count = argc;
    if (getenv("SETUPS"))
        prepare(getenv("SETUPS"));
    program_exit(program_main(count, words));
}
"""


def whole(path):
    with open(path, "rb") as file:
        return file.read()


def kit():
    """The kit's folder: `rt` is a link to its bin/rt."""
    return os.path.dirname(os.path.dirname(os.path.realpath(subprocess.run(["which", "rt"], capture_output=True, text=True, check=True).stdout.strip())))


def module(crate, work):
    """The module of a program, as `rt try` hands it to its compiler; `rt try` is ended then."""
    tried = subprocess.Popen(
        ["rt", "try", "--"], cwd=os.path.join(TOP, "crates", crate), env={**os.environ, "TMPDIR": work}, stdin=subprocess.DEVNULL, stdout=subprocess.DEVNULL, stderr=subprocess.DEVNULL
    )
    sizes, end = {}, time.time() + MODULE_SECONDS
    while time.time() < end and tried.poll() is None:
        time.sleep(3)
        for at, _, names in os.walk(work):
            path = os.path.join(at, "module.bc")
            size = os.path.getsize(path) if "module.bc" in names else 0
            if size > MODULE_BYTES and sizes.get(path) == size:
                os.link(path, os.path.join(work, crate + ".bc"))
                tried.send_signal(signal.SIGTERM)
                tried.wait()
                return os.path.join(work, crate + ".bc")
            sizes[path] = size
    sys.exit(f"rt try compiled no module of {crate}")


def build(crate, folder):
    """The program of a crate with its edges counted."""
    program, tools = os.path.join(folder, crate), os.path.join(kit(), "toolchain")
    if os.access(program, os.X_OK):
        return program
    with tempfile.TemporaryDirectory() as work:
        code, driver = os.path.join(work, "program.o"), os.path.join(work, "driver.c")
        compiler = [os.path.join(tools, "bin", "clang"), "--target=x86_64-unknown-linux-gnu", f"--sysroot={tools}"]
        subprocess.run([*compiler, *FLAGS, "-fsanitize-coverage=trace-pc-guard", "-c", "-x", "ir", module(crate, work), "-o", code], check=True)
        subprocess.run(["objcopy", "--redefine-sym", "main=program_main", "--redefine-sym", "_exit=program_exit", code], check=True)
        with open(driver, "w", encoding="utf-8") as file:
            file.write(DRIVER)
        libraries = [os.path.join(kit(), "c", it) for it in ("libos_c.a", "liblibc_c.a")]
        subprocess.run(["gcc", "-O1", "-o", program, driver, code, RUNTIME, *libraries, "-lpthread", "-ldl", "-lm", "-lrt"], check=True)
    return program


class Kind:
    """A kind of inputs: its setups, each with words and what the file begins with, its seeds, and files for its commands."""

    def __init__(self, name, folder, program):
        self.name, self.program, self.seeds, self.setups = name, program, [], []
        self.setting, self.given, self.found, self.place = (os.path.join(folder, name, it) for it in ("setups", "seeds", "found", "place"))
        for path in (self.setting, self.given, self.place):
            os.makedirs(path, exist_ok=True)

    def file(self, name, data):
        path = os.path.join(self.setting, name)
        with open(path, "wb") as file:
            file.write(data)
        return path

    def setup(self, words, *seeds, beginning=b""):
        """A setup, and the inputs to begin with under it."""
        number = len(self.setups)
        self.file(str(number), "".join(f"{word}\n" for word in words).encode() + b"\n" + beginning)
        self.setups.append(words)
        self.seeds += [struct.pack("<H", number) + seed for seed in seeds]

    def write_seeds(self):
        for number, seed in enumerate(self.seeds):
            with open(os.path.join(self.given, f"{number:04}"), "wb") as file:
                file.write(seed)

    def tokens(self):
        """The option that names the words of the seeds which are texts, if there are any."""
        texts = [seed[2:] for seed in self.seeds if seed[2:6] != b"\xca\xfe\xba\xbe"]
        with open(self.given + ".words", "w", encoding="utf-8") as file:
            file.write("".join(f'"{word.decode()}"\n' for word in sorted({word for text in texts for word in WORD.findall(text)})[:MOST_WORDS]))
        return ["-x", self.given + ".words"] if texts else []

    def environment(self):
        named = {"SETUPS": self.setting, "COUNT": str(len(self.setups)), "PLACE": self.place}
        quiet = ("AFL_NO_UI", "AFL_SKIP_CPUFREQ", "AFL_NO_AFFINITY", "AFL_I_DONT_CARE_ABOUT_MISSING_CRASHES")
        return {**os.environ, **named, **dict.fromkeys(quiet, "1"), "AFL_FORKSRV_INIT_TMOUT": "60000", "AFL_HANG_TMOUT": str(SLOW_MS)}

    def fuzz(self, minutes):
        """Runs AFL++, and gives its figures."""
        self.write_seeds()
        words = ["afl-fuzz", "-i", self.given, "-o", self.found, "-t", str(QUICK_MS), "-m", str(MEGABYTES), "-V", str(int(60 * minutes)), *self.tokens(), "--", self.program]
        with open(self.given + ".log", "w", encoding="utf-8") as log:
            subprocess.run(words, env=self.environment(), stdout=log, stderr=log, check=True)
        with open(os.path.join(self.found, "default", "fuzzer_stats"), encoding="utf-8") as file:
            return {key.strip(): value.strip() for key, _, value in (line.partition(":") for line in file)}

    def inputs(self, folder):
        """The inputs of a folder of AFL++'s."""
        path = os.path.join(self.found, "default", folder)
        return [os.path.join(path, name) for name in sorted(os.listdir(path)) if name.startswith("id:")]

    def command(self, data):
        number = int.from_bytes(data[:2].ljust(2, b"\0"), "little") % len(self.setups)
        return self.setups[number]

    def again(self, path):
        """What the program says of an input: its status and its text."""
        with open(path, "rb") as file:
            try:
                ran = subprocess.run([self.program], stdin=file, capture_output=True, env=self.environment(), timeout=SLOW_MS / 1000, check=False)
            except subprocess.TimeoutExpired:
                return None, ""
        return ran.returncode, ran.stdout.decode("utf-8", "replace")

    def is_right(self, path):
        """Whether the program may say of an input what it says."""
        status, text = self.again(path)
        if status is None or not 0 <= status < len(STATUSES):
            return False
        if status >= STATUSES.index("ReadFault"):
            return text == ""
        words = self.command(whole(path))
        if not words:
            return bool(status == 0 and re.fullmatch(r"made \d+ methods\n", text)) or any(fuzz.is_text(STATUSES[status], text, it) for it in (*fuzz.LINES, *fuzz.BAD))
        command = "self" if words[0] == "validate" and words[-2:] == ["I", "I"] else words[0]
        return bool(fuzz.is_text(STATUSES[status], text, command))

    def wrong(self):
        """The seeds and the inputs that were kept of which the program says what it may not. (AFL++ leaves out seeds that crash.)"""
        kept = [os.path.join(self.given, name) for name in sorted(os.listdir(self.given))] + [path for path in self.inputs("queue") if ",orig:" not in path]
        if self.name != "listing":
            return [path for path in kept if not self.is_right(path)]
        return [path for path in kept if listings.compared([whole(path)[2:]]) is None]


def self_kind(kind, seeds):
    for number, way in enumerate(WAYS):
        kind.setup([*way, "I", "I"], *seeds.classes[number :: len(WAYS)])


def pair_kind(kind, seeds):
    for number, (one, other) in enumerate(seeds.pairs):
        way = WAYS[number % len(WAYS)]
        kind.setup([*way, kind.file(f"one-{number}", one), "I"], other)
        kind.setup([*way, "I", kind.file(f"other-{number}", other)], one)


def check_kind(kind, seeds):
    for number, (one, other, body) in enumerate(seeds.proved):
        words = ["check", "--workers", "12"[number % 2], kind.file(f"one-{number}", one), kind.file(f"other-{number}", other), "I"]
        kind.setup(words, fuzz.head(one, other) + body)


def migrate_kind(kind, seeds):
    texts = [fuzz.head(one, other) + body for one, other, body in seeds.proved]
    kind.setup(["migrate", "I", "OUT"], *(text.replace(b"peggy-cert 2", b"peggy-cert 1", 1) for text in texts))


def chain_kind(kind, seeds):
    """Chains from a class to its partner, with lemmas, and from there to the partner again or back, without."""
    used = {(one, other): body for one, other, body in seeds.proved}
    plain = {(one, other): body for one, other, body in reversed(seeds.proved)}
    for number, ((one, middle), body) in enumerate(used.items()):
        last = one if (middle, one) in plain else middle
        first, second = fuzz.head(one, middle) + body, fuzz.head(middle, last) + plain.get((middle, last), b"")
        text = fuzz.chain(middle, first, second)
        files = [kind.file(f"{name}-{number}", data) for name, data in (("one", one), ("middle", middle), ("last", last), ("first", first), ("second", second))]
        given = text.index(b"lines ")
        kind.setup(["check-chain", "--workers", "1", files[0], files[2], "I"], text)
        kind.setup(["check-chain", "--workers", "1", files[0], files[2], "I"], text[given:], beginning=text[:given])
        kind.setup(["compose", *files[:3], "I", files[4], "OUT"], first)
        kind.setup(["compose", *files[:4], "I", "OUT"], second)


def words_kind(kind, seeds):
    one, other, body = min(seeds.proved, key=lambda it: len(it[2]))
    for name, data in (("A", one), ("B", other), ("C", fuzz.head(one, other) + body)):
        kind.file(name, data)
    lines = (
        "validate A B", "validate --axioms all --rounds 1 --budget 20 A B", "validate A --workers=2 B --counted", "validate --cert OUT -- A B", "validate --axioms core --rounds=0 A A",
        "check A B C", "check --workers 16 A B C", "migrate C OUT", "refute A B", "refute --tries 3 --steps=9 A B", "compose A B A C C OUT", "check-chain A B C", "check-chain --workers 1 A A OUT", "make 7 3 A B",
        "make 18446744073709551615 1 OUT OUT", "--help", "",
    )  # fmt: skip
    kind.setup([], *(line.replace(" ", "\n").encode() for line in lines))


def listing_kind(kind, _):
    kind.setup(["line", "assemble"], *listings.SEEDS)


KINDS = {"self": self_kind, "pair": pair_kind, "check": check_kind, "migrate": migrate_kind, "chain": chain_kind, "words": words_kind, "listing": listing_kind}


class Seeds(fuzz.Seeds):
    """The seeds of tests/fuzz.py with the classes of the examples, and with certificates for pairs in both orders."""

    def certificates(self):
        for form in ("examples/%s/Ints.class", "examples/bug/%s/Half.class"):
            pair = tuple(whole(os.path.join(TOP, form % side)) for side in ("before", "after"))
            self.pairs.append(pair)
            self.classes += pair
        pairs, forth = self.pairs, super().certificates()
        self.pairs = [(other, one) for one, other in pairs]
        back = super().certificates()
        self.pairs = pairs
        return forth + back


def run(kind, minutes):
    """Fuzzes a kind, and says how it went; whether nothing failed."""
    said = kind.fuzz(minutes)
    failing = {"CRASH": kind.inputs("crashes"), "HANG": kind.inputs("hangs"), "WRONG": kind.wrong()}
    named = f"SETUPS={kind.setting} COUNT={len(kind.setups)} PLACE={kind.place}"
    for what, paths in failing.items():
        for path in paths:
            print(f"{what}: {named} {kind.program} < {path}", flush=True)
    inputs, kept, edges = said["execs_done"], said["corpus_count"], f"{said['edges_found']} of {said['total_edges']} edges"
    counts = ", ".join(f"{len(paths)} {what}" for what, paths in zip(("crashes", "hangs", "wrong"), failing.values()))
    print(f"{kind.name}: {inputs} inputs in {minutes:g} minutes ({said['execs_per_sec']} a second) from {len(kind.seeds)} seeds, {kept} kept, {edges}, {counts}", flush=True)
    return not any(failing.values())


def fuzzed(folder, minutes, names):
    """Builds the programs in a folder where they aren't there, and fuzzes the kinds; whether nothing failed."""
    with ThreadPoolExecutor(AT_ONCE) as pool:
        programs = dict(zip(CRATES, pool.map(lambda crate: build(crate, folder), CRATES)))
        os.environ["CASES"] = programs["cases"]
        seeds, found = Seeds(), tempfile.mkdtemp(prefix="found-", dir=folder)
        kinds = [Kind(name, found, programs["cases" if name == "listing" else "punthizha"]) for name in names]
        for kind in kinds:
            KINDS[kind.name](kind, seeds)
        return all(list(pool.map(lambda kind: run(kind, minutes), kinds)))


def main(args):
    kept = os.environ.get("BUILT")
    folder = os.path.abspath(kept or tempfile.mkdtemp(prefix="afl-"))
    os.makedirs(folder, exist_ok=True)
    fine = fuzzed(folder, float(args[0]) if args else 1, args[1:] or list(KINDS))
    if fine and not kept:
        shutil.rmtree(folder)
    return 0 if fine else 1


if __name__ == "__main__":
    sys.exit(main(sys.argv[1:]))
