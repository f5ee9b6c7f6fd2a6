#!/usr/bin/env python3
"""Runs the built program on class files that should mean the same: before and after ProGuard, or by two compilers.

It works on the program that `cd crates/punthizha && rt run` leaves, or on the one that the environment
variable PUNTHIZHA names. Each JAR is optimised with names kept, as docs/USING.md shows, and each class that both JARs
have is one run of the program. It prints how many lines say what, without places, the slowest pairs, and the greatest memory.
It needs proguard (Debian: proguard-cli) and a JDK 17, as examples/make.sh does; ProGuard reads no class file later than those of Java 13.

With --compilers the arguments are folders of Java sources, and each is compiled for Java 8 by javac, by ecj (Debian: ecj) and by
each javac that the environment variable JAVACS names, separated by colons; javac finds libraries by CLASSPATH. Each class by javac
and by another compiler is one run. With --same the pairs are each class of the JARs and itself.

With --cert each run places a certificate, which a second run of the program checks: it must say `equivalent` of the same methods in the
same order. The steps of its sections are counted. With --all the searches go by all axioms, and else by the core. With --counted counted
loops are known to end. With --workers each pair is compared by 1, 2 and 16 workers too, and what is said must be the same each time.

    tests/pairs.py [--cert | --counted] [--all] [--workers] [--same] JAR..
    tests/pairs.py [--cert | --counted] [--all] [--workers] --compilers FOLDER..
"""

import os
import subprocess
import sys
import tempfile
import zipfile
from collections import Counter
from concurrent.futures import ThreadPoolExecutor

from certs import parted
from programs import punthizha

PROGRAM = punthizha()
WORKERS = ("1", "2", "16")
RULES = """-injars {before}
-outjars {after}
-libraryjars {library}
-dontobfuscate
-dontwarn
-ignorewarnings
-optimizationpasses 3
-keep public class * {{ public protected *; }}
"""


def java8(work):
    """The classes of Java 8 that the JDK keeps for `javac --release 8`, as a JAR."""
    javac = os.path.realpath(subprocess.run(["which", "javac"], capture_output=True, text=True, check=True).stdout.strip())
    kept = os.path.join(os.path.dirname(os.path.dirname(javac)), "lib", "ct.sym")
    path = os.path.join(work, "java8.jar")
    with zipfile.ZipFile(kept) as api, zipfile.ZipFile(path, "w") as jar:
        for name in api.namelist():
            releases, _, rest = (name + "//").partition("/")
            module, _, rest = rest.rstrip("/").partition("/")
            if "8" in releases and rest.endswith(".sig"):
                data = api.read(name)
                if rest not in jar.NameToInfo:
                    jar.writestr(rest[:-4] + ".class", data[:4] + bytes([0, 0, 0, 52]) + data[8:])
    return path


def optimised(jar, work, library):
    """The JAR after ProGuard, or None where it fails."""
    after, rules = os.path.join(work, "after.jar"), os.path.join(work, "rules.pro")
    with open(rules, "w", encoding="utf-8") as file:
        file.write(RULES.format(before=jar, after=after, library=library))
    done = subprocess.run(["proguard", "@" + rules], capture_output=True)
    return after if done.returncode == 0 and os.path.isfile(after) else None


def unpacked(jar, into):
    with zipfile.ZipFile(jar) as file:
        names = [it for it in file.namelist() if it.endswith(".class")]
        file.extractall(into, names)
    return set(names)


def called(*words):
    """What a run of the program prints, its status, and the seconds and the kilobytes that it took."""
    child = subprocess.Popen([PROGRAM, *words], stdout=subprocess.PIPE, stderr=subprocess.PIPE)
    out = child.stdout.read().decode()
    _, status, used = os.wait4(child.pid, 0)
    return out, os.waitstatus_to_exitcode(status), used.ru_utime + used.ru_stime, used.ru_maxrss


def lengths(text):
    """The number of steps of each section of a certificate."""
    _, sections = parted(text.split("\n")[3:-1])
    return [len(steps) for _, steps in sections]


def check(one, other, cert, out):
    """What is wrong with a certificate for a report, or None; and the steps of its sections."""
    if not os.path.isfile(cert):
        return "no certificate", []
    said, status, *_ = called("check", one, other, cert)
    wanted = "".join(line + "\n" for line in out.splitlines() if line.endswith(" equivalent"))
    with open(cert, encoding="ascii") as file:
        steps = lengths(file.read())
    os.remove(cert)
    return (None if said == wanted and status == 0 else "other lines"), steps


def run(pair, options):
    """What the program says of two files, without places; with the seconds and the kilobytes that it took, and with the certificate."""
    name, one, other = pair
    cert, certified = other + ".cert", "--cert" in options
    axioms = "all" if "--all" in options else "core"
    mode = ["--cert", cert] if certified else ["--counted"] if "--counted" in options else []
    asked = ["validate", "--axioms", axioms, *mode, one, other]
    out, status, used, memory = called(*asked)
    others = (called(*asked, "--workers", it)[:2] for it in WORKERS) if "--workers" in options else ()
    if any(it != (out, status) for it in others):
        status = "other lines by another number of workers"
    words = Counter(" ".join(line.split(" ")[2:]).split(" at ")[0] for line in out.splitlines())
    fault, steps = check(one, other, cert, out) if certified and status in (0, 1) else (None, [])
    return name, fault or status, used, memory, words, steps


def compiled(sources, work):
    """The folders of class files by each compiler that takes all the sources, the first by javac."""
    files = os.path.join(work, "files")
    with open(files, "w", encoding="utf-8") as listed:
        for at, _, names in os.walk(sources):
            listed.writelines(f"{os.path.join(at, it)}\n" for it in sorted(names) if it.endswith(".java") and "-info" not in it)
    javacs = ["javac", *filter(None, os.environ.get("JAVACS", "").split(":"))]
    compilers = [[it, "--release", "8", "-nowarn", "-proc:none", "-encoding", "UTF-8"] for it in javacs]
    compilers.append(["ecj", "--release", "8", "-nowarn", "-proc:none", "-encoding", "UTF-8"])
    folders = []
    for number, words in enumerate(compilers):
        into = os.path.join(work, f"by{number}")
        try:
            done = subprocess.run([*words, "-d", into, "@" + files], capture_output=True)
            taken = done.returncode == 0
        except FileNotFoundError:
            taken = False
        if taken:
            folders.append((words[0], into))
        else:
            print(words[0], "doesn't take", sources)
    return folders


def class_files(folder):
    return {os.path.relpath(os.path.join(at, it), folder) for at, _, names in os.walk(folder) for it in names if it.endswith(".class")}


def pairs_of_sources(trees, work):
    """The pairs of class files by javac and by another compiler, each with its name."""
    pairs = []
    for number, tree in enumerate(trees):
        place = os.path.join(work, str(number))
        os.mkdir(place)
        folders = compiled(tree, place)
        for compiler, other in folders[1:]:
            one = folders[0][1]
            both = class_files(one) & class_files(other)
            pairs += [(f"{tree} by {compiler}: {it}", os.path.join(one, it), os.path.join(other, it)) for it in sorted(both)]
    return pairs


def pairs_of(jars, work, same):
    """The pairs of class files, each with its name."""
    library, pairs = None if same else java8(work), []
    for number, jar in enumerate(jars):
        place = os.path.join(work, str(number))
        os.mkdir(place)
        after = jar if same else optimised(os.path.realpath(jar), place, library)
        if not after:
            print("ProGuard doesn't take", os.path.basename(jar))
            continue
        one, other = os.path.join(place, "before"), os.path.join(place, "after")
        both = unpacked(jar, one) & unpacked(after, other)
        pairs += [(f"{os.path.basename(jar)}: {it}", os.path.join(one, it), os.path.join(other, it)) for it in sorted(both)]
    return pairs


def main():
    options = [it for it in sys.argv[1:] if it.startswith("--")]
    jars = [it for it in sys.argv[1:] if not it.startswith("--")]
    with tempfile.TemporaryDirectory() as work:
        pairs = pairs_of_sources(jars, work) if "--compilers" in options else pairs_of(jars, work, "--same" in options)
        with ThreadPoolExecutor(2) as pool:
            answers = list(pool.map(lambda pair: run(pair, options), pairs))
    wrong = [it for it in answers if it[1] not in (0, 1)]
    for name, status, *_ in wrong[:20]:
        print("FAILED ", status, name)
    times = sorted(it[2] for it in answers)
    print(f"{len(answers)} pairs, {sum(times):.1f} s of processor time, the median {times[len(times) // 2]:.3f} s")
    for name, _, used, memory, *_ in sorted(answers, key=lambda it: -it[2])[:5]:
        print(f"{used:8.2f} s {memory // 1024:6} MB {name}")
    print(f"the greatest memory {max(it[3] for it in answers) // 1024} MB")
    steps = sorted(n for it in answers for n in it[5])
    if steps:
        some = [n for n in steps if n]
        print(f"{len(steps)} sections, {len(some)} with steps, of these the median {some[len(some) // 2] if some else 0}, the longest {steps[-1]}")
    for word, count in sum((it[4] for it in answers), Counter()).most_common():
        print(f"{count:8} {word}")
    sys.exit(1 if wrong else 0)


if __name__ == "__main__":
    main()
