#!/usr/bin/env python3
"""Runs the gate and says what it costs: for each crate the processor seconds of its proof, and of its edits with the second
proof that they begin with; and those of the whole run, over all its processes.

    tests/price.py [CRATE ..]      rt ci of these crates and those below them; of all, as the gate, if none is named

What an earlier run on this machine passed is kept, and costs nothing here: for the price from nothing write --anew first.
The seconds are read from /proc once a second, so a process that lives less than that is counted in the whole alone.
"""

import os
import re
import resource
import subprocess
import sys
import time

TOP = os.path.dirname(os.path.dirname(os.path.abspath(__file__)))
TICKS = os.sysconf("SC_CLK_TCK")


def crates():
    """The crates, each with its lines of code, definitions and proofs, and its edits in the gate."""
    found = {}
    for line in open(f"{TOP}/crates.txt", encoding="utf-8"):
        name = line.split(":")[0].split()
        if name and not name[0].startswith("#"):
            folder, lines = f"{TOP}/crates/{name[0]}", 0
            for part in ("src", "specs", "proofs"):
                for at, _, files in os.walk(f"{folder}/{part}"):
                    for file in files:
                        with open(f"{at}/{file}", "rb") as it:
                            lines += sum(1 for _ in it)
            edits = [it for it in os.listdir(folder + "/must-fail") if it.endswith(".edit")] if os.path.isdir(folder + "/must-fail") else []
            found[name[0]] = lines, len(edits)
    return found


def processes():
    """The processes, by number: parent, own ticks, ticks of children that ended, words and folder."""
    found = {}
    for number in filter(str.isdigit, os.listdir("/proc")):
        try:
            with open(f"/proc/{number}/stat", encoding="utf-8", errors="replace") as it:
                fields = it.read().rsplit(")", 1)[1].split()
            with open(f"/proc/{number}/cmdline", "rb") as it:
                words = it.read().decode(errors="replace").split("\0")
            found[int(number)] = int(fields[1]), int(fields[11]) + int(fields[12]), int(fields[13]) + int(fields[14]), words, os.readlink(f"/proc/{number}/cwd")
        except OSError:
            pass
    return found


def crate_of(words):
    """The crate that these words of a process prove, if they do."""
    return words[words.index("--crate-name") + 1] if "--crate-name" in words else None


def look(root, spent):
    """Notes for each proof below the root how much it has spent so far."""
    now = processes()
    below = {root}
    while True:
        more = {it for it, (parent, *_) in now.items() if parent in below} - below
        if not more:
            break
        below |= more
    for it in below & now.keys():
        parent, own, ended, words, folder = now[it]
        crate = crate_of(words)
        if crate and not (parent in now and crate_of(now[parent][3])):
            forks = [other for other in below & now.keys() if now[other][0] == it]
            kind = "edits" if re.search(r"/rt-edit-", folder) else "proof"
            total = own + ended + sum(now[fork][1] + now[fork][2] for fork in forks)
            key = crate, kind, it
            spent[key] = max(spent.get(key, 0), total)


def main(words):
    spent = {}
    began = time.time()
    run = subprocess.Popen(["rt", "ci", *words], cwd=TOP)
    while run.poll() is None:
        look(run.pid, spent)
        time.sleep(1)
    used = resource.getrusage(resource.RUSAGE_CHILDREN)
    whole = used.ru_utime + used.ru_stime
    print("\n| Crate | Lines | Proof, s | Edits | Edits, s |\n|---|---|---|---|---|")
    sums = {"proof": 0, "edits": 0}
    for name, (lines, edits) in crates().items():
        of = {kind: sum(ticks for (crate, k, _), ticks in spent.items() if crate == name and k == kind) / TICKS for kind in sums}
        for kind in sums:
            sums[kind] += of[kind]
        print(f"| `{name}` | {lines:,} | {of['proof']:.0f} | {edits} | {of['edits']:.0f} |")
    lines = sum(it for it, _ in crates().values())
    print(f"\nall: {lines:,} lines, {sum(it for _, it in crates().values())} edits; proofs {sums['proof'] / 60:.0f} processor minutes, edits with their proofs {sums['edits'] / 60:.0f}, "
          f"the whole run {whole / 60:.0f}: {whole / 60 / lines * 1000:.2f} a 1,000 lines, in {(time.time() - began) / 60:.0f} minutes")
    return run.returncode


if __name__ == "__main__":
    sys.exit(main(sys.argv[1:]))
