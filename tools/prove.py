#!/usr/bin/env python3
"""Proves the libraries below a program, several at once.

    tools/prove.py [--at-once N] [NAME]     NAME is a crate, punthizha where none is given; N processors, all where none are given

`rt run` proves the crates below a program one after another. This calls the same code of the toolchain for several of them at once, first for
those with the longest chain of crates above. It leaves what `rt run` would leave, so a `rt run` after it proves the program alone. No file of
crates/ may change meanwhile. Each crate takes a processor and some 4 GB of memory. The status is 0 where all libraries are proved, and else 1.
"""

import argparse
import os
import subprocess
import sys
import tempfile
import time
from concurrent.futures import FIRST_COMPLETED, ThreadPoolExecutor, wait


def toolchain():
    """The toolchain's library, with what its command `rt` adds to it."""
    kit = os.path.dirname(subprocess.run(["rt", "doc"], stdout=subprocess.PIPE, text=True, check=True).stdout.strip())
    command = os.path.join(kit, "bin", "rt")
    scope = {"__name__": "rt", "__file__": command}
    with open(command, encoding="utf-8") as file:
        exec(compile(file.read(), command, "exec"), scope)
    return scope["rtlib"]


def chains(crates):
    """For each crate the lines of the longest chain of crates from it upwards."""
    above = {crate.folder: 0 for crate in crates}
    for crate in reversed(crates):
        above[crate.folder] += crate.count(rb"\n")
        for dep in crate.deps:
            above[dep.folder] = max(above[dep.folder], above[crate.folder])
    return above


def prove(crate, jobs):
    """Proves a crate where that isn't done yet. Gives the status, the seconds, and what the prover printed."""
    began = time.time()
    with tempfile.TemporaryFile("w+", errors="replace") as crate.out:
        os.makedirs(f"{crate.folder}/out", exist_ok=True)
        try:
            status = crate.build_rlib(["--jobs", str(jobs)], anew=False)
        except SystemExit as stopped:
            status = stopped.code
        crate.out.seek(0)
        return status, time.time() - began, crate.out.read()


def prove_all(crates, at_once):
    """Proves each crate after those below it, and stops after the first that isn't proved. Gives whether all are."""
    above, proved, running, total = chains(crates), set(), {}, len(crates)
    left = sorted(crates, key=lambda crate: -above[crate.folder])
    with ThreadPoolExecutor(at_once) as pool:
        while left or running:
            idle = at_once - sum(jobs for _, jobs in running.values())
            ready = [crate for crate in left if proved.issuperset(dep.name for dep in crate.deps)][:idle]
            for number, crate in enumerate(ready):
                jobs = min(4, idle // (len(ready) - number))
                idle -= jobs
                left.remove(crate)
                running[pool.submit(prove, crate, jobs)] = crate, jobs
            for task in wait(running, return_when=FIRST_COMPLETED).done:
                crate, _ = running.pop(task)
                status, seconds, said = task.result()
                if status:
                    print(said, end="")
                    left.clear()
                else:
                    proved.add(crate.name)
                print(f"{crate.name} {'NOT PROVED' if status else 'proved'}, {seconds:.0f} s, {len(proved)} of {total}", flush=True)
    return len(proved) == total


def main():
    parser = argparse.ArgumentParser(description=__doc__, formatter_class=argparse.RawDescriptionHelpFormatter)
    parser.add_argument("--at-once", type=int, default=len(os.sched_getaffinity(0)))
    parser.add_argument("name", nargs="?", default="punthizha")
    given = parser.parse_args()
    rtlib = toolchain()
    top = os.path.join(os.path.dirname(os.path.dirname(os.path.realpath(__file__))), "crates", given.name)
    if not os.path.isdir(top) or given.at_once < 1:
        parser.error("NAME is a folder of crates/, and N is at least 1")
    # The first call sets a signal's handler, which only the main thread may.
    rtlib.guarded()
    crates = rtlib.crates_below(top)
    held = rtlib.lock(crates)
    libraries = sorted((crate for crate in crates if not crate.is_program), key=lambda crate: len(crate.below()))
    is_proved = prove_all(libraries, given.at_once)
    for lock in held:
        os.close(lock)
    return 0 if is_proved else 1


if __name__ == "__main__":
    sys.exit(main())
