#!/usr/bin/env python3
"""Runs the gate's proofs on a machine that has proved nothing yet.

    tests/warm.py [NAME ..]     `rt ci`, or `rt ci NAME ..`, at the top of a checkout in which no file changes meanwhile

For each library `rt ci` sums up the files of the crates below it once for each way that leads down to them through crates.txt, and it reckons
with more memory for a proof than one takes, so that the proofs of the highest crates go one at a time. This runs the same code of the toolchain
with each sum and each list of crates made once in the run, and with NEED of that memory. What passes is kept by the toolchain as after
`rt ci`, so the next `rt ci` in any checkout on the machine proves only what has changed. The gate is `rt ci`: this is a way to begin it.
"""

import os
import subprocess
import sys

NEED = 0.45


def once(call):
    """The call, made once for each crate."""
    made = {}

    def give(crate):
        if crate.folder not in made:
            made[crate.folder] = call(crate)
        found = made[crate.folder]
        return list(found) if isinstance(found, list) else found

    return give


def main():
    kit = os.path.dirname(subprocess.run(["rt", "doc"], stdout=subprocess.PIPE, text=True, check=True).stdout.strip())
    command = os.path.join(kit, "bin", "rt")
    sys.path.insert(0, os.path.dirname(command))
    import rtlib

    for name in ("stamp", "below"):
        setattr(rtlib.Crate, name, once(getattr(rtlib.Crate, name)))
    with open(command, encoding="utf-8") as file:
        text = file.read()
    start = 'if __name__ == "__main__":'
    less = f"if 'need' in globals():\n    all_memory = need\n    need = lambda crate: int({NEED} * all_memory(crate))\n\n\n"
    sys.argv = [command, "ci", *sys.argv[1:]]
    scope = sys.modules["__main__"].__dict__
    scope["__file__"] = command
    exec(compile(text.replace(start, less + start), command, "exec"), scope)


if __name__ == "__main__":
    main()
