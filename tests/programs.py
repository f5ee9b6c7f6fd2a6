"""What the scripts share: where the two programs are, lines asked of the program of cases, and the class files of a JDK.

The programs are those that `cd crates/punthizha && rt run` and `cd crates/cases && rt run < stdin` leave, or the ones that the environment
variables PUNTHIZHA and CASES name.
"""

import os
import shutil
import subprocess
import sys

TOP = os.path.dirname(os.path.dirname(os.path.abspath(__file__)))


def program(name, how):
    """The path of a program; ends the script where there is none."""
    path = os.environ.get(name.upper()) or os.path.join(TOP, "crates", name, "out", name)
    if not os.access(path, os.X_OK):
        sys.exit(f"no program {path}: run '{how}' first")
    return os.path.abspath(path)


def punthizha():
    return program("punthizha", "cd crates/punthizha && rt run")


def cases():
    return program("cases", "cd crates/cases && rt run < stdin")


def ask(lines, seconds=None, folder=None):
    """The answers of the program of cases to lines, one each; ends the script where the program doesn't answer all."""
    given = "".join(f"{line}\n" for line in lines)
    ran = subprocess.run([cases()], input=given, capture_output=True, text=True, errors="replace", timeout=seconds, cwd=folder)
    answers = ran.stdout.splitlines()
    if ran.returncode or len(answers) != len(lines):
        sys.exit(f"the program ended with {ran.returncode} after {len(answers)} of {len(lines)} lines: {ran.stderr[-300:]}")
    return answers


def jdk_image():
    """The image of the JDK on the path."""
    java = os.path.realpath(shutil.which("java"))
    return os.path.join(os.path.dirname(os.path.dirname(java)), "lib", "modules")


def jdk_classes(folder, image=None, only=None):
    """The paths of the class files of a JDK's image, in order, after they were put into a folder; `only` is a pattern of jimage."""
    chosen = ["--include", only] if only else []
    subprocess.run(["jimage", "extract", "--dir", folder, *chosen, image or jdk_image()], check=True)
    return sorted(os.path.join(at, name) for at, _, names in os.walk(folder) for name in names if name.endswith(".class"))
