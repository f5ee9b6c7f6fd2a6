#!/usr/bin/env python3
"""Looks for every name that the pages give, in the tree.

It reads README.md and docs/*.md. A word in backquotes that is a path, a crate, a file of specs/, a function, a type, a
clause or a definition must be found, and so must each path of this repository in a block of commands. A name that
follows a file, as in `pv_top/specs/Words`, `IsNoCommand`, must be declared in that file. It prints each name that isn't
found, with its page and line, and then how many it looked for.

    tests/names.py

In a path a word in capitals stands for any name: `crates/NAME/must-fail/WHAT.edit`. What isn't of this tree stands in
the list below.
"""

import glob
import os
import re
import sys

TOP = os.path.dirname(os.path.dirname(os.path.abspath(__file__)))
CRATES = sorted(os.listdir(os.path.join(TOP, "crates")))
TOPS = ("crates/", "docs/", "tests/", "tools/", "examples/")

# Words of Java, of class files and of other programs.
OTHERS = set(
    """
    byteorder indexmap thiserror clap sha2 hex itoa percent_encoding antt rattle rt javac jar javap unzip jimage java mvn proguard sh diff
    META-INF META-INF/versions META-INF/versions/N lib/modules module-info.class package-info.class A$B.class
    ACC_STATIC ACC_SYNCHRONIZED Code StackMapTable LineNumberTable null this max_stack max_locals code_length
    true false BigEndian Option Result Debug Vec String match requires ensures unwrap to_be_bytes TheConstants
    only-first only-second java8.jar verify tee Allocation record data abbrev unfoldable CALLEE-requires overflow_add-x
    PUNTHIZHA PATH bin/rt proves u8 u16 u32 u64 i32 i64 usize public native final private static class
    """.split()
)


def text_of(path):
    with open(path, encoding="utf-8") as file:
        return file.read()


def given_names():
    """Every name that some file of the tree declares."""
    names = set(CRATES)
    for path in glob.glob(os.path.join(TOP, "crates", "**", "*.*"), recursive=True):
        if "/out/" in path or not path.endswith((".rt", ".antt", ".edit")):
            continue
        names.add(os.path.basename(path).rsplit(".", 1)[0])
        text = text_of(path)
        if path.endswith(".rt"):
            names.update(re.findall(r"\b(?:fn|struct|enum|trait|type|const|mod|ghost) (\w+)", text))
            names.update(re.findall(r"\bensures (\w+) \{", text))
            # variants and fields, and the words and keys that the program reads or prints
            names.update(re.findall(r"(?m)^\s+(?:pub )?(\w+)(?:\(.*\)|:.*|\s*\{.*)?,?$", text))
            names.update(word for said in re.findall(r'"([^"\n]*)"', text) for word in re.findall(r"[\w-]+", said))
        elif path.endswith(".antt"):
            names.update(re.findall(r"(?m)^\s*(?:(?:abbrev|unfoldable|pub|record|data)\s+)*([\w'◌-]+) :", text))
            names.update(re.findall(r"(?m)^\s*(?:pub )?(?:record|data) (\w+)", text))
            names.update(word for said in re.findall(r'codes "([^"]*)"', text) for word in re.findall(r"[\w-]+", said))
            if re.search(r"specs/(Opcodes|Actions|Causes)\.antt$", path):
                names.update(word for line in re.findall(r"--(.*)", text) for word in re.findall(r"\w+", line))
    for path in glob.glob(os.path.join(TOP, "examples", "*.java")):
        names.update(re.findall(r"\b(\w+)\(", text_of(path)))
    return names


def is_path(word):
    """Whether a file or a folder of the tree is meant: from the top, from crates/, or in some crate."""
    built = re.fullmatch(r"crates/(\w+)/out(/\1)?", word)
    if built:
        return built[1] in CRATES  # what a build leaves
    pattern = re.sub(r"\b[A-Z]{2,}\b|\bN\b", "*", word.rstrip("/"))
    for front in ("", "crates/", "crates/*/", "crates/*/specs/", "crates/*/src/", "crates/*/proofs/"):
        for end in ("", ".antt", ".rt", ".py", ".sh", "/*"):
            if glob.glob(os.path.join(TOP, front + pattern + end)):
                return True
    return False


def found(word, names):
    if word in OTHERS or word in names:
        return True
    if "/" in word or re.search(r"\.(rt|antt|py|sh|md|txt|edit|java|pro)$", word):
        return is_path(word)
    if re.fullmatch(r"[\w']+((::|\.)[\w']+)+", word):
        return all(part in names or part in OTHERS for part in re.split(r"::|\.", word))
    if re.fullmatch(r"[A-Z]{2,}|[A-Z]", word):
        return True  # a word that stands for others
    return is_path(word)


def declares(path, name):
    """Whether a file declares a name."""
    for front in ("crates/", ""):
        for end in (".antt", ""):
            at = os.path.join(TOP, front + path + end)
            if os.path.isfile(at):
                words = r"abbrev|unfoldable|pub|record|data|fn|struct|enum|trait|const|impl"
                return re.search(rf"(?m)^\s*(?:(?:{words})\s+)+{name}\b|^\s+{name} :", text_of(at)) is not None
    return False


def misplaced(line):
    """The names that a line gives after a file, as in `FILE`, `NAME` and `NAME`, and that the file doesn't declare."""
    for file, listed in re.findall(r"`(pv_\w+/(?:specs|src)/[\w/.]+)`((?:(?:,| and|:) `[A-Za-z]\w*`)+)", line):
        for name in re.findall(r"`(\w+)`", listed):
            if not declares(file, name):
                yield f"{name} in {file}"


def words_of(line, fenced):
    """The words of a line that must be found."""
    if fenced:
        return [word for word in re.findall(r"[\w./$-]+", line) if word.startswith(TOPS)]
    words = []
    for span in re.findall(r"`([^`]+)`", line):
        parts = span.split(" ")
        if len(parts) == 1 and re.fullmatch(r"[A-Za-z_][\w:./'-]*\w/?", span) and not re.fullmatch(r"java/.*", span):
            words.append(span)
        elif len(parts) > 1:
            words += [word for word in re.findall(r"[\w./$:-]+", span) if word.startswith(TOPS) or word.startswith("pv_")]
    return words


def main():
    names, missing, looked = given_names(), 0, 0
    for page in [os.path.join(TOP, "README.md"), *sorted(glob.glob(os.path.join(TOP, "docs", "*.md")))]:
        fenced = False
        for number, line in enumerate(text_of(page).splitlines(), 1):
            if line.lstrip().startswith("```"):
                fenced = not fenced
                continue
            for name in misplaced(line):
                missing += 1
                print(f"{os.path.relpath(page, TOP)}:{number}: no {name}")
            for word in words_of(line, fenced):
                looked += 1
                if not found(word, names):
                    missing += 1
                    print(f"{os.path.relpath(page, TOP)}:{number}: no {word}")
    print(f"{looked} names, {missing} not found")
    sys.exit(1 if missing else 0)


main()
