#!/usr/bin/env python3
"""Finds the definitions that one must believe, and compares them with docs/DEFINITIONS.md.

It begins with the names in the clauses of `run` in crates/pv_top/src/top.rt, and follows each name to the definition
that it stands for, and so on: a name of a file of specs/ by the imports of that file, a type under `specs.declared` to
the .rt file that declares it, with the types of its fields and what its values are (`ghost Value`). A file is listed
where some definition of it is met, with the lines of these definitions. Each file stands before those whose words it uses.

Of what the promise doesn't need, a list of its own has what the verdict of a search is, from `IsVerdict` of pv_heights on.

    tests/definitions.py            fails where the page misses a file, names one that isn't met, or gives a wrong count
    tests/definitions.py --write    writes the lists into the page
    tests/definitions.py --why FILE prints, for each list, by which chain of definitions a file is met
"""

import functools
import os
import re
import sys

TOP = os.path.dirname(os.path.dirname(os.path.abspath(__file__)))
PAGE = os.path.join(TOP, "docs", "DEFINITIONS.md")
RUN = "pv_top/src/top.rt"
VERDICT = "pv_heights/specs/Verdicts.antt", "IsVerdict"
# A word of a definition, with the names that lead to it, or an operator.
WORD = re.compile(r"(?:[\w']+\.)*[\w']+|[^\w\s'(){}\[\],.;]+")


def read(path):
    with open(os.path.join(TOP, "crates", path)) as file:
        return file.read()


def without_comments(text):
    return re.sub(r"(?m)(?:^|\s)(?:--|//).*$", "", text)


def imports(text):
    """What each imported name, or name of a module, stands for: its module, and its name there."""
    names, modules = {}, {}
    for module, listed, alias in re.findall(r"(?m)^\s*(?:ghost |pub )?use Rattle\.([\w.]+?)(?:\.\{([^}]*)\})?(?: as (\w+))?;?\s*$", text):
        if alias:
            modules[alias] = module
        for name in listed.split(","):
            old, _, new = name.strip().partition(" as ")
            if old:
                names[new or old] = (module, old)
    return names, modules


@functools.lru_cache(None)
def definitions(path):
    """The definitions of a file of specs/: the text of each, by each name that it gives; and its imports."""
    text = without_comments(read(path))
    parts, names, current = {}, {}, None
    for number, line in enumerate(text.splitlines()):
        if not line.strip() or re.match(r"\s*(use|pub use|pub mod)\b", line):
            continue
        head = re.match(r"\s*((?:(?:abbrev|unfoldable|pub|record|data)\s+)*)(\S+)", line)
        if not line[0].isspace() and line.split()[-1] == "mutual":
            current = f"mutual {number}"
        elif not line[0].isspace():
            current = names.setdefault(head[2], head[2])
        elif current.startswith("mutual") and head[1]:
            names[head[2]] = current
        else:
            # a constructor, and no field, which is `pub`
            given = re.match(r"\s+([^\s:]+) :", line)
            if given and current:
                names.setdefault(given[1], current)
        parts[current] = parts.get(current, "") + line + "\n"
    return parts, names, imports(text)


def file_of(module):
    """The file of a module of this repository, and the type that it is about, for one under `declared` or `contracts`."""
    crate, _, rest = module.partition(".specs.")
    if not os.path.isdir(os.path.join(TOP, "crates", crate)):
        return None, None
    if rest.startswith(("declared.", "contracts.")):
        steps = rest.split(".")[1:]
        for n in range(len(steps), 0, -1):
            path = f"{crate}/src/{'/'.join(steps[:n])}.rt"
            if os.path.isfile(os.path.join(TOP, "crates", path)):
                return path, steps[n] if n < len(steps) else None
        sys.exit(f"no file declares {module}")
    return f"{crate}/specs/{rest.replace('.', '/')}.antt", None


def braces(text, at):
    """The text from a brace to its partner."""
    depth = 0
    for i in range(text.index("{", at), len(text)):
        depth += {"{": 1, "}": -1}.get(text[i], 0)
        if depth == 0:
            return text[at : i + 1]
    return text[at:]


def declarer(crate, name):
    """The file of a crate that declares a type or a trait."""
    folder = os.path.join(TOP, "crates", crate, "src")
    for at, _, files in sorted(os.walk(folder)):
        for file in sorted(files):
            path = os.path.relpath(os.path.join(at, file), os.path.join(TOP, "crates"))
            if file.endswith(".rt") and re.search(rf"(?m)^pub (?:struct|enum|trait) {name}\b", read(path)):
                return path
    return None


@functools.lru_cache(None)
def rust_uses(path):
    """The crate of each name that a .rt file takes from this repository."""
    uses = {}
    for module, listed in re.findall(r"(?m)^use ((?:crate|pv_\w+)(?:::\w+)*?)::(\{[^}]*\}|\w+);", read(path)):
        crate = module.split("::")[0].replace("crate", path.split("/")[0])
        for name in re.findall(r"\w+", listed):
            uses[name] = crate
    return uses


def declared(path, name):
    """What a declared type leads to: the types of its fields, and what its values are."""
    text = without_comments(read(path))
    crate = path.split("/")[0]
    found = re.search(rf"(?m)^pub (?:struct|enum) {name}\b[^{{;]*[{{;(]", text)
    if not found:
        body = ""
    elif text[found.end() - 1] == "{":
        body = braces(text, found.start())
    else:
        body = text[found.start() : text.index(";", found.start())]
    for word in sorted(set(re.findall(r"\b[A-Z]\w*", body)) - {name}):
        if word in rust_uses(path):
            other = declarer(rust_uses(path)[word], word)
        else:
            other = path if re.search(rf"(?m)^pub (?:struct|enum) {word}\b", text) else None
        if other:
            yield other, word
    model = re.search(rf"(?m)^impl(?:<[^>]*>)? Model for {name}\b", text)
    if model:
        block = braces(text, model.start())
        names, modules = imports(block)
        outer_names, outer_modules = imports(text)
        value = re.search(r"ghost Value = \{(.*?)\}", block)
        if value:
            yield from resolve(value[1], {**outer_names, **names}, {**outer_modules, **modules})


def resolve(text, names, modules, local=None, path=None):
    """The definitions that the words of a text stand for."""
    words = set(WORD.findall(text))
    for name in names:
        if "◌" in name and (name.strip("◌") in words or (name == "◌>>=◌" and "do" in words)):
            words.add(name)
    for word in sorted(words):
        steps = word.split(".")
        if len(steps) > 1 and steps[0] in modules:
            yield from target(modules[steps[0]], steps[1])
        elif steps[0] in names:
            yield from target(*names[steps[0]])
        elif local and steps[0] in local:
            yield path, local[steps[0]]


def target(module, name):
    path, about = file_of(module)
    if path and path.endswith(".antt"):
        _, local, (names, _) = definitions(path)
        if name not in local and name in names:
            yield from target(*names[name])  # it hands on what another file defines
        else:
            yield path, local.get(name, name)
    elif path:
        yield path, about or name


def leads_to(at):
    path, name = at
    if path.endswith(".rt"):
        return list(declared(path, name))
    parts, local, (names, modules) = definitions(path)
    if name not in parts:
        sys.exit(f"{path} has no definition {name}")
    return [to for to in resolve(parts[name], names, modules, local, path) if to != at]


def roots(wanted):
    """What the clauses of `run` name, and the traits whose meanings they speak of."""
    text = read(RUN)
    start = text.index("pub fn run<")
    head = text[start : re.compile(r"^\{", re.M).search(text, start).start()]
    clauses = dict(re.findall(r"(?m)^\s*ensures (\w+) \{(.*)\}$", head))
    if wanted and not set(wanted) <= set(clauses):
        sys.exit(f"run has no clause {wanted}")
    said = " ".join(text for clause, text in clauses.items() if not wanted or clause in wanted)
    found = list(resolve(said, *imports(text)))
    for letter, trait in re.findall(r"(\w): (\w+)", head[: head.index(">")]):
        if f"{letter}." in said:
            found.append((declarer(rust_uses(RUN)[trait], trait), trait))
    return found


def met(begins):
    """All definitions that are met, each with the one that led to it, from the first ones on."""
    came, queue = {root: None for root in begins}, list(begins)
    for at in queue:
        for to in leads_to(at):
            if to not in came:
                came[to] = at
                queue.append(to)
    return came


def in_order(came):
    """The files, each before those whose words it uses, and those that are near in the order of a walk together."""
    edges = {}
    for at in came:
        edges.setdefault(at[0], set()).update(to[0] for to in leads_to(at) if to[0] != at[0])
    done, out = set(), []

    def visit(path):
        if path in done:
            return
        done.add(path)
        for to in sorted(edges[path], reverse=True):
            visit(to)
        out.append(path)

    for root in reversed(list(dict.fromkeys(at[0] for at in came if came[at] is None))):
        visit(root)
    return out[::-1]


def head_comment(path):
    """The first sentence of the comment at the head of a file, without its sections."""
    lines = []
    for line in read(path).splitlines():
        if not line.startswith(("--", "//!")):
            break
        lines.append(line.lstrip("-/! ").strip())
    text = re.sub(r"\s*\(JVMS[^)]*\)", "", " ".join(lines))
    return re.split(r"\.(?:\s+(?=[A-Z])|$)", text)[0].replace("|", "\\|")


def sections(path):
    found = set()
    for listed in re.findall(r"JVMS ((?:\d+(?:\.\w+)*(?:, | to | and )?)+)", read(path)):
        found.update(re.findall(r"\d+(?:\.\d+)*(?:\.[a-z]\w*)?", listed))
    for name in [s for s in found if re.search(r"\.[a-z]", s)]:
        found.discard(name)
        found.add(re.sub(r"\.[a-z].*", "", name))
    return ", ".join(sorted(found, key=lambda s: [int(n) for n in s.split(".")]))


def shown(path):
    return path.removesuffix(".antt")


def table(paths, needed):
    """The list of these files, and what of each is needed: the lines of those definitions, of the lines of the file."""
    specs = [path for path in paths if path.endswith(".antt")]
    types = sorted(set(paths) - set(specs))
    rows = ["| File | Lines | Holds | JVMS |", "|---|---|---|---|"]
    total = 0
    for path in specs:
        parts = definitions(path)[0]
        lines = sum(len(parts[name].splitlines()) for at, name in needed if at == path)
        total += lines
        rows.append(f"| `{shown(path)}` | {lines} of {lines_of(path)} | {head_comment(path)} | {sections(path)} |")
    rows += ["", f"{total} lines in {len(specs)} files. The types that they speak of are declared in", ""]
    rows += [f"- `{crate}/src`: " + ", ".join(f"`{path.split('/')[-1]}`" for path in types if path.startswith(crate + "/"))
             for crate in dict.fromkeys(path.split("/")[0] for path in types)]
    return "\n".join(rows)


def lines_of(path):
    return len(read(path).splitlines())


def listed_in(inside):
    """The files that a list of the page names."""
    named = set(re.findall(r"(?m)^\| `([^`]+)` \|", inside))
    for folder, files in re.findall(r"(?m)^- `([^`]+)`: (.*)$", inside):
        named.update(f"{folder}/{file}" for file in re.findall(r"`([^`]+)`", files))
    return named


def lists():
    """The lists, each with its files and the definitions of them that it needs: those of the promise, those of the verdict
    of a search that the promise doesn't need, and the rest of those of all clauses."""
    promise, every, verdict = met(roots(["equivalent"])), met(roots(None)), met([VERDICT])
    return [
        ("equivalent", in_order(promise), set(promise)),
        ("verdict", *beyond(verdict, promise)),
        ("report", *beyond(every, promise | verdict)),
    ]


def beyond(came, known):
    """The files and the definitions that are met and not among the known ones."""
    more = set(came) - set(known)
    files = {path for path, _ in more}
    return [path for path in in_order(came) if path in files], more


def why(begins, path):
    came = met(begins)
    for at in came:
        if at[0].removesuffix(".antt") == path.removesuffix(".antt"):
            chain = []
            while at:
                chain.append(f"{at[1]} ({at[0]})")
                at = came[at]
            return " <- ".join(chain)
    return "not met"


def main():
    if sys.argv[1:2] == ["--why"]:
        print("the promise:", why(roots(["equivalent"]), sys.argv[2]))
        print("all clauses:", why(roots(None), sys.argv[2]))
        print("the verdict:", why([VERDICT], sys.argv[2]))
        return
    with open(PAGE) as file:
        page = file.read()
    failed = False
    for name, paths, needs in lists():
        begin, end = f"<!-- list {name} -->\n", f"\n<!-- end {name} -->"
        at = page.index(begin) + len(begin)
        inside = page[at : page.index(end, at - 1)]
        wants, listed, needed = table(paths, needs), listed_in(inside), {shown(path) for path in paths}
        for path in sorted(needed - listed):
            print(f"{name}: the page misses {path}")
        for path in sorted(listed - needed):
            print(f"{name}: the page names {path}, which isn't met")
        graphs = [path for path in paths if path.startswith("pv_graph/")]
        if name == "equivalent" and graphs:
            print(f"the clause equivalent speaks of graphs: {why(roots([name]), graphs[0])}")
            failed = True
        print(f"{name}: {len(paths)} files, {'as the page says' if inside == wants else 'the page differs'}")
        failed |= inside != wants
        page = page[:at] + wants + page[at + len(inside) :]
    if sys.argv[1:] == ["--write"]:
        with open(PAGE, "w") as file:
            file.write(page)
    elif failed:
        sys.exit("write the lists with tests/definitions.py --write, and read what changed")


main()
