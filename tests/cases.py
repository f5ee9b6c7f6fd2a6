"""Reads the lines of crates/cases: the bytes that they name, and the class files that their words make."""

import os
import re
import struct

TOP = os.path.dirname(os.path.dirname(os.path.abspath(__file__)))


def case_rows():
    """Each line with its answer, and the bytes that have names before it."""
    folder = os.path.join(TOP, "crates", "cases")
    with open(os.path.join(folder, "stdin"), encoding="utf-8") as file, open(os.path.join(folder, "stdout"), encoding="utf-8") as answers:
        named = {}
        for line, answer in zip(file.read().splitlines(), answers.read().splitlines()):
            yield line, answer, named
            if answer == "?":
                continue
            if line.startswith("let "):
                _, name, word = line.split(" ", 2)
                named[name] = written(word, named)
            elif line.startswith("make "):
                _, name, *words = line.split(" ")
                named[name] = sample_class(words, named)


def written(word, named):
    """The bytes that a word writes."""
    text = b""
    for part in word.split("+") if word != "-" else ():
        once, _, times = part.partition("*")
        text += written_once(once, named) * int(times or 1)
    return text


def written_once(part, named):
    found = re.fullmatch(r"\$([^\[]+)(?:\[(?:(\d+)=(\w+)|(\d*)\.\.(\d*))\])?", part)
    if part.startswith("'"):
        return re.sub(rb"%(..)", lambda m: bytes([int(m[1], 16)]), part[1:].encode())
    if not found:
        return bytes.fromhex(part)
    text, place, new = named[found[1]], found[2], bytes.fromhex(found[3] or "")
    if place:
        return text[: int(place)] + new + text[int(place) + len(new) :]
    return text[int(found[4] or 0) : int(found[5]) if found[5] else None]


def u2(n):
    return n.to_bytes(2, "big")


def text_entry(text):
    """A text of a constant pool."""
    return b"\1" + u2(len(text)) + text


def sample_class(words, named):
    """The bytes of the class file whose methods these words write."""
    count, entries = 0, b""
    if words and words[0].startswith("pool="):
        count, entries = words[0][5:].split(",")
        count, entries, words = int(count), written(entries, named), words[1:]
    samples = [word.split(",") for word in words]
    texts = [text_entry(written("'" + word, named)) for sample in samples for word in sample[:2]]
    pool = [text_entry(b"A"), b"\7\0\1", text_entry(b"java/lang/Object"), b"\7\0\3", *texts, text_entry(b"Code")]
    methods = b"".join(sample_method(sample, 5 + 2 * k, len(pool), named) for k, sample in enumerate(samples))
    head = b"\xca\xfe\xba\xbe\0\0\0\x34" + u2(len(pool) + 1 + count) + b"".join(pool) + entries
    return head + bytes.fromhex("00210002000400000000") + u2(len(samples)) + methods + u2(0)


def sample_method(sample, name, code_name, named):
    """A method whose name has this index, and that of the text `Code`."""
    head = u2(int(sample[2], 16)) + u2(name) + u2(name + 1)
    if len(sample) == 3:
        return head + u2(0)
    stack, local, code, *end = sample[3:]
    code, end = written(code, named), written(end[0], named) if end else bytes(4)
    data = u2(int(stack)) + u2(int(local)) + struct.pack(">I", len(code)) + code + end
    return head + u2(1) + u2(code_name) + struct.pack(">I", len(data)) + data


def plain_words(words, named):
    """The words of a class file's methods, with the digits of the bytes in place of names."""
    found = []
    for word in words:
        parts = word.split(",")
        if word.startswith("pool="):
            parts = [parts[0], written(parts[1], named).hex().upper()]
        found.append(",".join(parts[:5] + [written(part, named).hex().upper() for part in parts[5:]]))
    return found
