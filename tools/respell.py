#!/usr/bin/env python3
"""Respells the repository's own definitions and lemmas in snake case, once, after port.py.

usage: python3 tools/respell.py        at the top of the repository

A lemma whose name would fall together with a respelled definition gets '-is' behind it first. Names of types, modules, functions of src/,
strings, inputs and outputs stay.
"""

import os
import re

TOKEN = re.compile(r"[^\W\d][\w']*(?:-[\w']+)*")
STRING = re.compile(r'b?"(?:[^"\\\n]|\\.)*"|b?\'(?:[^\'\\\n]|\\.)\'')
LEMMAS = set(
    "open_order at_label step_count bit_in one_more run_length after_open take_all no_step written_back left_by count_at in_lines body_is "
    "same_word row_opened left_after too_small".split()
)


def snake(name):
    def turned(part):
        if not re.match(r"[a-z]", part):
            return part
        return re.sub(r"(?<=[a-z0-9'])([A-Z])(?=[a-z0-9']|$)", lambda m: "_" + m.group(1).lower(), part)

    return "-".join(turned(p) for p in name.split("-"))


def apart(text):
    def one(m):
        if m.group() not in LEMMAS or (m.start() and text[m.start() - 1] == "."):
            return m.group()
        return m.group() + "-is"

    return TOKEN.sub(one, text)


def respelled(text, names=None):
    def one(m):
        return snake(m.group()) if names is None or m.group() in names else m.group()

    return TOKEN.sub(one, text)


def outside_strings(text):
    at, out = 0, []
    for m in STRING.finditer(text):
        out += [respelled(text[at : m.start()]), m.group()]
        at = m.end()
    return "".join(out + [respelled(text[at:])])


def files(top):
    for folder, dirs, names in os.walk(top):
        dirs[:] = sorted(d for d in dirs if d not in ("out", ".git"))
        for n in sorted(names):
            yield os.path.join(folder, n)


def main():
    known = set()
    for path in files("crates"):
        if path.endswith(".antt"):
            with open(path, encoding="utf-8") as f:
                known |= set(TOKEN.findall(f.read()))
    for path in [*files("crates"), *files("docs"), "README.md"]:
        if not path.endswith((".antt", ".rt", ".edit", ".md")):
            continue
        with open(path, encoding="utf-8") as f:
            old = f.read()
        if path.endswith(".antt"):
            new = respelled(apart(old))
        elif path.endswith(".rt"):
            new = outside_strings(old)
        else:
            new = respelled(old, known)
        if new != old:
            with open(path, "w", encoding="utf-8") as f:
                f.write(new)


main()
