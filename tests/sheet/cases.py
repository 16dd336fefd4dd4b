"""Prints what crates/cases_sheet must print of its script, by a model of docs/LAYOUT.md. cases.py SCRIPT"""
import os
import re
import sys
import xml.etree.ElementTree as tree

from expected import sheet

sys.path.insert(0, os.path.join(os.path.dirname(os.path.abspath(__file__)), "..", "xpath"))
from subset import STEP, read_set, report_refusal  # noqa: E402

FOLDERS, PATHS, STEPS, LABELS = 16394, 16906, 17930, 19978
SET_SIZE, ROWS, ROW = 26122, 258, 547
SHORT, MISSHAPEN = 1, 14


def expand(line):
    """The texts of crates/cases: an escape, a piece so many times, folders numbered from and below."""
    out = b""
    for end, code, times, piece, first, below, other in re.findall(rb"(\\n)|\\([0-9]{3})|\{([0-9]+)\*([^}]*)\}|<([0-9]+) ([0-9]+)>|(.)", line):
        if code:
            out += bytes([int(code)])
        elif times:
            out += piece * int(times)
        elif first:
            out += b"".join(b"(folder %d (/a))\n" % n for n in range(int(first), int(below)))
        else:
            out += b"\n" if end else other
    return out


def word(a, at):
    return a[at] + 256 * a[at + 1]


def put(a, at, *numbers):
    for i, n in enumerate(numbers):
        a[at + 2 * i], a[at + 2 * i + 1] = n % 256, n // 256


def stored(text):
    """A read set."""
    a, counts, at = bytearray(SET_SIZE), [len(text), 0, 0, 0, 0], 0
    a[10 : 10 + len(text)] = text
    for line in text.splitlines(True):
        if line.startswith(b"(folder "):
            put(a, FOLDERS + 4 * counts[1], int(line.split()[1]), counts[2])
            counts[1] += 1
        for path in re.finditer(rb"\((/[^)]*)\)", line):
            begin, steps = at + path.start(1), list(STEP.finditer(path[1]))
            put(a, PATHS + 8 * counts[2], counts[3], len(steps), begin, len(path[1]))
            counts[2] += 1
            for step in steps:
                a[STEPS + counts[3]] = (step[1] == b"//") + 2 * (step[2] == b"*")
                if step[2] != b"*":
                    put(a, LABELS + 6 * counts[4], begin + step.start(2), len(step[2]), counts[3])
                    counts[4] += 1
                counts[3] += 1
        at += len(line)
    put(a, 0, *counts)
    return a


def path_at(a, place):
    """First step, count of steps, text."""
    first, count, begin, size = (word(a, PATHS + 8 * place + 2 * i) for i in range(4))
    return first, count, bytes(a[10 + begin : 10 + begin + size])


def matches(report, path):
    """The standard library's XPath, from a node above the root."""
    document = tree.Element("document")
    document.append(tree.fromstring(report))
    return document.find("." + path.decode()) is not None


def filed(a, report):
    """A run: its depth, match bits and rows. A refused report leaves a fresh one."""
    run = bytearray(65536)
    paths = [path_at(a, place) for place in range(word(a, 4))]
    put(run, ROWS + 33, int(any(a[STEPS + first] % 2 == 0 for first, _, _ in paths)))
    for first, count, text in paths:
        if report is not None and matches(report, text):
            run[2 + (first + count - 1) // 8] |= 1 << (first + count - 1) % 8
    return run


def automaton_shaped(a):
    size, folders, paths, steps, labels = (word(a, 2 * i) for i in range(5))
    if size > 16384 or folders > 128 or paths > 128 or steps > 2048 or labels > 1024:
        return False
    numbers = [(word(a, FOLDERS + 4 * i), word(a, FOLDERS + 4 * i + 2)) for i in range(folders)]
    entries = [[word(a, PATHS + 8 * i + 2 * j) for j in range(4)] for i in range(paths)]
    names = [[word(a, LABELS + 6 * i + 2 * j) for j in range(3)] for i in range(labels)]
    return (
        all(1 <= number <= 9999 and first <= paths for number, first in numbers)
        and all(1 <= count <= 16 and first + count <= steps and begin + long <= size for first, count, begin, long in entries)
        and all(a[STEPS + i] < 4 for i in range(steps))
        and all(begin + long <= size and long <= 32 and step < steps for begin, long, step in names)
    )


def run_shaped(a, run):
    rows = [ROWS + ROW * depth for depth in range(word(run, 0) + 1)]
    return word(run, 0) <= 64 and all(run[at] <= 32 and word(run, at + 33) < word(a, 8) + 2 for at in rows)


def rows(a, run):
    """Each matched place, with the number of the last folder whose first path is not after it."""
    out = []
    for place in range(word(a, 4)):
        first, count, text = path_at(a, place)
        last = first + count - 1
        if run[2 + last // 8] >> last % 8 & 1:
            numbers = [word(a, FOLDERS + 4 * i) for i in range(word(a, 2)) if word(a, FOLDERS + 4 * i + 2) <= place]
            out.append((numbers[-1] if numbers else None, text))
    return out


def written(a, run, sizes):
    """What is said of the sheet; a refusal leaves the whole buffer."""
    automaton, held, out = sizes
    refused = SHORT if automaton < 65536 or held < 65536 or out < 11972 else 0
    refused = refused or (0 if automaton_shaped(a) and run_shaped(a, run) else MISSHAPEN)
    if refused:
        return b": refused %d\nstayed %d of %d\n" % (refused, out, out)
    page = sheet(rows(a, run))
    rest = out - len(page)
    return b": bytes %d\n%sstayed %d of %d\n" % (len(page), page, rest, rest)


def main():
    a, run, sizes, out = None, None, [65536, 65536, 11972], sys.stdout.buffer
    with open(sys.argv[1], "rb") as script:
        lines = script.read().splitlines()
    for line in lines:
        sign, numbers = line[:1], [int(n) for n in re.findall(rb" ([0-9]+)", line)]
        if sign == b"(":
            refused, _ = read_set(expand(line))
            a = a if refused else stored(expand(line))
            out.write(b"built: %d\n" % refused)
        elif sign == b"<":
            refused = report_refusal(line)
            run = filed(a, None if refused else line)
            out.write(b"filed: %d\n" % refused)
        elif line.startswith(b"=automaton"):
            a[numbers[0]] = numbers[1]
        elif line.startswith(b"=run"):
            run[numbers[0]] = numbers[1]
        elif line.startswith(b"=sizes"):
            sizes = numbers
        elif sign == b";":
            out.write(line[1:] + b"\n")
        elif line and sign != b"=":
            out.write(line + written(a, run, sizes))


main()
