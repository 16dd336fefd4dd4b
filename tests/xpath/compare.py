"""Holds what the program printed to what libxml2 answered, case by case. compare.py FOLDER"""
import os
import sys
from collections import Counter

from subset import DECLARATION, listing, moves, read_set, report_refusal


def read(folder, name):
    with open(os.path.join(folder, name), "rb") as source:
        return source.read()


def outside_subset(report, refused):
    """Is there a reason by design for this refusal of a report that XML 1.0 takes? Damage can make one by chance."""
    if refused == 8:
        return any(b > 126 for b in report)
    if refused == 9:
        rest = report[len(DECLARATION) :] if report.startswith(DECLARATION) else report
        return any(piece in rest for piece in (b"<?", b"<!DOCTYPE", b"<![CDATA[", b"&#", b":"))
    return refused in (2, 5, 11)


def judge(folder, seen):
    """None, or what is wrong."""
    text, report = read(folder, "folders.txt"), read(folder, "report.xml")
    kind = read(folder, "kind").decode()
    got, ended, _ = read(folder, "got").rpartition(b"status 0\n")
    if not ended:
        return "the program failed"
    refused, folders = read_set(text)
    if refused:
        seen["sets refused"] += 1
        return None if got == b"(refused %d)\n" % refused else "a set to be refused with %d" % refused
    refused = report_refusal(report)
    answers = read(folder, "selected")
    taken = answers.endswith(b"status 0\n")
    if kind.startswith("refused") and not (taken and refused):
        return "no difference where there should be one: " + kind
    if kind.startswith("taken") and (refused or not taken or read(folder, "otherwise") == answers):
        return "no difference where there should be one: " + kind
    if refused:
        seen["reports refused"] += 1
        seen["reports refused with 15"] += refused == 15
        if taken and (kind == "same" or not outside_subset(report, refused)):
            return "libxml2 takes a report that is to be refused with %d" % refused
        seen["refused by design"] += taken
        return None if got == b"(refused %d)\n" % refused else "a report to be refused with %d" % refused
    if not taken:
        return "libxml2 refuses a report that is to be filed"
    words = answers.split()[:-2]
    selected = [word == b"true" for word in words[1:]]
    seen["reports filed"] += 1
    seen["paths compared"] += len(selected)
    seen["paths matched"] += sum(selected)
    if len(selected) != sum(len(paths) for _, paths in folders):
        return "an answer of libxml2 for each path"
    want = listing(folders, selected, int(words[0]), moves(folders, report))
    return None if got == want else "libxml2 has\n" + want.decode()


def main():
    where, seen, wrong = sys.argv[1], Counter(), 0
    names = sorted(os.listdir(where))
    for name in names:
        folder = os.path.join(where, name)
        fault = judge(folder, seen)
        if fault:
            wrong += 1
            if wrong <= 3:
                got = read(folder, "got").decode("latin-1")
                print("case %s: %s\nfiler printed\n%s%r\n%r" % (name, fault, got, read(folder, "folders.txt"), read(folder, "report.xml")[:2000]))
    print("beside libxml2: %d cases, %d differ; %s" % (len(names), wrong, ", ".join("%d %s" % (n, what) for what, n in sorted(seen.items()))))
    sys.exit(wrong > 0)


main()
