"""Holds printed sheets to those of expected.py: fixed cases, and those whose paths libxml2 answered for. compare.py SHEET FILER FOLDER.."""
import os
import subprocess
import sys
import tempfile
from collections import Counter

from expected import rows_of, sheet

sys.path.insert(0, os.path.join(os.path.dirname(os.path.abspath(__file__)), "..", "xpath"))
from subset import read_set  # noqa: E402

EXAMPLE = b"(folders\n(folder 3 (//clock/drift) (/lock/*/drift))\n(folder 8 (//*/lock))\n)\n"
LOCK = b"<lock><clock><drift/></clock></lock>"
# A set, a report (None: the file is missing) and what is printed.
FIXED = {
    "the worked example": (EXAMPLE, LOCK, sheet([(3, b"//clock/drift"), (3, b"/lock/*/drift")])),
    "no match": (EXAMPLE, b"<drift/>", sheet([])),
    "no folders": (b"(folders\n)\n", LOCK, sheet([])),
    "four pages": (b"(folders\n(folder 9999%s)\n)\n" % (b" (//lock)" * 128), LOCK, sheet([(9999, b"//lock")] * 128)),
    "both files missing": (None, None, b"(refused 3)\n"),
    "the set missing": (None, LOCK, b"(refused 3)\n"),
    "the report missing": (EXAMPLE, None, b"(refused 10)\n"),
    "129 paths": (b"(folders\n(folder 1%s)\n)\n" % (b" (//lock)" * 129), LOCK, b"(refused 7)\n"),
    "an attribute twice in one tag": (EXAMPLE, b"<lock a='' a=''/>", b"(refused 15)\n"),
    "a report of 65,537 bytes": (EXAMPLE, b"<lock>%s</lock>" % (b" " * 65524), b"(refused 2)\n"),
}


def read(folder, name):
    with open(os.path.join(folder, name), "rb") as source:
        return source.read()


def run(program, folder):
    """What a program prints and says in a folder."""
    done = subprocess.run([program], cwd=folder, capture_output=True)
    return (done.stdout if done.returncode == 0 else b"(failed)\n"), done.stderr


def fixed(program):
    """The names of the fixed cases that differ."""
    for name, (text, report, want) in FIXED.items():
        with tempfile.TemporaryDirectory() as folder:
            for file, what in (("folders.txt", text), ("report.xml", report)):
                if what is not None:
                    with open(os.path.join(folder, file), "wb") as out:
                        out.write(what)
            if run(program, folder) != (want, b""):
                yield name
    with tempfile.TemporaryDirectory() as folder:
        os.mkdir(os.path.join(folder, "folders.txt"))
        printed, said = run(program, folder)
        if printed or not said:
            yield "a set that cannot be read"


def judge(folder, filer, seen):
    """None, or what is wrong."""
    got, ended, _ = read(folder, "got").rpartition(b"status 0\n")
    if not ended:
        return "the program failed"
    listed, _ = run(filer, folder)
    if listed.startswith(b"(refused "):
        seen["refused"] += 1
        return None if got == listed else "filer printed " + listed.decode()
    answers = read(folder, "selected")
    if not answers.endswith(b"status 0\n"):
        return "libxml2 refuses a report that is filed"
    _, folders = read_set(read(folder, "folders.txt"))
    rows = rows_of(folders, [word == b"true" for word in answers.split()[1:-2]])
    want = sheet(rows)
    seen["of %d page(s)" % (want.count(b"\n") // 41)] += 1
    seen["rows"] += len(rows)
    seen["cut paths"] += sum(len(path) > 66 for _, path in rows)
    return None if got == want else "expected\n" + want.decode()


def main():
    program, filer, seen, wrong, count = sys.argv[1], sys.argv[2], Counter(), 0, len(FIXED) + 1
    for name in fixed(program):
        wrong += 1
        print("sheet: %s" % name)
    for where in sys.argv[3:]:
        for name in sorted(os.listdir(where)):
            folder = os.path.join(where, name)
            fault = judge(folder, filer, seen)
            count += 1
            if fault:
                wrong += 1
                if wrong <= 3:
                    print("sheet: case %s: %s\nprinted\n%s%r" % (folder, fault, read(folder, "got").decode("latin-1"), read(folder, "folders.txt")))
    print("sheets: %d cases, %d differ; %s" % (count, wrong, ", ".join("%d %s" % (n, what) for what, n in sorted(seen.items()))))
    sys.exit(wrong > 0)


main()
