"""Writes the benchmark's cases, the same each time, into a folder, as CASE/folders.txt and CASE/report.xml, and prints their names. make.py FOLDER"""
import itertools
import os
import random
import string
import sys

NAMES = "visit lock clock drift door event battery key user level code note state fault temp site part count".split()
MAX_REPORT = 65536
MAX_SET = 16384


def element(rng, depth):
    """An element of a usual report: attributes in some tags, text in most leaves."""
    name = rng.choice(NAMES[1:])
    own = "".join(' %s="%d"' % (a, rng.randrange(1000)) for a in rng.sample(["id", "at"], rng.choice([0, 0, 0, 0, 1, 2])))
    inside = "".join(element(rng, depth - 1) for _ in range(rng.choice([0, 1, 2, 3]) if depth > 1 else 0))
    inside = inside or rng.choice(["", "%d" % rng.randrange(100000), "2031-04-05 06:%02d" % rng.randrange(60), "no fault was found", "x &amp; y"])
    return "<%s%s>%s</%s>\n" % (name, own, inside, name) if inside else "<%s%s/>\n" % (name, own)


def usual_report(rng, size, depth=8):
    """Elements in a root, up to some bytes; none takes over a quarter of them."""
    report, end = '<?xml version="1.0"?>\n<visit>\n', "</visit>\n"
    while len(report) + len(end) < size - 60:
        part = element(rng, depth - 1)
        if len(part) <= min(size - len(report) - len(end), size // 4):
            report += part
    return report + end


def usual_path(rng):
    """One to four steps; a path by `/` begins at the root's name."""
    path = "/visit" if rng.random() < 0.4 else "//" + rng.choice(NAMES)
    for _ in range(rng.randrange(4)):
        path += rng.choice(["/", "//"]) + ("*" if rng.random() < 0.2 else rng.choice(NAMES))
    return path


def usual_set(rng, count):
    return folder_set([usual_path(rng) for _ in range(count)], 4)


def folder_set(paths, size):
    """A set with some paths to a folder."""
    lines = []
    for at in range(0, len(paths), size):
        lines.append("(folder %d%s)\n" % (at // size + 1, "".join(" (%s)" % p for p in paths[at:at + size])))
    return "(folders\n%s)\n" % "".join(lines)


def equal_labels(depth, leaves):
    """128 paths of 8 steps, all named visit: each choice of `/` and `//` behind the first. A report of that name alone, too."""
    paths = ["/visit" + "".join("/visit" if i >> k & 1 else "//visit" for k in range(7)) for i in range(128)]
    return folder_set(paths, 4), "<visit>" * depth + "<visit/>" * leaves + "</visit>" * depth


def different_labels(rng):
    """128 paths of 8 steps, no two labels equal. The report opens the names of a path inside one another, and others beside them."""
    names = ["n%x" % i for i in range(1024)]
    rng.shuffle(names)
    runs = [names[i:i + 8] for i in range(0, 1024, 8)]
    paths = ["".join(rng.choice(["/", "//"]) + n for n in run) for run in runs]
    report, left = ["<r>"], MAX_REPORT - 7
    while left > 0:
        part = ""
        for name in reversed(rng.choice(runs)[:rng.randrange(1, 9)]):
            part = "<%s>%s<%s/></%s>" % (name, part, rng.choice(names), name)
        left -= len(part)
        if left > 0:
            report.append(part)
    return folder_set(paths, 4), "".join(report) + "</r>"


def attribute_names():
    """All names, the shortest first."""
    first = string.ascii_letters + "_"
    later = first + string.digits + "-."
    for length in itertools.count(1):
        for name in itertools.product(first, *[later] * (length - 1)):
            yield "".join(name)


def many_attributes(rng):
    """One tag with as many attributes as a report has room for, no two of the same name, in any order."""
    names, left = [], MAX_REPORT - len("<visit/>")
    for name in attribute_names():
        left -= len(name) + 4
        if left < 0:
            break
        names.append(name)
    rng.shuffle(names)
    return "<visit%s/>" % "".join(' %s=""' % name for name in names)


def alike_attributes(rng):
    """One tag with long attribute names that differ in their last bytes only."""
    names = ["n" * 80 + "%03d" % i for i in range(700)]
    rng.shuffle(names)
    return "<visit%s/>" % "".join(' %s=""' % name for name in names)


def full_tags(rng, count):
    """As many tags as there is room for, each with so many attributes, no two of the same name."""
    names = list(itertools.islice(attribute_names(), count))
    report, end = ["<visit>"], "</visit>"
    size = len("<visit/>") + sum(len(name) + 4 for name in names)
    for _ in range((MAX_REPORT - len(report[0]) - len(end)) // size):
        rng.shuffle(names)
        report.append("<visit%s/>" % "".join(' %s=""' % name for name in names))
    return "".join(report) + end


def main(folder):
    rng = random.Random(1)
    small, large = usual_report(rng, 1300), usual_report(rng, MAX_REPORT)
    sets = {count: usual_set(rng, count) for count in (60, 118)}
    cases = {"1.3kB_%d_paths" % count: (text, small) for count, text in sets.items()}
    cases.update({"64kB_%d_paths" % count: (text, large) for count, text in sets.items()})
    cases["different_labels"] = different_labels(rng)
    cases["equal_labels"] = equal_labels(1, 8190)
    cases["equal_labels_nested"] = equal_labels(8, 1000)
    cases["many_attributes"] = sets[60], many_attributes(rng)
    cases["alike_attributes"] = sets[60], alike_attributes(rng)
    # one more than are compared without a second look at the tag, and one more than take little room
    for count in (17, 257):
        cases["%d_attributes" % count] = sets[60], full_tags(rng, count)
    for name, (text, report) in cases.items():
        assert len(text) <= MAX_SET and len(report) <= MAX_REPORT, name
        os.makedirs(os.path.join(folder, name), exist_ok=True)
        for file, content in (("folders.txt", text), ("report.xml", report)):
            with open(os.path.join(folder, name, file), "w", newline="") as out:
                out.write(content)
        print(name)


main(sys.argv[1])
