"""Writes cases of up to 128 paths, so that sheets have up to four pages, about as full as can be or one line over. large_cases.py FOLDER COUNT"""
import os
import random
import sys
import xml.etree.ElementTree as tree

sys.path.insert(0, os.path.join(os.path.dirname(os.path.abspath(__file__)), "..", "xpath"))
from make_cases import POOLS, report, write  # noqa: E402

MATCHED = [0, 1, 20, 39, 40, 41, 79, 80, 81, 119, 120, 121, 127, 128]


def chains(element, above=()):
    """The names from the root down to each element."""
    own = above + (element.tag.encode(),)
    return [own] + [chain for child in element for chain in chains(child, own)]


def fitting(rng, chain, most):
    """A path that selects the last element of a chain."""
    kept = sorted(rng.sample(range(len(chain) - 1), rng.randrange(min(most, len(chain)))))
    before, out = -1, b""
    for i in kept + [len(chain) - 1]:
        axis = b"/" if i == before + 1 and rng.random() < 0.7 else b"//"
        out += axis + (b"*" if rng.random() < 0.15 else chain[i])
        before = i
    return out


def large_set(rng, found):
    most = rng.choice([1, 2, 4, 6])
    matched = rng.choice(MATCHED)
    others = rng.randrange(129 - matched)
    paths = [fitting(rng, rng.choice(found), most) for _ in range(matched)]
    paths += [fitting(rng, rng.choice(found), most) + rng.choice([b"/", b"//"]) + b"none" for _ in range(others)]
    rng.shuffle(paths)
    numbers, lines = iter(sorted(rng.sample(range(1, 10000), len(paths)))), b""
    while paths:
        own = [paths.pop() for _ in range(min(len(paths), rng.choice([1, 1, 2, 10, 40, 41])))]
        lines += b"(folder %d %s)\n" % (next(numbers), b" ".join(b"(" + path + b")" for path in own))
    return b"(folders\n" + lines + b")\n"


def cases(count):
    rng = random.Random(20012)
    for _ in range(count):
        one = report(rng, rng.choice(POOLS))
        yield large_set(rng, chains(tree.fromstring(one))), one, None, "same"


write(sys.argv[1], cases(int(sys.argv[2])))
