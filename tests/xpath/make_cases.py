"""Writes the cases into a folder, one folder each: folders.txt, report.xml, kind, and what xmllint is asked. make_cases.py FOLDER COUNT"""
import os
import random
import re
import sys

from subset import ATTRIBUTE, DECLARATION, NAME, read_set

# Names that are words of XPath, differ in case, begin one another, or have every sort of byte.
POOLS = [
    [b"a"],
    [b"a", b"b"],
    [b"a", b"b", b"c"],
    [b"a", b"A", b"aa", b"ab"],
    [b"and", b"or", b"div", b"mod"],
    [b"text", b"node", b"comment", b"self", b"child"],
    [b"x-1", b"x.1", b"_", b"x_1", b"x"],
    [b"n" * 32, b"n" * 31 + b"m", b"n" * 31, b"lock", b"clock"],
]
TEXTS = [b"", b"", b"", b" ", b"\n\t", b"x", b"a > b", b"]] >", b"&amp;", b"&lt;b/&gt;", b"'&quot;&apos;\"", b"]>", b"--", b"\r\n y \r"]
COMMENTS = [b"<!---->", b"<!-- <a> & ]]> -->", b"<!-- - -->", b"<!--<b></b>-->", b"<!---> -->"]
VALUES = [b"", b"1", b"a>b", b"&amp;&lt;", b"]]>", b"/>", b"--", b"\t \n", b"&gt;&quot;&apos;"]
BYTES = b"<<>>&&;'\"/!-=ab \n[]?:#.\x00\x07\x7f\xe9"


def blank(rng):
    return rng.choice([b"", b"", b"", b" ", b"\n", b"\t ", b"\r\n"])


def attribute_names(rng):
    """Names that differ in case or begin one another too; now and then very many."""
    names = [b"a", b"b", b"A", b"aa", b"id", b"x-1", b"_._", b"long" * 12, b"long" * 11 + b"lonG"]
    if rng.random() < 0.02:
        names += [b"n%d" % i for i in range(rng.choice([8, 20, 40]))]
        return rng.sample(names, len(names))
    return rng.sample(names, rng.choice([0, 0, 0, 1, 2, 3, 5]))


def attributes(rng):
    out = b""
    for name in attribute_names(rng):
        value, quote = rng.choice(VALUES), rng.choice([b'"', b"'"])
        value += b"'" if quote == b'"' and rng.random() < 0.3 else b""
        out += (blank(rng) or b" ") + name + blank(rng) + b"=" + blank(rng) + quote + value + quote
    return out


def element(rng, pool, depth, budget, dress):
    """An element's bytes. depth: levels left below it; budget: elements left, a list of one number."""
    name = rng.choice(pool)
    inside = b""
    if depth > 0:
        for _ in range(rng.choice([0, 1, 1, 2, 3]) if depth < 50 else 1):
            if budget[0] <= 0:
                break
            budget[0] -= 1
            inside += rng.choice(TEXTS) if dress else b""
            inside += rng.choice(COMMENTS) if dress and rng.random() < 0.1 else b""
            inside += element(rng, pool, depth - 1, budget, dress)
    inside += rng.choice(TEXTS) if dress else b""
    own = attributes(rng) if dress else b""
    if not inside and rng.random() < 0.6:
        return b"<" + name + own + blank(rng) + b"/>"
    return b"<" + name + own + (blank(rng) if dress else b"") + b">" + inside + b"</" + name + (blank(rng) if dress else b"") + b">"


def chain(rng, pool, depth):
    """Elements nested depth deep, with a few leaves beside them."""
    out = b""
    for _ in range(depth):
        name = rng.choice(pool)
        leaf = b"<" + rng.choice(pool) + b"/>" if out and rng.random() < 0.3 else b""
        out = b"<" + name + b">" + out + leaf + b"</" + name + b">"
    return out


def report(rng, pool):
    dress = rng.random() < 0.6
    shape = rng.random()
    if shape < 0.15:
        root = chain(rng, pool, rng.choice([1, 2, 5, 20, 63, 64]))
    elif shape < 0.3:
        root = b"<r>" + b"".join(element(rng, pool, 1, [3], dress) for _ in range(rng.randrange(60))) + b"</r>"
    else:
        root = element(rng, pool, rng.randrange(10), [rng.choice([3, 10, 40])], dress)
    before = (DECLARATION if rng.random() < 0.4 else b"") + blank(rng) + (rng.choice(COMMENTS) if rng.random() < 0.2 else b"")
    return before + root + blank(rng) + (rng.choice(COMMENTS) if rng.random() < 0.2 else b"")


def path(rng, pool, most):
    stars = rng.choice([0, 0.2, 0.5, 1])
    deep = rng.choice([0, 0.3, 0.6, 1])
    steps = rng.randrange(1, most + 1)
    pool = pool + [b"r"] if rng.random() < 0.3 else pool
    return b"".join(rng.choice([b"//"] if rng.random() < deep else [b"/"]) + (b"*" if rng.random() < stars else rng.choice(pool)) for _ in range(steps))


def folder_set(rng, pool):
    most = rng.choice([2, 3, 3, 4, 4, 6, 16])
    numbers = sorted(rng.sample(range(1, 10000), rng.choice([0, 1, 2, 3, 5, 8])))
    lines = []
    for number in numbers:
        paths = [path(rng, pool, most) for _ in range(rng.choice([1, 1, 2, 3, 6]))]
        lines.append(b"(folder %d %s)\n" % (number, b" ".join(b"(" + p + b")" for p in paths)))
    return b"(folders\n" + b"".join(lines) + b")\n"


def damage_bytes(rng, text):
    """One to three bytes or stretches taken out, put in, changed or doubled."""
    for _ in range(rng.choice([1, 1, 1, 2, 3])):
        at = rng.randrange(len(text) + 1)
        to = min(len(text), at + rng.choice([1, 1, 1, 2, 5, 20]))
        new = bytes([rng.choice(BYTES)])
        text = rng.choice([text[:at] + text[to:], text[:at] + new + text[at:], text[:at] + new + text[at + 1 :], text[:to] + text[at:]])
    return text


def damage_tags(rng, text):
    """A tag taken out, doubled, exchanged or renamed; something behind or before the root; the end cut off."""
    at = [i for i in range(len(text)) if text[i : i + 1] == b"<"]
    start = rng.choice(at)
    end = text.find(b">", start) + 1 or len(text)
    tag = text[start:end]
    return rng.choice(
        [
            text[:start] + text[end:],
            text[:end] + tag + text[end:],
            text[:start] + b"</a>" + text[end:],
            text[:start] + b"<q>" + text[end:],
            text[:start] + tag.replace(b"a", b"b") + text[end:],
            text[:start],
            text[:end],
            text + b"<a/>",
            text + b"x",
            text + b"&amp;",
            text + b"</a>",
            b" " + text,
            b"x" + text,
            text[:start] + DECLARATION + text[start:],
            text[:start] + b"]]>" + text[start:],
            text[:end] + b"&copy;" + text[end:],
        ]
    )


def repeat_attribute(rng, text):
    """An attribute put into a tag a second time, at any place among its others; or one with nearly the same name."""
    places = [m for m in re.finditer(rb"<" + NAME + rb"(?=[ \t\r\n/>])", text)]
    at = rng.choice(places).end()
    to = text.find(b">", at)
    own = list(re.finditer(ATTRIBUTE, text[at:to]))
    if not own or rng.random() < 0.1:
        return text[:at] + b" q='1' Q=\"q='2'\" qq='' q" + rng.choice([b"", b".", b"_", b"1"]) + b"=''" + text[at:]
    again = rng.choice(own)
    name = again[1] if rng.random() < 0.8 else rng.choice([again[1][:-1] or b"z", again[1] + b"1", again[1].swapcase()])
    put = at + rng.choice([0, rng.choice(own).end(), own[-1].end()])
    return text[:put] + b" " + name + b"='a=&quot;1&quot;'" + text[put:]


def damage_set(rng, text):
    name = b"(folder 1 (//a))\n"
    edits = [
        damage_bytes(rng, text),
        text + b"\n",
        text[:-1],
        text[:-2] + b"(folder 9999 (//" + b"n" * rng.choice([32, 33]) + b"))\n)\n",
        text[:-2] + b"(folder 9999 (" + b"/a" * rng.choice([16, 17]) + b"))\n)\n",
        text[:-2] + b"(folder 9999" + b" (//a)" * rng.choice([100, 128, 129]) + b")\n)\n",
        text[:-2] + b"(folder 9999" + (b" (" + b"//a" * 16 + b")") * rng.choice([40, 64, 65]) + b")\n)\n",
        text[:-2] + rng.choice([name, name * 2, name.replace(b"1", b"0"), name.replace(b"1", b"01"), name.replace(b"1", b"10000")]) + b")\n",
        text.replace(b"/", b"///", 1),
        text.replace(b" (", b"  (", 1),
        b"",
    ]
    return rng.choice(edits)


def long_report(size):
    """A report of exactly size bytes, 2,000 elements in a root."""
    inside = b"<a><b/></a>" * 1000
    return b"<r>" + inside + b"x" * (size - len(inside) - 7) + b"</r>"


# Reports on which the subset and XML 1.0 differ by design, each with the reason. `refused`: XML 1.0 takes it, the subset does not.
REFUSED = [
    (b"<a>" * 65 + b"</a>" * 65, "64 elements may be open"),
    (b"<" + b"n" * 33 + b"/>", "element names have at most 32 bytes"),
    (long_report(65537), "a report has at most 65,536 bytes"),
    (b"<!DOCTYPE a><a/>", "document types are left out"),
    (b"<a><![CDATA[x]]></a>", "sections are left out"),
    (b"<a><?p q?></a>", "instructions are left out"),
    (b"<a>&#65;</a>", "of references only the five names"),
    (b"<a b='&#x41;'/>", "of references only the five names"),
    ("<a>\u00e9</a>".encode(), "bytes are those of ASCII that print, and blanks"),
    ("<\u00e9/>".encode(), "bytes are those of ASCII that print, and blanks"),
    (b"<a>\x7f</a>", "bytes are those of ASCII that print, and blanks"),
    (b"<a xmlns:p='u'><p:b/></a>", "no name has a colon: there are no namespaces"),
    (b"<a xml:lang='x'/>", "no name has a colon: there are no namespaces"),
    (b"<?xml version='1.0'?><a/>", "one form of the declaration"),
    (b'<?xml version="1.0" ?><a/>', "one form of the declaration"),
    (b'<?xml version="1.0" encoding="UTF-8"?><a/>', "one form of the declaration"),
    (b'<?xml version="1.0" standalone="yes"?><a/>', "one form of the declaration"),
]
# `taken`: the subset takes it and XML 1.0 means something else; the second report is the same for both.
TAKEN = [
    (b"<a xmlns='u'><b/></a>", b"<a><b/></a>", "`xmlns` is an attribute like any other: names are plain"),
]
# `same`: refused by both, since a tag has two attributes of the same name, side by side or far apart.
REPEATED = [b"<a b='1' b='2'><b/></a>", b"<a><b c='' d='' e='' c=''/></a>", b"<a>" + b"<b/>" * 9 + b"<b c='c' d='c=' c='d'></b></a>"]


def expression(text):
    """One XPath 1.0 expression: the count of elements, and for each path whether it selects any."""
    _, folders = read_set(text)
    asked = [b"boolean(" + p + b")" for _, own in folders for p in own]
    return b"concat(count(//*),' '" + b"".join(b",' '," + a for a in asked) + b")\n"


def cases(count):
    rng = random.Random(20010)
    plain = b"(folders\n(folder 3 (//a) (//b/*) (/a//b))\n(folder 8 (//*/a) (//a/b))\n)\n"
    for text, why in REFUSED:
        yield plain, text, None, "refused " + why
    for text, peer, why in TAKEN:
        yield plain, text, peer, "taken " + why
    for text in REPEATED:
        yield plain, text, None, "same"
    yield plain, long_report(65536), None, "same"
    for i in range(count - len(REFUSED) - len(TAKEN) - len(REPEATED) - 1):
        pool = rng.choice(POOLS)
        text, one = folder_set(rng, pool), report(rng, pool)
        sort = i % 20
        if sort in (0, 1, 2):
            yield text, damage_bytes(rng, one), None, "damaged"
        elif sort in (3, 4, 5):
            yield text, damage_tags(rng, one), None, "damaged"
        elif sort in (7, 8):
            yield text, repeat_attribute(rng, one), None, "damaged"
        elif sort == 6:
            yield damage_set(rng, text), one, None, "damaged"
        else:
            yield text, one, None, "same"


def write(where, made):
    """A folder for each case."""
    for i, (text, one, peer, kind) in enumerate(made):
        own = os.path.join(where, "%05d" % i)
        os.mkdir(own)
        files = {"folders.txt": text, "report.xml": one, "expression": expression(text), "kind": kind.encode()}
        if peer is not None:
            files["peer.xml"] = peer
        for name, what in files.items():
            with open(os.path.join(own, name), "wb") as out:
                out.write(what)


if __name__ == "__main__":
    write(sys.argv[1], cases(int(sys.argv[2])))
