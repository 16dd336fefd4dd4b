"""The requirements' subset by regular expressions: refusals of sets and reports, failure moves, the listing. It has no XPath."""
import re

NAME = rb"[A-Za-z_][A-Za-z0-9_.\-]*"
STEP = re.compile(rb"(//?)(\*|" + NAME + rb")")
PATH = rb"\((?:(?://?)(?:\*|" + NAME + rb"))+\)"
LINE = re.compile(rb"\(folder ([1-9][0-9]{0,3})((?: " + PATH + rb")+)\)\n")

BLANK = rb"[\t\n\r ]"
REFERENCE = rb"&(?:amp|lt|gt|quot|apos);"
VALUE = rb"(?:\"(?:[^<&\"]|" + REFERENCE + rb")*\"|'(?:[^<&']|" + REFERENCE + rb")*')"
ATTRIBUTE = BLANK + rb"+(" + NAME + rb")" + BLANK + rb"*=" + BLANK + rb"*" + VALUE
DECLARATION = b'<?xml version="1.0"?>'
TOKEN = re.compile(
    rb"(?P<comment><!--(?:[^-]|-[^-])*-->)"
    rb"|<(?P<open>" + NAME + rb")(?P<attributes>(?:" + ATTRIBUTE + rb")*)" + BLANK + rb"*(?P<empty>/?)>"
    rb"|</(?P<close>" + NAME + rb")" + BLANK + rb"*>"
    rb"|(?P<text>(?:[^<&]|" + REFERENCE + rb")+)"
)
LISTED = re.compile(rb"[\t\n\r -~]*")


def read_set(text):
    """The refusal of a set's text (0 for none) and its folders: numbers with lists of paths."""
    if len(text) > 16384:
        return 2, []
    if not (text.startswith(b"(folders\n") and text.endswith(b"\n)\n")):
        return 3, []
    at, end, folders = 9, len(text) - 2, []
    while at < end:
        line = LINE.match(text, at, end)
        if not line:
            return 3, []
        folders.append((int(line[1]), re.findall(rb"\(([^)]*)\)", line[2])))
        at = line.end()
    before, paths, labels = 0, 0, 0
    for number, own in folders:
        if number <= before:
            return 4, []
        before = number
        for path in own:
            paths += 1
            for i, (_, test) in enumerate(STEP.findall(path)):
                if len(test) > 32:
                    return 5, []
                if i == 16:
                    return 6, []
                labels += test != b"*"
    return (7, []) if paths > 128 or labels > 1024 else (0, folders)


def tokens(report):
    """The report's tokens, or None where it is torn."""
    at, found = 0, []
    if report.startswith(DECLARATION):
        at = len(DECLARATION)
    while at < len(report):
        token = TOKEN.match(report, at)
        if not token or (token["text"] is not None and b"]]>" in token["text"]):
            return None
        at = token.end()
        if token["text"] is not None and at < len(report) and report[at : at + 1] != b"<":
            return None
        found.append(token)
    return found


def calls(found):
    """Opens and closes in order, with texts that are not blank."""
    for token in found:
        if token["open"] is not None:
            yield "open", token["open"]
            if token["empty"]:
                yield "close", token["open"]
        elif token["close"] is not None:
            yield "close", token["close"]
        elif token["text"] is not None and token["text"].strip(b"\t\n\r "):
            yield "text", token["text"]


def repeats(found):
    """Does a tag have two attributes of the same name?"""
    names = (re.findall(ATTRIBUTE, token["attributes"] or b"") for token in found)
    return any(len(own) != len(set(own)) for own in names)


def report_refusal(report):
    """The first number of a report's order whose condition holds, or 0."""
    if len(report) > 65536:
        return 2
    if not LISTED.fullmatch(report):
        return 8
    found = tokens(report)
    if found is None:
        return 9
    if repeats(found):
        return 15
    names, closed = [], False
    for call, what in calls(found):
        if call == "text":
            if not names:
                return 10
        elif len(what) > 32:
            return 5
        elif call == "open":
            if closed:
                return 10
            if len(names) == 64:
                return 11
            names.append(what)
        elif not names:
            return 10
        elif names.pop() != what:
            return 12
        else:
            closed = not names
    return 0 if closed else 10


def beginnings(folders):
    """Every word that begins a keyword, the empty one aside."""
    words = set()
    for _, paths in folders:
        for path in paths:
            word = ()
            for i, (axis, test) in enumerate(STEP.findall(path)):
                if axis == b"//":
                    word = ()
                elif i == 0:
                    word = (b"#",)
                    words.add(word)
                if test == b"*":
                    word = ()
                else:
                    word += (test,)
                    words.add(word)
    return words


def moves(folders, report):
    """Failure moves of a fresh run over an accepted report, word by word as the requirements define them."""
    words = beginnings(folders)
    held = [(b"#",) if (b"#",) in words else ()]
    count = 0
    for call, name in calls(tokens(report)):
        if call == "close":
            held.pop()
        elif call == "open":
            word = held[-1]
            while word and word + (name,) not in words:
                word = next(word[i:] for i in range(1, len(word) + 1) if i == len(word) or word[i:] in words)
                count += 1
            held.append(word + (name,) if word + (name,) in words else ())
    return count


def listing(folders, selected, opens, failures):
    """What `filer` prints, from one answer for each path in set order."""
    lines, answers = [b"(filed"], iter(selected)
    for number, paths in folders:
        own = [b"(" + path + b")" for path in paths if next(answers)]
        if own:
            lines.append(b"(folder %d %s)" % (number, b" ".join(own)))
    lines += [b"(moves %d %d)" % (opens, failures), b")", b""]
    return b"\n".join(lines)
