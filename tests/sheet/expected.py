"""The class sheet by the words of change request A.2 alone."""

BODY_LINES = 40
PATH_WIDTH = 66


def right(number):
    """A number in four places; spaces where there is none."""
    return b"    " if number is None else (b"%d" % number).rjust(4)


def shown(path):
    return path if len(path) <= PATH_WIDTH else path[:65] + b"~"


def body_line(number, path):
    return right(number) + b"  " + shown(path).ljust(PATH_WIDTH)


def sheet(rows):
    """The bytes of the sheet of these rows, each a folder's number, or None, and a path."""
    lines = []
    pages = max(1, (len(rows) + BODY_LINES - 1) // BODY_LINES)
    for page in range(pages):
        own = [body_line(*row) for row in rows[page * BODY_LINES : (page + 1) * BODY_LINES]]
        lines.append(b"FILED" + b" " * 63 + right(page + 1))
        lines += own + [b" " * 72] * (BODY_LINES - len(own))
    assert all(len(line) == 72 for line in lines)
    return b"".join(line + b"\n" for line in lines)


def rows_of(folders, matched):
    """The rows of a set: its folders, numbers with lists of paths, and for each path in set order whether it is matched."""
    rows = [(number, path) for number, paths in folders for path in paths]
    assert len(rows) == len(matched)
    return [row for row, yes in zip(rows, matched) if yes]
