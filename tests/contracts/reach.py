"""Says which specs outside specs/Code use one of them, and which public contracts name a definition of theirs. reach.py CRATES"""
import pathlib
import re
import sys

USES = re.compile(r"^(?:pub |unfoldable |ghost )*use Rattle\.\w+\.specs\.Code\b([^;\n{]*)(?:\{([^}]*)\})?", re.M)
PUBLIC = re.compile(r"^( *)pub (?:const |unsafe |extern \"C\" )*fn (\w+)", re.M)
CLAUSE = re.compile(r"\s+(?:requires|ensures)\b")
MODULE = re.compile(r"^(pub )?mod (\w+);", re.M)
WORD = re.compile(r"[^\s.,;:(){}\[\]]+")


def names_of(text):
    """The names of specs/Code that a file brings in, as it calls them; of a whole module, the module's."""
    for path, names in USES.findall(text):
        yield from (part.split()[-1] for part in (names or path.replace(".", " ")).split(",") if part.strip())


def specs(crate):
    for path in (crate / "specs").rglob("*.antt"):
        if "Code" not in path.relative_to(crate / "specs").with_suffix("").parts and USES.search(path.read_text()):
            yield f"{path} uses a definition of specs/Code"


def public_files(root):
    """The files of a crate's modules that other crates see, from its root file on."""
    yield root
    below = root.parent if root.stem in ("lib", "main") else root.with_suffix("")
    for public, name in MODULE.findall(root.read_text()):
        if public:
            yield from public_files(below / f"{name}.rt")


def roots(crate):
    return [path for path in (crate / "src" / "lib.rt", crate / "src" / "main.rt") if path.exists()]


def clauses(text, indent):
    """The lines of a function's contract: from its first clause to the brace that opens its body."""
    found = []
    for line in text.split("\n"):
        if line == f"{indent}{{" or line.endswith("{") and not found:
            return found
        if found or CLAUSE.match(line):
            found.append(line)
    return found


def contracts(crate):
    """Each public function, its contract's words, and the names of specs/Code that its file brings in."""
    for path in (path for root in roots(crate) for path in public_files(root)):
        text = path.read_text()
        for call in PUBLIC.finditer(text):
            lines = clauses(text[call.end() :], call.group(1))
            yield f"{path}: the contract of {call.group(2)}", set(WORD.findall("\n".join(lines))), set(names_of(text))


crates = [path for path in sorted(pathlib.Path(sys.argv[1]).iterdir()) if path.is_dir()]
files = sum(len(list(public_files(root))) for crate in crates for root in [crate / "src" / "lib.rt"] if root.exists())
calls = [found for crate in crates for found in contracts(crate)]
code = [path for crate in crates for path in (crate / "specs" / "Code").rglob("*.antt")]
wrong = [line for crate in crates for line in specs(crate)]
wrong += [f"{call} names {', '.join(sorted(words & names))}" for call, words, names in calls if words & names]
stated = sum(bool(words) for _, words, _ in calls)
print(*wrong, sep="\n", end="\n" if wrong else "")
print(f"contracts: {len(crates)} crates, {files} public files, {stated} public contracts, {len(code)} files of specs/Code, {len(wrong)} reach them")
sys.exit(1 if wrong or not files or not stated or not code else 0)
