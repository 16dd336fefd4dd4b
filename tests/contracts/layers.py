"""Says which crates above the machine open a definition of what is stored: they go by sizes, refusals and laws. layers.py CRATES"""
import pathlib
import re
import sys

ABOVE = ("filing", "sheets", "programs", "filer", "sheet", "exports", "exports_c", "cases_filing", "cases_machine", "cases_runs", "cases_sheet")
# Sizes of buffers, and the refusals of calls, which are orders of conditions.
OPEN = {"automaton_size", "run_size", "start_refusal", "open_refusal", "close_refusal", "ask_refusal", "name_refusal", "ask_path", "ask_folder", "ask_step", "ask_prefix"}
USED = re.compile(r"^(?:pub |unfoldable |ghost )*use Rattle\.stored\.specs\.[\w.]+\.\{([^}]*)\}", re.M)
UNFOLDS = re.compile(r"^\s*unfolding (.*)$", re.M)
# What a function's line `tactic` opens, by its path.
ASKS = re.compile(r"\bunfolding\(([^)]*)\)")

root = pathlib.Path(sys.argv[1])
wrong, files, names = [], 0, set()
for path in (path for crate in ABOVE for part in ("specs", "proofs", "src") for path in sorted((root / crate / part).rglob("*.*"))):
    text = path.read_text()
    used = {part.split()[-1] for found in USED.findall(text) for part in found.split(",") if part.strip()}
    opened = {name for line in UNFOLDS.findall(text) for name in line.split()} & used
    asked = [part.strip().split("::") for found in ASKS.findall(text) for part in found.split(",")]
    opened |= {parts[-1] for parts in asked if parts[0] == "stored" or parts[-1] in used}
    wrong += [f"{path} unfolds {name}" for name in sorted(opened - OPEN)]
    files, names = files + (path.suffix == ".antt"), names | (used if path.suffix == ".antt" else set())
print(*wrong, sep="\n", end="\n" if wrong else "")
print(f"layers: {files} files above what is stored name {len(names)} of its definitions, {len(wrong)} open one")
sys.exit(1 if wrong or not names else 0)
