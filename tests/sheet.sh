#!/usr/bin/env bash
# The class sheet. What `cases_sheet` is to print comes from the model in tests/sheet, never from the program. Then `sheet` runs on fixed cases
# and on cases made from a fixed seed: it prints the sheet of the paths that libxml2 selects, or the refusal that `filer` prints. The second
# argument is how many cases of each sort, 300 by default.
set -uo pipefail
cd "$(dirname "$0")/.."

. tests/needs.bash
need xmllint libxml2-utils
need python3 python3

python3 -B tests/sheet/cases.py crates/cases_sheet/stdin | cmp - crates/cases_sheet/stdout || { echo 'sheet: the model prints other cases'; exit 1; }

. tests/program.bash filer
filer=$program
. tests/program.bash sheet "$@"

tests=$PWD/tests
work=$(mktemp -d)
trap 'rm -rf "$work"' EXIT
mkdir "$work/usual" "$work/large"
python3 -B "$tests/xpath/make_cases.py" "$work/usual" "${2:-300}" || exit 1
python3 -B "$tests/sheet/large_cases.py" "$work/large" "${2:-300}" || exit 1
find "$work" -mindepth 2 -type d | sort | xargs -P 2 -n 100 bash "$tests/xpath/run_cases.sh" "$program" || exit 1
python3 -B "$tests/sheet/compare.py" "$program" "$filer" "$work/usual" "$work/large"
