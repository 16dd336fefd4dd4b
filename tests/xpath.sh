#!/usr/bin/env bash
# Runs `filer` beside libxml2 (xmllint, Debian's libxml2-utils) on cases made from a fixed seed: every path's match is held to libxml2's
# XPath 1.0, the opens to count(//*), and acceptance to its parser where the subset and XML 1.0 agree; where they differ by design,
# make_cases.py has the reasons. The second argument is how many cases, 4,000 by default.
set -uo pipefail
cd "$(dirname "$0")/.."

. tests/needs.bash
need xmllint libxml2-utils
need python3 python3

. tests/program.bash filer "$@"

tests=$PWD/tests/xpath
work=$(mktemp -d)
trap 'rm -rf "$work"' EXIT
python3 -B "$tests/make_cases.py" "$work" "${2:-4000}" || exit 1
find "$work" -mindepth 1 -type d | sort | xargs -P 2 -n 100 bash "$tests/run_cases.sh" "$program" || exit 1
python3 -B "$tests/compare.py" "$work"
