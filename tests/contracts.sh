#!/usr/bin/env bash
# No contract of a public call reaches a definition that follows the code: those stand in specs/Code, no other file of specs/ uses them,
# and no public function of a public module names one. No proof above the machine opens what is stored.
set -uo pipefail
cd "$(dirname "$0")/.."
. tests/needs.bash
need python3 python3
status=0
python3 -B tests/contracts/reach.py crates || status=1
python3 -B tests/contracts/layers.py crates || status=1
exit "$status"
