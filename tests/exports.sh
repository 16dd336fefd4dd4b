#!/usr/bin/env bash
# The library for C and Rust: the examples print README's listing, each call answers as include/rannvoul.h says, and the header has the
# code's sizes and refusals.
set -uo pipefail
cd "$(dirname "$0")/.."
. tests/needs.bash
# Debian's rustc brings the C library's headers along, which gcc only recommends.
need rustc rustc
need gcc gcc

work=$(mktemp -d)
trap 'rm -rf "$work"' EXIT
status=0

(cd crates/exports_c && rt lib) >"$work/said" 2>&1 || { cat "$work/said"; echo 'exports_c is not proved and built: rt lib, in crates/exports_c'; exit 1; }
cp crates/exports_c/out/libexports_c.a "$work/libexports.a" || exit 1

# $1 names the program; the rest is the command that makes it.
compile() {
    "${@:2}" -o "$work/$1" || { echo "exports: $1 does not compile"; exit 1; }
}
c=(gcc -std=c99 -Wall -Wextra -Werror -Iinclude)
library=$work/libexports.a
compile c "${c[@]}" examples/c/file_report.c "$library"
compile rust rustc --edition 2021 -L "${library%/*}" examples/rust/file_report.rs
compile calls "${c[@]}" tests/exports/calls.c "$library"

sed -n '/^(filed$/,/^)$/p' README.md >"$work/expected"
[ -s "$work/expected" ] || { echo "exports: README.md has no listing"; status=1; }
for example in c rust; do
    "$work/$example" >"$work/printed" || { echo "exports: the example in $example failed"; status=1; }
    diff "$work/expected" "$work/printed" || { echo "exports: the example in $example prints another listing than README.md has"; status=1; }
done
"$work/calls" || status=1

# The refusals of the code, as the header writes them.
sed -nE '/^pub enum Refusal/,/^\}/{ s/^ +(\w+ = [0-9]+),$/\1/; T; s/\B[A-Z]/_&/g; s/.*/RANNVOUL_\U&/p }' crates/text/src/refusals.rt >"$work/refusals"
[ -s "$work/refusals" ] || { echo "exports: no refusals found in the code"; status=1; }
sed -nE 's/^ +(RANNVOUL_\w+ = [0-9]+).*/\1/p' include/rannvoul.h >"$work/header"
diff "$work/refusals" "$work/header" || { echo "exports: the header has other refusals"; status=1; }
exit "$status"
