#!/usr/bin/env bash
# The requirements' own cases: the worked example, where filing errs, the edges of sizes and depth, files that are missing or cannot be read.
set -uo pipefail
cd "$(dirname "$0")/.."
. tests/program.bash filer "$@"

work=$(mktemp -d)
trap 'rm -rf "$work"' EXIT
count=0
wrong=0
line=$'\n'

# Compares what the program prints in $work with $2, whose last newline is left off; $1 names the case.
prints() {
    count=$((count + 1))
    got=$(cd "$work" && "$program" 2>said; echo "status $?")
    if [ "$got" != "${2:+$2$line}status 0" ]; then
        wrong=$((wrong + 1))
        printf 'papers: %s\n  printed: %s\n  expected: %s\n' "$1" "$got" "$2"
    fi
    rm -rf "$work/folders.txt" "$work/report.xml"
}

# The set with these lines, the report, and what is printed.
files() {
    printf '(folders\n%s)\n' "$2" >"$work/folders.txt"
    printf '%s' "$3" >"$work/report.xml"
    prints "$1" "$4"
}

# One folder with number 1 and the path; $4 is 1 where it is matched; then opens and failure moves.
path() {
    local own=''
    [ "$4" = 0 ] || own="(folder 1 ($2))"$'\n'
    files "$1" "(folder 1 ($2))"$'\n' "$3" "(filed"$'\n'"$own(moves $5 $6)"$'\n'")"
}

# $1 as often as $2 says.
times() {
    local i
    for ((i = 0; i < $2; i++)); do printf '%s' "$1"; done
}

example='(folder 3 (//clock/drift) (/lock/*/drift))
(folder 8 (//*/lock))
'
files 'worked example' "$example" '<lock><clock><drift/></clock></lock>' '(filed
(folder 3 (//clock/drift) (/lock/*/drift))
(moves 3 2)
)'

path 'the document is no element' '//*/lock' '<lock/>' 0 1 0
path 'a state already visited' '//a//b' '<r><b/><a><b/></a></r>' 1 4 1
path 'undoing on close' '//a//b' '<r><a/><b/></r>' 0 3 0
path 'pushing on every open' '/a/b' '<a><c><b/></c><b/></a>' 1 4 1
path 'moves in a tree' '//a/a/b' '<r><a><a><c/><c/><c/><c/></a></a></r>' 0 7 8
path 'a path that ends in *' '//a/*' '<a><b/></a>' 1 2 1
path 'a path that ends in *, alone' '//a/*' '<a/>' 0 1 0

# the table of the fit definition
path 'table 1' '/a' '<a/>' 1 1 0
path 'table 2' '/a' '<r><a/></r>' 0 2 1
path 'table 3' '//a' '<a/>' 1 1 0
path 'table 4' '//*/a' '<a/>' 0 1 0
path 'table 5' '//*/a' '<r><a/></r>' 1 2 0
path 'table 6' '//a/*/c' '<a><a><b><c/></b></a></a>' 1 4 2
path 'table 7' '/a/*' '<a/>' 0 1 0
path 'table 8' '/a/*' '<a><b/></a>' 1 2 1
path 'table 9' '//a/b//b' '<a><b/></a>' 0 2 0
path 'table 10' '//a/b//b' '<a><b><b/></b></a>' 1 3 2
path 'table 11' '//a//b' '<a><c><b/></c></a>' 1 3 1

path '64 nested' '//a' "$(times '<a>' 64)$(times '</a>' 64)" 1 64 63
files '65 nested' $'(folder 1 (//a))\n' "$(times '<a>' 65)$(times '</a>' 65)" '(refused 11)'
path '16 steps' "$(times /a 16)" "$(times '<a>' 16)$(times '</a>' 16)" 1 16 0
files '17 steps' "(folder 1 ($(times /a 17)))"$'\n' '<a/>' '(refused 6)'
files 'no folder lines' '' '<a/>' $'(filed\n(moves 1 0)\n)'
files 'empty report' $'(folder 1 (//a))\n' '' '(refused 10)'
files 'folder order before a torn report' $'(folder 2 (//a))\n(folder 2 (//b))\n' '<' '(refused 4)'

# a repeated attribute: after 9, before all else that a token is refused with
files 'a voltage twice in one tag' $'(folder 1 (//battery))\n' '<visit><battery volts="3.1" volts="3.1"/></visit>' '(refused 15)'
path 'a voltage in each of two tags' '//battery' '<visit><battery volts="3.1"/><battery volts="3.1"/></visit>' 1 3 0
files 'a voltage twice, then torn' $'(folder 1 (//battery))\n' '<visit><battery volts="3.1" volts="3.1"/><' '(refused 9)'
files 'two roots, then a voltage twice' $'(folder 1 (//battery))\n' '<visit/><battery volts="3.1" volts="3.1"/>' '(refused 15)'

prints 'both files missing' '(refused 3)'
: >"$work/folders.txt"
prints 'a set of 0 bytes' '(refused 3)'
printf '<a/>' >"$work/report.xml"
prints 'the set missing' '(refused 3)'
printf '(folders\n)\n' >"$work/folders.txt"
prints 'the report missing' '(refused 10)'

path 'a report of 65,536 bytes' '/a' "<a>$(times x 65529)</a>" 1 1 0
files 'a report of 65,537 bytes' $'(folder 1 (/a))\n' "<a>$(times x 65530)</a>" '(refused 2)'
files 'a report of 65,537 bytes that begins with a whole one' $'(folder 1 (/a))\n' "<a>$(times x 65529)</a>x" '(refused 2)'
files 'a report of 65,537 bytes with a repeated attribute' $'(folder 1 (/a))\n' "<a b='' b=''>$(times x 65520)</a>" '(refused 2)'
files 'a report of 200,000 bytes' $'(folder 1 (/a))\n' "<a>$(times x 199993)</a>" '(refused 2)'

# 30 paths of 16 steps and one of 13, each name of 32 bytes: 16,384 bytes in all.
step=/$(times n 32)
long="$(for ((i = 0; i < 30; i++)); do printf ' (%s)' "$(times "$step" 16)"; done) ($(times "$step" 13))"
files 'a set of 16,384 bytes' "(folder 1$long)"$'\n' '<a/>' $'(filed\n(moves 1 1)\n)'
files 'a set of 16,385 bytes' "(folder 10$long)"$'\n' '<a/>' '(refused 2)'
printf '(folders\n)\n%s' "$(times '(' 16374)" >"$work/folders.txt"
prints 'a set of 16,385 bytes that begins with a whole one' '(refused 2)'

# What is there and cannot be read is no empty file: nothing is printed, and a line on standard error says why.
printf '(folders\n)\n' >"$work/folders.txt"
mkdir "$work/report.xml"
prints 'a report that cannot be read' ''
[ -s "$work/said" ] || { wrong=$((wrong + 1)); echo 'papers: no word of a report that cannot be read'; }
ln -s folders.txt "$work/folders.txt"
printf '<a/>' >"$work/report.xml"
prints 'a set that cannot be opened' ''
[ -s "$work/said" ] || { wrong=$((wrong + 1)); echo 'papers: no word of a set that cannot be opened'; }

echo "papers' cases: $count, $wrong differ"
[ "$wrong" -eq 0 ]
