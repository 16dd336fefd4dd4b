#!/usr/bin/env bash
# `./file-report`: what it prints, says and ends with, for filed and refused reports; then the first run and one that fails, beside an `rt`
# that only prints what rt prints.
set -uo pipefail
cd "$(dirname "$0")/.."
for program in filer sheet; do
    (cd "crates/$program" && rt run) >/dev/null 2>&1 || { echo "$program is not proved and built: rt run, in crates/$program"; exit 1; }
done

work=$(mktemp -d)
trap 'rm -rf "$work"' EXIT
count=0
wrong=0

# Runs file-report of folder $2 on folder $3; it must end with $4, print $5 and say $6, a pattern. $1 names the case, and $option is one of file-report's.
option=
runs() {
    local printed said status
    count=$((count + 1))
    printed=$("$2/file-report" ${option:+"$option"} "$3" 2>"$work/said")
    status=$?
    said=$(cat "$work/said")
    # shellcheck disable=SC2053
    if [ "$status" != "$4" ] || [ "$printed" != "$5" ] || [[ $said != $6 ]]; then
        wrong=$((wrong + 1))
        printf 'first run: %s\n  status: %s\n  printed: %s\n  said: %s\n' "$1" "$status" "$printed" "$said"
    fi
}

# The set with this line and the report: refused with the number, and said in words.
refused() {
    printf '(folders\n%s\n)\n' "$2" >"$work/folders.txt"
    printf '%s' "$3" >"$work/report.xml"
    runs "refused $1" . "$work" 1 "(refused $1)" "file-report: nothing was filed: $4"
}

# $1 as often as $2 says.
times() { printf "%0$2d" 0 | sed "s|0|$1|g"; }

runs 'a filed report' . crates/filer/data 0 "$(cat crates/filer/stdout)" ''
runs 'no such folder' . "$work/none" 2 '' 'file-report: there is no folder *'
refused 2 '(folder 1 (/a))' "<a>$(times x 65530)</a>" '*over 65,536'
refused 3 '(folder 1 /a)' '<a/>' 'the set is not of its form*'
refused 4 $'(folder 2 (/a))\n(folder 2 (/a))' '<a/>' '*number is not above*'
refused 5 "(folder 1 (/$(times a 33)))" '<a/>' '*is over 32 bytes'
refused 6 "(folder 1 ($(times /a 17)))" '<a/>' '*over 16 steps'
refused 7 "(folder 1$(times ' (/a)' 129))" '<a/>' '*over 128 paths*'
refused 8 '(folder 1 (/a))' $'<a>\x01</a>' '*byte that is neither*'
refused 9 '(folder 1 (/a))' '<a' '*not a run of*'
refused 10 '(folder 1 (/a))' '<a>' '*not closed'
refused 11 '(folder 1 (/a))' "$(times '<a>' 65)" '*are nested'
refused 12 '(folder 1 (/a))' '<a></b>' '*innermost element'
refused 15 '(folder 1 (/a))' "<a b='' b=''/>" '*attributes of the same name'

option=--sheet
runs 'a class sheet' . crates/sheet/data 0 "$(cat crates/sheet/stdout)" ''
refused 12 '(folder 1 (/a))' '<a></b>' '*innermost element'
option=

rm "$work/report.xml"
mkdir "$work/report.xml"
runs 'a report that cannot be read' . "$work" 2 '' '?*'

# A clone of three crates, whose `rt` prints the lines of a first run and leaves a program, or fails.
clone=$work/clone
mkdir -p "$clone/bin" "$clone/crates/filer"
cp file-report README.md "$clone"
printf '# a comment\ntext:\nfiling: text\nfiler: filing io\ncases: text\n' >"$clone/crates.txt"
cp -R crates/filer/data "$clone/crates/filer"
cat >"$clone/bin/rt" <<'RT'
#!/bin/sh
if [ "$1" != run ]; then echo "rt: no $1 here"; exit 2; fi
if [ -e ../../fails ]; then echo 'logic=not-proved'; echo 'rt: the library text did not build, so nothing above it was checked'; exit 1; fi
for crate in text filing filer; do
    echo 'fn f: proved'
    echo "crate $crate: modules loaded=1 checked=2"
    echo 'logic=proved functions=1'
done
mkdir -p out
printf '#!/bin/sh\necho "(filed"\n' >out/filer
chmod +x out/filer
echo '(refused 3)'
RT
chmod +x "$clone/bin/rt"
PATH=$clone/bin:$PATH
runs 'the first run' "$clone" "$clone/crates/filer/data" 0 '(filed' '*, 3 crates *text proved, 2 left*filing proved, 1 left*filer proved, 0 left'
touch "$clone/fails"
runs 'a run that fails' "$clone" "$clone/crates/filer/data" 2 '' 'rt: the library text did not build*the whole log is *file-report.log*'

echo "first run's cases: $count, $wrong differ"
[ "$wrong" -eq 0 ]
