#!/usr/bin/env bash
# Runs the program and xmllint in each case's folder, each with its exit status after what it wrote: run_cases.sh PROGRAM FOLDER..
program=$1
shift
for folder in "$@"; do
    cd "$folder" || exit 1
    read -r expression <expression
    { "$program"; echo "status $?"; } >got 2>&1
    peer=report.xml
    if [ -e peer.xml ]; then
        peer=peer.xml
        { xmllint --nonet --xpath "$expression" report.xml; echo "status $?"; } >otherwise 2>/dev/null
    fi
    { xmllint --nonet --xpath "$expression" "$peer"; echo "status $?"; } >selected 2>/dev/null
done
