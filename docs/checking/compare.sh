#!/bin/sh
# Runs each *.script of a folder, of the current one where none is named: sh compare.sh [FOLDER]
# Compares what it writes with NAME.transcript, and its status with NAME.status (0 where there is none); NAME.words has
# the program's words, one a line. What was written stays in NAME.out. CEPAGE names the program.
cepage=${CEPAGE:-cepage}
folder=${1:-.}
failed=0

if ! command -v "$cepage" >/dev/null; then
    echo "compare: there is no program $cepage: set CEPAGE to its path" >&2
    exit 127
fi
for script in "$folder"/*.script; do
    if [ ! -f "$script" ]; then
        echo "compare: no script in $folder" >&2
        exit 1
    fi
    name=${script%.script}
    set --
    if [ -f "$name.words" ]; then
        while IFS= read -r word || [ -n "$word" ]; do set -- "$@" "$word"; done <"$name.words"
    fi
    "$cepage" "$@" <"$script" >"$name.out"
    status=$?
    wanted=0
    if [ -f "$name.status" ]; then
        wanted=$(cat "$name.status")
    fi
    case $wanted in
    '' | *[!0-9]*)
        echo "$name.status has no status: one is a number, without a space or a carriage return" >&2
        failed=1
        ;;
    "$status") ;;
    *)
        echo "$script: the status is $status, and not $wanted" >&2
        failed=1
        ;;
    esac
    diff -u "$name.transcript" "$name.out" >&2 || failed=1
done
exit "$failed"
