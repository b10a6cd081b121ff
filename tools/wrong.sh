#!/bin/sh
# tools/wrong.sh [NAME..]: tries the wrong bodies crates/NAME/wrong/*.edit, of all crates where none is named. Each is
# put into a copy of the repository, in a temporary folder and over what `rt check` has kept in out/, and checked. The check
# must refuse it with an open goal of a contract: the line of the edit names the function and the goal. An edit that
# cannot be put in, or is refused only since a proof names what it took away, was not tried: mend it.
#
# An edit is a file as those of must-fail/: a line 'file: src/NAME.rt', and then pairs of lines 'old: TEXT' and
# 'new: TEXT', each TEXT one line; the old text stands in that file once.

unset CDPATH
cd "$(dirname "$0")/.." || exit 1
top=$(pwd)
room=$(mktemp -d) || exit 1
trap 'rm -rf "$room"' EXIT
trap 'exit 1' HUP INT TERM

refused=0
failed=0

# Copies the text of the repository and the libraries that were built for it.
copy_repository() {
    git ls-files -z --cached --others --exclude-standard crates crates.txt HANDLES |
        xargs -0 sh -c 'for f; do [ ! -f "$f" ] || echo "$f"; done' sh |
        tar -cf - -T - | tar -xf - -C "$room" || exit 1
    for library in crates/*/out/rlib; do
        [ -d "$library" ] || continue
        mkdir -p "$room/$(dirname "$library")"
        cp -a "$library" "$room/$(dirname "$library")/" || exit 1
    done
}

# Puts an edit into the files of a crate, and says why it cannot.
put_in() {
    EDITED=$2 awk '
        function fail(why) { print why; failed = 1; exit 1 }
        function load(path,    line, all) {
            if (path in text) return
            while ((getline line < (ENVIRON["EDITED"] "/" path)) > 0) all = all line "\n"
            close(ENVIRON["EDITED"] "/" path)
            if (all == "") fail("there is no file " path)
            text[path] = all
        }
        /^file: / { path = substr($0, 7); load(path) }
        /^old: / {
            if (old != "") fail("an old text has no new one")
            old = substr($0, 6)
        }
        /^new:/ {
            new = substr($0, 5)
            sub(/^ /, "", new)
            at = index(text[path], old)
            if (old == "" || !at) fail("an old text is not in " path)
            behind = substr(text[path], at + length(old))
            if (index(behind, old)) fail("an old text is in " path " more than once")
            text[path] = substr(text[path], 1, at - 1) new behind
            old = ""
            pairs++
        }
        END {
            if (failed) exit 1
            if (!pairs || old != "") { print "it has no pair of old and new, or a half of one"; exit 1 }
            for (path in text) printf "%s", text[path] > (ENVIRON["EDITED"] "/" path)
        }' "$1"
}

# Says by which goals of which functions a check refused, from its output: those that no search proves, or else the
# first proof that no longer fits. Says nothing where only names are missing, or where the text does not read.
refusal() {
    awk '
        /^fn .*: no proof: .*did not prove / {
            name = $2
            sub(/:$/, "", name)
            sub(/.*did not prove /, "")
            gsub(/`/, "")
            sub(/;.*/, "")
            open = open (open == "" ? "" : "; ") name ": " $0
        }
        /^(\.\/)?(src|specs)\/[^ ]*: error/ { unread = 1 }
        /^(\.\/)?proofs\/[^ ]*: error/ && !/has no field|is not in scope|has no `|was not admitted/ {
            if (fits == "") fits = $0
        }
        END {
            if (unread) exit
            if (open != "") print open
            else if (fits != "") print "an answer that no longer fits: " substr(fits, 1, 160)
        }' "$1"
}

# Gives the copy of a crate its text back.
put_back() {
    for part in src specs proofs; do
        rm -rf "${room:?}/crates/$1/$part"
        [ ! -d "crates/$1/$part" ] || cp -a "crates/$1/$part" "$room/crates/$1/" || exit 1
    done
}

# Tries the edits of a crate.
try_crate() {
    crate=$room/crates/$1
    [ ! -d "crates/$1/out/incremental" ] || [ -d "$crate/out/incremental" ] ||
        { mkdir -p "$crate/out" && cp -a "crates/$1/out/incremental" "$crate/out/"; } || exit 1
    if ! (cd "$crate" && rt check) >"$room/log" 2>&1; then
        echo "$1: not proved as it stands, so no edit was tried: $(tail -n 1 "$room/log")"
        failed=$((failed + 1))
        return
    fi
    for edit in crates/"$1"/wrong/*.edit; do
        name="$1/$(basename "$edit" .edit)"
        if ! why=$(put_in "$edit" "$crate"); then
            echo "$name: NOT TRIED: $why"
            failed=$((failed + 1))
        elif (cd "$crate" && rt check) >"$room/log" 2>&1; then
            echo "$name: NOT REFUSED"
            failed=$((failed + 1))
        else
            goals=$(refusal "$room/log")
            if [ -n "$goals" ]; then
                echo "$name: refused: $goals"
                refused=$((refused + 1))
            else
                echo "$name: NOT TRIED: no goal is open: $(grep -m 1 ': error' "$room/log")"
                failed=$((failed + 1))
            fi
        fi
        put_back "$1"
    done
    rm -rf "$crate/out/incremental"
}

if [ $# -eq 0 ]; then
    set -- $(for folder in crates/*/wrong; do basename "$(dirname "$folder")"; done)
fi
copy_repository
for name; do
    if [ ! -d "crates/$name/wrong" ]; then
        echo "wrong: crates/$name/wrong is missing" >&2
        exit 1
    fi
    try_crate "$name"
done
echo "wrong: $refused refused, $failed not"
[ "$failed" -eq 0 ]
