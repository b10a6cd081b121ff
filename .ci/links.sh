#!/bin/sh
# Tests that each link of README.md, CHANGELOG.md, THIRD-PARTY.md, docs/ and the packages' README.md leads to a file that is
# there, and each anchor to a heading of that file (as GitHub names it: lower case, spaces as dashes, punctuation dropped) or
# to an `<a id="..">` in it. A path in backticks that begins with a folder of the repository has to be there too, unless it has
# a placeholder (a word of capitals, `*`, `..`) or names what is built (`out/`). Names the file, the line and what leads nowhere.

LC_ALL=C
export LC_ALL
unset CDPATH
cd "$(dirname "$0")/.." || exit 1
set -- README.md CHANGELOG.md THIRD-PARTY.md docs/*.md bindings/*/README.md

# Gives a row for each link and each path: where it stands, what is written, the file, the anchor or `-`, and whether
# the anchor is in that file.
rows() {
    awk '
    # The anchor of a heading.
    function slug(title) {
        sub(/^#+ +/, "", title)
        sub(/ +$/, "", title)
        title = tolower(title)
        gsub(/[^a-z0-9 _-]/, "", title)
        gsub(/ /, "-", title)
        return title
    }
    # The path from the top of what is written in a file in this folder.
    function place(folder, path) {
        while (path ~ /^\.\.?\//) {
            if (path ~ /^\.\.\//) sub(/[^\/]+\/$/, "", folder)
            sub(/^\.\.?\//, "", path)
        }
        return folder path
    }
    # Adds a row for a link, which may have a title behind it.
    function follow(link,    folder, path, anchor) {
        sub(/ +["\047(].*/, "", link)
        gsub(/^<|>$/, "", link)
        if (link ~ /^[a-z]+:/) return
        folder = FILENAME
        sub(/[^\/]*$/, "", folder)
        path = anchor = link
        sub(/#.*/, "", path)
        path = path == "" ? FILENAME : place(folder, path)
        if (sub(/^[^#]*#/, "", anchor) == 0) anchor = "-"
        row[++rows] = FILENAME ":" FNR " " link " " path " " anchor
    }
    FNR == 1 { fence = "" }
    # A fence is closed by one of the same sign that is as long, and has nothing behind it.
    match($0, /^ *(```+|~~~+)/) {
        mark = substr($0, RSTART, RLENGTH)
        behind = substr($0, RSTART + RLENGTH)
        gsub(/ /, "", mark)
        if (fence == "" && (mark ~ /~/ || behind !~ /`/)) {
            fence = mark
            next
        }
        if (fence != "" && index(mark, fence) == 1 && behind ~ /^ *$/) {
            fence = ""
            next
        }
    }
    fence != "" { next }
    /^#+ / {
        name = slug($0)
        key = FILENAME "#" name
        if (key in there) name = name "-" ++again[key]
        there[FILENAME "#" name] = 1
    }
    {
        rest = $0
        while (match(rest, /<a id="[^"]*">/)) {
            there[FILENAME "#" substr(rest, RSTART + 7, RLENGTH - 9)] = 1
            rest = substr(rest, RSTART + RLENGTH)
        }
        rest = $0
        while (match(rest, /`[^`]+`/)) {
            code = substr(rest, RSTART + 1, RLENGTH - 2)
            rest = substr(rest, RSTART + RLENGTH)
            if (code ~ /^(\.ci|bindings|crates|docs|examples|misuse|tools)\/[^ ]*$/ && code !~ /\*|\.\.|[A-Z][A-Z]+\/|[A-Z][A-Z]+\.|\/out\//)
                row[++rows] = FILENAME ":" FNR " " code " " code " -"
        }
        rest = $0
        gsub(/`[^`]*`/, "", rest)
        while (match(rest, /\]\([^)]*\)/)) {
            link = substr(rest, RSTART + 2, RLENGTH - 3)
            rest = substr(rest, RSTART + RLENGTH)
            follow(link)
        }
        rest = $0
        gsub(/`[^`]*`/, "", rest)
        if (match(rest, /^ *\[[^]]*\]: +/)) {
            link = substr(rest, RSTART + RLENGTH)
            sub(/ .*/, "", link)
            follow(link)
        }
        while (match(rest, /(href|src)=("[^"]*"|\047[^\047]*\047)/)) {
            link = substr(rest, RSTART, RLENGTH - 1)
            rest = substr(rest, RSTART + RLENGTH)
            sub(/^[a-z]*=./, "", link)
            follow(link)
        }
    }
    END {
        for (i = 1; i <= rows; i++) {
            split(row[i], part, " ")
            held = part[4] == "-" || (part[3] "#" part[4]) in there
            print row[i], held ? "there" : "missing"
        }
    }' "$@"
}

room=$(mktemp -d) || exit 1
trap 'rm -rf "$room"' EXIT
trap 'exit 1' HUP INT TERM
for file in "$@"; do
    if [ ! -f "$file" ]; then
        echo "links: there is no $file" >&2
        exit 1
    fi
done
rows "$@" >"$room/rows" || exit 1

passed=0
failed=0
while read -r from link path anchor held; do
    if [ ! -e "$path" ]; then
        echo "links: $from: $link leads nowhere: there is no $path" >&2
        failed=$((failed + 1))
    elif [ "$held" = missing ]; then
        echo "links: $from: $link leads nowhere: $path has no such anchor" >&2
        failed=$((failed + 1))
    else
        passed=$((passed + 1))
    fi
done <"$room/rows"
if [ "$((passed + failed))" -eq 0 ]; then
    echo "links: no link was found" >&2
    exit 1
fi
echo "links: $passed lead somewhere, $failed nowhere"
[ "$failed" -eq 0 ]
