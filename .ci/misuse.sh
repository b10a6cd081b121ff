#!/bin/sh
# Each misuse/NAME.txt is the one file of a crate over behaviours. The compiler must refuse it, with the words of
# misuse/NAME.refused. The crates below are those that `rt ci` proved.

unset CDPATH
cd "$(dirname "$0")/.." || exit 1
room=$(pwd)/.misuse
rm -rf "$room"
trap 'rm -rf "$room"' EXIT
trap 'exit 1' HUP INT TERM

mkdir "$room" || exit 1
cp -al crates HANDLES "$room/" || exit 1
mkdir -p "$room/crates/misuse/src"
{
    cat crates.txt
    echo "misuse: behaviours"
} >"$room/crates.txt"

# Whether the log has each line of these words.
told() {
    while IFS= read -r words || [ -n "$words" ]; do
        grep -qF -e "$words" "$room/log" || return 1
    done <"$1"
}

failed=0
for file in misuse/*.txt; do
    name=$(basename "$file" .txt)
    if ! [ -f "$file" ] || ! grep -q . "misuse/$name.refused"; then
        echo "misuse: $file or its words are missing" >&2
        failed=$((failed + 1))
        continue
    fi
    cp "$file" "$room/crates/misuse/src/lib.rt" || exit 1
    if (cd "$room/crates/misuse" && rt check) >"$room/log" 2>&1; then
        echo "misuse: $name was let through" >&2
        failed=$((failed + 1))
    elif ! told "misuse/$name.refused"; then
        echo "misuse: $name was refused for another reason:" >&2
        tail -n 20 "$room/log" >&2
        failed=$((failed + 1))
    fi
done
echo "misuse: $failed failed"
[ "$failed" -eq 0 ]
