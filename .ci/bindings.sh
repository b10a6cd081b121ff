#!/bin/sh
# Holds the bindings to the program: for each script of examples/ with its words, and each worked script of engine_tests, all
# once more with the trace or without it, the bytes and the status that Python, Node and Rust give by the program and by the
# library, and C by the library, have to be the program's; and the three readers have to make the same of each line. Each
# package's own tests are run too. What is not there is left out, and named: a language without its tool, and the library
# without the archive of cepage_c. CEPAGE names another program than that of the gate, and CEPAGE_C_ARCHIVE another archive.

unset CDPATH
cd "$(dirname "$0")/.." || exit 1
CEPAGE=${CEPAGE:-$(pwd)/crates/cepage/out/cepage}
LC_ALL=C.UTF-8
PYTHONDONTWRITEBYTECODE=1
export CEPAGE LC_ALL PYTHONDONTWRITEBYTECODE
unset CEPAGE_LIBRARY CEPAGE_ADDON CEPAGE_ARCHIVE

if [ ! -x "$CEPAGE" ]; then
    echo "bindings: the program $CEPAGE is missing: run rt ci first" >&2
    exit 1
fi
room=$(mktemp -d) || exit 1
trap 'rm -rf "$room"' EXIT
trap 'exit 1' HUP INT TERM
cases=$room/cases
list=$room/list
library=$room/library
tab=$(printf '\t')
mkdir "$cases" "$room/worked" "$library" || exit 1

# Writes each worked script of these files to a file of its own; `…` stands for a value of 4000 bytes there.
worked() {
    awk -v folder="$room/worked" '
        BEGIN { for (k = 0; k < 4000; k++) value = value "v" }
        /(^| )const [A-Z]+: &str = r#"/ {
            split(FILENAME, path, "/")
            name = FILENAME
            gsub(/.*src\/|\.rt$/, "", name)
            gsub(/\//, "-", name)
            match($0, /[A-Z]+: /)
            out = folder "/" name "-" substr($0, RSTART, RLENGTH - 2) ".script"
            sub(/.*r#"/, "")
        }
        out != "" {
            last = /"#;$/
            if (match($0, /^[0-9]*> /)) {
                times = RLENGTH > 2 ? substr($0, 1, RLENGTH - 2) : 1
                line = substr($0, RLENGTH + 1)
                gsub(/…/, value, line)
                if (last) sub(/"#;$/, "", line)
                while (times-- > 0) print line > out
            }
            if (last) { close(out); out = "" }
        }' "$@"
}

# Adds a case: a script and its words, with what the program makes of them. A row of the list has its name, the status, the
# script and the words, with tabs between them.
add() {
    name=$1
    script=$2
    shift 2
    "$CEPAGE" "$@" <"$script" >"$cases/$name" 2>"$room/error"
    row="$name$tab$?$tab$script"
    for word; do row="$row$tab$word"; done
    echo "$row" >>"$list"
}

# Adds a script with its words, and once more with the trace turned.
add_both() {
    case_of=$1
    script=$2
    shift 2
    if [ -f "${script%.script}.words" ]; then
        while IFS= read -r word || [ -n "$word" ]; do
            [ "$word" = --trace ] || set -- "$@" "$word"
        done <"${script%.script}.words"
    fi
    add "$case_of" "$script" "$@"
    add "$case_of-trace" "$script" "$@" --trace
}

for script in examples/*.script examples/*/*.script; do
    name=${script#examples/}
    name=${name%.script}
    case $name in
    */*) name=${name%%/*}-${name#*/} ;;
    esac
    add_both "$name" "$(pwd)/$script"
done
worked crates/engine_tests/src/*.rt crates/engine_tests/src/worked/*.rt
for script in "$room"/worked/*.script; do
    name=${script##*/}
    add_both "worked-${name%.script}" "$script"
done
add words-usage "$(pwd)/examples/first.script" --fuel 0
add words-url "$(pwd)/examples/submission/actions.script" --url mailto:a
add words-boundary "$(pwd)/examples/review.script" --boundary a-b --trace
echo "bindings: $(wc -l <"$list") runs, of examples/ and of $(ls "$room/worked" | wc -l) worked scripts"

# The library, where the archive is there and is not older than some source. `rt lib` in crates/cepage_c makes it, over what
# `rt check` proved, so not in the gate.
archive=${CEPAGE_C_ARCHIVE:-crates/cepage_c/out/libcepage_c.a}
if [ -z "$CEPAGE_C_ARCHIVE" ] && [ -f "$archive" ] && [ -n "$(find crates/*/src -name '*.rt' -newer "$archive" | head -n 1)" ]; then
    shared= archive= addon=
    echo "bindings: left out: the library: its archive is older than its source"
elif sh bindings/c/build.sh "$library" >"$room/build" 2>&1; then
    shared=$library/libcepage.so
    archive=$library/libcepage.a
    addon=$library/cepage.node
    if [ ! -f "$addon" ]; then
        echo "bindings: left out: the library from Node: $(tail -n 1 "$room/build")"
        addon=
    fi
elif grep -q '^build: there is no ' "$room/build"; then
    echo "bindings: left out: the library: $(tail -n 1 "$room/build")"
    shared= archive= addon=
else
    echo "bindings: the library cannot be made of $archive:" >&2
    tail -n 60 "$room/build" >&2
    exit 1
fi

# Whether the code of this language that docs/checking.md has first is that of the file.
shown() {
    awk -v fence="\`\`\`$1" '$0 == fence { on = 1; next } on && /^```$/ { exit } on' docs/checking.md | cmp - "$2"
}
if ! { shown python bindings/python/tests/test_review.py && shown js bindings/node/test/review.test.js &&
    shown rust bindings/rust/tests/review.rs; }; then
    echo "bindings: docs/checking.md shows another test" >&2
    exit 1
fi

in_python() {
    cd bindings/python || return
    python3 -W error compare.py "$list" "$cases" "$room/python" || return
    if [ -n "$shared" ]; then
        python3 -W error compare.py "$list" "$cases" "$room/python-library" "$shared" || return
    fi
    CEPAGE_LIBRARY=$shared python3 -W error -m unittest
}

in_node() {
    cd bindings/node || return
    node compare.js "$list" "$cases" "$room/node" || return
    if [ -n "$addon" ]; then
        node compare.js "$list" "$cases" "$room/node-library" "$addon" || return
    fi
    CEPAGE_ADDON=$addon node --test test/*.test.js
}

# cargo WORDS.. in a copy of the crate, since it writes a lock file beside it.
in_rust() {
    mkdir -p "$room/repository/bindings" || return
    cp -R bindings/rust "$room/repository/bindings/" && ln -s "$(pwd)/examples" "$room/repository/examples" || return
    cd "$room/repository/bindings/rust" || return
    CARGO_HOME=$room/cargo CARGO_TARGET_DIR=$room/target CARGO_PROFILE_DEV_DEBUG=false CARGO_TERM_COLOR=never
    export CARGO_HOME CARGO_TARGET_DIR CARGO_PROFILE_DEV_DEBUG CARGO_TERM_COLOR
    cargo run --offline --quiet --example compare -- "$list" "$cases" "$room/rust" || return
    if [ -n "$archive" ]; then
        CEPAGE_ARCHIVE=$archive
        export CEPAGE_ARCHIVE
        cargo run --offline --quiet --example compare -- "$list" "$cases" "$room/rust-library" library || return
    fi
    cargo test --offline --quiet
}

# Runs each case by the library from C, and two trials.
in_c() {
    for trial in program many threads; do
        cc -std=gnu11 -O1 -Wall -Wextra -Werror -pthread -o "$room/$trial" "bindings/c/trials/$trial.c" "$archive" || return
    done
    failed=0
    while IFS=$tab read -r name status script words; do
        IFS=$tab
        "$room/program" $words <"$script" >"$room/of-c"
        if [ $? -ne "$status" ] || ! cmp -s "$room/of-c" "$cases/$name"; then
            echo "$name: it differs"
            failed=$((failed + 1))
        fi
    done <"$list"
    echo "c, library: $failed differ"
    "$room/many" 1000 <examples/review.script && "$room/threads" 100 <examples/review.script && [ "$failed" -eq 0 ]
}

# Whether a tool is there, and answers well where it is asked; that it does not is said.
there() {
    part=$1
    shift
    if ! command -v "$1" >/dev/null; then
        echo "bindings: left out: $part: there is no $1"
    elif ! "$@" >/dev/null 2>&1; then
        echo "bindings: left out: $part: $1 is too old, or does not run"
    else
        return 0
    fi
    return 1
}

# Runs a part beside the others. What it says is told when all are done.
running=
begin() {
    running="$running $1"
    { (in_"$1") >"$room/log-$1" 2>&1; echo $? >"$room/ended-$1"; } &
}

! there Python python3 -c 'import sys; sys.exit(sys.version_info < (3, 9))' || begin python
! there Node node -e 'const [a, b] = process.versions.node.split("."); process.exit(a < 20 || (a == 20 && b < 11) ? 1 : 0)' || begin node
! there Rust cargo --version || begin rust
if [ -n "$archive" ]; then
    ! there C cc --version || begin c
fi
wait

failed=0
for part in $running; do
    if [ "$(cat "$room/ended-$part")" -eq 0 ]; then
        grep -h -E '^(python|node|rust|c), |^many|^threads|^Ran |^# pass|^test result' "$room/log-$part" | sed 's,^,    ,'
    else
        echo "bindings: $part went wrong:" >&2
        tail -n 60 "$room/log-$part" >&2
        failed=$((failed + 1))
    fi
done
for part in python node rust; do
    for lines in "$room/$part" "$room/$part-library"; do
        [ ! -f "$lines" ] || [ ! -f "$room/first" ] || cmp -s "$room/first" "$lines" || {
            echo "bindings: the readers make something else of a line:" >&2
            diff "$room/first" "$lines" | head -n 10 >&2
            failed=$((failed + 1))
        }
        [ -f "$room/first" ] || [ ! -f "$lines" ] || ln -s "$lines" "$room/first"
    done
done
echo "bindings: $failed failed"
[ "$failed" -eq 0 ]
