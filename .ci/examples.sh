#!/bin/sh
# Runs the built program over each examples/NAME.script, and each in a folder there, with the words of NAME.words, one
# a line, where that file is there. Compares what it writes with NAME.transcript, and its exit status with the file
# NAME.status (0 where there is none). Then the trace alone may differ: with `--trace` it writes the same as without,
# but for lines that begin with `~`. A row of NAME.fuel says that with so many units of fuel it writes so many lines of
# the transcript, the last of which follows, and then `fuel`. Then which words are refused, also by the programs
# that read traces and bodies. Last, that the examples of the page (docs/page) are these. `rt ci` builds the programs.

program=crates/cepage/out/cepage
LC_ALL=C
export LC_ALL

unset CDPATH
cd "$(dirname "$0")/.." || exit 1
if [ ! -x "$program" ]; then
    echo "examples: the program $program is missing: run rt ci first" >&2
    exit 1
fi
room=$(mktemp -d) || exit 1
trap 'rm -rf "$room"' EXIT
trap 'exit 1' HUP INT TERM

passed=0
failed=0

fail() {
    echo "examples: $1" >&2
    failed=$((failed + 1))
}

# Tells the first line in which a file differs from the one that is wanted, if it does.
difference() {
    cmp -s "$1" "$2" && return
    awk -v wanted="$1" -v given="$2" 'BEGIN {
        do {
            number++
            if ((getline want < wanted) <= 0) { want = "nothing"; ended++ }
            if ((getline give < given) <= 0) { give = "nothing"; ended++ }
        } while (want "" == give "" && !ended)
        print "    line " number
        print "    expected: " want
        print "    got:      " give
    }' >&2
}

# Gives 0 where the program wrote what it should have.
same() {
    cmp -s "$1" "$2" && return 0
    fail "$3"
    difference "$1" "$2"
    return 1
}

# Runs the script with these words behind it, and gives 0 where it ends with the status that is wanted.
ends() {
    input=$1
    shift
    "$program" "$@" <"$input" >"$room/transcript"
    status=$?
    if [ "$status" != "$wanted" ]; then
        fail "$input${*:+ $*}: the status is $status, and not $wanted"
        return 1
    fi
}

# Runs the script once more, with these words: with the trace where it was run without, and the other way round. Both
# write the same but for the lines of the trace.
traces() {
    ends "$@" || return 1
    if [ -n "$traced" ]; then
        grep -v '^~' "$name.transcript" >"$room/wanted"
        same "$room/wanted" "$room/transcript" "$1: the transcript differs without the trace"
    else
        grep -v '^~' "$room/transcript" >"$room/less"
        same "$name.transcript" "$room/less" "$1: the trace changes the transcript"
    fi
}

# Runs the script with the fuel of each row.
spends() {
    wanted=3
    while read -r units count last || [ -n "$units" ]; do
        case $units in
        '' | '#') continue ;;
        esac
        head -n "$count" "$name.transcript" >"$room/wanted"
        if [ "$(tail -n 1 "$room/wanted")" != "$last" ]; then
            fail "$name.fuel: line $count of the transcript is not: $last"
            return 1
        fi
        echo fuel >>"$room/wanted"
        ends "$1" $traced --fuel "$units" || return 1
        same "$room/wanted" "$room/transcript" "$1 --fuel $units: the transcript differs" || return 1
    done <"$name.fuel"
}

# Runs one script, and gives 0 where its transcript and its status are as they should be, also with the trace.
compare() {
    name=${1%.script}
    if [ ! -f "$name.transcript" ]; then
        fail "$name.transcript is missing"
        return 1
    fi
    wanted=0
    if [ -f "$name.status" ]; then
        read -r wanted <"$name.status"
    fi
    traced=
    set -- "$1"
    if [ -f "$name.words" ]; then
        while IFS= read -r word || [ -n "$word" ]; do
            if [ "$word" = --trace ]; then
                traced=--trace
            else
                set -- "$@" "$word"
            fi
        done <"$name.words"
    fi
    if ! ends "$@" $traced; then
        difference "$name.transcript" "$room/transcript"
        return 1
    fi
    same "$name.transcript" "$room/transcript" "$1: the transcript differs" || return 1
    if [ -n "$traced" ]; then
        traces "$@" || return 1
    else
        traces "$@" --trace || return 1
    fi
    if [ -f "$name.fuel" ]; then
        spends "$1"
    fi
}

for script in examples/*.script examples/*/*.script; do
    if [ ! -f "$script" ]; then
        fail "there is no $script"
    elif compare "$script"; then
        passed=$((passed + 1))
    fi
done
for file in examples/*.* examples/*/*.*; do
    case $file in
    *.script | *.md) ;;
    *.transcript | *.status | *.words | *.fuel)
        [ -f "${file%.*}.script" ] || fail "$file has no script"
        ;;
    *) fail "$file is none of a script's files" ;;
    esac
done

# Rows of words, quoted as for a shell, and behind ` => ` what comes of `create $a div` with them: the status, and the
# lines of the transcript. The script wants two units of fuel. Refused words write nothing but the usage text, to
# standard error, and no others write there.
printf 'create $a div\n' >"$room/script"
while IFS= read -r row; do
    eval "set -- ${row% => *}"
    "$program" "$@" <"$room/script" >"$room/transcript" 2>"$room/usage"
    given="$?$(sed 's,^, / ,' "$room/transcript" | tr -d '\n')"
    lines=$(grep -c -e 'from standard input' -e '--fuel <N>' -e '--boundary <T>' -e '--url <U>' -e '--trace' -e '--make <N>' "$room/usage")
    case $given in
        2) [ "$lines" -ge 6 ] || fail "the words ${row% => *}: the usage text lacks a line" ;;
        *) [ ! -s "$room/usage" ] || fail "the words ${row% => *}: standard error has $(cat "$room/usage")" ;;
    esac
    if [ "$given" != "${row#* => }" ]; then
        fail "the words ${row% => *}: expected ${row#* => }, got $given"
    fi
done <<'END'
 => 0 / 1: #2
--trace => 0 / ~ open 1 / ~ drain 1 / ~ close 1 / 1: #2
--fuel 2 => 0 / 1: #2
--fuel 2 --trace => 0 / ~ open 1 / ~ drain 1 / ~ close 1 / 1: #2
--trace --fuel 2 => 0 / ~ open 1 / ~ drain 1 / ~ close 1 / 1: #2
--fuel 1 => 3 / fuel
--trace --fuel 1 => 3 / ~ open 1 / fuel
--fuel 200000 => 0 / 1: #2
--fuel 000000002 => 0 / 1: #2
--fuel 000000001 => 3 / fuel
--fuel 0000000002 => 2
--fuel 000000000 => 2
--fuel 0 => 2
--fuel 200001 => 2
--fuel 999999999 => 2
--fuel 4294967298 => 2
--fuel => 2
--fuel '' => 2
--fuel +2 => 2
--fuel -2 => 2
--fuel ' 2' => 2
--fuel '2 ' => 2
--fuel 2. => 2
--fuel 2a => 2
--fuel ٢ => 2
--fuel=2 => 0 / 1: #2
--fuel=1 => 3 / fuel
--fuel= => 2
--fuel==2 => 2
--fuel=0 => 2
--fuel=2 --fuel=2 => 2
--fuel 2 --fuel=2 => 2
--fuel2 => 2
--fuel 2 3 => 2
--fuel --trace => 2
--fuel --fuel 2 => 2
--fuel 2 --fuel => 2
--fuel 2 --fuel 2 => 2
--fuel 2 --trace --fuel 2 => 2
--fuel 2 --trace --trace => 2
--trace --trace => 2
--trace --trace --fuel 2 => 2
--trace --fuel => 2
--trace --fuel 0 => 2
--trace 2 => 2
--trace= => 2
--trace=on => 2
--Trace => 2
--tracé => 2
' --trace' => 2
-trace => 2
trace => 2
2 => 2
-- => 2
-- --trace => 2
--trace -- => 2
'' => 2
--trace '' => 2
--help => 2
--url http://page.test/ => 0 / 1: #2
--url=http://page.test/ => 0 / 1: #2
--url 'https://user@page.test:8443/a?b=c#d' => 0 / 1: #2
--url='http://page.test/?a=b' => 0 / 1: #2
--url ' http://page.test ' => 0 / 1: #2
--url http:page.test => 0 / 1: #2
--url => 2
--url '' => 2
--url= => 2
--url page.test => 2
--url /a => 2
--url http:// => 2
--url http://page.test:65536/ => 2
--url ftp://page.test/ => 2
--url mailto:a@page.test => 2
--url --trace => 2
--url http://page.test/ --url http://page.test/ => 2
--boundary XX => 0 / 1: #2
--boundary=XX => 0 / 1: #2
--boundary 0123456789012345678901234567890123456789012345678901234567890123456789 => 0 / 1: #2
--boundary 01234567890123456789012345678901234567890123456789012345678901234567890 => 2
--boundary => 2
--boundary '' => 2
--boundary= => 2
--boundary X-X => 2
--boundary 'X X' => 2
--boundary É => 2
--boundary --trace => 2
--boundary XX --boundary=XX => 2
--trace --boundary=XX --url http://page.test/ --fuel=2 => 0 / ~ open 1 / ~ drain 1 / ~ close 1 / 1: #2
--url=http://page.test/ --fuel 1 --boundary XX => 3 / fuel
--make 5 => 0 / made 5 / script lines 33 / transcript lines 42 / calls 10 / fuel used 58 / end done
--fuel=57 --make=5 => 3 / made 5 / script lines 33 / transcript lines 41 / calls 10 / fuel used 57 / end fuel
--make 0 => 2
--make 20000 => 2
--make => 2
--make= => 2
--make 5 --make=5 => 2
--make 5 --trace => 2
--trace --make=5 => 2
--fuel trace => 2
END

# Without words there are 20,000 units of fuel, which is ten thousand creations.
awk 'BEGIN { for (i = 0; i <= 10000; i++) print "create $a p" }' >"$room/script"
wanted=3
if ends "$room/script"; then
    printf '10000: #10001\nfuel\n' >"$room/wanted"
    tail -n 2 "$room/transcript" >"$room/last"
    same "$room/wanted" "$room/last" "10,001 creations: the transcript ends otherwise"
fi

# Words that the programs that read traces and bodies refuse: they write nothing but the usage text, to standard error,
# which has each of the texts behind ` => `.
while IFS= read -r row; do
    eval "set -- ${row% => *}"
    reader=$1
    shift
    printf 'a=1' | "crates/$reader/out/$reader" "$@" >"$room/transcript" 2>"$room/usage"
    status=$?
    if [ "$status" != 2 ] || [ -s "$room/transcript" ]; then
        fail "the words ${row% => *}: the status is $status, standard output has $(cat "$room/transcript")"
    fi
    eval "set -- ${row#* => }"
    for text in "$@"; do
        grep -q -F -e "$text" "$room/usage" || fail "the words ${row% => *}: the usage text lacks $text"
    done
done <<'END'
cecheck lawful => cecheck 'from standard input'
cecheck '' => cecheck
formread multipart => formread 'from standard input' 'urlencoded, plain or multipart' BOUNDARY
formread plain plain => formread 'urlencoded, plain or multipart' BOUNDARY
END

# The page of docs/page has the examples as the program gives them.
python3 tools/page_examples.py --check --program "$program" || fail "docs/page/examples.js is stale, or could not be checked"

echo "examples: $passed passed, $failed failed"
[ "$failed" -eq 0 ]
