#!/bin/sh
# tools/bindings_trials.sh [CALLS]: trials of the library, which bindings/c/build.sh makes of the archive of cepage_c: 1,000 calls
# under valgrind; each request for memory of some scripts refused in turn; eight threads at once; and how often a second, of CALLS
# calls (2,000 without it), C, Python, Node and Rust run a script of 20 lines, beside starting the program. CEPAGE names another
# program than that of the gate. What is not there is left out, and named. They stand outside of the gate.

unset CDPATH
cd "$(dirname "$0")/.." || exit 1
calls=${1:-2000}
CEPAGE=${CEPAGE:-$(pwd)/crates/cepage/out/cepage}
LC_ALL=C.UTF-8
PYTHONDONTWRITEBYTECODE=1
export CEPAGE LC_ALL PYTHONDONTWRITEBYTECODE
archive=${CEPAGE_C_ARCHIVE:-crates/cepage_c/out/libcepage_c.a}
twenty=bindings/c/trials/twenty.script
room=$(mktemp -d) || exit 1
trap 'rm -rf "$room"' EXIT
trap 'exit 1' HUP INT TERM
sh bindings/c/build.sh "$room" || exit 1

there() {
    command -v "$1" >/dev/null && return
    echo "trials: left out: $2: there is no $1"
    return 1
}

for trial in program many threads rate; do
    cc -std=gnu11 -O2 -Wall -Wextra -pthread -o "$room/$trial" "bindings/c/trials/$trial.c" "$room/libcepage.a" || exit 1
done
# With the heap of the trial in place of the kit's.
cc -std=gnu11 -O2 -Wall -Wextra -o "$room/refuse" bindings/c/trials/refuse.c "$archive" || exit 1

failed=0
tried() {
    "$@" || failed=$((failed + 1))
}

# A script whose transcript is longer than what is gathered before it is written.
awk 'BEGIN {
    for (i = 0; i < 1000; i++) value = value "v"
    print "create $a p"
    print "setattr $a k " value
    for (i = 0; i < 200; i++) print "ask attr $a k"
}' >"$room/long.script"

for script in examples/review.script examples/tabs.script examples/upgrades.script examples/reentry.script "$room/long.script"; do
    echo "$(basename "$script"):"
    if there valgrind "what valgrind says"; then
        tried valgrind --leak-check=full --show-leak-kinds=all --error-exitcode=9 --log-file="$room/valgrind" \
            "$room/many" 1000 <"$script"
        sed -n 's,^==[0-9]*==  *\(total heap usage\|in use at exit\),    valgrind: \1,p; s,^==[0-9]*== \(ERROR SUMMARY\),    valgrind: \1,p' "$room/valgrind"
    fi
    tried "$room/refuse" <"$script"
    tried "$room/threads" 1000 <"$script"
done

echo "$twenty:"
tried "$room/rate" "$calls" "$CEPAGE" <"$twenty"
! there python3 Python || tried python3 tools/bindings_rate.py "$twenty" "$calls" "$room/libcepage.so"
[ ! -f "$room/cepage.node" ] || tried node tools/bindings_rate.mjs "$twenty" "$calls" "$room/cepage.node"
if there cargo Rust; then
    cp -R bindings/rust "$room/rust"
    CEPAGE_ARCHIVE=$room/libcepage.a CARGO_TARGET_DIR=$room/target cargo run --offline --quiet --release \
        --manifest-path "$room/rust/Cargo.toml" --example rate -- "$twenty" "$calls" || failed=$((failed + 1))
fi
echo "trials: $failed failed"
[ "$failed" -eq 0 ]
