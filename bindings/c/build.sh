#!/bin/sh
# build.sh [FOLDER]: makes of the archive of the crate cepage_c, in FOLDER (bindings/c/out without it),
#
#   libcepage.so   the shared object, which Python loads
#   libcepage.a    one object with the one call and the heap that it wants, for C and for Rust
#   cepage.node    the addon, where Node's headers are there
#
# and beside them the licence texts and THIRD-PARTY.md, which go with them wherever they go.
#
# The archive is crates/cepage_c/out/libcepage_c.a, as `rt lib` in crates/cepage_c makes it, or what CEPAGE_C_ARCHIVE names. The
# heap is that of the Rattle kit, beside `rt`, or what CEPAGE_C_HEAP names.
set -e
unset CDPATH
top=$(cd "$(dirname "$0")/../.." && pwd)
here=$top/bindings/c
folder=${1:-$here/out}
archive=${CEPAGE_C_ARCHIVE:-$top/crates/cepage_c/out/libcepage_c.a}
CC=${CC:-cc}

command -v "${CC%% *}" >/dev/null || { echo "build: there is no $CC" >&2; exit 1; }
if [ ! -f "$archive" ]; then
    echo "build: there is no $archive: run rt lib in crates/cepage_c" >&2
    exit 1
fi
heap=$CEPAGE_C_HEAP
if [ -z "$heap" ]; then
    rt=$(command -v rt) || { echo "build: there is no rt, beside which the heap lies: name it by CEPAGE_C_HEAP" >&2; exit 1; }
    heap=$(dirname "$(dirname "$(readlink -f "$rt")")")/c/liblibc_c.a
fi
mkdir -p "$folder"
cp "$top/LICENSE-MIT" "$top/LICENSE-APACHE" "$top/THIRD-PARTY.md" "$folder/"

$CC -shared -o "$folder/libcepage.so" -Wl,--version-script="$here/cepage.map" \
    -Wl,--whole-archive "$archive" -Wl,--no-whole-archive "$heap" -Wl,--no-undefined -Wl,-z,relro,-z,now

# Of all names the call alone stays one that other objects see.
ld -r -o "$folder/cepage.o" --whole-archive "$archive" "$heap"
objcopy --keep-global-symbol=cepage_run "$folder/cepage.o"
rm -f "$folder/libcepage.a"
ar rcs "$folder/libcepage.a" "$folder/cepage.o"
rm "$folder/cepage.o"
echo "build: $folder/libcepage.so, $folder/libcepage.a"

node=$(command -v node) || node=
for headers in ${node:+"$(dirname "$(dirname "$(readlink -f "$node")")")/include/node"} /usr/include/node; do
    [ ! -f "$headers/node_api.h" ] || break
done
if [ -z "$node" ] || [ ! -f "$headers/node_api.h" ]; then
    echo "build: no addon, since node or its headers are missing"
    exit 0
fi
$CC -O2 -Wall -Wextra -fPIC -shared -o "$folder/cepage.node" -I"$headers" "$here/addon.c" "$folder/libcepage.a" \
    -Wl,--exclude-libs,ALL -Wl,-z,relro,-z,now
echo "build: $folder/cepage.node"
