#!/bin/sh
# Holds to the number in VERSION each file that says it: the manifests of the packages, the header for C, a `__version__` of
# Python, and CHANGELOG.md, whose first heading is the newest version. Each manifest says the licence too, as does the header,
# and the licence texts that lie beside a manifest are those at the top: a package is packed, or copied, from its own folder.

LC_ALL=C
export LC_ALL
unset CDPATH
cd "$(dirname "$0")/.." || exit 1
licence='MIT OR Apache-2.0'

passed=0
failed=0
fail() {
    echo "version: $1" >&2
    failed=$((failed + 1))
}

# hold FILE START END WANTED: of all lines of the file, the one between these two patterns says what is wanted.
hold() {
    given=$(sed -n "s/^$2\(.*\)$3\$/\1/p" "$1")
    if [ "$given" = "$4" ]; then
        passed=$((passed + 1))
    else
        fail "$1 says ${given:-nothing}, and not $4"
    fi
}

version=$(cat VERSION) || exit 1
if ! expr "$version" : '[0-9][0-9]*\.[0-9][0-9]*\.[0-9][0-9]*$' >/dev/null; then
    echo "version: VERSION has not one number, as 1.2.3, but: $version" >&2
    exit 1
fi
for file in bindings/*/pyproject.toml bindings/*/Cargo.toml; do
    hold "$file" 'version = "' '"' "$version"
    hold "$file" 'license = "' '"' "$licence"
done
for file in bindings/*/package.json; do
    hold "$file" '  "version": "' '",' "$version"
    hold "$file" '  "license": "' '",' "$licence"
done
hold bindings/c/cepage.h '#define CEPAGE_VERSION "' '"' "$version"
hold bindings/c/cepage.h '.*SPDX-License-Identifier: ' '' "$licence"
for file in $(grep -rl '^__version__ = ' bindings); do
    hold "$file" '__version__ = "' '"' "$version"
done
newest=$(sed -n 's/^## \([^,]*\).*/\1/p' CHANGELOG.md | head -n 1)
if [ "$newest" = "$version" ]; then
    passed=$((passed + 1))
else
    fail "CHANGELOG.md says ${newest:-nothing} first, and not $version"
fi
for manifest in bindings/*/pyproject.toml bindings/*/Cargo.toml bindings/*/package.json; do
    for text in LICENSE-MIT LICENSE-APACHE; do
        if cmp -s "$text" "${manifest%/*}/$text"; then
            passed=$((passed + 1))
        else
            fail "${manifest%/*}/$text is missing, or is not that at the top"
        fi
    done
done

[ "$failed" -eq 0 ] || exit 1
echo "version: $version, $licence: $passed places say so"
