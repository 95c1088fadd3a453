#!/bin/sh
# The calls of the C library alone (bench/library.c): 1 GiB of a channel down and up, from memory, five times each.
# Build first: python3 bindings/archive.py. It needs cc. Words: ARCHIVE, by default the one that bindings/archive.py makes.
cd "$(dirname "$0")/.." || exit 1
archive=${1:-crates/sazhonthil/out/libsazhonthil.a}
work=$(mktemp -d)
trap 'rm -rf "$work"' EXIT
cc -O2 -Wall -Wextra -Ibindings/include bench/library.c bindings/runtime/runtime.c "$archive" -o "$work/library" || exit 1
for run in 1 2 3 4 5; do "$work/library"; done
