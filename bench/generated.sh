#!/bin/sh
# A generated script (`sshc gen 7 4000`: 5,533 events) through the program `sshc script` and through a plain loop in Rust
# (bench/plain), which have to write the same lines. Prints the instructions of an event more, beside 100 blocks.
# Build first: `rt run` in crates/sshc. It needs valgrind, rustc and python3.
cd "$(dirname "$0")/.." || exit 1
program=crates/sshc/out/sshc
known=examples/password-login/known_hosts
work=$(mktemp -d) || exit 1
trap 'rm -rf "$work"' EXIT
rustc --edition 2021 -O -o "$work/plain" bench/plain/main.rs || exit 1
for blocks in 100 4000; do
    python3 bench/gen_script.py 7 $blocks >"$work/$blocks" 2>"$work/$blocks.events" || exit 1
done
"$program" script localhost 13265 $known <"$work/4000" >"$work/lines" || exit 1
"$work/plain" script localhost 13265 $known <"$work/4000" | cmp - "$work/lines" || exit 1
count() { valgrind --tool=callgrind --callgrind-out-file=/dev/null "$1" script localhost 13265 $known <"$work/$2" 2>&1 >/dev/null | sed -n 's/.*refs: *//p' | tr -d ,; }
events=$(($(sed 's/ .*//' "$work/4000.events") - $(sed 's/ .*//' "$work/100.events")))
for each in "$program" "$work/plain"; do
    echo "$(basename "$each"): $((($(count "$each" 4000) - $(count "$each" 100)) / events)) instructions an event"
done
