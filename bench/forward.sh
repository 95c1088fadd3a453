#!/bin/sh
# Events of forwards through `sshc_forward_main` and through a plain loop in Rust (bench/forward.rs): 1 GiB on one pair in
# pieces of 32 KiB, and 10,000 pairs of small pieces; the best of RUNS runs each (5), with the peak of memory.
# Build first: `rt run` in crates/sshc_forward_main (its stored run). It needs rustc and python3, and 3 GB of disk.
cd "$(dirname "$0")/.." || exit 1
runs=${RUNS:-5}
work=$(mktemp -d)
trap 'rm -rf "$work"' EXIT
program=crates/sshc_forward_main/out/sshc_forward_main
rustc --edition 2021 -O -o "$work/plain" bench/forward.rs || exit 1
while read -r events; do
    # the words of a row are arguments
    python3 bench/forward_events.py $events >"$work/events" || exit 1
    "$program" <"$work/events" >"$work/lines"
    "$work/plain" <"$work/events" | cmp - "$work/lines" || exit 1
    echo "$events: $(wc -c <"$work/events") bytes of events, $(wc -l <"$work/lines") lines"
    rm "$work/lines"
    printf '  sshc_forward_main: '
    python3 bench/best.py "$runs" "$work/events" /dev/null "$program"
    printf '  plain, a write a line: '
    python3 bench/best.py "$runs" "$work/events" /dev/null "$work/plain"
    printf '  plain, buffered: '
    python3 bench/best.py "$runs" "$work/events" /dev/null "$work/plain" buffered
done <<'ROWS'
one 1024
pairs 10000 10
ROWS
