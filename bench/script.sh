#!/bin/sh
# A login script with a long run of requests, through the program `sshc` and through a plain loop in Rust (bench/plain),
# and 100,000 events over memory through `sshc_bench`; the best of 25 runs each, with the peak of memory.
# Build first: `rt run` in crates/sshc (its stored run) and in crates/sshc_bench. It needs rustc and python3.
cd "$(dirname "$0")/.." || exit 1
work=$(mktemp -d)
trap 'rm -rf "$work"' EXIT
known=examples/password-login/known_hosts
rustc --edition 2021 -O -o "$work/plain" bench/plain/main.rs || exit 1
for events in 1000 8000; do
    python3 bench/make_script.py "$events" >"$work/script"
    crates/sshc/out/sshc script localhost 13265 "$known" <"$work/script" >"$work/lines"
    "$work/plain" script localhost 13265 "$known" <"$work/script" | cmp - "$work/lines" || exit 1
    echo "$events events, $(wc -c <"$work/script") bytes; $(wc -l <"$work/lines") lines, $(wc -c <"$work/lines") bytes"
    for output in /dev/null "$work/file" -; do
        echo " into ${output##*/} (- is a pipe)"
        printf '  sshc: '
        python3 bench/best.py 25 "$work/script" "$output" crates/sshc/out/sshc script localhost 13265 "$known"
        printf '  plain, a write a line: '
        python3 bench/best.py 25 "$work/script" "$output" "$work/plain" script localhost 13265 "$known"
        printf '  plain, buffered: '
        python3 bench/best.py 25 "$work/script" "$output" "$work/plain" script localhost 13265 "$known" buffered
    done
done
for events in 8000 100000; do
    python3 bench/best.py 25 /dev/null - crates/sshc_bench/out/sshc_bench script "$events"
done
if command -v strace >/dev/null; then
    for program in crates/sshc/out/sshc "$work/plain"; do
        echo "system calls of ${program##*/} over 8000 events:"
        strace -f -c -o "$work/calls" "$program" script localhost 13265 "$known" <"$work/script" >/dev/null
        head -8 "$work/calls"
    done
fi
