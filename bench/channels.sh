#!/bin/sh
# Runs over one channel table (crates/sshc_bench/README.md says what each does); the best of 25 runs each. Build the program
# first: `rt run` in crates/sshc_bench.
cd "$(dirname "$0")/.." || exit 1
while read -r run; do
    # the words of a run are three arguments
    python3 bench/best.py 25 /dev/null - crates/sshc_bench/out/sshc_bench $run </dev/null
done <<'RUNS'
channels 1 32768
channels 100 32768
channels 10000 32768
channels 10000 320000
packets 32768 32768
packets 1000 3277
packets 1 33
grants 1 32768
grants 10000 32768
flushes 100 32768
closes 1 32768
oldest-first 1000 0
oldest-first 10000 0
oldest-first 100000 0
events 1 100000
events 10000 100000
events 10000 1000000
RUNS
