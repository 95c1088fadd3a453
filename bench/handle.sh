#!/bin/sh
# The handle over a transport in memory: 100,000 pings from one thread, and from eight with an eighth of them each, three turns.
# Build first: `rt run` in crates/sshc_bench.
cd "$(dirname "$0")/.." || exit 1
program=crates/sshc_bench/out/sshc_bench
for turn in 1 2 3; do
    for threads in 1 8; do
        echo "$threads threads, turn $turn:"
        sh -c "time $program pings $threads 100000" 2>&1 | grep -v '^$' | sed 's/^/  /'
    done
done
