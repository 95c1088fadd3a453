#!/bin/sh
# A session whose transport another thread fills: calls one after the other with and without a waker, beside threads that
# wait (and the threads alone, with no call), and twenty idle seconds; and the same passing by a plain channel. Three turns.
# Build first: `rt run` in crates/sshc_bench.
cd "$(dirname "$0")/.." || exit 1
program=crates/sshc_bench/out/sshc_bench
for turn in 1 2 3; do
    for words in 'channel 20000' 'woken 20000' 'polled 500' 'beside 1 0' 'beside 1 20000' 'beside 10 0' 'beside 10 20000' \
        'beside 100 0' 'beside 100 20000' 'beside 1000 0' 'beside 1000 20000' 'idle 20000' 'idle-polled 20000'; do
        echo "$words, turn $turn:"
        # shellcheck disable=SC2086
        sh -c "time $program $words" 2>&1 | grep -v '^$' | sed 's/^/  /'
    done
done
