#!/bin/sh
# The agent core over memory: instructions and time of a listing and of a signature with 1, 100 and 10,000 keys.
# Build first: `rt run` in crates/sshc_bench. It needs valgrind.
cd "$(dirname "$0")/.." || exit 1
program=crates/sshc_bench/out/sshc_bench
count() { valgrind --tool=callgrind --callgrind-out-file=/dev/null "$program" "$@" 2>&1 >/dev/null | sed -n 's/.*refs: *//p' | tr -d ,; }
for word in list sign; do
    for keys in 1 100 1000; do
        few=$(count "$word" "$keys" 100)
        many=$(count "$word" "$keys" 1100)
        echo "$word, $keys keys: $(((many - few) / 1000)) instructions each"
    done
done
for word in list sign; do
    for keys in 1 100 10000; do
        times=100000
        [ "$word $keys" = "list 10000" ] && times=1000
        echo "$word, $keys keys, $times times:"
        sh -c "time $program $word $keys $times" 2>&1 | grep -v '^$' | sed 's/^/  /'
    done
done
