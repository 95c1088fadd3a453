#!/bin/sh
# Instructions an event of `sshc gen 7 100000`: its script is made, run over memory, and its record lines are counted.
# Build the program first: `rt run` in crates/sshc. It needs valgrind. SEED and BLOCKS name another script.
cd "$(dirname "$0")/.." || exit 1
program=crates/sshc/out/sshc
seed=${SEED:-7} blocks=${BLOCKS:-100000}
told=$("$program" gen "$seed" "$blocks") || exit 1
echo "$told"
events=$(echo "$told" | sed -n 's/^events //p')
instructions=$(valgrind --tool=callgrind --callgrind-out-file=/dev/null "$program" gen "$seed" "$blocks" 2>&1 >/dev/null | sed -n 's/.*refs: *//p' | tr -d ,)
echo "$((instructions / events)) instructions an event"
sh -c "time $program gen $seed $blocks" 2>&1 | sed -n 's/^\(real\|user\|sys\)/  \1/p'
