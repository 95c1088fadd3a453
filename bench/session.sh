#!/bin/sh
# The program `sshc` beside the plain loop (bench/plain) over whole sessions: logins by each method, mixed events of an open
# session, 64 MiB up and down, and many channels; a table of instructions (callgrind) and processor times.
# Build first: `rt run` in crates/sshc. It needs rustc, python3 and valgrind.
# Words: PROGRAM, by default crates/sshc/out/sshc, and the parts of bench/session_table.py.
cd "$(dirname "$0")/.." || exit 1
program=${1:-crates/sshc/out/sshc}
[ $# -gt 0 ] && shift
work=$(mktemp -d)
trap 'rm -rf "$work"' EXIT
rustc --edition 2021 -O -o "$work/plain" bench/plain/main.rs || exit 1
python3 bench/session_table.py 15 "$program" "$work/plain" examples/password-login/known_hosts "$@"
