#!/bin/sh
# Listings a second over a Unix socket with 1, 8 and 64 connections, and the memory with 256: sshc agent beside
# Debian's ssh-agent, client and agent on the same two processors, the two agents in turn, three times.
# Build first: `rt run` in crates/sshc. It needs gcc, openssh-client and taskset.
cd "$(dirname "$0")/.." || exit 1
program=${1:-crates/sshc/out/sshc}
here=$(mktemp -d)
two="taskset -c 0,1"
trap 'kill $ours $theirs 2>/dev/null; rm -r "$here"' EXIT
gcc -O2 -pthread -o "$here/listings" bench/listings.c || exit 1
ssh-keygen -q -t ed25519 -N '' -f "$here/key"
$two "$program" agent "$here/ours" &
ours=$!
$two ssh-agent -D -a "$here/theirs" >/dev/null &
theirs=$!
sleep 1
for agent in ours theirs; do SSH_AUTH_SOCK="$here/$agent" ssh-add -q "$here/key"; done
memory() { sed -n 's/^VmRSS: *//p' "/proc/$1/status"; }
for agent in ours theirs; do
    eval "process=\$$agent"
    before=$(memory "$process")
    $two "$here/listings" "$here/$agent" 256 0.1 >"$here/rate" &
    asking=$!
    sleep 0.7
    echo "256 connections, $agent: $before before, $(memory "$process") with them"
    wait $asking
done
for connections in 1 8 64; do
    for turn in 1 2 3; do
        for agent in ours theirs; do
            echo "$connections connections, $agent: $($two "$here/listings" "$here/$agent" "$connections" 1) a second"
        done
    done
done
