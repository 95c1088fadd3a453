#!/bin/sh
# Listings of three keys over a Unix socket at 1, 8, 64 and 256 connections: our agents beside Debian's ssh-agent, Go's
# agent (golang.org/x/crypto/ssh/agent) and a plain agent in Rust of the same form. The agent is on one processor and the
# loader, of one thread, on another; the agents take turns, three times. Each agent is started anew for each number of
# connections. An agent that isn't there is left out.
# Build first: `rt run` in crates/sshc_agent_main and in crates/sshc. It needs gcc, rustc, openssh-client and taskset, and
# for Go's agent golang-go and golang-golang-x-crypto-dev.
# Usage: agents.sh [SSHC_AGENT_MAIN [SSHC [SECONDS]]]
cd "$(dirname "$0")/.." || exit 1
lasting=${1:-crates/sshc_agent_main/out/sshc_agent_main}
program=${2:-crates/sshc/out/sshc}
seconds=${3:-1}
here=$(mktemp -d)
trap 'kill $pids 2>/dev/null; rm -r "$here"' EXIT
gcc -O2 -o "$here/agents" bench/agents.c || exit 1
rustc --edition 2021 -O -o "$here/plain-rust" bench/plain/lasting_agent.rs || exit 1
GO111MODULE=off GOPATH=/usr/share/gocode GOCACHE=${GOCACHE:-$here/cache} go build -o "$here/plain-go" bench/plain/lasting_agent.go
for key in 1 2 3; do ssh-keygen -q -t ed25519 -N '' -f "$here/key$key"; done
start() {
    case $1 in
        generations) taskset -c 0 "$lasting" "$here/$1" 2>/dev/null ;;
        serve) taskset -c 0 "$program" agent "$here/$1" ;;
        ssh-agent) taskset -c 0 ssh-agent -D -a "$here/$1" >/dev/null 2>&1 ;;
        rust) taskset -c 0 "$here/plain-rust" "$here/$1" ;;
        go) GOMAXPROCS=1 taskset -c 0 "$here/plain-go" "$here/$1" ;;
    esac
}
agents="ssh-agent rust"
[ -x "$here/plain-go" ] && agents="$agents go"
[ -x "$program" ] && agents="serve $agents"
[ -x "$lasting" ] && agents="generations $agents"
for connections in ${CONNECTIONS:-1 8 64 256}; do
    for turn in 1 2 3; do
        for agent in $agents; do
            rm -f "$here/$agent"
            start $agent &
            pids=$!
            for _ in 1 2 3 4 5 6 7 8 9 10 11 12 13 14 15 16 17 18 19 20; do [ -S "$here/$agent" ] && break; sleep 0.05; done
            # the shell that started it is the process's parent
            pid=$(pgrep -P $pids | head -1)
            pid=${pid:-$pids}
            for key in 1 2 3; do SSH_AUTH_SOCK="$here/$agent" ssh-add -q "$here/key$key"; done
            echo "$connections connections, $agent: $(taskset -c 1 "$here/agents" "$here/$agent" $connections "$seconds" "$pid")"
            kill "$pid" $pids 2>/dev/null
            wait $pids 2>/dev/null
        done
    done
done
