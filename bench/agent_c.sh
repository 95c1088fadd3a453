#!/bin/sh
# The agent in C of clients/agent beside Debian's ssh-agent over a Unix socket: listings of three keys, and signatures by
# keys of three kinds, at 1 and 64 connections. The agent is on one processor and the loader, of one thread, on another;
# the agents take turns, three times. Build first: `make` in clients/agent. It needs gcc, python3, openssh-client and taskset.
# Usage: agent_c.sh SAZH_AGENT [SECONDS]
agent=$1
seconds=${2:-1}
cd "$(dirname "$0")/.." || exit 1
here=$(mktemp -d)
trap 'kill $pids 2>/dev/null; rm -r "$here"' EXIT
gcc -O2 -o "$here/agents" bench/agents.c || exit 1
ssh-keygen -q -t ed25519 -N '' -f "$here/ed25519"
ssh-keygen -q -t ecdsa -b 256 -N '' -f "$here/ecdsa"
ssh-keygen -q -t rsa -b 3072 -N '' -f "$here/rsa"
# a sign request over 200 bytes, as a login has; for RSA by SHA-512
for key in ed25519 ecdsa rsa; do
    python3 -c "
import base64, struct, sys
string = lambda it: struct.pack('>I', len(it)) + it
blob = base64.b64decode(open('$here/$key.pub').read().split()[1])
sys.stdout.buffer.write(string(bytes([13]) + string(blob) + string(bytes(200)) + struct.pack('>I', 4 if '$key' == 'rsa' else 0)))" > "$here/sign-$key"
done
printf '\0\0\0\1\13' > "$here/listing"
for connections in ${CONNECTIONS:-1 64}; do
    for request in listing sign-ed25519 sign-ecdsa sign-rsa; do
        for turn in 1 2 3; do
            for name in sazh-agent ssh-agent; do
                program=$name
                [ $name = sazh-agent ] && program=$agent
                taskset -c 0 "$program" -D -a "$here/socket" > /dev/null 2>&1 &
                pids=$!
                for _ in 1 2 3 4 5 6 7 8 9 10 11 12 13 14 15 16 17 18 19 20; do [ -S "$here/socket" ] && break; sleep 0.05; done
                for key in ed25519 ecdsa rsa; do SSH_AUTH_SOCK="$here/socket" ssh-add -q "$here/$key"; done
                echo "$connections connections, $request, $name: $(taskset -c 1 "$here/agents" "$here/socket" "$connections" "$seconds" $pids "$here/$request")"
                kill $pids
                wait $pids 2>/dev/null
                rm -f "$here/socket"
            done
        done
    done
done
