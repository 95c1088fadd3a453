#!/usr/bin/env python3
"""Requests a second over one connection: to Debian's ssh-agent alone, through a plain relay of bytes in Python, and through
the proxy; then the processor time and the proxy's memory over many requests. It needs openssh-client and taskset.

Usage: bench/proxy.py PROGRAM [REQUESTS] (1,000,000 where none is said)
Build first: `rt run` in crates/sshc_proxy_main. The agent, the proxy or relay, and this client run each on a processor
of its own.
"""
import os
import socket
import sys
import tempfile
import threading
import time

sys.path.insert(0, os.path.join(os.path.dirname(os.path.abspath(__file__)), "../examples/proxy"))
from proxied import LIST, Agent, ask, binding, kind, make_key, sign_request, start_proxy, toy_signature, write_policy

SESSION = b"a session identifier"
SECONDS = 2
TURNS = 3


def rate(stream, frame, wanted):
    """How often a second the frame is answered by this kind."""
    until, count = time.monotonic() + SECONDS, 0
    while time.monotonic() < until:
        for _ in range(50):
            if kind(ask(stream, frame)) != wanted:
                raise SystemExit(f"not a {wanted}")
        count += 50
    return count / SECONDS


def relayed(agent):
    """A stream through a child process that passes bytes on as they come."""
    ours, theirs = socket.socketpair()
    child = os.fork()
    if child == 0:
        os.sched_setaffinity(0, {1})
        ours.close()
        upstream = agent.connect()

        def pump(one, other):
            while piece := one.recv(262148):
                other.sendall(piece)

        threading.Thread(target=pump, args=(upstream, theirs), daemon=True).start()
        pump(theirs, upstream)
        os._exit(0)
    theirs.close()
    return ours


def worked(process):
    """The processor seconds that a process has had."""
    with open(f"/proc/{process.pid}/stat") as file:
        parts = file.read().rpartition(")")[2].split()
    return (int(parts[11]) + int(parts[12])) / os.sysconf("SC_CLK_TCK")


def memory(process):
    with open(f"/proc/{process.pid}/status") as file:
        return next(line.split()[1] for line in file if line.startswith("VmRSS"))


def main():
    if len(sys.argv) < 2:
        raise SystemExit(__doc__)
    requests = int(sys.argv[2]) if len(sys.argv) > 2 else 1_000_000
    with tempfile.TemporaryDirectory() as folder:
        key, host = make_key(folder, "key"), make_key(folder, "host")
        agent = Agent(folder, ["key"])
        os.sched_setaffinity(agent.process.pid, {0})
        policy = write_policy(folder, [(key, host)])
        process, proxy = start_proxy(["taskset", "-c", "1", sys.argv[1]], agent, policy)
        os.sched_setaffinity(0, {2})
        ways = [("agent alone", agent.connect()), ("plain relay", relayed(agent)), ("proxy", proxy)]
        try:
            if kind(ask(proxy, binding(host, SESSION, toy_signature(host, SESSION)))) != "success":
                raise SystemExit("not bound")
            for what, frame, wanted in (("listings", bytes([LIST]), "listing"),
                                        ("signatures", sign_request(key, b"bytes"), "signature")):
                for _ in range(TURNS):
                    for name, stream in ways:
                        print(f"{what}, {name}: {rate(stream, frame, wanted):.0f} a second", flush=True)
            before = memory(process)
            for what, frame, count in (("signatures", sign_request(key, b"bytes"), requests // 20), ("listings", bytes([LIST]), requests)):
                had = [worked(one) for one in (agent.process, process)]
                for _ in range(count):
                    ask(proxy, frame)
                took = [1e6 * (worked(one) - before) / count for one, before in zip((agent.process, process), had)]
                print(f"processor time of {count} {what}, each: agent {took[0]:.1f} us, proxy {took[1]:.1f} us")
            print(f"memory of the proxy: {before} kB before, {memory(process)} kB after {requests} listings")
        finally:
            agent.stop()
            process.terminate()


main()
