#!/usr/bin/env python3
"""Runs `sshc agent SOCKET` beside Debian's ssh-agent, outside the gate: the same calls of ssh-add to both, and 64 connections
of mixed garbage at once, and prints both answers. It starts and stops both agents itself, and needs openssh-client.

Usage: examples/agent/run.py COMMAND [WORDS..]
COMMAND runs the program: crates/sshc/out/sshc after `rt run` there, or before any proof `rt try --seconds 600 --` there.
"""
import os
import random
import socket
import struct
import subprocess
import sys
import tempfile
import threading
import time

CONNECTIONS = 64
PASSPHRASE = "a passphrase"
LIST, LISTING, FAILURE = 11, 12, 5


class Agent:
    """An agent at a socket of its own."""

    def __init__(self, name, folder, command):
        self.name, self.path = name, f"{folder}/{name}.sock"
        self.process = subprocess.Popen([*command, self.path], stdout=subprocess.DEVNULL, stderr=subprocess.DEVNULL)
        for _ in range(3000):
            if os.path.exists(self.path):
                return
            time.sleep(0.1)
        raise SystemExit(f"{name} made no socket")

    def connect(self):
        stream = socket.socket(socket.AF_UNIX)
        stream.settimeout(1)
        stream.connect(self.path)
        return stream

    def stop(self):
        self.process.terminate()
        self.process.wait()


def ssh_add(agent, folder, words):
    """What ssh-add prints, in one line, with its status where it isn't 0."""
    env = {**os.environ, "SSH_AUTH_SOCK": agent.path, "SSH_ASKPASS": f"{folder}/askpass", "SSH_ASKPASS_REQUIRE": "force"}
    ran = subprocess.run(["ssh-add", *words], env=env, capture_output=True, text=True, stdin=subprocess.DEVNULL)
    said = " / ".join(line for line in (ran.stdout + ran.stderr).replace(f"{folder}/", "").splitlines() if line)
    return said if ran.returncode == 0 else f"{said} (status {ran.returncode})"


def framed(body):
    return struct.pack(">I", len(body)) + body


def garbage(number):
    """What connection `number` sends, with the name of its kind."""
    noise = random.Random(number)
    kinds = [
        ("an unknown type", framed(bytes([noise.randrange(40, 256)]) + noise.randbytes(20))),
        ("an empty frame", framed(b"")),
        ("a length above the limit", struct.pack(">I", noise.randrange(300_000, 2**32)) + noise.randbytes(50)),
        ("a frame that is cut off", framed(bytes([LIST]))[:-1]),
        ("a sign request that can't be read", framed(bytes([13]) + noise.randbytes(9))),
        ("a key that can't be read", framed(bytes([17]) + noise.randbytes(60))),
        ("an unlock of what isn't locked", framed(bytes([23]) + framed(noise.randbytes(5)))),
        ("three listings in one piece", framed(bytes([LIST])) * 3),
    ]
    return kinds[number % len(kinds)]


def answers(stream):
    """The kinds of all answers within a second, and whether the agent closed the connection."""
    received, is_closed = b"", True
    try:
        while piece := stream.recv(65536):
            received += piece
    except ConnectionResetError:
        pass
    except TimeoutError:
        is_closed = False
    kinds = []
    while len(received) >= 5:
        (length,) = struct.unpack(">I", received[:4])
        kinds.append({LISTING: "listing", FAILURE: "failure"}.get(received[4], f"type {received[4]}"))
        received = received[4 + length :]
    return ", ".join(kinds + ["closed"] * is_closed) or "no answer"


def send_garbage(agent):
    """What the connections of each kind got, where all are open at once."""
    streams = [agent.connect() for _ in range(CONNECTIONS)]
    got = [None] * CONNECTIONS

    def run(number):
        with streams[number] as stream:
            stream.sendall(garbage(number)[1])
            got[number] = answers(stream)

    threads = [threading.Thread(target=run, args=(number,)) for number in range(CONNECTIONS)]
    for thread in threads:
        thread.start()
    for thread in threads:
        thread.join()
    by_kind = {}
    for number in range(CONNECTIONS):
        by_kind.setdefault(garbage(number)[0], set()).add(got[number])
    return {kind: " or ".join(sorted(outcomes)) for kind, outcomes in by_kind.items()}


def show(what, by_agent):
    print(what)
    for name, said in by_agent:
        print(f"  {name:9} {said}")


def compare(agents, folder):
    key, other = f"{folder}/key", f"{folder}/other"
    for path in (key, other):
        subprocess.run(["ssh-keygen", "-q", "-t", "ed25519", "-N", "", "-C", "a key", "-f", path], check=True)
    with open(f"{folder}/askpass", "w") as file:
        file.write(f"#!/bin/sh\necho '{PASSPHRASE}'\n")
    os.chmod(f"{folder}/askpass", 0o700)
    calls = [["-l"], [key], ["-l"], ["-x"], ["-l"], ["-X"], ["-l"], ["-t", "1", other], ["-l"], ["sleep"], ["-l"]]
    calls += [["-c", other], ["-l"], ["-d", other], ["-l"], ["-d", other], ["-D"], ["-l"]]
    for words in calls:
        if words == ["sleep"]:
            time.sleep(1.5)
            print("after 1.5 seconds")
        else:
            named = " ".join(word.replace(f"{folder}/", "") for word in words)
            show(f"ssh-add {named}", [(agent.name, ssh_add(agent, folder, words)) for agent in agents])
    outcomes = [(agent.name, send_garbage(agent)) for agent in agents]
    for kind in outcomes[0][1]:
        show(f"{CONNECTIONS} connections, those with {kind}", [(name, by_kind[kind]) for name, by_kind in outcomes])
    show("ssh-add -l", [(agent.name, ssh_add(agent, folder, ["-l"])) for agent in agents])


def main():
    if len(sys.argv) < 2:
        raise SystemExit(__doc__)
    with tempfile.TemporaryDirectory() as folder:
        agents = [Agent("sshc", folder, [*sys.argv[1:], "agent"]), Agent("ssh-agent", folder, ["ssh-agent", "-D", "-a"])]
        try:
            compare(agents, folder)
        finally:
            for agent in agents:
                agent.stop()


main()
