#!/usr/bin/env python3
"""What `sshc_agent_main SOCKET WEIGHT` keeps across many histories, outside the gate: keys, a lifetime, the lock and an open
connection, by `ssh-add` and by frames. It starts and stops the agent itself.

Usage: examples/agent/generations.py COMMAND [WORDS..]
COMMAND runs the program: crates/sshc_agent_main/out/sshc_agent_main after `rt run` there, or before any proof
`rt try --seconds 600 --` there.
"""
import os
import socket
import struct
import subprocess
import sys
import tempfile
import time

# room for some 30 listings on one connection, each of two calls
WEIGHT = 4096
LISTINGS = 2000
LOCK, UNLOCK, SUCCESS, FAILURE, LIST, LISTING = 22, 23, 6, 5, 11, 12


def frame(number, body=b""):
    return struct.pack(">IB", 1 + len(body), number) + body


def text(bytes_):
    return struct.pack(">I", len(bytes_)) + bytes_


def take(stream, count):
    got = b""
    while len(got) < count:
        more = stream.recv(count - len(got))
        if not more:
            raise SystemExit("the agent closed the connection")
        got += more
    return got


def ask(stream, number, body=b""):
    stream.sendall(frame(number, body))
    return take(stream, struct.unpack(">I", take(stream, 4))[0])


def held(stream):
    """How many keys a listing has; None where it is refused."""
    answer = ask(stream, LIST)
    return struct.unpack(">I", answer[1:5])[0] if answer[0] == LISTING else None


def main():
    command = sys.argv[1:]
    with tempfile.TemporaryDirectory() as folder:
        path = f"{folder}/agent.sock"
        with open(f"{folder}/told", "w+") as told:
            process = subprocess.Popen([*command, path, str(WEIGHT)], stdin=subprocess.DEVNULL, stdout=subprocess.DEVNULL, stderr=told)
            while not os.path.exists(path):
                if process.poll() is not None:
                    raise SystemExit(f"the agent ended with status {process.returncode}")
                time.sleep(0.1)
            time.sleep(0.5)
            show(path, folder)
            process.terminate()
            process.wait()
            told.seek(0)
            lines = told.read().splitlines()
        closed = [line for line in lines if line.startswith("history closed")]
        print(f"{len(closed)} histories were closed, each compared; the first: {closed[0] if closed else None}")
        print(f"other lines: {[line.replace(folder, '..') for line in lines if line not in closed]}")


def show(path, folder):
    environment = {**os.environ, "SSH_AUTH_SOCK": path}
    for name in ("lasting", "short"):
        subprocess.run(["ssh-keygen", "-q", "-t", "ed25519", "-N", "", "-C", name, "-f", f"{folder}/{name}"], check=True)
    subprocess.run(["ssh-add", "-q", f"{folder}/lasting"], env=environment, check=True)
    started = time.monotonic()
    subprocess.run(["ssh-add", "-q", "-t", "5", f"{folder}/short"], env=environment, check=True)
    stream = socket.socket(socket.AF_UNIX)
    stream.connect(path)
    counts = {held(stream) for _ in range(LISTINGS)}
    print(f"{LISTINGS} listings on one connection: keys {sorted(counts, key=str)}")
    if time.monotonic() - started < 4:
        print(f"lock: {ask(stream, LOCK, text(b'word'))[0] == SUCCESS}")
        refused = {held(stream) for _ in range(LISTINGS)}
        print(f"{LISTINGS} listings while it is locked: {refused}")
        print(f"an unlock with another word: {ask(stream, UNLOCK, text(b'other'))[0] == SUCCESS}")
        print(f"an unlock with its word: {ask(stream, UNLOCK, text(b'word'))[0] == SUCCESS}")
    time.sleep(max(0, started + 4.5 - time.monotonic()))
    print(f"4.5 seconds after the key with a lifetime of 5 was added: {held(stream)} keys")
    time.sleep(max(0, started + 6 - time.monotonic()))
    for _ in range(100):
        held(stream)
    print(f"after 6 seconds: {held(stream)} keys")
    listed = subprocess.run(["ssh-add", "-l"], env=environment, capture_output=True, text=True)
    print(f"ssh-add -l: {[line.split()[2] for line in listed.stdout.splitlines()]}")


if __name__ == "__main__":
    main()
