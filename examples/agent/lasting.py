#!/usr/bin/env python3
"""What an agent of this repository bears, outside the gate: more connections than it has descriptors for, and any umask;
and that it refuses a folder that others enter. It starts and stops the agent itself.

Usage: examples/agent/lasting.py COMMAND [WORDS..]
COMMAND and WORDS run the agent, with the socket's path behind them: crates/sshc/out/sshc agent, or
crates/sshc_agent_main/out/sshc_agent_main, after `rt run` in that crate; before any proof `rt try --seconds 600 --` in
crates/sshc_agent_main, or with `agent` behind it in crates/sshc.
"""
import os
import resource
import select
import socket
import stat
import struct
import subprocess
import sys
import tempfile
import time

DESCRIPTORS = 64
CONNECTIONS = 200
LIST = struct.pack(">IB", 1, 11)
EMPTY_LISTING = struct.pack(">IBI", 5, 12, 0)
NOT_BOUND = 46


def start(command, path, umask=0o077):
    return subprocess.Popen(
        [*command, path], umask=umask, stdin=subprocess.DEVNULL, stdout=subprocess.DEVNULL, stderr=subprocess.DEVNULL
    )


def await_socket(process, path):
    for _ in range(3000):
        if os.path.exists(path) and stat.S_IMODE(os.stat(path).st_mode) == 0o600:
            return
        if process.poll() is not None:
            raise SystemExit(f"the agent ended with status {process.returncode}")
        time.sleep(0.1)
    raise SystemExit("the agent made no socket")


def descendants(pid):
    """The process and those that it started, the latest last."""
    found = [pid]
    for parent in found:
        for thread in os.listdir(f"/proc/{parent}/task"):
            with open(f"/proc/{parent}/task/{thread}/children") as file:
                found += [int(word) for word in file.read().split()]
    return found


def server(process, path):
    """The process that has the socket's path as its last argument: `rt try` starts it, and `sshc` is it."""
    named = []
    for pid in descendants(process.pid):
        with open(f"/proc/{pid}/cmdline", "rb") as file:
            words = file.read().split(b"\0")
        if path.encode() in words:
            named.append(pid)
    return named[-1]


def descriptors(pid):
    return len(os.listdir(f"/proc/{pid}/fd"))


def connect(path):
    stream = socket.socket(socket.AF_UNIX)
    stream.connect(path)
    return stream


def answered(streams, seconds):
    """The streams that a listing is answered on within some seconds."""
    waiting, found, end = list(streams), [], time.monotonic() + seconds
    while waiting and time.monotonic() < end:
        for stream in select.select(waiting, [], [], 0.2)[0]:
            if stream.recv(64) == EMPTY_LISTING:
                found.append(stream)
            waiting.remove(stream)
    return found


def show_connections(command, folder):
    path = f"{folder}/connections.sock"
    process = start(command, path)
    await_socket(process, path)
    pid = server(process, path)
    before = descriptors(pid)
    idle = [connect(path) for _ in range(10)]
    time.sleep(1)
    print(f"10 idle connections: {descriptors(pid) - before} descriptors more")
    for stream in idle:
        stream.close()
    time.sleep(1)
    print(f"after they went: {descriptors(pid) - before} descriptors more")

    resource.prlimit(pid, resource.RLIMIT_NOFILE, (DESCRIPTORS, DESCRIPTORS))
    streams = [connect(path) for _ in range(CONNECTIONS)]
    for stream in streams:
        stream.sendall(LIST)
    first = answered(streams, 3)
    print(f"{CONNECTIONS} connections at a limit of {DESCRIPTORS} descriptors: {len(first)} answered")
    again = list(first)
    for stream in again:
        stream.sendall(LIST)
    print(f"a second listing on those: {len(answered(again, 3))} answered")
    waiting = [stream for stream in streams if stream not in first]
    served = len(first)
    while waiting:
        for stream in first:
            stream.close()
        first = answered(waiting, 3)
        if not first:
            break
        served += len(first)
        waiting = [stream for stream in waiting if stream not in first]
    print(f"as those went, the next: {served} answered in all")
    for stream in first:
        stream.close()
    stream = connect(path)
    stream.sendall(LIST)
    print(f"a connection after all that: {'answered' if answered([stream], 5) else 'not answered'}")
    print(f"the agent: {'runs' if process.poll() is None else f'ended with status {process.returncode}'}")
    os.kill(pid, 15)
    process.wait()


def show_modes(command, folder):
    for umask in (0o000, 0o077, 0o777):
        path = f"{folder}/umask{umask:03o}.sock"
        process = start(command, path, umask)
        await_socket(process, path)
        print(f"umask {umask:03o}: mode {stat.S_IMODE(os.stat(path).st_mode):04o}")
        os.kill(server(process, path), 15)
        process.wait()
    for mode in (0o700, 0o711, 0o755, 0o777):
        place = f"{folder}/{mode:03o}"
        os.mkdir(place)
        os.chmod(place, mode)
        path = f"{place}/socket"
        process = start(command, path)
        for _ in range(3000):
            if process.poll() is not None or (os.path.exists(path) and stat.S_IMODE(os.stat(path).st_mode) == 0o600):
                break
            time.sleep(0.1)
        if process.poll() is None:
            print(f"a folder of mode {mode:04o}: serves")
            os.kill(server(process, path), 15)
            process.wait()
        else:
            print(f"a folder of mode {mode:04o}: ended with status {process.returncode}, {os.listdir(place) or 'no socket'}")


def main():
    if len(sys.argv) < 2:
        raise SystemExit(__doc__)
    with tempfile.TemporaryDirectory() as folder:
        show_connections(sys.argv[1:], folder)
        if sys.argv[1] != "rt":
            show_modes(sys.argv[1:], folder)


main()
