#!/usr/bin/env python3
"""How long an agent's journal takes to close and how much memory it takes, outside the gate: sshc_agent_main with a history
that 10,000 connections fill, at the weight at which `sshc agent` is full. A history is closed while a request waits, so the
longest wait is the closing; the memory is the process's resident memory. A connection weighs 64, a listing 129 (it is two
calls) and the end of a connection 64.

Usage: bench/closing.py PROGRAM [WEIGHT [CONNECTIONS]]
PROGRAM is crates/sshc_agent_main/out/sshc_agent_main after `rt run` there.
"""
import os
import socket
import struct
import subprocess
import sys
import tempfile
import time

LIST = struct.pack(">IB", 1, 11)
EMPTY = struct.pack(">IBI", 5, 12, 0)
BATCH = 1000


def memory(pid):
    with open(f"/proc/{pid}/status") as status:
        return next(int(line.split()[1]) for line in status if line.startswith("VmRSS:"))


def connect(path):
    stream = socket.socket(socket.AF_UNIX)
    stream.connect(path)
    return stream


def ask(stream, times):
    """Asks for so many listings at once, and returns how long all answers took."""
    began, left = time.monotonic(), times * len(EMPTY)
    stream.sendall(LIST * times)
    while left:
        got = stream.recv(65536)
        if not got:
            raise SystemExit("the agent closed the connection")
        left -= len(got)
    return time.monotonic() - began


def main():
    program = sys.argv[1]
    weight = int(sys.argv[2]) if len(sys.argv) > 2 else 268_435_456
    connections = int(sys.argv[3]) if len(sys.argv) > 3 else 10_000
    with tempfile.TemporaryDirectory() as folder:
        path, told = f"{folder}/agent.sock", f"{folder}/told"
        process = subprocess.Popen([program, path, str(weight)], stdin=subprocess.DEVNULL, stderr=open(told, "w"))
        while not os.path.exists(path):
            time.sleep(0.05)
        time.sleep(0.3)

        def closed():
            with open(told) as lines:
                return [line.rstrip() for line in lines if line.startswith("history closed")]

        begun, empty = time.monotonic(), memory(process.pid)
        for _ in range(connections):
            stream = connect(path)
            ask(stream, 1)
            stream.close()
        took, full = time.monotonic() - begun, memory(process.pid)
        print(f"{connections} connections with a listing each: {took:.1f} s, {full} kB ({empty} before): {(full - empty) * 1024 / connections:.0f} bytes each, which weigh 257")
        stream, waits, begun, most, at = connect(path), [], time.monotonic(), full, 0
        while not closed():
            waits.append(ask(stream, BATCH))
            if len(waits) % 50 == 0 and memory(process.pid) > most:
                most, at = memory(process.pid), len(waits) * BATCH
        took = time.monotonic() - begun
        waits.sort()
        print(f"{len(waits) * BATCH} listings more until the history was closed: {took:.1f} s; {most} kB after {at} of them: {(most - full) * 1024 / max(at, 1):.0f} bytes each, which weigh 129")
        print(f"{BATCH} listings took {waits[len(waits) // 2] * 1000:.1f} ms at the median, {waits[-2] * 1000:.1f} ms at most without the closing, {waits[-1] * 1000:.1f} ms with it")
        print(f"{closed()[0]}; {memory(process.pid)} kB after")
        process.kill()
        process.wait()


if __name__ == "__main__":
    main()
