#!/usr/bin/env python3
"""Drives the built program over two pipes, outside the gate: each event is written only once the lines of the events
before it have been read. It ends with status 0 where every line came in time.

Usage: examples/drive_over_pipes.py PROGRAM [KNOWN_HOSTS SCRIPT]
PROGRAM is the built program, crates/sshc/out/sshc after `cd crates/sshc && rt run`.
"""
import os
import select
import struct
import subprocess
import sys

HERE = os.path.join(os.path.dirname(os.path.abspath(__file__)), "password-login")
# How many lines each event of the shipped script gives.
LINES = [0, 1, 1, 1, 2]


def events(script):
    place = 0
    while place < len(script):
        (length,) = struct.unpack(">I", script[place : place + 4])
        yield script[place : place + 4 + length]
        place += 4 + length


def line_in_time(stream, seconds=5.0):
    line = b""
    while not line.endswith(b"\n"):
        ready, _, _ = select.select([stream], [], [], seconds)
        if not ready:
            sys.exit(f"no whole line came within {seconds} seconds: {line!r}")
        more = os.read(stream.fileno(), 1)
        if not more:
            sys.exit(f"the program closed its output after {line!r}")
        line += more
    return line


def main():
    program = sys.argv[1]
    known = sys.argv[2] if len(sys.argv) > 2 else os.path.join(HERE, "known_hosts")
    path = sys.argv[3] if len(sys.argv) > 3 else os.path.join(HERE, "script")
    run = subprocess.Popen(
        [program, "script", "localhost", "13265", known],
        stdin=subprocess.PIPE, stdout=subprocess.PIPE, bufsize=0,
    )
    with open(path, "rb") as script:
        for event, lines in zip(events(script.read()), LINES):
            run.stdin.write(event)
            for _ in range(lines):
                print(line_in_time(run.stdout).decode(), end="")
    run.stdin.close()
    print(line_in_time(run.stdout).decode(), end="")
    sys.exit(run.wait())


if __name__ == "__main__":
    main()
