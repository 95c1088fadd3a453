#!/usr/bin/env python3
"""Loads that nobody means well with: an agent with 512 connections that send garbage or close within a frame, 10,000 channels
opened and closed, a write in packets of one byte, a known hosts text of 100 MB, a script of the greatest length. For each it
prints the time, the greatest memory, and what was to be seen; a load that isn't borne is named, and the status is 1.

Usage: tests/load.py FOLDER [LOAD ..]
FOLDER is where the proved programs lie as NAME/out/NAME (crates, say): sshc, sshc_forward_main, and for channels sshc_bench.
LOAD is agent, channels, script-channels, pieces, pairs, known-hosts or script (all of them). It needs /usr/bin/time (Debian's package
`time`), and 2.2 GB of disk for the script.
"""
import base64
import os
import pathlib
import random
import resource
import socket
import struct
import subprocess
import sys
import tempfile
import time

HERE = pathlib.Path(__file__).resolve().parent
sys.path.insert(0, str(HERE.parent / "bench"))
from mixed_script import KEY  # noqa: E402
from wire_parts import event  # noqa: E402
from worked_rows import ROWS, rows_in, string  # noqa: E402

CONNECTIONS, CHANNELS, HOSTS_SIZE, EVENTS, LONGEST = 512, 10_000, 100_000_000, 8192, 262_144
LIST = string(b"\x0b")


def measured(words, **given):
    """The process that has run, and its seconds and greatest memory (KiB)."""
    with tempfile.NamedTemporaryFile("r") as report:
        if "input" not in given:
            given.setdefault("stdin", subprocess.DEVNULL)
        began = time.monotonic()
        done = subprocess.run(["/usr/bin/time", "-f", "%M", "-o", report.name, *words], stdout=subprocess.PIPE, check=False, **given)
        return done, time.monotonic() - began, int(report.read().split()[-1])


def memory(process, what="VmHWM"):
    with open(f"/proc/{process.pid}/status", encoding="ascii") as file:
        return next(int(line.split()[1]) for line in file if line.startswith(what))


def answer_of(stream):
    head = stream.recv(4, socket.MSG_WAITALL)
    return stream.recv(struct.unpack(">I", head)[0], socket.MSG_WAITALL) if len(head) == 4 else b""


def connected(path):
    stream = socket.socket(socket.AF_UNIX)
    stream.settimeout(10)
    stream.connect(path)
    return stream


def agent(program, folder):
    """512 connections: half send garbage, half close within a frame. A client among them is served before and after."""
    rng, path = random.Random(1), os.path.join(folder, "agent")
    process = subprocess.Popen([program, "agent", path])
    try:
        while not os.path.exists(path):
            time.sleep(0.01)
        own, began = connected(path), time.monotonic()
        own.sendall(LIST)
        before, at_start = answer_of(own), memory(process)
        streams = [connected(path) for _ in range(CONNECTIONS)]
        for number, stream in enumerate(streams):
            try:
                if number % 2:
                    stream.sendall(bytes(rng.randrange(256) for _ in range(rng.randrange(1, 4096))))
                else:
                    stream.sendall(struct.pack(">I", rng.randrange(2, LONGEST)) + b"\x0b")
            except OSError:
                pass  # it was closed by then, as a length above the limit is
        for stream in streams:
            stream.close()
        own.sendall(LIST)
        after = answer_of(own)
        fresh = connected(path)
        fresh.sendall(LIST)
        took, serves = time.monotonic() - began, before and before == after == answer_of(fresh)
        alive = process.poll() is None
        print(f"agent: {CONNECTIONS} connections in {took:.2f} s; memory {at_start} KiB before, {memory(process)} KiB at most; "
              f"a client is served before, after and anew: {bool(serves)}")
        return bool(serves) and alive
    finally:
        process.kill()


def channels(program, folder):
    """Each channel is opened, has bytes that wait for a grant, and is closed, in one table."""
    done, took, most = measured([program, "closes", "1", str(CHANNELS)])
    print(f"channels: {CHANNELS} opened and closed in {took:.2f} s, {most} KiB: {done.stdout.decode().strip()}")
    return done.returncode == 0 and done.stdout.startswith(b"closes 1 %d:" % CHANNELS)


def script_channels(program, folder):
    """Scripts, each of which opens as many channels as its events allow, one after the other or all at once."""
    row, known = login(folder)
    count, good = (EVENTS - len(list(events_of(row.script)))) // 4, True
    numbers = [u32(number) for number in range(1, count + 1)]
    turns = [[opens(n), confirms(n), closes(n), peer_closes(n)] for n in numbers]
    for sort, events in (("one by one", sum(turns, [])), ("all at once", [event for at in zip(*turns) for event in at])):
        script = row.script + b"".join(events)
        done, took, most = measured([program, "script", "localhost", "13265", known], input=script)
        lines = done.stdout.split(b"\n")
        closed = sum(line.startswith(b"25") for line in lines)
        print(f"script-channels: {count} opened and closed {sort}, {len(script)} bytes in {took:.2f} s, {most} KiB: "
              f"{closed} closed, {lines[-2].decode()}")
        good &= closed == count and lines[-2] == b"ended script-end"
    return good


def u32(number):
    return struct.pack(">I", number)


def pieces(program, folder):
    """One write on a channel whose server takes packets of 32,768 bytes, and of a single byte."""
    row, known = login(folder)
    body, one, good = b"x" * (LONGEST - 144), u32(1), True
    for size in (32768, 1):
        confirmed = event(0x03, b"\x5b" + one + one + u32(1 << 21) + u32(size))
        script = row.script + opens(1) + confirmed + event(0x21, one + b"\0" + string(body))
        done, took, most = measured([program, "script", "localhost", "13265", known], input=script)
        packets = sum(line.startswith(b"015e") for line in done.stdout.split(b"\n"))
        print(f"pieces: {len(body)} bytes in packets of {size} in {took:.3f} s, {most} KiB: {packets} packets")
        good &= packets == -(-len(body) // size) and most <= 20_000
    return good


def opens(number):
    return event(0x17, u32(9))


def confirms(number):
    return event(0x03, b"\x5b" + number + number + u32(1 << 21) + u32(32768))


def closes(number):
    return event(0x1F, number)


def peer_closes(number):
    return event(0x03, b"\x61" + number)


def pairs(program, folder):
    """Streams that are accepted, opened, read, written and closed, all at once."""
    numbers = [u32(number) for number in range(CHANNELS)]
    address = string(b"host") + u32(80) + string(b"from") + u32(9)
    events = [b"\1" + n + address for n in numbers] + [b"\5" + n + string(b"held") for n in numbers] + [b"\2" + n + n for n in numbers]
    events += [kind + n + rest for kind, rest in ((b"\7", string(b"data")), (b"\6", b""), (b"\x08", b""), (b"\x09", b"")) for n in numbers]
    given = b"".join(map(string, events))
    done, took, most = measured([program], input=given)
    lines = done.stdout.split(b"\n")
    closed = sum(line.startswith(b"86") for line in lines)
    print(f"pairs: {CHANNELS} opened and closed, {len(given)} bytes in {took:.2f} s, {most} KiB: {len(lines) - 2} lines, "
          f"{closed} closed, {lines[-2].decode()}")
    return closed == CHANNELS and lines[-2] == b"left 0"


def known_hosts(program, folder):
    """A text of 100 MB in which the host's line is the last one; another host, which it doesn't have."""
    path, key = os.path.join(folder, "known-hosts"), base64.b64encode(KEY).decode()
    line = b"host%09d,[10.0.0.1]:2222 ssh-ed25519 " + base64.b64encode(KEY[:-4] + b"\0\0\0\1") + b"\n"
    with open(path, "wb") as file:
        count = HOSTS_SIZE // len(line % 0)
        for number in range(count):
            file.write(line % number)
        file.write(f"[localhost]:13265 ssh-ed25519 {key}\n".encode())
    good = True
    for host, wanted in (("localhost", b"known\n"), ("elsewhere", b"unknown\n")):
        done, took, most = measured([program, "hosts", "check", host, "13265", path, key])
        print(f"known-hosts: {os.path.getsize(path)} bytes, {count + 1} lines, {host} in {took:.2f} s, {most} KiB: {done.stdout!r}")
        good &= done.stdout == wanted
    os.unlink(path)
    return good


def login(folder):
    """The worked login by a password, and the path of its known hosts file."""
    row = next(row for row in rows_in(ROWS) if row.name == "password")
    known = os.path.join(folder, "known")
    with open(known, "w", encoding="utf-8") as file:
        file.write(row.known)
    return row, known


def longest_script(program, folder):
    """8,192 events of which all but the login's have 262,144 bytes: packets that are passed over."""
    row, known = login(folder)
    path = os.path.join(folder, "script")
    count = len(list(events_of(row.script)))
    packet = event(0x03, b"\x02" + bytes(LONGEST - 10))
    with open(path, "wb") as file:
        file.write(row.script)
        for _ in range(EVENTS - count):
            file.write(packet)
    with open(path, "rb") as file:
        done, took, most = measured([program, "script", "localhost", "13265", known], stdin=file)
    last = done.stdout.split(b"\n")[-2].decode()
    print(f"script: {os.path.getsize(path)} bytes in {EVENTS} events in {took:.2f} s, {most} KiB: {last}")
    os.unlink(path)
    return done.stdout == row.wanted.encode()


def events_of(script):
    at = 0
    while at < len(script):
        end = at + 4 + int.from_bytes(script[at : at + 4], "big")
        yield script[at:end]
        at = end


LOADS = {
    "agent": (agent, "sshc"), "channels": (channels, "sshc_bench"), "script-channels": (script_channels, "sshc"),
    "pieces": (pieces, "sshc"),
    "pairs": (pairs, "sshc_forward_main"), "known-hosts": (known_hosts, "sshc"), "script": (longest_script, "sshc"),
}


def main():
    if len(sys.argv) < 2 or not set(sys.argv[2:]) <= set(LOADS):
        sys.exit(__doc__)
    _, most = resource.getrlimit(resource.RLIMIT_NOFILE)
    resource.setrlimit(resource.RLIMIT_NOFILE, (min(most, 8192), most))
    is_borne = True
    with tempfile.TemporaryDirectory() as folder:
        for name in sys.argv[2:] or LOADS:
            load, program = LOADS[name]
            if not load(os.path.join(os.path.abspath(sys.argv[1]), program, "out", program), folder):
                print(f"{name}: NOT BORNE")
                is_borne = False
    return not is_borne


if __name__ == "__main__":
    sys.exit(main())
