#!/usr/bin/env python3
"""Writes a login script of so many events to standard output: all but four ask to authenticate by a password, the first
half of them before the server accepts the service. docs/FORMATS.md tells the bytes.

Usage: bench/make_script.py EVENTS
"""
import struct
import sys

KEY = bytes.fromhex("9743ef2dda2eae39e325817702d66e2794d5e6f3f7f72eeff4045e7f4e21e649")


def string(body):
    return struct.pack(">I", len(body)) + body


def event(kind, fields):
    return string(struct.pack(">QB", 0, kind) + fields)


def request(ticket):
    return event(0x10, struct.pack(">I", ticket) + string(b"alice") + b"\x01" + string(b"pw"))


def main():
    requests = int(sys.argv[1]) - 4
    early = requests - requests // 2
    blob = string(b"ssh-ed25519") + string(KEY)
    names = [b"curve25519-sha256", b"", b"", b"", b""]
    exchange = b"\x01" + string(blob) + string(b"session-id") + string(b"") + b"\0" + string(b"")
    out = sys.stdout.buffer
    out.write(event(0x01, b""))
    out.write(event(0x02, exchange + b"".join(map(string, names)) + b"\0"))
    for ticket in range(1, early + 1):
        out.write(request(ticket))
    out.write(event(0x03, b"\x06" + string(b"ssh-userauth")))
    for ticket in range(early + 1, requests + 1):
        out.write(request(ticket))
    out.write(event(0x03, b"\x34"))


if __name__ == "__main__":
    main()
