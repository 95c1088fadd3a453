#!/usr/bin/env python3
"""Events of forwards on standard output, for `sshc_forward_main` and bench/forward.rs.

    bench/forward_events.py one MIB            one pair, MIB MiB in pieces of 32 KiB from the stream
    bench/forward_events.py pairs N PIECES     N pairs side by side, each with PIECES pieces of 64 bytes either way"""
import os
import struct
import sys


def number(n):
    return struct.pack(">I", n)


def event(kind, *fields):
    body = bytes([kind]) + b"".join(fields)
    return number(len(body)) + body


def string(data):
    return number(len(data)) + data


def one(out, mib):
    out.write(event(4, number(7), number(1)))
    piece = event(5, number(1), string(os.urandom(32768)))
    for _ in range(mib * 32):
        out.write(piece)
    out.write(event(6, number(1)) + event(8, number(7)) + event(9, number(7)))


def pairs(out, count, pieces):
    for n in range(count):
        out.write(event(1, number(n), string(b"host"), number(80), string(b"localhost"), number(1000)))
    for n in range(count):
        out.write(event(2, number(n), number(n + 1)))
    for _ in range(pieces):
        for n in range(count):
            out.write(event(5, number(n), string(b"a" * 64)) + event(7, number(n + 1), string(b"b" * 64)))
    for n in range(count):
        out.write(event(6, number(n)) + event(8, number(n + 1)) + event(9, number(n + 1)))


def main():
    out = sys.stdout.buffer
    if sys.argv[1] == "one":
        one(out, int(sys.argv[2]))
    else:
        pairs(out, int(sys.argv[2]), int(sys.argv[3]))


main()
