#!/usr/bin/env python3
"""Runs a program over the worked runs of crates/sshc_rows_session/data/runs, each as a script at standard input, and compares
its lines, its last line and its status with the row's.

Usage: bench/worked_rows.py PROGRAM [ROWS]
"""
import os
import struct
import subprocess
import sys
import tempfile

ROWS = os.path.join(os.path.dirname(__file__), "..", "crates", "sshc_rows_session", "data", "runs")


def string(body):
    return struct.pack(">I", len(body)) + body


def bytes_of(words):
    """str:, hex: and u32: are a string of the wire and a number; in a str: a + is a space. Other words are bytes."""
    out = b""
    for word in words.split():
        kind, colon, rest = word.partition(":")
        if not colon:
            out += bytes.fromhex(word)
        elif kind == "str":
            out += string(rest.replace("+", " ").encode())
        elif kind == "hex":
            out += string(bytes.fromhex(rest))
        elif kind == "u32":
            out += struct.pack(">I", int(rest))
        else:
            sys.exit(f"no such word: {word}")
    return out


class Row:
    def __init__(self, name):
        self.name, self.known, self.script, self.wanted, self.status = name, "", b"", "", 0

    def line(self, command, rest):
        if command == "known":
            self.known += rest + "\n"
        elif command == "event":
            self.script += string(struct.pack(">Q", 0) + bytes_of(rest))
        elif command == "at":
            moment, _, event = rest.partition(" ")
            self.script += string(struct.pack(">Q", int(moment)) + bytes_of(event))
        elif command == "bytes":
            self.script += bytes_of(rest)
        elif command == "record":
            self.wanted += bytes_of(rest).hex() + "\n"
        elif command == "answer":
            self.wanted += rest + "\n"
        elif command == "status":
            self.status = int(rest)
        else:
            sys.exit(f"no such line: {command}")


def rows_in(path):
    rows = []
    with open(path, encoding="utf-8") as file:
        for line in file.read().split("\n"):
            command, _, rest = line.partition(" ")
            if command == "row":
                rows.append(Row(rest))
            elif command and not command.startswith("#"):
                rows[-1].line(command, rest)
    return rows


def main():
    program = os.path.abspath(sys.argv[1])
    rows = rows_in(sys.argv[2] if len(sys.argv) > 2 else ROWS)
    right = 0
    with tempfile.TemporaryDirectory() as folder:
        known = os.path.join(folder, "known")
        for row in rows:
            with open(known, "w", encoding="utf-8") as file:
                file.write(row.known)
            done = subprocess.run(
                [program, "script", "localhost", "13265", known], input=row.script, stdout=subprocess.PIPE, check=False
            )
            if (done.stdout.decode(), done.returncode) == (row.wanted, row.status):
                right += 1
                continue
            print(f"WRONG {row.name}: status {done.returncode}, not {row.status}")
            for number, (got, wanted) in enumerate(zip(done.stdout.decode().split("\n"), row.wanted.split("\n")), 1):
                if got != wanted:
                    print(f"  line {number}: {got}\n  wanted: {wanted}")
                    break
    print(f"{right} of {len(rows)} rows")
    return right != len(rows)


if __name__ == "__main__":
    sys.exit(main())
