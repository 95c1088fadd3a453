#!/usr/bin/env python3
"""Runs a program over the blobs of crates/sshc_rows_formats/data/keys: keys that a server announces, pairs that an agent is
given, and lines of known hosts that can't be read, in one script each, and compares what it does with what the file says.

Usage: bench/key_vectors.py PROGRAM
"""
import base64
import os
import subprocess
import sys
import tempfile

from mixed_script import Writer
from wire_parts import string, u32

FOLDER = os.path.dirname(__file__)


def told(program, writer, known):
    """The lines."""
    words = [program, "script", "localhost", "13265", known]
    done = subprocess.run(words, input=b"".join(writer.out), stdout=subprocess.PIPE, check=False)
    return done.stdout.decode().split("\n")[:-1]


def taken(program, writer):
    """The records behind those of the login."""
    lines = told(program, writer, os.path.join(FOLDER, "../examples/password-login/known_hosts"))
    return [bytes.fromhex(line) for line in lines[5:-1]]


def is_refused(program, text, error):
    """Whether a line of known hosts with this key ends a run with this error."""
    writer = Writer(1)
    writer.log_in()
    with tempfile.NamedTemporaryFile() as file:
        file.write(f"[localhost]:13265 x {text}\n".encode())
        file.flush()
        return told(program, writer, file.name) == [{"Decode": "error decode", "SshKey": "error ssh-key"}[error]]


def is_taken(program, kind, blob):
    writer = Writer(1)
    writer.log_in()
    if "pair" in kind:
        writer.put(0x40, u32(1) + string(b"\x11" + blob + string(b"")))
        return taken(program, writer)[0].endswith(b"\6")
    writer.packet(80, string(b"hostkeys-00@openssh.com") + b"\0" + string(blob))
    return taken(program, writer) == [b"\x2f" + u32(1) + string(blob[:-1] if kind == "longer" else blob)]


def main():
    wrong, count = 0, 0
    with open(os.path.join(FOLDER, "../crates/sshc_rows_formats/data/keys"), encoding="utf-8") as file:
        lines = [line.split() for line in file if not line.startswith("#")]
    for kind, name, text, *error in lines:
        if "signature" in kind:
            continue
        count += 1
        if kind == "no-key":
            is_right = is_refused(sys.argv[1], text, error[0])
        else:
            is_right = is_taken(sys.argv[1], kind, base64.b64decode(text)) != kind.startswith("no-")
        if not is_right:
            wrong += 1
            print(f"WRONG {kind} {name}")
    print(f"{count - wrong} of {count} blobs")
    return wrong > 0


if __name__ == "__main__":
    sys.exit(main())
