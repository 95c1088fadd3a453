#!/usr/bin/env python3
"""A short run under valgrind: no wrong access, no use of memory that wasn't written, no leak.

    valgrinded.py AGENT"""
import shutil
import socket

from scratch import FAILURE, KINDS, SUCCESS, sign_request, tests_of, text, want

VALGRIND = ["valgrind", "-q", "--error-exitcode=9", "--leak-check=full", "--show-leak-kinds=definite,indirect,possible", "--errors-for-leak-kinds=definite,indirect,possible"]


def short_run(scratch):
    if shutil.which("valgrind") is None:
        return "passed over: no valgrind"
    ask = scratch.write("ask.sh", "#!/bin/sh\nexit 0\n", 0o700)
    agent = scratch.start("-t", "1h", run=VALGRIND, env={"SSH_ASKPASS": ask, "SSH_ASKPASS_REQUIRE": "force"})
    for kind in KINDS:
        agent.add(scratch.key(kind))
        want(agent.signs(kind), True, f"a signature by {kind}")
    agent.add(scratch.at("ed25519"), "-c", "-t", "2h")
    want(agent.signs("ed25519"), True, "a signature that is confirmed")
    want((agent.passphrase("-x", "word"), agent.passphrase("-X", "wrong"), agent.passphrase("-X", "word")), (0, 1, 0), "a lock")
    want(agent.listing()[0], scratch.public("ed25519"), "the first key")
    with agent.line() as line, agent.line() as long, agent.line() as half:
        half.socket.sendall(b"\0\0\1")
        long.socket.sendall(b"\xff" * 4)
        want(long.take(), None, "a frame that is too long")
        want(line.ask(b""), bytes([FAILURE]), "an empty frame")
        want(line.ask(bytes([17]) + text(b"ssh-rsa") + text(b"\1") * 3), bytes([FAILURE]), "half a pair")
        want(line.ask(sign_request(b"none", b"x")), bytes([FAILURE]), "a key that isn't held")
        want(line.ask(bytes([18]) + text(line.blobs()[1])), bytes([SUCCESS]), "a removal")
        line.socket.sendall(text(b"\x0b") * 2000)
        line.socket.shutdown(socket.SHUT_WR)
        count = 0
        while line.take() is not None:
            count += 1
        want(count, 2000, "answers")
    agent.end()


if __name__ == "__main__":
    tests_of([short_run])
