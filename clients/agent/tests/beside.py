#!/usr/bin/env python3
"""The agent and Debian's ssh-agent are asked the same at random, on three connections each, and have to answer the same,
but for a listing while locked and for ECDSA's signatures, which are other ones each time.

    beside.py AGENT"""
import random
import shutil
import subprocess

from scratch import ADD_IDENTITY, ADD_ID_CONSTRAINED, FAILURE, IDENTITIES_ANSWER, LOCK, REMOVE_ALL, REMOVE_IDENTITY, REQUEST_IDENTITIES, SIGN_RESPONSE, UNLOCK
from scratch import private_parts, sign_request, strings_front, tests_of, text, want

REQUESTS = 2500


def blob_of(fields):
    """The public key's blob of a pair's fields."""
    if fields[0] == b"ssh-rsa":
        return text(fields[0]) + text(fields[2]) + text(fields[1])
    return b"".join(map(text, fields[: 2 if fields[0] == b"ssh-ed25519" else 3]))


class Asker:
    """Requests by chance."""

    def __init__(self, pairs, seed):
        self.pairs, self.chance, self.is_locked = pairs, random.Random(seed), False

    def addition(self, pair):
        comment = text(self.chance.choice([b"", b"a comment", "ein Schlüssel".encode(), b"c" * 200]))
        constraints = self.chance.choice([b"", b"", b"\1\0\1\0\0", b"\2", b"\2\1\0\1\0\0", b"\1\0", b"\3\0\0\0\1", b"\1\0\1\0\0\1\0\1\0\0"])
        number = ADD_ID_CONSTRAINED if constraints or self.chance.randrange(2) else ADD_IDENTITY
        return bytes([number]) + pair + comment + constraints

    def request(self):
        chance = self.chance
        pair, fields = chance.choice(self.pairs)
        sort = chance.randrange(100)
        if sort < 30:
            return self.addition(pair)
        if sort < 42:
            return bytes([REQUEST_IDENTITIES])
        if sort < 80:
            return sign_request(blob_of(fields), chance.randbytes(chance.randrange(300)), chance.choice([0, 2, 4, 6]))
        if sort < 86:
            return bytes([REMOVE_IDENTITY]) + text(chance.choice([blob_of(fields), blob_of(fields), b"", b"none"]))
        if sort < 87:
            return bytes([REMOVE_ALL])
        if sort < 88 or (self.is_locked and sort < 97):
            self.is_locked = not self.is_locked
            return bytes([LOCK if self.is_locked else UNLOCK]) + text(b"word")
        return chance.choice([b"\1", b"\xff", bytes([27]) + text(b"no@extension"), bytes([17]) + pair[:40], bytes([18]), bytes([20]) + text(b"reader")])


def is_same(one, other, was_locked):
    if one == other:
        return True
    if was_locked and one == bytes([FAILURE]):
        return other == bytes([IDENTITIES_ANSWER, 0, 0, 0, 0])
    if one[0] != SIGN_RESPONSE or other[0] != SIGN_RESPONSE:
        return False
    names = [strings_front(strings_front(answer[1:])) for answer in (one, other)]
    return names[0] == names[1] and names[0].startswith(b"ecdsa")


def same_answers(scratch):
    if shutil.which("ssh-agent") is None:
        return "passed over: no ssh-agent"
    yes = scratch.write("yes.sh", "#!/bin/sh\nexit 0\n", 0o700)
    env = {"SSH_ASKPASS": yes, "SSH_ASKPASS_REQUIRE": "force"}
    ours = scratch.start(env=env)
    scratch.agent = shutil.which("ssh-agent")
    theirs = scratch.start(env=env, stdout=subprocess.DEVNULL)
    kinds = ["ed25519", "ed25519", "ed25519", "ecdsa256", "ecdsa384", "ecdsa521", "rsa", "rsa"]
    asker = Asker([private_parts(scratch.key(kind, f"{kind}-{i}")) for i, kind in enumerate(kinds)], 11)
    counts = {}
    lines = [(ours.line(), theirs.line()) for _ in range(3)]
    for i in range(REQUESTS):
        was_locked, request = asker.is_locked, asker.request()
        one, other = (line.ask(request) for line in asker.chance.choice(lines))
        want(is_same(one, other, was_locked), True, f"request {i}, {request[:60]!r}: {one!r:.200} and {other!r:.200}")
        counts[one[0]] = counts.get(one[0], 0) + 1
    for one, other in lines:
        one.socket.close()
        other.socket.close()
    ours.end()
    return f"{REQUESTS} requests, {counts.get(14, 0)} signatures, {counts.get(12, 0)} listings, {counts.get(6, 0)} done, {counts.get(5, 0)} refused"


if __name__ == "__main__":
    tests_of([same_answers])
