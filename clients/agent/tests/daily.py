#!/usr/bin/env python3
"""What people do with an agent, by Debian's ssh-add and ssh-keygen.

    daily.py AGENT"""
import os
import signal
import subprocess
import time

from scratch import ADD_IDENTITY, ADD_ID_CONSTRAINED, EXTENSION, FAILURE, KINDS, LOCK, REMOVE_ALL, SIGN_RESPONSE, SUCCESS, UNLOCK
from scratch import private_parts, sign_request, strings, tests_of, text, until, want


def keys_of_each_kind(scratch):
    agent = scratch.start()
    for kind in KINDS:
        agent.add(scratch.key(kind))
    want(agent.listing(), [scratch.public(kind) for kind in KINDS], "ssh-add -L")
    prints = [subprocess.run(["ssh-keygen", "-l", "-f", scratch.at(kind)], capture_output=True, text=True).stdout.strip() for kind in KINDS]
    want(agent.run("ssh-add", "-l")[1].splitlines(), prints, "ssh-add -l")
    for kind in KINDS:
        want(agent.run("ssh-add", "-T", scratch.at(kind + ".pub"))[0], 0, f"ssh-add -T {kind}")
        want(agent.signs(kind), True, f"ssh-keygen -Y sign by {kind}")
    left = list(KINDS)
    while left:
        gone = left.pop(len(left) // 2)
        want(agent.run("ssh-add", "-d", scratch.at(gone))[0], 0, f"ssh-add -d {gone}")
        want(agent.listing(), [scratch.public(kind) for kind in left], f"ssh-add -L after -d {gone}")
        want(agent.signs(gone), False, f"a signature by {gone} after -d")
    for kind in KINDS:
        agent.add(scratch.at(kind))
    want(agent.run("ssh-add", "-D")[0], 0, "ssh-add -D")
    want(agent.run("ssh-add", "-l")[0], 1, "ssh-add -l after -D")
    agent.end()
    return f"{len(KINDS)} kinds listed, signed with, verified and removed"


def hashes_of_rsa(scratch):
    """Each of them is verified by ssh-keygen or libcrypto's program."""
    agent = scratch.start()
    agent.add(scratch.key("rsa"))
    subprocess.run("ssh-keygen -e -m PKCS8 -f rsa.pub > rsa.pem", shell=True, check=True, cwd=scratch.folder)
    scratch.write("over", "signed by each hash")
    with agent.line() as line:
        blob = line.blobs()[0]
        for flags, name, digest in ((2, b"rsa-sha2-256", "sha256"), (4, b"rsa-sha2-512", "sha512"), (6, b"rsa-sha2-256", "sha256"), (0, b"ssh-rsa", "sha1")):
            answer = line.ask(sign_request(blob, b"signed by each hash", flags))
            want(answer[0], SIGN_RESPONSE, f"a signature with the flags {flags}")
            made = strings(strings(answer[1:])[0])
            want(made[0], name, "its name")
            with open(scratch.at("raw"), "wb") as file:
                file.write(made[1])
            words = ["openssl", "dgst", "-" + digest, "-verify", "rsa.pem", "-signature", "raw", "over"]
            want(subprocess.run(words, cwd=scratch.folder, capture_output=True, text=True).stdout, "Verified OK\n", f"openssl dgst of {name}")
    agent.end()


def lifetimes(scratch):
    for kind in ("ed25519", "ecdsa256", "rsa"):
        scratch.key(kind)
    agent = scratch.start("-t", "3")
    agent.add(scratch.at("ed25519"))
    agent.add(scratch.at("ecdsa256"), "-t", "1h")
    agent.add(scratch.at("rsa"), "-t", "2", "-c")
    want(len(agent.listing()), 3, "keys at first")
    time.sleep(3.2)
    want(agent.listing(), [scratch.public("ecdsa256")], "keys after three seconds")
    want(agent.signs("ed25519"), False, "a signature by a key that expired")
    want(agent.signs("ecdsa256"), True, "a signature by a key with a longer lifetime")
    agent.end()
    plain = scratch.start()
    plain.add(scratch.at("ed25519"))
    plain.add(scratch.at("ecdsa256"), "-t", "1")
    time.sleep(1.2)
    want(plain.listing(), [scratch.public("ed25519")], "keys of an agent without -t")
    plain.end()


def lock(scratch):
    agent = scratch.start()
    agent.add(scratch.key("ed25519"))
    want(agent.passphrase("-x", "right"), 0, "ssh-add -x")
    status, said, errors = agent.run("ssh-add", "-l")
    want((status, said), (1, ""), f"ssh-add -l of a locked agent: {errors}")
    want(agent.signs("ed25519"), False, "a signature by a locked agent")
    want(agent.run("ssh-add", "-D")[0] != 0, True, "ssh-add -D of a locked agent")
    want(agent.run("ssh-add", scratch.at("ed25519"))[0] != 0, True, "ssh-add to a locked agent")
    want(agent.passphrase("-x", "other") != 0, True, "a second ssh-add -x")
    want(agent.passphrase("-X", "wrong") != 0, True, "ssh-add -X with a wrong word")
    want(agent.listing(), [], "keys after a wrong word")
    want(agent.passphrase("-X", "right"), 0, "ssh-add -X")
    want(agent.listing(), [scratch.public("ed25519")], "keys after the right word")
    want(agent.signs("ed25519"), True, "a signature after the right word")
    want(agent.passphrase("-X", "right") != 0, True, "ssh-add -X of an agent that isn't locked")
    agent.end()


def wrong_words(scratch):
    """Each wrong word makes the next one wait longer, on all connections together; others aren't kept waiting."""
    agent = scratch.start()
    with agent.line() as one, agent.line() as two, agent.line() as other:
        want(one.ask(bytes([LOCK]) + text(b"right"))[0], SUCCESS, "a lock")
        begun = time.monotonic()
        for _ in range(4):
            for line in (one, two):
                line.send(bytes([UNLOCK]) + text(b"wrong"))
            slowest = 0.0
            for _ in range(20):
                asked = time.monotonic()
                want(other.ask(bytes([11]))[0], FAILURE, "a listing of a locked agent")
                slowest = max(slowest, time.monotonic() - asked)
            for line in (one, two):
                want(line.take()[0], FAILURE, "a wrong word")
        taken = time.monotonic() - begun
        want(taken >= 2.7, True, f"eight wrong words, which took {taken} seconds and not 0.1 + 0.2 + .. + 0.7")
        want(one.ask(bytes([UNLOCK]) + text(b"right"))[0], SUCCESS, "the right word")
        begun = time.monotonic()
        want(two.ask(bytes([LOCK]) + text(b"again"))[0], SUCCESS, "a lock")
        want(two.ask(bytes([UNLOCK]) + text(b"again"))[0], SUCCESS, "the right word")
        want(time.monotonic() - begun < 0.6, True, "no delay after a right word")
    agent.end()
    return f"eight wrong words took {taken:.2f} s, the slowest answer meanwhile {1000 * slowest:.1f} ms"


# ---- ssh-add -c


def asker(scratch, script):
    """A program for SSH_ASKPASS that notes what it is asked."""
    scratch.write("asked", "")
    path = scratch.write("ask.sh", f"#!/bin/sh\nprintf '%s|%s\\n' \"$1\" \"$SSH_ASKPASS_PROMPT\" >> {scratch.at('asked')}\n{script}\n", 0o700)
    return {"SSH_ASKPASS": path, "SSH_ASKPASS_REQUIRE": "force"}


def signs_with(scratch, env, comment=None):
    """Whether a key of ssh-add -c signs where the agent has this environment."""
    agent = scratch.start(env=env)
    agent.add(scratch.key("ed25519", comment=comment), "-c")
    signed = agent.signs("ed25519")
    agent.end()
    return signed


def confirmations(scratch):
    for script, wanted in (("exit 0", True), ("echo yes", True), ("echo YES", True), ("echo", True), ("echo no", False), ("exit 1", False), ("echo yes; exit 1", False), ("kill -9 $$", False)):
        want(signs_with(scratch, asker(scratch, script)), wanted, f"a signature where SSH_ASKPASS does '{script}'")
    shown = subprocess.run(["ssh-keygen", "-l", "-f", scratch.at("ed25519")], capture_output=True, text=True).stdout.split()[1]
    signs_with(scratch, asker(scratch, "exit 0"))
    want(scratch.read("asked"), f"Allow use of key my ed25519 key?\nKey fingerprint {shown}.|confirm\n", "what SSH_ASKPASS is asked")
    yes = asker(scratch, "exit 0")["SSH_ASKPASS"]
    for env, wanted in (
        ({}, False),
        ({"SSH_ASKPASS": yes}, False),
        ({"SSH_ASKPASS": yes, "DISPLAY": ":0"}, True),
        ({"SSH_ASKPASS": yes, "DISPLAY": ""}, False),
        ({"SSH_ASKPASS": yes, "WAYLAND_DISPLAY": "wayland-0"}, True),
        ({"SSH_ASKPASS": yes, "DISPLAY": ":0", "SSH_ASKPASS_REQUIRE": "never"}, False),
        ({"SSH_ASKPASS": yes, "DISPLAY": ":0", "SSH_ASKPASS_REQUIRE": "prefer"}, True),
        ({"SSH_ASKPASS": yes, "SSH_ASKPASS_REQUIRE": "prefer"}, False),
        ({"SSH_ASKPASS": scratch.at("missing"), "SSH_ASKPASS_REQUIRE": "force"}, False),
    ):
        want(signs_with(scratch, env), wanted, f"a signature with {env}")


def asked_though_ignored(scratch):
    """An agent that is started with SIGCHLD ignored sees the end of the program that asks."""
    agent = scratch.start(env=asker(scratch, "exit 0"), preexec_fn=lambda: signal.signal(signal.SIGCHLD, signal.SIG_IGN))
    agent.add(scratch.key("ed25519"), "-c")
    want(agent.signs("ed25519"), True, "a signature")
    agent.end()


def feigned_comments(scratch):
    """No control character of a comment's is shown to the user."""
    agent = scratch.start(env=asker(scratch, "exit 1"))
    pair, _ = private_parts(scratch.key("ed25519"))
    with agent.line() as line:
        comment = "safe\n\x1b[2Jkey \u0085 ü \x7f".encode()
        want(line.ask(bytes([ADD_ID_CONSTRAINED]) + pair + text(comment) + b"\2")[0], SUCCESS, "an addition")
        want(line.ask(sign_request(line.blobs()[0], b"x"))[0], FAILURE, "a signature that the user denies")
    want(scratch.read("asked").split("\n")[0], "Allow use of key safe??[2Jkey ? ü ??", "the prompt")
    agent.end()


def others_while_asked(scratch):
    """While the user is asked on one connection the others are answered; a second question waits for the first."""
    agent = scratch.start(env=asker(scratch, f"while [ ! -e {scratch.at('go')} ]; do sleep 0.05; done"))
    agent.add(scratch.key("ed25519"), "-c")
    agent.add(scratch.key("ecdsa256"))
    with agent.line() as one, agent.line() as two, agent.line() as other:
        blobs = other.blobs()
        one.send(sign_request(blobs[0], b"first"))
        one.send(bytes([11]))
        until(lambda: scratch.read("asked") != "", "the question")
        two.send(sign_request(blobs[0], b"second"))
        for _ in range(20):
            want(other.ask(sign_request(blobs[1], b"third"))[0], SIGN_RESPONSE, "another connection's signature")
        want((one.is_quiet(0.1), two.is_quiet(0.1)), (True, True), "no answer before the user's")
        want(scratch.read("asked").count("confirm"), 1, "one question at a time")
        scratch.write("go", "")
        want((one.take()[0], one.take()[0], two.take()[0]), (SIGN_RESPONSE, 12, SIGN_RESPONSE), "the answers, in order")
        want(scratch.read("asked").count("confirm"), 2, "two questions")
    agent.end()


def gone_while_asked(scratch):
    """The question ends with its client, and the next one's turn comes; a lock in between stops the signature."""
    agent = scratch.start(env=asker(scratch, f"echo $$ > {scratch.at('pid')}; while [ ! -e {scratch.at('go')} ]; do sleep 0.05; done"))
    agent.add(scratch.key("ed25519"), "-c")
    with agent.line() as two, agent.line() as other:
        blob = other.blobs()[0]
        with agent.line() as one:
            one.send(sign_request(blob, b"first"))
            until(lambda: os.path.exists(scratch.at("pid")) and scratch.read("pid"), "the question")
            first = int(scratch.read("pid"))
            two.send(sign_request(blob, b"second"))
        until(lambda: int(scratch.read("pid") or first) != first, "the second question")
        until(lambda: not os.path.exists(f"/proc/{first}"), "the end of the first program")
        want(other.ask(bytes([LOCK]) + text(b"word"))[0], SUCCESS, "a lock")
        scratch.write("go", "")
        want(two.take()[0], FAILURE, "a confirmed signature of an agent that is locked meanwhile")
        want(other.ask(bytes([UNLOCK]) + text(b"word"))[0], SUCCESS, "an unlock")
        want(two.ask(sign_request(blob, b"third"))[0], SIGN_RESPONSE, "a signature after that")
        two.send(sign_request(blob, b"fourth"))
        want(two.take()[0], SIGN_RESPONSE, "a further signature")
    os.remove(scratch.at("go"))
    with agent.line() as last:
        asked = scratch.read("asked").count("confirm")
        last.send(sign_request(blob, b"fifth"))
        until(lambda: scratch.read("asked").count("confirm") > asked, "the last question")
        agent.end()


# ---- what is refused


def certificates(scratch):
    """A certificate isn't held; its key is, and ssh takes the two together (logins.py)."""
    agent = scratch.start()
    path = scratch.key("ed25519")
    subprocess.run(["ssh-keygen", "-q", "-s", scratch.key("ecdsa256"), "-I", "id", "-n", "root", f"{path}.pub"], check=True)
    status, _, said = agent.run("ssh-add", path)
    want("Identity added" in said, True, f"the key of a certificate: {said}")
    want(agent.listing(), [scratch.public("ed25519")], "the keys")
    agent.end()
    return f"ssh-add with a certificate: status {status}, {said.splitlines()[-1]!r}"


def bad_pairs(scratch):
    """Pairs that can't sign are refused when they are added, and change nothing."""
    agent = scratch.start()
    wrong = []
    ed25519, ecdsa, rsa = (private_parts(scratch.key(kind))[1] for kind in ("ed25519", "ecdsa256", "rsa"))
    other_ed25519, other_ecdsa = (private_parts(scratch.key(kind, "other " + kind))[1] for kind in ("ed25519", "ecdsa256"))
    public = other_ed25519[1]
    wrong.append(("another public key", [ed25519[0], public, ed25519[2][:32] + public]))
    wrong.append(("another point", [ecdsa[0], ecdsa[1], other_ecdsa[2], ecdsa[3]]))
    wrong.append(("a point that isn't on the curve", [ecdsa[0], ecdsa[1], ecdsa[2][:-1] + bytes([ecdsa[2][-1] ^ 1]), ecdsa[3]]))
    wrong.append(("another modulus", [rsa[0], rsa[1][:-1] + bytes([rsa[1][-1] ^ 2]), *rsa[2:]]))
    wrong.append(("no prime", [*rsa[:5], b"", rsa[6]]))
    wrong.append(("a prime of one", [*rsa[:5], b"\1", rsa[6]]))
    wrong.append(("a name of no kind", [b"ssh-nothing", *ed25519[1:]]))
    subprocess.run(["ssh-keygen", "-q", "-t", "dsa", "-N", "", "-f", scratch.at("dsa")], capture_output=True)
    if os.path.exists(scratch.at("dsa")):
        wrong.append(("a DSA pair", private_parts(scratch.at("dsa"))[1]))
    with agent.line() as line:
        for name, fields in wrong:
            want(line.ask(bytes([ADD_IDENTITY]) + b"".join(map(text, fields)) + text(b"")), bytes([FAILURE]), name)
        pair = b"".join(map(text, ed25519)) + text(b"")
        for name, constraints in (("two lifetimes", b"\1\0\0\0\1" * 2), ("an extension", b"\xff" + text(b"x@y") + text(b"")), ("half a lifetime", b"\1\0")):
            want(line.ask(bytes([ADD_ID_CONSTRAINED]) + pair + constraints), bytes([FAILURE]), name)
        want(line.ask(bytes([EXTENSION]) + text(b"session-bind@openssh.com") + text(b"")), bytes([FAILURE]), "a session's binding")
        want(line.blobs(), [], "the keys after all that")
        want(line.ask(bytes([ADD_ID_CONSTRAINED]) + pair + b"\2\2"), bytes([SUCCESS]), "a good pair after all that")
    agent.end()
    return f"{len(wrong)} pairs refused"


def same_key_again(scratch):
    """A key that is added again keeps its place, with its new comment and lifetime."""
    agent = scratch.start()
    pairs = [private_parts(scratch.key("ed25519", f"k{i}"))[0] for i in range(3)]
    with agent.line() as line:
        for pair in pairs:
            line.ask(bytes([ADD_IDENTITY]) + pair + text(b"first"))
        line.ask(bytes([ADD_ID_CONSTRAINED]) + pairs[1] + text(b"second") + b"\1\0\0\0\2")
        want(strings(line.ask(bytes([11]))[5:])[1::2], [b"first", b"second", b"first"], "the comments")
        time.sleep(2.2)
        want(strings(line.ask(bytes([11]))[5:])[1::2], [b"first", b"first"], "the comments after two seconds")
        want(line.ask(bytes([REMOVE_ALL]))[0], SUCCESS, "a removal of all")
        many = text(b"c" * 200000)
        for pair in pairs:
            want(line.ask(bytes([ADD_IDENTITY]) + pair + many)[0], SUCCESS, "an addition with a long comment")
        want(len(strings(line.ask(bytes([11]))[5:])), 6, "a listing of long comments")
    agent.end()


if __name__ == "__main__":
    tests_of([keys_of_each_kind, hashes_of_rsa, lifetimes, lock, wrong_words, confirmations, asked_though_ignored, feigned_comments, others_while_asked, gone_while_asked, certificates, bad_pairs, same_key_again])
