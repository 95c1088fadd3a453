#!/usr/bin/env python3
"""Runs the agent's client against Debian's ssh-agent, outside the gate: makes two keys, adds them with ssh-add, and lists, signs,
locks, unlocks and removes through the program over the agent's socket. ssh-keygen -Y verify judges the signatures.

Usage: examples/ask-an-agent/run.py COMMAND [WORDS..]
COMMAND runs the program: out/sshc_ask_main in crates/sshc_ask_main after `rt run` there, or before any proof `rt try --` there.
"""
import base64
import hashlib
import os
import signal
import struct
import subprocess
import sys
import tempfile
import time

MESSAGE = b"what is signed\n"
KINDS = ("ed25519", "rsa")


def string(body):
    return struct.pack(">I", len(body)) + body


def parts(body):
    (length,) = struct.unpack(">I", body[:4])
    return body[4 : 4 + length], body[4 + length :]


# What ssh-keygen -Y signs for a file (OpenSSH's PROTOCOL.sshsig): a preamble and the digest of the message.
SIGNED = b"SSHSIG" + string(b"file") + string(b"") + string(b"sha512") + string(hashlib.sha512(MESSAGE).digest())


def ask(command, socket, lines):
    """What the program prints for these commands."""
    ran = subprocess.run([*command, socket], input="".join(f"{line}\n" for line in lines), check=True, capture_output=True, text=True)
    return iter(line for line in ran.stdout.splitlines() if line)


def verify(folder, key, answer):
    """Puts the signature into OpenSSH's format for files, and has ssh-keygen verify it."""
    assert answer.startswith(SIGNED), "the bytes to sign are handed back"
    signature, rest = parts(answer[len(SIGNED) :])
    assert rest == b""
    blob = b"SSHSIG" + struct.pack(">I", 1) + string(base64.b64decode(key)) + string(b"file") + string(b"") + string(b"sha512") + string(signature)
    text = base64.b64encode(blob).decode()
    with open(f"{folder}/signature", "w") as file:
        file.write("-----BEGIN SSH SIGNATURE-----\n")
        file.write("\n".join(text[i : i + 70] for i in range(0, len(text), 70)))
        file.write("\n-----END SSH SIGNATURE-----\n")
    name = parts(base64.b64decode(key))[0].decode()
    with open(f"{folder}/allowed", "w") as file:
        file.write(f"user {name} {key}\n")
    words = ["ssh-keygen", "-Y", "verify", "-f", f"{folder}/allowed", "-I", "user", "-n", "file", "-s", f"{folder}/signature"]
    said = subprocess.run(words, input=MESSAGE, check=True, capture_output=True).stdout.decode().split(" key SHA256:")[0]
    return f"{parts(signature)[0].decode()}: {said}"


def add_keys(folder, socket):
    """Makes the keys, adds them with ssh-add, and returns their blobs in base64."""
    keys = {}
    for kind in KINDS:
        subprocess.run(["ssh-keygen", "-q", "-t", kind, "-N", "", "-C", kind, "-f", f"{folder}/{kind}"], check=True)
        subprocess.run(["ssh-add", "-q", f"{folder}/{kind}"], check=True, env={**os.environ, "SSH_AUTH_SOCK": socket})
        with open(f"{folder}/{kind}.pub") as file:
            keys[kind] = file.read().split()[1]
    return keys


def show(command, folder, socket):
    keys = add_keys(folder, socket)
    commands = ["list", *[f"sign {kind} {SIGNED.hex()}" for kind in KINDS], "lock word", "list", f"sign rsa {SIGNED.hex()}"]
    commands += ["unlock other", "unlock word", "list", "remove rsa", "list", "clear", "list"]
    answers = ask(command, socket, commands)
    for line in commands:
        if line == "list":
            listed = []
            answer = next(answers)
            while not answer.endswith(" keys"):
                key, comment = answer.split(" ")
                assert keys[comment] == key, "the key that ssh-add was given"
                listed.append(comment)
                answer = next(answers)
            print("list:", answer, *listed)
        elif line.startswith("sign") and (answer := next(answers)) not in ("CouldNotReadKey",):
            kind = line.split()[1]
            print(f"sign {kind}:", verify(folder, keys[kind], bytes.fromhex(answer)))
        elif line.startswith("sign"):
            print(f"sign {line.split()[1]}:", answer)
        else:
            print(f"{line}:", next(answers))
    print("a path that isn't there:", next(ask(command, f"{folder}/none", [])))


def main():
    with tempfile.TemporaryDirectory() as folder:
        socket = f"{folder}/socket"
        agent = subprocess.Popen(["ssh-agent", "-D", "-a", socket], stdout=subprocess.DEVNULL)
        try:
            while not os.path.exists(socket):
                time.sleep(0.01)
            show(sys.argv[1:], folder, socket)
        finally:
            agent.send_signal(signal.SIGTERM)
            agent.wait()


if __name__ == "__main__":
    main()
