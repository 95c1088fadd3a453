#!/usr/bin/env python3
"""The client against Debian's servers, each of which is passed over where it isn't installed. As root: it makes a user, and
deletes it at the end.

    logins.py CLIENT"""
import os
import shutil
import socket
import subprocess
import sys
import threading
import time

from servers import Scratch, free_port

CLIENT = os.path.abspath(sys.argv[1])
CIPHERS = ("aes256-gcm@openssh.com", "chacha20-poly1305@openssh.com", "aes256-ctr")
HOST_KEYS = ("ssh-ed25519", "ecdsa-sha2-nistp256", "rsa-sha2-512", "rsa-sha2-256")
MANY = os.urandom(1 << 20) * 20


def client(scratch, port, *words, input=b"", agent=True, wait=True):
    """Runs the client, and returns its status, standard output and standard error."""
    base = [CLIENT, "-F", "none", *words[: -2 if len(words) > 1 else 0], "-p", str(port), "-l", scratch.user, "-o", f"UserKnownHostsFile={scratch.folder}/known_hosts", "-w", f"{scratch.folder}/password"]
    words = words[-2 if len(words) > 1 else 0 :]
    env = {**os.environ, "HOME": scratch.folder, "SSH_AUTH_SOCK": scratch.socket if agent else ""}
    if not wait:
        return subprocess.Popen([*base, *words], stdin=subprocess.DEVNULL, env=env)
    ran = subprocess.run([*base, *words], input=input, capture_output=True, env=env, timeout=120)
    return ran.returncode, ran.stdout, ran.stderr.decode()


def want(got, wanted, what):
    if got != wanted:
        sys.exit(f"{what}: {got!r:.300} and not {wanted!r:.300}")


def logins(scratch, port):
    want(client(scratch, port, "localhost", "echo hello; exit 7", agent=False)[:2], (7, b"hello\n"), "a password")
    for kind in ("ed25519", "ecdsa", "rsa"):
        scratch.drop_keys()
        scratch.add_key(kind)
        want(client(scratch, port, "localhost", "id -un")[:2], (0, scratch.user.encode() + b"\n"), f"an agent's {kind} key")
    want(client(scratch, port, "localhost", "echo to >&2; kill -9 $$")[0], 255, "a command that is killed")
    scratch.write("password", "wrong\n")
    status, _, said = client(scratch, port, "localhost", "true", agent=False)
    want((status, "permission denied" in said), (255, True), "a wrong password")
    scratch.write("password", scratch.password + "\n")


def transports(scratch, port):
    for cipher in CIPHERS:
        for key in HOST_KEYS:
            want(client(scratch, port, "-c", cipher, "-o", f"HostKeyAlgorithms={key}", "localhost", "wc -c", input=MANY[:100000])[:2], (0, b"100000\n"), f"{cipher} {key}")
        status, output, _ = client(scratch, port, "-c", cipher, "-o", "RekeyLimit=3000000", "localhost", "cat", input=MANY)
        want((status, output == MANY), (0, True), f"{cipher}, 20 MB there and back with new keys at each 3 MB")


def sftp(scratch, port):
    words = f"{CLIENT} -F none -p {port} -l {scratch.user} -o UserKnownHostsFile={scratch.folder}/known_hosts"
    scratch.write("sftp", f'#!/bin/sh\nexec {words} "$@"\n')
    os.chmod(f"{scratch.folder}/sftp", 0o755)
    scratch.write("batch", f"get /etc/services {scratch.folder}/got\n")
    env = {**os.environ, "SSH_AUTH_SOCK": scratch.socket}
    subprocess.run(["sftp", "-b", f"{scratch.folder}/batch", "-S", f"{scratch.folder}/sftp", "localhost"], check=True, env=env, capture_output=True, timeout=60)
    with open("/etc/services") as file:
        want(scratch.read("got"), file.read(), "a file by sftp")


def echo_server():
    listener = socket.create_server(("127.0.0.1", 0))

    def serve(line):
        while data := line.recv(65536):
            line.sendall(data)
        line.close()

    def accept():
        while True:
            threading.Thread(target=serve, args=(listener.accept()[0],), daemon=True).start()

    threading.Thread(target=accept, daemon=True).start()
    return listener.getsockname()[1]


def through(port):
    """What comes back of 2 MB through a forwarded port."""
    for _ in range(100):
        try:
            line = socket.create_connection(("127.0.0.1", port), 5)
            break
        except OSError:
            time.sleep(0.1)
    line.settimeout(60)
    sender = threading.Thread(target=lambda: (line.sendall(MANY[: 2 << 20]), line.shutdown(socket.SHUT_WR)))
    sender.start()
    got = b""
    while data := line.recv(65536):
        got += data
    sender.join()
    return got == MANY[: 2 << 20]


def forwards(scratch, port):
    echo, local, remote = echo_server(), free_port(), free_port()
    running = client(scratch, port, "-L", f"{local}:127.0.0.1:{echo}", "-R", f"{remote}:127.0.0.1:{echo}", "-N", "localhost", wait=False)
    try:
        for name, at in (("-L", local), ("-R", remote), ("-L", local)):
            want(through(at), True, f"2 MB there and back through {name}")
    finally:
        running.terminate()
        running.wait()


def curves(scratch):
    """The other key exchange, and the host keys on the larger curves."""
    for kind in ("ecdsa384", "ecdsa521"):
        scratch.make_key(f"host_{kind}", kind)
    keys = "".join(f"HostKey {scratch.folder}/host_{kind}\n" for kind in ("ecdsa384", "ecdsa521"))
    port = scratch.sshd(more=f"KexAlgorithms ecdh-sha2-nistp256\n{keys}")
    scratch.know(port, "ed25519", "ecdsa384", "ecdsa521")
    for key in ("ssh-ed25519", "ecdsa-sha2-nistp384", "ecdsa-sha2-nistp521"):
        want(client(scratch, port, "-o", f"HostKeyAlgorithms={key}", "localhost", "echo hello")[:2], (0, b"hello\n"), f"ecdh-sha2-nistp256 {key}")
    want(client(scratch, port, "-o", "UserKnownHostsFile=/", "localhost", "true")[0], 255, "known hosts that can't be read")


def simple(scratch, port, name, by_password=True):
    scratch.know(port, name)
    scratch.drop_keys()
    if by_password:
        want(client(scratch, port, "localhost", "echo hello", agent=False)[:2], (0, b"hello\n"), f"{name}, a password")
    scratch.add_key("ed25519")
    want(client(scratch, port, "localhost", "exit 5")[0], 5, f"{name}, an agent's key")
    status, output, _ = client(scratch, port, "localhost", "cat", input=MANY[:3000000])
    want((status, output == MANY[:3000000]), (0, True), f"{name}, 3 MB there and back")


def main():
    ran = []
    with Scratch() as scratch:
        port = scratch.sshd()
        scratch.know(port, "ed25519", "ecdsa", "rsa")
        logins(scratch, port)
        scratch.drop_keys()
        scratch.add_key("ed25519")
        transports(scratch, port)
        sftp(scratch, port)
        forwards(scratch, port)
        prompts = scratch.sshd(password="no")
        scratch.know(prompts, "ed25519")
        want(client(scratch, prompts, "localhost", "echo hello", agent=False)[:2], (0, b"hello\n"), "prompts")
        curves(scratch)
        ran.append("sshd")
        if shutil.which("dropbear") and shutil.which("dropbearkey"):
            simple(scratch, scratch.dropbear(), "dropbear")
            ran.append("dropbear")
        if shutil.which("tinysshd"):
            simple(scratch, scratch.tinysshd(), "tiny", by_password=False)
            ran.append("tinysshd")
        for name in ("asyncssh", "paramiko"):
            if subprocess.run(["/usr/bin/python3", "-c", f"import {name}"], capture_output=True).returncode == 0:
                port = scratch.python_server(name)
                shutil.copy(f"{scratch.folder}/host_ed25519.pub", f"{scratch.folder}/host_{name}.pub")
                simple(scratch, port, name)
                ran.append(name)
    print(f"client: logins, commands, ciphers, host keys, new keys, sftp, -L, -R against {', '.join(ran)}")


main()
