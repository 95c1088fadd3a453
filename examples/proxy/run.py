#!/usr/bin/env python3
"""Debian's ssh-agent behind the proxy: what ssh-add gets of it before a connection is bound to a host and after, and what
is refused. It starts and stops all processes itself, and needs openssh-client.

Usage: examples/proxy/run.py COMMAND [WORDS..]
COMMAND runs the program: crates/sshc_proxy_main/out/sshc_proxy_main after `rt run` there, or before any proof
`rt try --seconds 600 --` there.
"""
import os
import selectors
import socket
import subprocess
import sys
import tempfile
import threading

from proxied import (EXTENSION, LIST, LOCK, Agent, ask, binding, kind, make_key, sign_request, start_proxy, string,
                     toy_signature, write_policy)

SESSION = b"a session identifier"


def relay(one, other):
    """Passes bytes both ways until either stream ends."""
    with selectors.DefaultSelector() as ready, one, other:
        ready.register(one, selectors.EVENT_READ, other)
        ready.register(other, selectors.EVENT_READ, one)
        while True:
            for key, _ in ready.select():
                piece = key.fileobj.recv(65536)
                if not piece:
                    return
                key.data.sendall(piece)


class Socket:
    """A socket at which each connection has a proxy of its own, which is bound to these hosts first."""

    def __init__(self, path, start, bindings):
        self.path, self.start, self.bindings = path, start, bindings
        self.listener = socket.socket(socket.AF_UNIX)
        self.listener.bind(path)
        self.listener.listen()
        threading.Thread(target=self.accept, daemon=True).start()

    def accept(self):
        while True:
            client, _ = self.listener.accept()
            threading.Thread(target=self.serve, args=(client,), daemon=True).start()

    def serve(self, client):
        process, proxy = self.start()
        for frame in self.bindings:
            ask(proxy, frame)
        relay(client, proxy)
        process.wait()


def ssh_add(path, folder, words):
    env = {**os.environ, "SSH_AUTH_SOCK": path}
    ran = subprocess.run(["ssh-add", *words], env=env, capture_output=True, text=True, stdin=subprocess.DEVNULL)
    said = " / ".join(line for line in (ran.stdout + ran.stderr).replace(f"{folder}/", "").splitlines() if line)
    return said or "done" if ran.returncode == 0 else f"{said} (status {ran.returncode})"


def main():
    if len(sys.argv) < 2:
        raise SystemExit(__doc__)
    with tempfile.TemporaryDirectory() as folder:
        work, home, host, other = (make_key(folder, name) for name in ("work", "home", "host", "other"))
        agent = Agent(folder, ["work", "home"])
        policy = write_policy(folder, [(work, host)])
        start = lambda: start_proxy(sys.argv[1:], agent, policy)
        bind = lambda key: binding(key, SESSION, toy_signature(key, SESSION))
        forged = binding(host, SESSION, toy_signature(other, SESSION))
        try:
            for name, frames in (("nothing", []), ("host", [bind(host)]), ("host and other", [bind(host), bind(other)]),
                                 ("host by a forged signature", [forged])):
                path = f"{folder}/socket-{name.replace(' ', '-')}"
                Socket(path, start, frames)
                print(f"bound: {name}")
                for words in (["-l"], ["-T", f"{folder}/work.pub"], ["-T", f"{folder}/home.pub"]):
                    named = " ".join(word.replace(f"{folder}/", "") for word in words)
                    print(f"  ssh-add {named}: {ssh_add(path, folder, words)}")
            print("frames, on one connection:")
            process, proxy = start()
            for what, frame in (("a listing, nothing bound", bytes([LIST])),
                                ("a binding to host", bind(host)), ("a forged one", forged),
                                ("a signature by work", sign_request(work, b"bytes")),
                                ("a signature by home", sign_request(home, b"bytes")),
                                ("a lock", bytes([LOCK]) + string(b"pw")),
                                ("another extension", bytes([EXTENSION]) + string(b"query")),
                                ("a binding to other", bind(other)),
                                ("a signature by work", sign_request(work, b"bytes"))):
                print(f"  {what}: {kind(ask(proxy, frame))}")
            proxy.close()
            print(f"the proxy ends with status {process.wait()}")
        finally:
            agent.stop()


main()
