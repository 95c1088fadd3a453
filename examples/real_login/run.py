#!/usr/bin/env python3
"""Logs in to a real sshd through `sshc script`: by a password, by a key and by prompts; runs commands, forwards a port,
lists a directory, and exchanges keys again in the middle. It starts and stops the server itself, and has to run as root.

Usage: examples/real_login/run.py PROGRAM [WORDS..]
PROGRAM WORDS.. runs `sshc`: crates/sshc/out/sshc after `rt run` there.
"""
import sys
import threading
from http.server import BaseHTTPRequestHandler, HTTPServer

from cryptography.hazmat.primitives.serialization import Encoding, PublicFormat, load_ssh_private_key

from server import USER, Server
from session import CLOSE, EXEC, OPEN_DIRECT_TCPIP, OPEN_SESSION, SEND_DATA, SUBSYSTEM, Ended, Session
from sftp import Sftp
from transport import Transport, string, u32

PASSWORD, OUTSIDE_KEY, PROMPTS = 1, 4, 6
WANT_REPLY = b"\1"


class Hello(BaseHTTPRequestHandler):
    def do_GET(self):
        body = b"hello through the tunnel\n"
        self.send_response(200)
        self.send_header("Content-Length", str(len(body)))
        self.end_headers()
        self.wfile.write(body)

    def log_message(self, *_):
        pass


class Client:
    """Connects sessions to the example's server."""

    def __init__(self, program, server):
        self.program, self.server = program, server
        with open(f"{server.folder}/user_key", "rb") as file:
            self.key = load_ssh_private_key(file.read(), None)

    def connect(self, host="localhost"):
        transport = Transport(("127.0.0.1", self.server.port))
        session = Session(self.program, transport, host, self.server.port, self.server.known_hosts, self.sign, self.answer)
        session.wait(lambda: not session.is_exchanging)
        return session

    def sign(self, to_sign):
        """The user's private key is here and not in the program."""
        return string(b"ssh-ed25519") + string(self.key.sign(to_sign))

    def answer(self, prompt):
        print(f'  the server asks "{prompt.decode().strip()}"')
        return self.server.password.encode()

    def key_blob(self):
        raw = self.key.public_key().public_bytes(Encoding.Raw, PublicFormat.Raw)
        return string(b"ssh-ed25519") + string(raw)


def begin_command(session, command):
    channel = session.open(OPEN_SESSION)
    session.ask(channel, EXEC, WANT_REPLY + string(command))
    return channel


def run_command(session, command):
    """Runs a command, and waits until its channel is closed."""
    channel = begin_command(session, command)
    session.wait(lambda: channel.is_closed)
    return channel


def by_password(client):
    print("By a password:")
    session = client.connect()
    ok = session.authenticate(USER.encode(), PASSWORD, string(client.server.password.encode()))
    print(f"  logged in: {ok}")
    channel = run_command(session, b"echo hello from the server; exit 7")
    print(f"  the command says {channel.output.decode()!r} and ends with status {channel.exit_status}")
    channel = begin_command(session, b"seq 1 400000")
    session.wait(lambda: channel.output)
    session.rekey()
    session.wait(lambda: channel.is_closed)
    last = channel.output.split()[-1].decode()
    print(f"  with new keys in the middle ({session.exchanges} exchanges): {len(channel.output)} bytes, the last {last}")
    print(f"  {session.leave()}")


def by_key(client):
    print("By a key that the program doesn't hold:")
    session = client.connect()
    ok = session.authenticate(USER.encode(), OUTSIDE_KEY, string(client.key_blob()) + b"\0")
    print(f"  logged in: {ok}")
    channel = session.open(OPEN_SESSION)
    session.ask(channel, SUBSYSTEM, WANT_REPLY + string(b"sftp"))
    names = Sftp(session, channel).names(b"/")
    print(f"  the sftp subsystem lists {len(names)} names in /: {', '.join(names[:5])}, ..")
    session.ask(channel, CLOSE)
    print(f"  {session.leave()}")


def by_prompts(client):
    print("By prompts:")
    session = client.connect()
    ok = session.authenticate(USER.encode(), PROMPTS, string(b""))
    print(f"  logged in: {ok}")
    web = HTTPServer(("127.0.0.1", 0), Hello)
    threading.Thread(target=web.serve_forever, daemon=True).start()
    port = web.server_address[1]
    channel = session.open(OPEN_DIRECT_TCPIP, string(b"127.0.0.1") + u32(port) + string(b"127.0.0.1") + u32(0))
    session.ask(channel, SEND_DATA, string(b"GET / HTTP/1.0\r\n\r\n"))
    session.wait(lambda: channel.is_ended)
    print(f"  the forwarded port answers {channel.output.splitlines()[-1].decode()!r}")
    print(f"  {session.leave()}")


def refused(client):
    print("With a wrong password, and to a host whose key isn't known:")
    session = client.connect()
    ok = session.authenticate(USER.encode(), PASSWORD, string(b"wrong"))
    print(f"  logged in: {ok}; {session.leave()}")
    try:
        client.connect("elsewhere")
    except Ended as last:
        print(f"  {last}")


def main():
    with Server() as server:
        client = Client(sys.argv[1:], server)
        for part in (by_password, by_key, by_prompts, refused):
            part(client)


if __name__ == "__main__":
    main()
