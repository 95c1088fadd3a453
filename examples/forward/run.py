#!/usr/bin/env python3
"""Forwards ports through a real sshd: a local port to an echo server, and a port of the server back to it, each with many
connections beside one another, half of which end their sending early. It starts and stops the server itself, and has to
run as root.

Usage: examples/forward/run.py SSHC SSHC_FORWARD_MAIN
The programs are crates/sshc/out/sshc and crates/sshc_forward_main/out/sshc_forward_main, after `rt run` there.
"""
import os
import pathlib
import socket
import socketserver
import sys
import threading
import time

sys.path.insert(0, str(pathlib.Path(__file__).resolve().parent.parent / "real_login"))

from forwards import Forwards  # noqa: E402
from run import PASSWORD  # noqa: E402
from server import USER, Server  # noqa: E402
from transport import Transport, string  # noqa: E402

CONNECTIONS = 100
SIZE = 1 << 20
# a run of `sshc script` takes at most 8,192 events, so the connections are shared out among sessions
SESSIONS = 5


class Echo(socketserver.BaseRequestHandler):
    """Sends back what comes, up to the end."""

    def handle(self):
        while body := self.request.recv(65536):
            self.request.sendall(body)


class EchoServer(socketserver.ThreadingTCPServer):
    allow_reuse_address = daemon_threads = True
    request_queue_size = 256


class User:
    """A connection to a forwarded port: sends its bytes, all of them or the first half, ends, and reads what comes back."""

    def __init__(self, number, port):
        self.number, self.port = number, port
        self.body = os.urandom(SIZE if number % 2 else SIZE // 2)
        self.thread = threading.Thread(target=self.run)
        self.came, self.error = b"", None

    def run(self):
        try:
            with socket.create_connection(("127.0.0.1", self.port)) as connection:
                sender = threading.Thread(target=self.send, args=(connection,))
                sender.start()
                while body := connection.recv(65536):
                    self.came += body
                sender.join()
        except OSError as error:
            self.error = error

    def send(self, connection):
        connection.sendall(self.body)
        connection.shutdown(socket.SHUT_WR)

    def is_right(self):
        return self.error is None and self.came == self.body


class Side(threading.Thread):
    """A session with its program of forwards, and its share of the users; it ends once all of its pairs are gone."""

    def __init__(self, session, port, numbers):
        super().__init__()
        self.session, self.users = session, [User(number, port) for number in numbers]
        self.last_lines, self.error = None, None

    def run(self):
        try:
            for user in self.users:
                user.thread.start()
            self.session.wait(lambda: self.session.numbers == len(self.users) and not self.session.streams)
            for user in self.users:
                user.thread.join()
            self.last_lines = (self.session.close_forwards(), self.session.leave())
        except Exception as error:  # a thread's error is told by `report`
            self.error = error


def report(sides):
    """Serves all sides beside one another, and prints what became of them."""
    began = time.monotonic()
    for side in sides:
        side.start()
    for side in sides:
        side.join()
    users = [user for side in sides for user in side.users]
    right, came = sum(user.is_right() for user in users), sum(len(user.came) for user in users)
    print(f"  {right} of {len(users)} connections got their own bytes back, {came} in all, in {time.monotonic() - began:.0f} seconds")
    print(f"  pairs at once at most, by session: {', '.join(str(side.session.most_at_once) for side in sides)}")
    for side in sides:
        if side.error:
            print(f"  a session stopped: {side.error!r}")
    for forwards, session in sorted({side.last_lines for side in sides if side.last_lines}):
        print(f"  the programs of forwards: {forwards}; the sessions: {session}")


def login(programs, server):
    transport = Transport(("127.0.0.1", server.port))
    session = Forwards(programs[:1], programs[1:], transport, "localhost", server.port, server.known_hosts)
    session.wait(lambda: not session.is_exchanging)
    if not session.authenticate(USER.encode(), PASSWORD, string(server.password.encode())):
        sys.exit("not logged in")
    return session


def main():
    programs = sys.argv[1:3]
    with Server() as server, EchoServer(("127.0.0.1", 0), Echo) as echo:
        threading.Thread(target=echo.serve_forever, daemon=True).start()
        target = ("127.0.0.1", echo.server_address[1])
        for what, forward in (
            ("Local ports forwarded to an echo server:", Forwards.forward_local),
            ("Ports of the server forwarded back to it:", Forwards.forward_remote),
        ):
            print(what, flush=True)
            sides = []
            for number in range(SESSIONS):
                session = login(programs, server)
                sides.append(Side(session, forward(session, target), range(number, CONNECTIONS, SESSIONS)))
            report(sides)
        echo.shutdown()


if __name__ == "__main__":
    main()
