#!/usr/bin/env python3
"""The client at a terminal: a shell, sizes, questions, and the terminal as it was before after each end. Against an sshd that
runs as this user.

    terminals.py CLIENT"""
import contextlib
import fcntl
import os
import pty
import select
import signal
import struct
import subprocess
import sys
import termios
import time

import bad_servers
from local_sshd import Answering, Place, run_all, until, want


class Terminal:
    """A process whose controlling terminal is ours."""

    def __init__(self, place, words, rows=33, columns=101, **env):
        self.mine, self.theirs = pty.openpty()
        self.resize(rows, columns)
        self.before = termios.tcgetattr(self.theirs)
        self.seen = b""

        def own_terminal():
            os.setsid()
            fcntl.ioctl(0, termios.TIOCSCTTY, 0)

        env = {**place.environment, "TERM": "vt100", **env}
        self.process = subprocess.Popen(words, stdin=self.theirs, stdout=self.theirs, stderr=self.theirs, env=env, preexec_fn=own_terminal)

    def __enter__(self):
        return self

    def __exit__(self, *_):
        self.process.kill()
        self.process.wait()
        os.close(self.mine)
        os.close(self.theirs)

    def resize(self, rows, columns):
        fcntl.ioctl(self.mine, termios.TIOCSWINSZ, struct.pack("HHHH", rows, columns, 0, 0))

    def type(self, text):
        os.write(self.mine, text.encode())

    def until(self, text, seconds=15):
        end = time.monotonic() + seconds
        while text.encode() not in self.seen:
            if time.monotonic() > end:
                raise AssertionError(f"not seen within {seconds} s: {text!r} in {self.seen!r}")
            if select.select([self.mine], [], [], 0.2)[0]:
                with contextlib.suppress(OSError):
                    self.seen += os.read(self.mine, 65536)
        self.seen = self.seen[self.seen.index(text.encode()) + len(text) :]

    def ended(self, seconds=15):
        end = time.monotonic() + seconds
        while self.process.poll() is None and time.monotonic() < end:
            if select.select([self.mine], [], [], 0.1)[0]:
                self.seen += os.read(self.mine, 65536)
        if self.process.returncode is None:
            raise AssertionError(f"it doesn't end; seen: {self.seen[-300:]!r}")
        return self.process.returncode

    def is_as_before(self):
        return termios.tcgetattr(self.theirs) == self.before


def shell(place, *more):
    return [*place.words(PORT, *more), "-t", "localhost", "PS1='ready> ' exec sh -i"]


def a_shell_has_a_terminal(place):
    with Terminal(place, shell(place)) as it:
        it.until("ready> ")
        want(it.is_as_before(), False, "raw mode")
        it.type("tty; stty size; echo $TERM-\r")
        it.until("/dev/pts/")
        it.until("33 101")
        it.until("vt100-")
        it.resize(20, 77)
        time.sleep(0.5)
        it.type("stty size\r")
        it.until("20 77")
        it.type("sleep 60\r")
        time.sleep(0.5)
        it.type("\x03")
        it.until("ready> ")
        it.type("exit 5\r")
        want((it.ended(), it.is_as_before()), (5, True), "the shell's status, and the terminal afterwards")


def a_login_shell_without_a_command(place):
    with Terminal(place, [*place.words(PORT), "localhost"]) as it:
        it.type("echo $((6 * 7))-shell; exit\r")
        it.until("42-shell")
        want(it.ended(), 0, "a login shell")


def the_terminal_is_put_back_after_a_signal(place):
    for number in (signal.SIGTERM, signal.SIGHUP, signal.SIGINT, signal.SIGQUIT, signal.SIGUSR1):
        with Terminal(place, shell(place)) as it:
            it.until("ready> ")
            it.process.send_signal(number)
            want((it.ended(), it.is_as_before()), (-number, True), f"after {number.name}")


def the_terminal_is_put_back_when_the_server_goes(place):
    with Terminal(place, shell(place)) as it:
        it.until("ready> ")
        it.type("kill -9 $PPID\r")
        want((it.ended(), it.is_as_before()), (255, True), "after the server's end")


def a_tilde_and_a_point_end_it(place):
    with Terminal(place, shell(place)) as it:
        it.until("ready> ")
        it.type("echo a~.b ~~\r")
        it.until("a~.b ~~")
        it.until("ready> ")
        it.type("\r~~.\r")
        it.until("~.")
        it.type("\r~.")
        want((it.ended(), it.is_as_before()), (255, True), "~. at the beginning of a line")


def a_new_host_is_asked_about(place):
    fingerprint = subprocess.run(["ssh-keygen", "-l", "-f", place.path("host_ed25519.pub")], capture_output=True, text=True, check=True).stdout.split()[1]
    for answer, status, lines in (("no", 255, 0), ("maybe\rno", 255, 0), ("yes", 0, 1), (fingerprint, 0, 1)):
        place.write("asked", "")
        with Terminal(place, [*place.words(PORT, known="asked"), "localhost", "echo in"]) as it:
            it.until(f"[localhost]:{PORT}")
            it.until(fingerprint)
            it.until("? ")
            it.type(answer + "\r")
            want((it.ended(), place.read("asked").count("\n")), (status, lines), f"the answer {answer}")
    with Terminal(place, [*place.words(PORT, known="asked"), "localhost", "echo in"]) as it:
        want((it.ended(), b"? " in it.seen), (0, False), "the second time it isn't asked about")


def a_passphrase_is_asked_for(place):
    place.make_key("locked", "ed25519", "open sesame")
    place.write("authorized_keys", place.read("authorized_keys") + place.read("locked.pub"))
    with Terminal(place, [*place.words(PORT, key="locked"), "localhost", "echo in"]) as it:
        it.until("Passphrase of ")
        it.type("wrong\r")
        it.until("Passphrase of ")
        want(bool(termios.tcgetattr(it.theirs)[3] & termios.ECHO), False, "the echo")
        it.type("open sesame\r")
        it.until("in\r\n")
        want((it.ended(), it.is_as_before()), (0, True), "a key with a passphrase")
    place.make_key("useless", "ed25519", "never asked for")
    with Terminal(place, [*place.words(PORT, "-i", place.path("useless")), "localhost", "echo in"]) as it:
        want((it.ended(), b"useless" in it.seen), (0, False), "the passphrase of a key that the server doesn't take")


def three_tries_for_a_password(place):
    tried = []

    class Asks(bad_servers.Peer):
        def login(self):
            self.receive()
            self.send(bytes([bad_servers.SERVICE_ACCEPT]) + bad_servers.string(b"ssh-userauth"))
            while True:
                request = self.receive()
                if request[0] == bad_servers.DISCONNECT:
                    raise EOFError
                if b"password" in request:
                    tried.append(request[-9:])
                self.send(bytes([bad_servers.USERAUTH_FAILURE]) + bad_servers.string(b"password") + b"\0")

    listener = Answering(lambda line: Asks(line, "nothing").run())
    path = place.write("asks", f"[127.0.0.1]:{listener.port} ssh-ed25519 {bad_servers.host_line()}\n")
    words = [place.client, "-F", "none", "-p", str(listener.port), "-o", f"UserKnownHostsFile={path}", "-o", "PubkeyAuthentication=no", "me@127.0.0.1", "x"]
    with Terminal(place, words) as it:
        for number in range(3):
            it.until("me@127.0.0.1's password: ")
            it.type(f"password{number}\r")
        want((it.ended(), it.is_as_before()), (255, True), "three wrong passwords")
        want((tried, b"permission denied (password)" in it.seen), ([b"password0", b"password1", b"password2"], True), "what the server got")


if __name__ == "__main__":
    TESTS = [a_shell_has_a_terminal, a_login_shell_without_a_command, the_terminal_is_put_back_after_a_signal, the_terminal_is_put_back_when_the_server_goes,
             a_tilde_and_a_point_end_it, a_new_host_is_asked_about, a_passphrase_is_asked_for, three_tries_for_a_password]
    with Place(sys.argv[1]) as place:
        PORT = place.sshd()
        place.known(PORT, "ed25519", "ecdsa", "rsa")
        sys.exit(run_all([it for it in TESTS if len(sys.argv) < 3 or it.__name__ in sys.argv[2:]], place, "terminals"))
