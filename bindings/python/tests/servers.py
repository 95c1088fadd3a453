"""Servers on the loopback for the tests of connections, each with keys of its own in a folder that goes away: Debian's sshd as
the user of this process, dropbear, and asyncssh. None of them makes a user, and none needs root, but dropbear, which reads
the keys of a home."""
import getpass
import os
import pathlib
import shutil
import signal
import socket
import subprocess
import sys
import tempfile
import threading
import time
import unittest

HERE = pathlib.Path(__file__).resolve().parent
BUILT = HERE.parent.parent / "out" / "shared" / "libsazhonthil_ssh.so"
if "SAZHONTHIL_SSH" not in os.environ and not (HERE.parent / "sazhonthil" / BUILT.name).exists() and BUILT.exists():
    os.environ["SAZHONTHIL_SSH"] = str(BUILT)  # what bindings/build.sh made

import sazhonthil  # noqa: E402

SSHD, DROPBEAR = "/usr/sbin/sshd", shutil.which("dropbear") or "/usr/sbin/dropbear"
CONFIG = """
Port {port}
ListenAddress 127.0.0.1
HostKey {folder}/host_{kind}
PidFile none
AuthorizedKeysFile {folder}/authorized_keys
StrictModes no
UsePAM no
PermitRootLogin yes
PasswordAuthentication no
KbdInteractiveAuthentication no
AcceptEnv SAZH_*
SetEnv HOME={folder}/home
Subsystem sftp internal-sftp
MaxStartups 200
MaxSessions 200
{more}
"""
PASSWORD = "a password of the tests'"


def missing_library():
    """Why the library can't be used; None where it can."""
    try:
        sazhonthil.native.load()
    except sazhonthil.LibraryMissing as why:
        return str(why)
    return None


def needs_library(thing):
    why = missing_library()
    return unittest.skipIf(why is not None, f"no library: {why}")(thing)


def free_port():
    with socket.socket() as probe:
        probe.bind(("127.0.0.1", 0))
        return probe.getsockname()[1]


def until(is_done, what, seconds=20):
    end = time.monotonic() + seconds
    while time.monotonic() < end:
        if is_done():
            return
        time.sleep(0.02)
    raise AssertionError(f"not within {seconds} s: {what}")


def can_connect(port):
    try:
        with socket.create_connection(("127.0.0.1", port), 2):
            return True
    except OSError:
        return False


def interpreter_with(module):
    """A Python that has the module: this one, or Debian's."""
    for python in (sys.executable, "/usr/bin/python3"):
        if os.path.exists(python) and subprocess.run([python, "-c", f"import {module}"], capture_output=True).returncode == 0:
            return python
    return None


class Server:
    """A server that runs; `port`, `user` and the kind of its host key."""

    def __init__(self, place, name, process, port, kind="ed25519"):
        self.place, self.name, self.process, self.port, self.kind = place, name, process, port, kind
        self.user, self.host = place.user, f"[localhost]:{port}"
        self.known_hosts = place.write(f"known_{port}", f"{self.host} {self.host_key()}\n")

    def host_key(self):
        return " ".join(self.place.read(f"host_{self.kind}.pub").split()[:2])

    def options(self, **other):
        return {"user": self.user, "key": self.place.path("user_ed25519"), "known_hosts": self.known_hosts, **other}

    def connect(self, **other):
        """Logged in by key, unless `other` says otherwise."""
        return sazhonthil.connect("localhost", self.port, **self.options(**other))

    def kill(self):
        """The server and all its connections, at once."""
        os.killpg(self.process.pid, signal.SIGKILL)
        self.process.wait()


class Place:
    """A folder with keys, and the servers that were started there."""

    def __init__(self):
        self.folder = tempfile.mkdtemp(prefix="sazhonthil-")
        self.user, self.processes = getpass.getuser(), []
        for kind in ("ed25519", "rsa"):
            self.make_key(f"host_{kind}", kind)
        for name, words in (("user_ed25519", ("ed25519", "")), ("user_sealed", ("ed25519", "open sesame")), ("other_ed25519", ("ed25519", ""))):
            self.make_key(name, *words)
        self.write("authorized_keys", self.read("user_ed25519.pub") + self.read("user_sealed.pub"))
        os.makedirs(self.path("home/.ssh"), mode=0o700)  # what a shell runs at its start is nobody's
        shutil.copy(self.path("authorized_keys"), self.path("home/.ssh/authorized_keys"))

    def close(self):
        for process in self.processes:
            if process.poll() is None:
                os.killpg(process.pid, signal.SIGTERM)
                try:
                    process.wait(5)
                except subprocess.TimeoutExpired:
                    os.killpg(process.pid, signal.SIGKILL)
                    process.wait()
        shutil.rmtree(self.folder, ignore_errors=True)

    def path(self, name):
        return f"{self.folder}/{name}"

    def read(self, name):
        return pathlib.Path(self.path(name)).read_text()

    def write(self, name, text):
        pathlib.Path(self.path(name)).write_text(text)
        return self.path(name)

    def make_key(self, name, kind, passphrase=""):
        more = ["-b", "2048"] if kind == "rsa" else []
        subprocess.run(["ssh-keygen", "-q", "-t", kind, *more, "-N", passphrase, "-C", "", "-f", self.path(name)], check=True)

    def start(self, words, port):
        with open(self.path(f"log{port}"), "w") as log:
            process = subprocess.Popen(words, stdin=subprocess.DEVNULL, stdout=log, stderr=log, start_new_session=True)
        self.processes.append(process)
        until(lambda: process.poll() is not None or can_connect(port), "the server starts")
        if process.poll() is not None:
            raise unittest.SkipTest(f"{words[0]} doesn't start here: {self.read(f'log{port}')[-300:]}")
        return process

    # ---- servers

    def sshd(self, kind="ed25519", more="", port=None):
        if not os.path.exists(SSHD):
            raise unittest.SkipTest(f"no {SSHD} (Debian: openssh-server)")
        if os.geteuid() == 0:
            os.makedirs("/run/sshd", exist_ok=True)
        port = port or free_port()
        config = self.write(f"config{port}", CONFIG.format(port=port, folder=self.folder, kind=kind, more=more))
        return Server(self, "sshd", self.start([SSHD, "-D", "-e", "-f", config], port), port, kind)

    def dropbear(self):
        """As root, in a mount namespace in which the home is a folder of ours."""
        if not os.path.exists(DROPBEAR):
            raise unittest.SkipTest("no dropbear (Debian: dropbear-bin)")
        if os.geteuid() != 0 or not shutil.which("unshare"):
            raise unittest.SkipTest("dropbear reads the keys of the home: these tests put another one there, which needs root and unshare")
        port, home, key = free_port(), self.path("home"), self.path("dropbear")
        if not os.path.exists(key):
            subprocess.run(["dropbearkey", "-t", "ed25519", "-f", key], check=True, capture_output=True)
            told = subprocess.run(["dropbearkey", "-y", "-f", key], check=True, capture_output=True, text=True).stdout
            self.write("host_dropbear.pub", next(it for it in told.splitlines() if it.startswith("ssh-")))
        script = f"mount --bind {home} {os.path.expanduser('~')} && exec {DROPBEAR} -F -E -p 127.0.0.1:{port} -r {key}"
        return Server(self, "dropbear", self.start(["unshare", "-m", "sh", "-c", script], port), port, "dropbear")

    def asyncssh(self):
        python = interpreter_with("asyncssh")
        if python is None:
            raise unittest.SkipTest("no asyncssh (Debian: python3-asyncssh)")
        port = free_port()
        words = [python, str(HERE / "asyncssh_server.py"), str(port), self.folder, self.user, PASSWORD]
        return Server(self, "asyncssh", self.start(words, port), port)


class Listening:
    """A listener on the loopback that serves each connection in a thread: `serve(line)`."""

    def __init__(self, serve):
        self.listener = socket.create_server(("127.0.0.1", 0), backlog=64)
        self.port, self.serve = self.listener.getsockname()[1], serve
        threading.Thread(target=self._accept, daemon=True).start()

    def _accept(self):
        while True:
            try:
                line, _ = self.listener.accept()
            except OSError:
                return
            threading.Thread(target=self._one, args=(line,), daemon=True).start()

    def _one(self, line):
        with line:
            try:
                self.serve(line)
            except OSError:
                pass

    def __enter__(self):
        return self

    def __exit__(self, *_):
        self.listener.close()


def echo(line):
    while data := line.recv(65536):
        line.sendall(data)


def said_back(port, data, host="127.0.0.1"):
    """What a port sends back of some bytes, up to its end."""
    with socket.create_connection((host, port), 20) as line:
        sender = threading.Thread(target=lambda: (line.sendall(data), line.shutdown(socket.SHUT_WR)))
        sender.start()
        got = bytearray()
        while more := line.recv(65536):
            got += more
        sender.join()
        return bytes(got)
