"""An sshd on the loopback that runs as the user of this process, with a folder, host keys and authorized keys of its own:
it needs no root and makes no user. Only public keys log in."""
import contextlib
import getpass
import os
import shutil
import socket
import subprocess
import sys
import tempfile
import threading
import time

SSHD = "/usr/sbin/sshd"
CONFIG = """
Port {port}
ListenAddress 127.0.0.1
{host_keys}
PidFile none
AuthorizedKeysFile {folder}/authorized_keys
StrictModes no
UsePAM no
PermitRootLogin yes
PasswordAuthentication no
KbdInteractiveAuthentication no
AcceptEnv SAZH_*
Subsystem sftp internal-sftp
MaxStartups 100
{more}
"""


def free_port():
    with socket.socket() as probe:
        probe.bind(("127.0.0.1", 0))
        return probe.getsockname()[1]


def until(is_done, what, seconds=20):
    end = time.monotonic() + seconds
    while time.monotonic() < end:
        if is_done():
            return
        time.sleep(0.05)
    raise AssertionError(f"not within {seconds} s: {what}")


def can_connect(port, host="127.0.0.1"):
    try:
        socket.create_connection((host, port), 2).close()
        return True
    except OSError:
        return False


def want(got, wanted, what):
    if got != wanted:
        raise AssertionError(f"{what}: {got!r:.400} and not {wanted!r:.400}")


class Place:
    """A folder with keys, and the servers and processes that were started there, which end with it."""

    def __init__(self, client):
        self.client = os.path.abspath(client)

    def __enter__(self):
        self.folder = tempfile.mkdtemp(prefix="sazh-test-")
        self.user, self.processes = getpass.getuser(), []
        for kind in ("ed25519", "ecdsa", "rsa"):
            self.make_key(f"host_{kind}", kind)
            self.make_key(f"user_{kind}", kind)
        self.write("authorized_keys", "".join(self.read(f"user_{kind}.pub") for kind in ("ed25519", "ecdsa", "rsa")))
        self.environment = {**os.environ, "HOME": self.folder, "SSH_AUTH_SOCK": ""}
        return self

    def __exit__(self, *_):
        for process in self.processes:
            process.terminate()
            process.wait()
        shutil.rmtree(self.folder, ignore_errors=True)

    def path(self, name):
        return f"{self.folder}/{name}"

    def read(self, name):
        with open(self.path(name)) as file:
            return file.read()

    def write(self, name, text):
        with open(self.path(name), "w") as file:
            file.write(text)
        return self.path(name)

    def make_key(self, name, kind, passphrase="", *more):
        words = ["ssh-keygen", "-q", "-t", kind, *(["-b", "2048"] if kind == "rsa" else []), "-N", passphrase, "-C", "", *more, "-f", self.path(name)]
        subprocess.run(words, check=True)
        return self.path(name)

    def start(self, words, **how):
        self.processes.append(subprocess.Popen(words, **{"stdin": subprocess.DEVNULL, **how}))
        return self.processes[-1]

    def sshd(self, kinds=("ed25519", "ecdsa", "rsa"), more=""):
        """Its port."""
        port = free_port()
        if os.geteuid() == 0:
            os.makedirs("/run/sshd", exist_ok=True)
        host_keys = "\n".join(f"HostKey {self.folder}/host_{kind}" for kind in kinds)
        config = self.write(f"config{port}", CONFIG.format(port=port, folder=self.folder, host_keys=host_keys, more=more))
        self.start([SSHD, "-D", "-f", config, "-E", self.path(f"log{port}")], stderr=subprocess.DEVNULL)
        until(lambda: can_connect(port), "the server starts")
        return port

    def known(self, port, *kinds, name="known_hosts", hashed=False):
        """A known hosts file with the host keys of these kinds for localhost at the port."""
        text = "".join(f"[localhost]:{port} {' '.join(self.read(f'host_{kind}.pub').split()[:2])}\n" for kind in kinds)
        path = self.write(name, text)
        if hashed:
            subprocess.run(["ssh-keygen", "-q", "-H", "-f", path], check=True, capture_output=True)
        return path

    def words(self, port, *more, known="known_hosts", key="user_ed25519"):
        """The client's words, up to the host; options of `more` count first."""
        return [self.client, "-F", "none", *more, "-p", str(port), "-o", f"UserKnownHostsFile={self.path(known)}", "-i", self.path(key)]

    def run(self, port, *more, host="localhost", command="true", input=b"", known="known_hosts", key="user_ed25519", **how):
        """Status, standard output, standard error."""
        words = [*self.words(port, *more, known=known, key=key), host, *([command] if command is not None else [])]
        given = {"input": input} if "stdin" not in how else {}
        ran = subprocess.run(words, **{"capture_output": "stdout" not in how, "env": self.environment, "timeout": 60, **given, **how})
        return ran.returncode, ran.stdout, (ran.stderr or b"").decode()

    @contextlib.contextmanager
    def running(self, port, *more, host="localhost", **how):
        """The client without a command, with what it printed so far in `said`."""
        words = [*self.words(port, *more), "-N", host]
        process = subprocess.Popen(words, stdin=subprocess.DEVNULL, stderr=subprocess.PIPE, env=self.environment, **how)
        process.said = []
        reader = threading.Thread(target=lambda: process.said.extend(iter(process.stderr.readline, b"")), daemon=True)
        reader.start()
        try:
            yield process
        finally:
            process.kill()
            process.wait()
            reader.join()
            process.stderr.close()


class Answering:
    """A listener on the loopback that serves each connection in a thread: `serve(line)`."""

    def __init__(self, serve, backlog=64):
        self.listener = socket.create_server(("127.0.0.1", 0), backlog=backlog)
        self.port = self.listener.getsockname()[1]
        self.serve = serve
        threading.Thread(target=self.accept, daemon=True).start()

    def accept(self):
        while True:
            try:
                line, _ = self.listener.accept()
            except OSError:
                return
            threading.Thread(target=self.one, args=(line,), daemon=True).start()

    def one(self, line):
        with line, contextlib.suppress(OSError):
            self.serve(line)


def echo(line):
    while data := line.recv(65536):
        line.sendall(data)


def said_back(line, text):
    """What comes back of a text, until the end."""
    sender = threading.Thread(target=lambda: (line.sendall(text), line.shutdown(socket.SHUT_WR)))
    sender.start()
    got = b""
    while data := line.recv(65536):
        got += data
    sender.join()
    return got


def run_all(tests, place, name):
    """Runs each test with the place, prints what failed, and ends the program."""
    failed = []
    for test in tests:
        try:
            test(place)
        except Exception as why:
            failed.append(test.__name__)
            print(f"{test.__name__}: {type(why).__name__}: {why}", file=sys.stderr)
    print(f"{name}: {len(tests)} tests, failed: {' '.join(failed) or 'none'}")
    return 1 if failed else 0
