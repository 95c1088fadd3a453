"""An agent in a folder of its own, Debian's programs beside it, and the agent's protocol by hand."""
import base64
import os
import select
import shutil
import signal
import socket
import struct
import subprocess
import sys
import tempfile
import time

FAILURE, SUCCESS, REQUEST_IDENTITIES, IDENTITIES_ANSWER, SIGN_REQUEST, SIGN_RESPONSE = 5, 6, 11, 12, 13, 14
ADD_IDENTITY, REMOVE_IDENTITY, REMOVE_ALL, LOCK, UNLOCK, ADD_ID_CONSTRAINED, EXTENSION = 17, 18, 19, 22, 23, 25, 27
KINDS = {"ed25519": ("ed25519", None), "ecdsa256": ("ecdsa", 256), "ecdsa384": ("ecdsa", 384), "ecdsa521": ("ecdsa", 521), "rsa": ("rsa", 2048)}
# of ssh and its kin; the tests set what they mean
SETTINGS = ("SSH_AUTH_SOCK", "SSH_AGENT_PID", "SSH_ASKPASS", "SSH_ASKPASS_REQUIRE", "DISPLAY", "WAYLAND_DISPLAY")
PLAIN = {name: value for name, value in os.environ.items() if name not in SETTINGS}


def want(got, wanted, what):
    if got != wanted:
        sys.exit(f"{what:.2000}: {got!r:.400} and not {wanted!r:.400}")


def until(holds, what, seconds=20):
    end = time.monotonic() + seconds
    while not holds():
        if time.monotonic() > end:
            sys.exit(f"{what}: not within {seconds} seconds")
        time.sleep(0.02)


# ---- the protocol


def text(it):
    return struct.pack(">I", len(it)) + it


def strings(it):
    """The strings of which the bytes consist."""
    found = []
    while it:
        size = struct.unpack(">I", it[:4])[0]
        found.append(it[4 : 4 + size])
        it = it[4 + size :]
    return found


def strings_front(it):
    """The string with which the bytes begin."""
    return it[4 : 4 + struct.unpack(">I", it[:4])[0]]


class Line:
    """A connection to an agent."""

    def __init__(self, path, seconds=30):
        self.socket = socket.socket(socket.AF_UNIX)
        self.socket.settimeout(seconds)
        self.socket.connect(path)

    def __enter__(self):
        return self

    def __exit__(self, *_):
        self.socket.close()

    def send(self, body):
        self.socket.sendall(text(body))

    def take(self):
        """The next answer, without its length; None where the agent closed the connection."""
        got = b""
        while len(got) < 4 or len(got) < 4 + struct.unpack(">I", got[:4])[0]:
            wanted = 4 if len(got) < 4 else 4 + struct.unpack(">I", got[:4])[0]
            try:
                more = self.socket.recv(wanted - len(got))
            except ConnectionResetError:
                more = b""
            if not more:
                return None
            got += more
        return got[4:]

    def ask(self, body):
        self.send(body)
        return self.take()

    def is_quiet(self, seconds):
        return not select.select([self.socket], [], [], seconds)[0]

    def blobs(self):
        answer = self.ask(bytes([REQUEST_IDENTITIES]))
        want(answer[0], IDENTITIES_ANSWER, "a listing")
        return strings(answer[5:])[::2]


def sign_request(blob, over, flags=0):
    return bytes([SIGN_REQUEST]) + text(blob) + text(over) + struct.pack(">I", flags)


def private_parts(path):
    """The pair in the file of a key without a passphrase, as ADD_IDENTITY has it, and the fields of it."""
    with open(path) as file:
        raw = base64.b64decode("".join(file.read().splitlines()[1:-1]))
    body = raw[len("openssh-key-v1\0") :]
    for _ in range(3):
        body = body[4 + struct.unpack(">I", body[:4])[0] :]
    private = strings(body[4:])[1][8:]
    fields = []
    for _ in range({b"ssh-ed25519": 3, b"ssh-rsa": 7, b"ssh-dss": 6}.get(strings_front(private), 4)):
        fields.append(strings_front(private))
        private = private[4 + len(fields[-1]) :]
    return b"".join(map(text, fields)), fields


# ---- an agent


class Scratch:
    """A folder, keys in it, and the agents that were started there."""

    def __init__(self, agent):
        self.agent, self.started = os.path.abspath(agent), []

    def __enter__(self):
        self.folder = tempfile.mkdtemp(prefix="agent-test-")
        return self

    def __exit__(self, why, *_):
        for one in self.started:
            one.end(checks=False)
            if why is not None:
                print(f"{one.error_text():.4000}", file=sys.stderr)
        shutil.rmtree(self.folder, ignore_errors=True)

    def at(self, name):
        return f"{self.folder}/{name}"

    def write(self, name, content, mode=0o600):
        with open(self.at(name), "w") as file:
            file.write(content)
        os.chmod(self.at(name), mode)
        return self.at(name)

    def read(self, name):
        with open(self.at(name)) as file:
            return file.read()

    def key(self, kind, name=None, comment=None):
        """The path of a new key."""
        name = name or kind
        sort, bits = KINDS[kind]
        more = ["-b", str(bits)] if bits else []
        if not os.path.exists(self.at(name)):
            words = ["ssh-keygen", "-q", "-t", sort, *more, "-N", "", "-C", comment or f"my {name} key", "-f", self.at(name)]
            subprocess.run(words, check=True, timeout=120)
        return self.at(name)

    def public(self, name):
        """The line of a public key's file."""
        return self.read(name + ".pub").strip()

    def start(self, *words, at=None, env=None, run=(), **how):
        """An agent in the foreground, at a socket in this folder."""
        started = Agent(self, [*run, self.agent, "-D", "-a", at or self.at(f"socket{len(self.started)}"), *words], env or {}, how)
        self.started.append(started)
        return started


class Agent:
    def __init__(self, scratch, words, env, how):
        self.scratch, self.path, self.env = scratch, words[words.index("-a") + 1], env
        self.errors = open(scratch.at(f"errors{len(scratch.started)}"), "w+")
        given = {"env": {**PLAIN, **env}, "stdin": subprocess.DEVNULL, "stdout": subprocess.PIPE, "stderr": self.errors, **how}
        self.process = subprocess.Popen(words, **given)
        self.said = b"".join(self.process.stdout.readline() for _ in range(3)) if self.process.stdout else b""
        until(lambda: os.path.exists(self.path), "an agent's socket: " + self.error_text())

    def error_text(self):
        self.errors.flush()
        with open(self.errors.name) as file:
            return file.read()

    def end(self, by=signal.SIGTERM, checks=True):
        """Ends it, and looks whether it ended well, without a report of a sanitizer's."""
        if self.process.poll() is None:
            self.process.send_signal(by)
        try:
            status = self.process.wait(60)
        except subprocess.TimeoutExpired:
            self.process.kill()
            status = self.process.wait()
        if self.process.stdout:
            self.process.stdout.close()
        said = self.error_text()
        if checks:
            want((status, "ERROR" in said or "runtime error" in said), (0, False), "the end of an agent: " + said)
            want(os.path.exists(self.path), False, "the socket after the end")

    def line(self, seconds=30):
        return Line(self.path, seconds)

    def run(self, *words, input=None, env=None, seconds=60, **how):
        """A program with this agent; its status, standard output and standard error."""
        env = {**PLAIN, "SSH_AUTH_SOCK": self.path, **(env or {})}
        ran = subprocess.run(words, input=input, capture_output=True, text=True, env=env, timeout=seconds, cwd=self.scratch.folder, **how)
        return ran.returncode, ran.stdout.strip(), ran.stderr.strip()

    def add(self, path, *options):
        status, _, said = self.run("ssh-add", *options, path)
        want(status, 0, f"ssh-add {' '.join(options)} {path}: {said}")

    def listing(self):
        """The lines of ssh-add -L."""
        status, said, _ = self.run("ssh-add", "-L")
        return said.splitlines() if status == 0 else []

    def signs(self, key):
        """Whether ssh-keygen signs by the agent's key, and verifies the signature. The private key's file isn't there."""
        scratch = self.scratch
        public = scratch.write("signer.pub", scratch.public(key) + "\n")
        scratch.write("message", "to be signed\n")
        scratch.write("allowed", "me " + " ".join(scratch.public(key).split()[:2]) + "\n")
        if os.path.exists(scratch.at("message.sig")):
            os.remove(scratch.at("message.sig"))
        status, _, said = self.run("ssh-keygen", "-Y", "sign", "-n", "file", "-f", public, "message")
        if status != 0:
            return False
        with open(scratch.at("message")) as message:
            words = ["ssh-keygen", "-Y", "verify", "-f", "allowed", "-I", "me", "-n", "file", "-s", "message.sig"]
            ran = subprocess.run(words, stdin=message, cwd=scratch.folder, capture_output=True, text=True, timeout=60)
        want(ran.returncode, 0, f"ssh-keygen -Y verify of {key}: {ran.stdout} {ran.stderr}")
        return True

    def passphrase(self, option, word):
        """ssh-add -x or -X with this word, which it asks for by SSH_ASKPASS."""
        asks = self.scratch.write("word.sh", f"#!/bin/sh\nprintf '%s\\n' '{word}'\n", 0o700)
        return self.run("ssh-add", option, env={"SSH_ASKPASS": asks, "SSH_ASKPASS_REQUIRE": "force"})[0]


def tests_of(names):
    """Runs those functions of a module, each in a folder of its own, and says what was shown."""
    agent = sys.argv[1]
    for test in names:
        begun = time.monotonic()
        with Scratch(agent) as scratch:
            said = test(scratch)
        print(f"  {test.__name__}: {said or 'well'} ({time.monotonic() - begun:.1f} s)", flush=True)
