"""An agent, a policy and the proxy between them: what run.py and bench/proxy.py share. It needs openssh-client."""
import base64
import hashlib
import hmac
import os
import socket
import struct
import subprocess
import time

LIST, SIGN, EXTENSION, LOCK = 11, 13, 27, 22
FAILURE, SUCCESS, LISTING, SIGNATURE = 5, 6, 12, 14
KINDS = {FAILURE: "failure", SUCCESS: "success", LISTING: "listing", SIGNATURE: "signature"}


def string(body):
    return struct.pack(">I", len(body)) + body


def make_key(folder, name):
    """A new Ed25519 key in the folder, and its public key's blob."""
    subprocess.run(["ssh-keygen", "-q", "-t", "ed25519", "-N", "", "-C", name, "-f", f"{folder}/{name}"], check=True)
    with open(f"{folder}/{name}.pub") as file:
        return base64.b64decode(file.read().split()[1])


def toy_signature(blob, body):
    """A signature of the toy pair: the HMAC with SHA-1 under the public key's blob, which anybody can make."""
    return string(b"ssh-ed25519") + string(hmac.new(blob, body, hashlib.sha1).digest())


def binding(host, session, signature, forwarding=False):
    """The frame that binds a connection to a host (OpenSSH's PROTOCOL.agent, section 1)."""
    parts = string(b"session-bind@openssh.com") + string(host) + string(session) + string(signature)
    return bytes([EXTENSION]) + parts + bytes([forwarding])


def sign_request(blob, body):
    return bytes([SIGN]) + string(blob) + string(body) + struct.pack(">I", 0)


def ask(stream, frame):
    """Sends a frame, and returns the answer to it."""
    stream.sendall(string(frame))
    head = stream.recv(4, socket.MSG_WAITALL)
    return stream.recv(struct.unpack(">I", head)[0], socket.MSG_WAITALL) if len(head) == 4 else b""


def kind(answer):
    return KINDS.get(answer[0], f"type {answer[0]}") if answer else "no answer"


class Agent:
    """Debian's ssh-agent at a socket in the folder, with these keys."""

    def __init__(self, folder, names):
        self.path = f"{folder}/agent"
        self.process = subprocess.Popen(["ssh-agent", "-D", "-a", self.path], stdout=subprocess.DEVNULL)
        while not os.path.exists(self.path):
            time.sleep(0.05)
        for name in names:
            subprocess.run(["ssh-add", "-q", f"{folder}/{name}"], env={**os.environ, "SSH_AUTH_SOCK": self.path}, check=True)

    def connect(self):
        stream = socket.socket(socket.AF_UNIX)
        stream.connect(self.path)
        return stream

    def stop(self):
        self.process.terminate()
        self.process.wait()


def write_policy(folder, rules):
    """A policy that allows each key towards its host."""
    path = f"{folder}/policy"
    with open(path, "w") as file:
        for key, host in rules:
            file.write(f"allow {base64.b64encode(key).decode()} {base64.b64encode(host).decode()}\n")
    return path


def start_proxy(command, agent, policy):
    """The proxy before the agent, and a stream to it: the program's standard input and output."""
    ours, theirs = socket.socketpair()
    process = subprocess.Popen([*command, agent.path, policy], stdin=theirs, stdout=theirs, stderr=subprocess.DEVNULL)
    theirs.close()
    return process, ours
