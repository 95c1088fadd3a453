#!/usr/bin/env python3
"""The client against servers that do wrong: each ends it with status 255 and an error in words, soon, and without a fault.

    bad_servers.py CLIENT

The server here speaks curve25519-sha256, ssh-ed25519 and aes256-gcm@openssh.com, by python3-cryptography."""
import base64
import hashlib
import os
import socket
import struct
import subprocess
import sys
import tempfile
import threading
import time

from cryptography.hazmat.primitives.asymmetric.ed25519 import Ed25519PrivateKey
from cryptography.hazmat.primitives.asymmetric.x25519 import X25519PrivateKey, X25519PublicKey
from cryptography.hazmat.primitives.ciphers.aead import AESGCM
from cryptography.hazmat.primitives.serialization import Encoding, PublicFormat

KEXINIT, NEWKEYS, ECDH_INIT, ECDH_REPLY = 20, 21, 30, 31
DISCONNECT, SERVICE_ACCEPT, USERAUTH_FAILURE, USERAUTH_SUCCESS, BANNER = 1, 6, 51, 52, 53


def raw(key):
    return key.public_bytes(Encoding.Raw, PublicFormat.Raw)


def string(text):
    return struct.pack(">I", len(text)) + text


def read_string(text):
    count = struct.unpack(">I", text[:4])[0]
    return text[4 : 4 + count], text[4 + count :]


def mpint(text):
    text = text.lstrip(b"\0")
    return string((b"\0" if text[:1] >= b"\x80" else b"") + text)


HOST, OTHER = Ed25519PrivateKey.generate(), Ed25519PrivateKey.generate()


def blob(key):
    return string(b"ssh-ed25519") + string(raw(key.public_key()))


def host_line():
    return base64.b64encode(blob(HOST)).decode()


class Peer:
    """One connection of the server's, whose wrong is its mode."""

    def __init__(self, line, mode):
        self.line, self.mode, self.buffer = line, mode, b""
        self.keys = None

    # ---- packets

    def read(self, count):
        while len(self.buffer) < count:
            more = self.line.recv(65536)
            if not more:
                raise EOFError
            self.buffer += more
        got, self.buffer = self.buffer[:count], self.buffer[count:]
        return got

    def next_nonce(self, way):
        nonce = self.keys[way][1]
        self.keys[way][1] = nonce[:4] + (int.from_bytes(nonce[4:], "big") + 1).to_bytes(8, "big")
        return nonce

    def send(self, payload, tag=None):
        block = 16 if self.keys else 8
        counted = len(payload) + 1 + (0 if self.keys else 4)
        padding = block - counted % block
        padding += block if padding < 4 else 0
        body = bytes([padding]) + payload + b"\0" * padding
        head = struct.pack(">I", len(body))
        if self.keys:
            body = AESGCM(self.keys["out"][0]).encrypt(self.next_nonce("out"), body, head)
            if tag:
                body = body[:-16] + tag
        self.line.sendall(head + body)

    def receive(self):
        head = self.read(4)
        body = self.read(struct.unpack(">I", head)[0] + (16 if self.keys else 0))
        if self.keys:
            body = AESGCM(self.keys["in"][0]).decrypt(self.next_nonce("in"), body, head)
        return body[1 : len(body) - body[0]]

    # ---- the exchange

    def kexinit(self):
        lists = [b"curve25519-sha256,kex-strict-s-v00@openssh.com", b"ssh-ed25519"] + [b"aes256-gcm@openssh.com"] * 2 + [b"hmac-sha2-256-etm@openssh.com"] * 2 + [b"none"] * 2 + [b""] * 2
        if self.mode == "no-common-cipher":
            lists[2] = lists[3] = b"rot13"
        return bytes([KEXINIT]) + os.urandom(16) + b"".join(map(string, lists)) + b"\0" + b"\0" * 4

    def reply(self, theirs, ours, hashed):
        secret = X25519PrivateKey.generate()
        public = b"\0" * 32 if self.mode == "low-order-point" else raw(secret.public_key())
        shared = secret.exchange(X25519PublicKey.from_public_bytes(theirs))
        key = OTHER if self.mode == "other-host-key" else HOST
        digest = hashlib.sha256(b"".join(map(string, [*hashed, blob(key), theirs, public])) + mpint(shared)).digest()
        signed = (OTHER if self.mode == "other-signer" else key).sign(b"x" + digest if self.mode == "other-hash" else digest)
        if self.mode == "bad-signature":
            signed = bytes([signed[0] ^ 1]) + signed[1:]
        name = b"ssh-rsa" if self.mode == "other-signature-name" else b"ssh-ed25519"
        whole = bytes([ECDH_REPLY]) + string(blob(key)) + string(public) + string(string(name) + string(signed))
        return (whole[:-10] if self.mode == "cut-reply" else whole), shared, digest

    def derive(self, shared, digest, letter, count):
        return hashlib.sha256(mpint(shared) + digest + letter + digest).digest()[:count]

    def exchange(self):
        version = b"SSH-2.0-Bad_1"
        if self.mode == "no-version":
            self.line.sendall(b"hello\r\n" * 100000)
            raise EOFError
        if self.mode == "endless-line":
            self.line.sendall(b"x" * 100000)
            raise EOFError
        if self.mode == "other-version":
            version = b"SSH-1.5-Bad_1"
        self.line.sendall(version + b"\r\n")
        self.end_at("cut-after-version")
        theirs = b""
        while not theirs.endswith(b"\n"):
            theirs += self.read(1)
        if self.mode == "huge-packet":
            self.line.sendall(struct.pack(">I", 1 << 30) + b"\0" * 100)
        if self.mode == "ignore-first":
            self.send(b"\2" + string(b""))
        ours = self.kexinit()
        self.send(ours)
        self.end_at("cut-after-kexinit")
        their_init, init = self.receive(), self.receive()
        if self.mode == "ignore-within":
            self.send(b"\2" + string(b""))
        if self.mode == "kexinit-twice":
            self.send(self.kexinit())
        if self.mode == "newkeys-early":
            self.send(bytes([NEWKEYS]))
        reply, shared, digest = self.reply(read_string(init[1:])[0], ours, [theirs.rstrip(b"\r\n"), version, their_init, ours])
        self.send(reply)
        self.end_at("cut-after-reply")
        self.send(bytes([NEWKEYS]))
        self.end_at("cut-after-newkeys")
        assert self.receive() == bytes([NEWKEYS])
        part = lambda letter, count: self.derive(shared, digest, letter, count)
        self.keys = {"in": [part(b"C", 32), part(b"A", 12)], "out": [part(b"D", 32), part(b"B", 12)]}

    def end_at(self, mode):
        if self.mode == mode:
            raise EOFError

    # ---- the login, and behind it

    def login(self):
        if self.mode == "success-unasked":
            self.send(bytes([USERAUTH_SUCCESS]))
        if self.mode == "data-before-login":
            self.send(b"\x5e" + struct.pack(">I", 0) + string(b"data"))
        if self.mode == "bad-tag":
            self.send(b"\2" + string(b""), tag=b"\0" * 16)
        if self.mode == "reply-again":
            self.send(bytes([ECDH_REPLY]) + b"\0" * 12)
        if self.mode == "empty-packet":
            self.send(b"")
        if self.mode == "disconnects":
            self.send(b"\1" + struct.pack(">I", 11) + string(b"go away") + string(b""))
        self.receive()
        self.end_at("cut-before-service")
        self.send(bytes([SERVICE_ACCEPT]) + string(b"ssh-userauth"))
        request = self.receive()
        for _ in range(100000 if self.mode == "banners" else 0):
            self.send(bytes([BANNER]) + string(b"hello\n") + string(b""))
        self.end_at("cut-within-login")
        if self.mode == "names-no-password":
            self.send(bytes([USERAUTH_FAILURE]) + string(b"publickey,hostbased") + b"\0")
            assert self.receive()[0] == DISCONNECT, "the password was sent"
        if self.mode == "names-password":
            self.send(bytes([USERAUTH_FAILURE]) + string(b"password") + b"\0")
            self.receive()
        if self.mode == "takes-a-password" and b"secret" not in request:
            self.send(bytes([USERAUTH_FAILURE]) + string(b"password") + b"\0")
            raise EOFError
        if self.mode == "no-methods":
            self.send(bytes([USERAUTH_FAILURE]) + string(b"telepathy") + b"\0")
        if self.mode == "cut-failure":
            self.send(bytes([USERAUTH_FAILURE]) + b"\0\0\0\x20pass")
        self.send(bytes([USERAUTH_SUCCESS]))
        self.session()

    def session(self):
        self.receive()
        self.end_at("cut-before-channel")
        if self.mode == "other-channel":
            self.send(b"\x5b" + struct.pack(">IIII", 99, 0, 1 << 20, 1 << 15))
        if self.mode == "no-channel":
            self.send(b"\x5c" + struct.pack(">II", 1, 1) + string(b"no") + string(b""))
        self.send(b"\x5b" + struct.pack(">IIII", 1, 0, 1 << 20, 1 << 15))
        self.receive()
        if self.mode == "command-refused":
            self.send(b"\x64" + struct.pack(">I", 1))
        self.end_at("cut-within-command")
        if self.mode == "other-key-later":
            self.rekey()
        if self.mode == "never-rekeys":
            self.send(b"\x63" + struct.pack(">I", 1))
            time.sleep(20)
        self.send(b"\x63" + struct.pack(">I", 1))
        self.send(b"\x5e" + struct.pack(">I", 1) + string(b"well\n"))
        if self.mode == "beyond-the-window":
            for _ in range(400):
                self.send(b"\x5e" + struct.pack(">I", 1) + string(b"x" * 32768))
        if self.mode != "no-exit-status":
            self.send(b"\x62" + struct.pack(">I", 1) + string(b"exit-status") + b"\0" + struct.pack(">I", 0))
        self.send(b"\x61" + struct.pack(">I", 1))
        while True:
            self.receive()

    def rekey(self):
        """A second exchange, with another host key than the first."""
        self.mode = "other-host-key"
        ours = self.kexinit()
        self.send(ours)
        got = self.receive()
        while got[0] != KEXINIT:
            got = self.receive()
        their_init, init = got, self.receive()
        reply, _, _ = self.reply(read_string(init[1:])[0], ours, [b"SSH-2.0-Sazhonthil_0.1", b"SSH-2.0-Bad_1", their_init, ours])
        self.send(reply)
        self.send(bytes([NEWKEYS]))
        self.receive()

    def run(self):
        try:
            self.exchange()
            self.login()
        except (EOFError, OSError):
            pass
        finally:
            self.end()

    def end(self):
        """Closes the connection without a reset: what came is read first."""
        try:
            self.line.shutdown(socket.SHUT_WR)
            self.line.settimeout(2)
            while self.line.recv(65536):
                pass
        except OSError:
            pass
        self.line.close()


ENDED = "the server closed the connection"
WRONG = "the server sent what it may not send now"
CHANGED = "the known hosts have another host key: ssh-ed25519 FINGERPRINT of NAME; FILE line 1 has another key: the host was set up anew, or somebody is in between"
# what the server does wrong, and what the client says then; "" is nothing, with status 0, and None nothing, with 255
WANTED = {
    "nothing": "",
    "no-version": "no version line of SSH",
    "endless-line": "no version line of SSH",
    "other-version": "the server speaks another SSH: SSH-1.5-Bad_1",
    "cut-after-version": ENDED,
    "huge-packet": "a packet of a bad length",
    "ignore-first": "a packet before the server's KEXINIT",
    "no-common-cipher": "no algorithm in common with the server",
    "cut-after-kexinit": ENDED,
    "ignore-within": "a packet 2 within the strict exchange",
    "kexinit-twice": "a KEXINIT within an exchange",
    "newkeys-early": "NEWKEYS without an exchange",
    "low-order-point": "a bad public value in the key exchange",
    "cut-reply": "a broken reply to the key exchange",
    "bad-signature": "the server's signature over the key exchange is wrong",
    "other-signer": "the server's signature over the key exchange is wrong",
    "other-hash": "the server's signature over the key exchange is wrong",
    "other-signature-name": "the server's signature over the key exchange is wrong",
    "other-host-key": CHANGED,
    "cut-after-reply": ENDED,
    "cut-after-newkeys": ENDED,
    "success-unasked": WRONG,
    "data-before-login": WRONG,
    "bad-tag": "a packet with a bad tag",
    "reply-again": "a reply without an exchange",
    "empty-packet": "an empty packet",
    "disconnects": "the server ended the session: go away",
    "cut-before-service": ENDED,
    "banners": "too many banners",
    "cut-within-login": ENDED,
    "no-methods": "the server names no method of logging in that is known",
    "names-no-password": "permission denied (publickey,hostbased)",
    "cut-failure": "the server sent a packet that can't be read",
    "cut-before-channel": ENDED,
    "other-channel": WRONG,
    "no-channel": "the server opens no such channel: no (reason 1)",
    "command-refused": "the server refused the request",
    "cut-within-command": ENDED,
    "other-key-later": "the server showed another host key later: ssh-ed25519 FINGERPRINT",
    "no-exit-status": None,
}


def fingerprint(key):
    return "SHA256:" + base64.b64encode(hashlib.sha256(blob(key)).digest()).decode().rstrip("=")


def run(client, mode, folder):
    """Status, standard output, and the first line of standard error without the program's name."""
    listener = socket.create_server(("127.0.0.1", 0))
    port = listener.getsockname()[1]
    threading.Thread(target=lambda: Peer(listener.accept()[0], mode).run(), daemon=True).start()
    with open(f"{folder}/known_hosts", "w") as file:
        file.write(f"[127.0.0.1]:{port} ssh-ed25519 {host_line()}\n")
    words = [client, "-q", "-F", "none", "-p", str(port), "-l", "user", "-o", f"UserKnownHostsFile={folder}/known_hosts", "-w", f"{folder}/password", "-o", "PubkeyAuthentication=no"]
    ran = subprocess.run([*words, "127.0.0.1", "command"], capture_output=True, text=True, timeout=60, env={**os.environ, "SSH_AUTH_SOCK": ""}, stdin=subprocess.DEVNULL)
    listener.close()
    said = ran.stderr.split("\n")[0]
    for words, name in ((fingerprint(HOST), "FINGERPRINT"), (fingerprint(OTHER), "FINGERPRINT"), (f"[127.0.0.1]:{port}", "NAME"), (f"{folder}/known_hosts", "FILE")):
        said = said.replace(words, name)
    return ran.returncode, ran.stdout, said


def main(client):
    wrong = 0
    with tempfile.TemporaryDirectory() as folder:
        with open(f"{folder}/password", "w") as file:
            file.write("secret\n")
        for mode, said in WANTED.items():
            got = run(client, mode, folder)
            wanted = (255, "", f"sazh: {said}") if said else (0 if said == "" else 255, "well\n", "")
            if got != wanted:
                wrong += 1
                print(f"{mode}: {got!r:.400} and not {wanted}")
    print(f"client: {len(WANTED) - 1} servers that do wrong and one that doesn't; {wrong} ended otherwise than they are to")
    return wrong != 0


if __name__ == "__main__":
    sys.exit(main(os.path.abspath(sys.argv[1])))
