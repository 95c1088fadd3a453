"""A small SSH transport (RFC 4253): version lines, key exchange, ciphers and rekeys, over one socket.

It knows one algorithm of each sort: curve25519-sha256, ssh-ed25519 and aes256-gcm@openssh.com. What it does is what
`sshc script` leaves to its driver: it verifies the server's signature over the exchange hash, encrypts what is to be
sent and decrypts what comes.
"""
import hashlib
import os
import socket
import struct
from dataclasses import dataclass

from cryptography.exceptions import InvalidSignature
from cryptography.hazmat.primitives.asymmetric.ed25519 import Ed25519PublicKey
from cryptography.hazmat.primitives.asymmetric.x25519 import X25519PrivateKey, X25519PublicKey
from cryptography.hazmat.primitives.ciphers.aead import AESGCM
from cryptography.hazmat.primitives.serialization import Encoding, PublicFormat

VERSION = b"SSH-2.0-sshc_example_1"
KEX, HOST_KEY, CIPHER = b"curve25519-sha256", b"ssh-ed25519", b"aes256-gcm@openssh.com"
KEXINIT, NEWKEYS, ECDH_INIT, ECDH_REPLY = 20, 21, 30, 31
TAG = 16


def u32(number):
    return struct.pack(">I", number)


def string(body):
    return u32(len(body)) + body


def mpint(body):
    """A positive number in its shortest form (RFC 4251, section 5)."""
    body = body.lstrip(b"\0")
    return string(b"\0" + body if body and body[0] & 0x80 else body)


class Reader:
    """Reads the fields of a packet one after the other."""

    def __init__(self, body):
        self.body, self.at = body, 0

    def take(self, count):
        if self.at + count > len(self.body):
            raise ValueError("a packet is too short")
        self.at += count
        return self.body[self.at - count : self.at]

    def u8(self):
        return self.take(1)[0]

    def u32(self):
        return struct.unpack(">I", self.take(4))[0]

    def string(self):
        return self.take(self.u32())

    def rest(self):
        return self.take(len(self.body) - self.at)


@dataclass
class Exchange:
    """What a key exchange came to; the server's signature is already verified."""

    host_key: bytes
    hash: bytes
    signature: bytes
    strict: bool


class Direction:
    """AES-256-GCM for one direction (RFC 5647): the counter in the nonce rises by one a packet."""

    def __init__(self, key, nonce):
        self.gcm, self.fixed = AESGCM(key), nonce[:4]
        self.counter = int.from_bytes(nonce[4:], "big")

    def nonce(self):
        nonce = self.fixed + self.counter.to_bytes(8, "big")
        self.counter = (self.counter + 1) % 2**64
        return nonce

    def seal(self, length, body):
        return length + self.gcm.encrypt(self.nonce(), body, length)

    def open(self, length, body):
        return self.gcm.decrypt(self.nonce(), body, length)


class Transport:
    def __init__(self, address):
        self.socket = socket.create_connection(address)
        self.buffer = b""
        self.out = self.into = None
        self.session_id = None
        self.socket.sendall(VERSION + b"\r\n")
        self.server_version = self._version_line()

    def fileno(self):
        return self.socket.fileno()

    # ---- packets

    def _version_line(self):
        """The server's version; lines before it are passed over (RFC 4253, section 4.2)."""
        while True:
            line = b""
            while not line.endswith(b"\n"):
                line += self._exactly(1)
            if line.startswith(b"SSH-"):
                return line.rstrip(b"\r\n")

    def _exactly(self, count):
        while len(self.buffer) < count:
            more = self.socket.recv(65536)
            if not more:
                raise ConnectionError("the server closed the connection")
            self.buffer += more
        body, self.buffer = self.buffer[:count], self.buffer[count:]
        return body

    def send(self, payload):
        block = 16 if self.out else 8
        counted = 1 if self.out else 5
        padding = block - (counted + len(payload)) % block
        padding += block if padding < 4 else 0
        body = bytes([padding]) + payload + os.urandom(padding)
        length = u32(len(body))
        self.socket.sendall(self.out.seal(length, body) if self.out else length + body)

    def receive(self):
        """The next packet, decrypted; it waits for one."""
        length = self._exactly(4)
        (size,) = struct.unpack(">I", length)
        if not 5 <= size <= 262144:
            raise ValueError("a packet's length is out of bounds")
        if self.into:
            body = self.into.open(length, self._exactly(size + TAG))
        else:
            body = self._exactly(size)
        return body[1 : size - body[0]]

    def has_packet(self):
        """Whether a whole packet waits already, so that `receive` doesn't wait for one."""
        if len(self.buffer) < 4:
            return False
        (size,) = struct.unpack(">I", self.buffer[:4])
        return len(self.buffer) >= 4 + size + (TAG if self.into else 0)

    def read_more(self):
        """Takes what the socket has; False once the server closed it."""
        more = self.socket.recv(65536)
        self.buffer += more
        return bool(more)

    # ---- key exchange

    def begin(self):
        """Sends our KEXINIT. `exchange` goes on with it."""
        first = self.session_id is None
        extra = b",ext-info-c,kex-strict-c-v00@openssh.com" if first else b""
        lists = [KEX + extra, HOST_KEY, CIPHER, CIPHER, b"hmac-sha2-256", b"hmac-sha2-256", b"none", b"none", b"", b""]
        self.ours = bytes([KEXINIT]) + os.urandom(16) + b"".join(map(string, lists)) + b"\0" + u32(0)
        self.send(self.ours)

    def exchange(self, theirs):
        """Goes through a key exchange behind both KEXINITs, up to the new keys in both directions."""
        server_lists = Reader(theirs[17:]).string().split(b",")
        private = X25519PrivateKey.generate()
        public = private.public_key().public_bytes(Encoding.Raw, PublicFormat.Raw)
        self.send(bytes([ECDH_INIT]) + string(public))
        reply = Reader(self.receive())
        if reply.u8() != ECDH_REPLY:
            raise ValueError("the server doesn't answer the key exchange")
        host_key, server_public, signature = reply.string(), reply.string(), reply.string()
        secret = mpint(private.exchange(X25519PublicKey.from_public_bytes(server_public)))
        parts = [VERSION, self.server_version, self.ours, theirs, host_key, public, server_public]
        digest = hashlib.sha256(b"".join(map(string, parts)) + secret).digest()
        verify(host_key, signature, digest)
        self.session_id = self.session_id or digest
        self.send(bytes([NEWKEYS]))
        self.out = Direction(self._key(secret, digest, b"C", 32), self._key(secret, digest, b"A", 12))
        if self.receive() != bytes([NEWKEYS]):
            raise ValueError("the server doesn't take the new keys into use")
        self.into = Direction(self._key(secret, digest, b"D", 32), self._key(secret, digest, b"B", 12))
        return Exchange(host_key, digest, signature, b"kex-strict-s-v00@openssh.com" in server_lists)

    def _key(self, secret, digest, letter, size):
        """RFC 4253, section 7.2."""
        return hashlib.sha256(secret + digest + letter + self.session_id).digest()[:size]


def verify(host_key, signature, digest):
    """The server's signature over the exchange hash, by the key that it names. Without it nobody is authenticated."""
    key, signed = Reader(host_key), Reader(signature)
    if key.string() != HOST_KEY or signed.string() != HOST_KEY:
        raise ValueError("the host key isn't of the sort that was agreed on")
    try:
        Ed25519PublicKey.from_public_bytes(key.string()).verify(signed.string(), digest)
    except InvalidSignature:
        raise ValueError("the server's signature over the exchange hash is wrong") from None
