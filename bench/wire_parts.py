"""Parts of scripts and packets, keys and signatures, for the scripts that bench/ makes. docs/FORMATS.md tells the bytes."""
import hashlib
import hmac
import struct

HOST = "[localhost]:13265"
PLAIN_NAMES = {
    b"ssh-dss": b"ssh-dss",
    b"ecdsa-sha2-nistp256": b"ecdsa-sha2-nistp256",
    b"ecdsa-sha2-nistp384": b"ecdsa-sha2-nistp384",
    b"ecdsa-sha2-nistp521": b"ecdsa-sha2-nistp521",
    b"ssh-ed25519": b"ssh-ed25519",
    b"ssh-rsa": b"ssh-rsa",
    b"sk-ecdsa-sha2-nistp256@openssh.com": b"sk-ecdsa-sha2-nistp256",
    b"sk-ssh-ed25519@openssh.com": b"sk-ssh-ed25519",
}
POINTS = {b"nistp256": 65, b"nistp384": 97, b"nistp521": 133}


def u32(number):
    return struct.pack(">I", number)


def string(body):
    return u32(len(body)) + body


def event(kind, fields, moment=0):
    return string(struct.pack(">QB", moment, kind) + fields)


def mpint(rng, size):
    """Positive, with no unneeded leading byte."""
    body = bytes([rng.randrange(1, 256)]) + rng.randbytes(size - 1)
    return b"\0" + body if body[0] > 127 else body


def point(rng, curve):
    return b"\4" + rng.randbytes(POINTS[curve] - 1)


def plain_fields(rng, name):
    """The fields of a plain key behind its name."""
    if name == b"ssh-dss":
        return b"".join(string(mpint(rng, size)) for size in (64, 20, 64, 64))
    if name.startswith(b"ecdsa-sha2-"):
        curve = name[len(b"ecdsa-sha2-"):]
        return string(curve) + string(point(rng, curve))
    if name == b"ssh-ed25519":
        return string(rng.randbytes(32))
    if name == b"ssh-rsa":
        return string(b"\1\0\1") + string(mpint(rng, 128))
    if name.startswith(b"sk-ecdsa"):
        return string(b"nistp256") + string(point(rng, b"nistp256")) + string(b"ssh:")
    if name.startswith(b"sk-ssh"):
        return string(rng.randbytes(32)) + string(b"ssh:")
    return string(rng.randbytes(rng.randrange(20)))


def plain_blob(rng, name=b"ssh-ed25519"):
    return string(name) + plain_fields(rng, name)


def any_name(rng):
    return rng.choice([*PLAIN_NAMES, b"ssh-rsa", b"ssh-rsa", b"own@example.org", b"rsa-sha2-256@openssh.com", b"x@y"])


def certified_name(name):
    if name in PLAIN_NAMES:
        return PLAIN_NAMES[name] + b"-cert-v01@openssh.com"
    front, _, domain = name.partition(b"@")
    return front + b"-cert-v01@" + domain


def certificate_parts(rng, name=b"ssh-ed25519", nested=0):
    """A certificate for a key of this name, by a signer who may be certified too; its fields behind the name."""
    signer = certificate_blob(rng, name, nested - 1) if nested else plain_blob(rng)
    options = b"".join(string(option) + string(b"") for option in (b"permit-pty", b"permit-user-rc")[:rng.randrange(3)])
    principals = b"".join(string(user) for user in (b"alice", b"bob")[:rng.randrange(3)])
    signature = string(b"ssh-ed25519") + string(rng.randbytes(64))
    return [
        string(rng.randbytes(32)), plain_fields(rng, name), rng.randbytes(8), u32(rng.choice((1, 2))), string(b"id"), string(principals),
        bytes(8), b"\xff" * 8, string(b""), string(options), string(b""), string(signer), string(signature),
    ]


def certificate_blob(rng, name=b"ssh-ed25519", nested=0):
    return string(certified_name(name)) + b"".join(certificate_parts(rng, name, nested))


# ---- blobs that are in the grammar of keys, or just outside it

NUMBERS = [b"", b"\0", b"\1", b"\x7f", b"\x80", b"\0\1", b"\0\x7f", b"\0\x80", b"\0\0\x80", b"\x7f\xff", b"\x80\0"]
NAMES = [
    b"a@b", b"a" * 62 + b"@b", b"a" * 63 + b"@b", b"@b", b"a@", b"a", b"", b"a@b@c", b"a b@c", b"a,b@c", b"a\x7f@b", b"!~@~!", b"a\xff@b",
    b"ssh-rsa@openssh.com", b"rsa-sha2-256@openssh.com", b"ssh-rsa@openssh.co", b"sk-ssh-ed25519", b"x-cert-v01@y", b"-cert-v01@y",
    b"x-cert-v01-cert-v01@y", b"ssh-rsa-cert-v01@openssh.com", b"ecdsa-sha2-nistp256@openssh.com", b"rsa-sha2-512-cert-v01@openssh.com",
    b"a" * 53 + b"-cert-v01@b", b"a" * 54 + b"-cert-v01@b", b"ssh-dss", b"ssh-ed448", b"rsa-sha2-256", b"ecdsa-sha2-nistp384",
]
BAD_STRINGS = [string(b"\xff"), string(b""), u32(5) + b"abc", b"", string(string(b"a") + b"x"), string(string(b"a") + string(b"\xff")), string(string(b"a"))]


def near_plain(rng):
    """A plain key, most often with one part from the border of the grammar."""
    kind = rng.randrange(8)
    if kind == 0:
        return string(b"ssh-rsa") + string(rng.choice(NUMBERS)) + string(rng.choice(NUMBERS[2:4]))
    if kind == 1:
        return string(b"ssh-dss") + b"".join(string(rng.choice(NUMBERS if rng.random() < 0.2 else NUMBERS[2:4])) for _ in range(4))
    if kind in (2, 7):
        return string(rng.choice(NAMES)) + rng.choice((string(b"body"), string(b""), plain_fields(rng, any_name(rng))))
    if kind == 3:
        curve, length = rng.choice(list(POINTS.items()))
        named = rng.choice((curve, curve, curve, b"nistp256", b"nistp512"))
        body = bytes([rng.choice((4, 4, 4, 2, 0))]) + rng.randbytes(length - 1 + rng.choice((0, 0, 0, -1, 1)))
        sk = rng.random() < 0.3
        name = b"sk-ecdsa-sha2-nistp256@openssh.com" if sk else b"ecdsa-sha2-" + curve
        return string(name) + string(named) + string(body) + (rng.choice((string(b"ssh:"), string(b"\xff"), b"")) if sk else b"")
    if kind == 4:
        name = rng.choice((b"ssh-ed25519", b"sk-ssh-ed25519@openssh.com"))
        body = string(name) + string(rng.randbytes(32 + rng.choice((0, 0, 1, -1))))
        return body + (rng.choice((string(b"ssh:"), string(b"\xff"))) if name[:2] == b"sk" else b"")
    if kind == 5:
        return string(b"x@y") + string(b"-cert-v01@" * rng.randrange(6, 11))
    return plain_blob(rng, any_name(rng)) + rng.choice((b"", b"", b"x"))


def near_certificate(rng):
    """A certificate, most often with one part from the border of the grammar."""
    name = any_name(rng)
    parts = [string(certified_name(name)), *certificate_parts(rng, name, rng.choice((0, 0, 1, 6, 7, 8)))]
    if rng.random() < 0.7:
        at = rng.randrange(len(parts))
        nearly = {
            0: [string(other) for other in NAMES], 2: [near_plain(rng)[15:]], 4: [u32(kind) for kind in range(4)],
            12: [string(near_plain(rng)), string(near_certificate(rng)), string(plain_blob(rng) + b"x")],
            13: [string(string(b"sk-x") + string(b"")), string(string(b"sk-x") + string(b"") + bytes(5)), string(string(b"x") + string(b"") + b"x"),
                 string(string(b"\xff") + string(b""))],
        }.get(at, BAD_STRINGS)
        parts[at] = rng.choice(nearly)
    return b"".join(parts)


def near_key(rng):
    return near_certificate(rng) if rng.random() < 0.4 else near_plain(rng)


def near_pair(rng):
    """A pair, most often with one part from the border of the grammar, and what the public key's blob is then."""
    kind = rng.randrange(5)
    if kind == 0:
        public = rng.randbytes(32)
        made = string(b"ssh-ed25519") + string(public) + string(rng.randbytes(32) + rng.choice((public, public, rng.randbytes(32), public[:31])))
        return made, string(b"ssh-ed25519") + string(public)
    if kind == 1:
        numbers = [string(rng.choice(NUMBERS if rng.random() < 0.1 else NUMBERS[2:4])) for _ in range(6)]
        return string(b"ssh-rsa") + b"".join(numbers), string(b"ssh-rsa") + numbers[1] + numbers[0]
    if kind == 2:
        blob = near_plain(rng)
        return blob + string(rng.choice(NUMBERS)), blob
    if kind == 3:
        blob = plain_blob(rng, any_name(rng))
        return blob + string(rng.choice(NUMBERS)), blob
    return pair(rng, rng.choice(PAIR_NAMES))


def pair(rng, name=b"ssh-ed25519"):
    """A pair in the agent's order of numbers, and its public key's blob."""
    if name == b"ssh-ed25519":
        public = rng.randbytes(32)
        return string(name) + string(public) + string(rng.randbytes(32) + public), string(name) + string(public)
    if name == b"ssh-rsa":
        e, n = string(b"\1\0\1"), string(mpint(rng, 128))
        rest = b"".join(string(mpint(rng, 64)) for _ in range(4))
        return string(name) + n + e + rest, string(name) + e + n
    fields = plain_fields(rng, name)
    return string(name) + fields + string(mpint(rng, 20)), string(name) + fields


PAIR_NAMES = [name for name in PLAIN_NAMES if not name.startswith(b"sk-")]


def toy_signature(blob, bytes_signed, name=None):
    length = struct.unpack(">I", blob[:4])[0]
    return string(name or blob[4:4 + length]) + string(hmac.new(blob, bytes_signed, hashlib.sha1).digest())


def exchange_done(blob, session_hash=b"session-id", sort=1, moment=0):
    names = b"".join(string(name) for name in (b"curve25519-sha256", b"", b"", b"", b""))
    fields = bytes([sort]) + string(blob) + string(session_hash) + string(b"") + b"\0" + string(b"") + names + b"\0"
    return event(0x02, fields, moment)
