"""Whether bytes are a valid key, certificate or key pair, by their formats alone: nothing is computed with them.

Keys: RFC 4253, section 6.6; RFC 5656, section 3.1; RFC 8709, section 4; OpenSSH's PROTOCOL.u2f. Certificates: OpenSSH's
PROTOCOL.certkeys. Pairs: draft-miller-ssh-agent, section 3.2."""
from __future__ import annotations

from typing import Callable, Tuple

from .wire import Reader, WireError

Part = Callable[[Reader], object]

_MARK = "-cert-v01"

# One more than the most certificates in one another, and the most bytes of a name with a domain.
_LEVELS, _LONGEST_NAME = 9, 64


def _require(holds: bool, what: str) -> None:
    if not holds:
        raise WireError(what)


# ---- the parts of keys


def _mpint(reader: Reader) -> None:
    """A positive number with no unneeded leading byte (RFC 4251, section 5)."""
    value = reader.string()
    number = int.from_bytes(value, "big")
    _require(number > 0 and len(value) == number.bit_length() // 8 + 1, "not a positive mpint")


def _sized(size: int) -> Part:
    def read(reader: Reader) -> bytes:
        value = reader.string()
        _require(len(value) == size, f"not {size} bytes")
        return value

    return read


def _curve(name: str, size: int) -> Part:
    """The curve's name and an uncompressed point of so many bytes (RFC 5656, section 3.1)."""

    def read(reader: Reader) -> None:
        _require(reader.string() == name.encode(), "another curve")
        point = reader.string()
        _require(len(point) == size and point[0] == 4, "not an uncompressed point")

    return read


_P256, _P384, _P521 = _curve("nistp256", 65), _curve("nistp384", 97), _curve("nistp521", 133)

# The fields of plain keys by the names of their algorithms.
_PLAIN = {
    "ssh-dss": (_mpint,) * 4,
    "ecdsa-sha2-nistp256": (_P256,),
    "ecdsa-sha2-nistp384": (_P384,),
    "ecdsa-sha2-nistp521": (_P521,),
    "ssh-ed25519": (_sized(32),),
    "ssh-rsa": (_mpint,) * 2,
    "sk-ecdsa-sha2-nistp256@openssh.com": (_P256, Reader.text),
    "sk-ssh-ed25519@openssh.com": (_sized(32), Reader.text),
}

# The fields of pairs that aren't ssh-ed25519's.
_PAIRS = {
    "ssh-dss": (_mpint,) * 5,
    "ecdsa-sha2-nistp256": (_P256, _mpint),
    "ecdsa-sha2-nistp384": (_P384, _mpint),
    "ecdsa-sha2-nistp521": (_P521, _mpint),
    "ssh-rsa": (_mpint,) * 6,
}

_STEMS = {name.partition("@")[0] for name in _PLAIN}
_CERTIFIED = {f"{name.partition('@')[0]}{_MARK}@openssh.com": name for name in _PLAIN}


# ---- names of algorithms


def _is_side(side: str) -> bool:
    return side != "" and all("!" <= char <= "~" and char not in ",@" for char in side)


def _is_own(front: str, domain: str) -> bool:
    """Whether these are the two sides of the `@` in the name of an algorithm that isn't in the table."""
    is_taken = domain == "openssh.com" and front in _STEMS
    fits = len(front) + 1 + len(domain) <= _LONGEST_NAME
    return _is_side(front) and _is_side(domain) and fits and not is_taken and not front.endswith(_MARK)


def _algorithm(name: str) -> Tuple[str, bool]:
    """The key's algorithm, and whether the name is that of a certificate for it."""
    if name in _PLAIN:
        return name, False
    if name in _CERTIFIED:
        return _CERTIFIED[name], True
    front, _, domain = name.partition("@")
    if _is_own(front, domain):
        return name, False
    own = front[: -len(_MARK)]
    is_certified = front.endswith(_MARK) and _is_own(own, domain) and len(name) <= _LONGEST_NAME
    _require(is_certified, "not the name of an algorithm")
    return f"{own}@{domain}", True


# ---- keys, certificates, pairs


def _read_each(reader: Reader, parts: Tuple[Part, ...]) -> None:
    for part in parts:
        part(reader)


def _read_all(data: bytes, *parts: Part) -> None:
    """Reads these parts again and again, up to the end."""
    reader = Reader(data)
    while reader.left:
        _read_each(reader, parts)


def _plain_fields(name: str, reader: Reader) -> None:
    _read_each(reader, _PLAIN.get(name, (Reader.string,)))


def _signature(data: bytes) -> None:
    """A whole signature; that of a security key has flags and a counter (PROTOCOL.u2f)."""
    reader = Reader(data)
    name = reader.text()
    reader.string()
    if name.startswith("sk-"):
        reader.u8()
        reader.u32()
    reader.end()


def _certificate_fields(name: str, reader: Reader, levels: int) -> None:
    reader.string()
    _plain_fields(name, reader)
    reader.u64()
    _require(reader.u32() in (1, 2), "neither a user's nor a host's certificate")
    reader.text()
    _read_all(reader.string(), Reader.text)
    reader.u64()
    reader.u64()
    _read_all(reader.string(), Reader.text, Reader.string)
    _read_all(reader.string(), Reader.text, Reader.string)
    reader.string()
    signer = Reader(reader.string())
    _key(signer, levels)
    signer.end()
    _signature(reader.string())


def _key(reader: Reader, levels: int) -> bool:
    """Reads a key, and returns whether it is a certificate."""
    _require(levels > 0, "too many certificates in one another")
    name, is_certificate = _algorithm(reader.text())
    if is_certificate:
        _certificate_fields(name, reader, levels - 1)
    else:
        _plain_fields(name, reader)
    return is_certificate


def _whole_key(blob: bytes) -> bool:
    _require(blob.count(f"{_MARK}@".encode()) < _LEVELS, "too many certificates in one another")
    reader = Reader(blob)
    is_certificate = _key(reader, _LEVELS)
    reader.end()
    return is_certificate


def check_key(blob: bytes) -> None:
    """Refuses, with a WireError, what isn't the blob of one plain key and nothing after it."""
    _require(not _whole_key(blob), "a certificate in the place of a key")


def check_certificate(blob: bytes) -> None:
    """Refuses, with a WireError, what isn't the blob of one certificate and nothing after it."""
    _require(_whole_key(blob), "a key in the place of a certificate")


def check_pair(pair: bytes) -> None:
    """Refuses, with a WireError, what isn't one key pair and nothing after it."""
    reader = Reader(pair)
    name = reader.text()
    if name == "ssh-ed25519":
        public, private = reader.string(), reader.string()
        _require(len(public) == 32 and len(private) == 64 and private[32:] == public, "the private part is of another key")
    else:
        _require(name in _PAIRS, "not the name of a pair's algorithm")
        _read_each(reader, _PAIRS[name])
    reader.end()
