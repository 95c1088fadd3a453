"""What a user asks: how to be authenticated (the methods of AUTHENTICATE), and of a channel (the sorts of CHANNEL)."""
from __future__ import annotations

from dataclasses import dataclass
from typing import Tuple

from .enums import HashAlgorithm
from .shapes import (
    ALL_HIDDEN, BYTES, CERTIFICATE, FLAG, HIDDEN_TEXT, KEY, MODES, PAIR, TEXT, U32, Among, Mode, Variant, part,
)

HASH = Among(HashAlgorithm, 1, ("none", "SHA-256", "SHA-512"), "hash")


class Method(Variant):
    """How a user is to be authenticated."""


@dataclass(frozen=True)
class NoMethod(Method, number=0, name="none"):
    """The method `none` (RFC 4252, section 5.2)."""


@dataclass(frozen=True)
class Password(Method, number=1, name="password"):
    """A password (RFC 4252, section 8)."""

    password: str = part(HIDDEN_TEXT)


@dataclass(frozen=True)
class Pair(Method, number=2, name="pair"):
    """A key pair that is at hand (RFC 4252, section 7)."""

    pair: bytes = part(PAIR)
    hash: HashAlgorithm = part(HASH)


@dataclass(frozen=True)
class PairAndCertificate(Method, number=3, name="pair-and-certificate"):
    """A key pair that is at hand, with the certificate for its key."""

    pair: bytes = part(PAIR)
    certificate: bytes = part(CERTIFICATE)


@dataclass(frozen=True)
class OutsideKey(Method, number=4, name="outside-key"):
    """A key that an outside signer has."""

    key: bytes = part(KEY)
    hash: HashAlgorithm = part(HASH)


@dataclass(frozen=True)
class OutsideCertificate(Method, number=5, name="outside-certificate"):
    """A certificate whose key an outside signer has."""

    certificate: bytes = part(CERTIFICATE)
    hash: HashAlgorithm = part(HASH)


@dataclass(frozen=True)
class KeyboardInteractive(Method, number=6, name="keyboard-interactive"):
    """The server's prompts (RFC 4256, section 3.1)."""

    submethods: str = part(TEXT)


@dataclass(frozen=True)
class GssapiWithMic(Method, number=7, name="gssapi-with-mic"):
    """GSSAPI, by one of these mechanisms (RFC 4462, section 3.2)."""

    mechanisms: Tuple[bytes, ...] = part(ALL_HIDDEN)


class ChannelMessage(Variant):
    """What a user asks of a channel (RFC 4254, sections 5 and 6)."""


@dataclass(frozen=True)
class Data(ChannelMessage, number=0, name="data"):
    """Bytes (RFC 4254, section 5.2)."""

    body: bytes = part(BYTES)


@dataclass(frozen=True)
class ExtendedData(ChannelMessage, number=1, name="extended-data"):
    """Bytes of a type, as of stderr (RFC 4254, section 5.2)."""

    type: int = part(U32)
    body: bytes = part(BYTES)


@dataclass(frozen=True)
class Eof(ChannelMessage, number=2, name="eof"):
    """No more bytes follow (RFC 4254, section 5.3)."""


@dataclass(frozen=True)
class Close(ChannelMessage, number=3, name="close"):
    """The channel is to be closed (RFC 4254, section 5.3)."""


@dataclass(frozen=True)
class Pty(ChannelMessage, number=4, name="pty"):
    """A terminal; width and height are pixels (RFC 4254, section 6.2)."""

    want_reply: bool = part(FLAG)
    term: str = part(TEXT)
    columns: int = part(U32)
    rows: int = part(U32)
    width: int = part(U32)
    height: int = part(U32)
    modes: Tuple[Mode, ...] = part(MODES)


@dataclass(frozen=True)
class WindowChange(ChannelMessage, number=5, name="window-change"):
    """The terminal's size has changed (RFC 4254, section 6.7)."""

    columns: int = part(U32)
    rows: int = part(U32)
    width: int = part(U32)
    height: int = part(U32)


@dataclass(frozen=True)
class X11(ChannelMessage, number=6, name="x11"):
    """X11 forwarding (RFC 4254, section 6.3.1)."""

    want_reply: bool = part(FLAG)
    single: bool = part(FLAG)
    protocol: str = part(TEXT)
    cookie: str = part(HIDDEN_TEXT)
    screen: int = part(U32)


@dataclass(frozen=True)
class Env(ChannelMessage, number=7, name="env"):
    """A variable of the environment (RFC 4254, section 6.4)."""

    want_reply: bool = part(FLAG)
    name: str = part(TEXT)
    value: str = part(TEXT)


@dataclass(frozen=True)
class Shell(ChannelMessage, number=8, name="shell"):
    """The user's shell (RFC 4254, section 6.5)."""

    want_reply: bool = part(FLAG)


@dataclass(frozen=True)
class Exec(ChannelMessage, number=9, name="exec"):
    """A command (RFC 4254, section 6.5)."""

    want_reply: bool = part(FLAG)
    command: bytes = part(BYTES)


@dataclass(frozen=True)
class SendSignal(ChannelMessage, number=10, name="signal"):
    """A signal: one of enums.Signal, or another name (RFC 4254, section 6.9)."""

    signal: str = part(TEXT)


@dataclass(frozen=True)
class Subsystem(ChannelMessage, number=11, name="subsystem"):
    """A subsystem, such as sftp (RFC 4254, section 6.5)."""

    want_reply: bool = part(FLAG)
    name: str = part(TEXT)


@dataclass(frozen=True)
class AgentForward(ChannelMessage, number=12, name="agent-forward"):
    """The user's agent is to be forwarded (OpenSSH's PROTOCOL)."""

    want_reply: bool = part(FLAG)
