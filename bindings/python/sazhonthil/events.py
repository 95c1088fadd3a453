"""The events of scripts (docs/FORMATS.md, "A script" and "Events"): what a session and an agent are told.

    data = Authenticate(1, "alice", Password("pw")).encode(moment=5)
    for at in decode(data):
        print(at.place, at.moment, at.event)

Each kind of event is a dataclass with the fields of its row. The blobs of keys, certificates and pairs are bytes."""
from __future__ import annotations

import io
from dataclasses import dataclass
from enum import IntEnum
from typing import BinaryIO, Iterator, List, NamedTuple, Optional, Tuple

from . import wire
from .enums import DisconnectReason, OpenFailure
from .requests import (  # noqa: F401 (all of them are named again here)
    AgentForward, ChannelMessage, Close, Data, Env, Eof, Exec, ExtendedData, GssapiWithMic, KeyboardInteractive, Method, NoMethod,
    OutsideCertificate, OutsideKey, Pair, PairAndCertificate, Password, Pty, SendSignal, Shell, Subsystem, WindowChange, X11,
)
from .shapes import (
    ALL_HIDDEN_TEXTS, BYTES, CERTIFICATE, FLAG, HIDDEN, HIDDEN_REST, KEY, TEXT, U32, Among, Empty, ListOf, OneOf, Packet, Secret, Token,
    Variant, part,
)
from .wire import Reader, WireError

# The fewest and the most bytes of an event after its length.
SHORTEST, LONGEST = 9, 262144


class BadEvent(ValueError):
    """The bytes at this place of a script are no event. `place` is that of the event's first byte, counted from 0."""

    def __init__(self, place: int, why: str) -> None:
        super().__init__(f"bad event at {place}: {why}")
        self.place, self.why = place, why


class Event(Variant):
    """An event."""

    def encode(self, moment: int = 0) -> bytes:
        """The event as a script has it: its length, the moment in milliseconds, its kind and its fields. What only a reader
        refuses, such as a blob that isn't a valid key, isn't looked for."""
        body = wire.u64(moment) + wire.u8(self.NUMBER) + self.write()
        if len(body) > LONGEST:
            raise ValueError(f"an event of {len(body)} bytes, and {LONGEST} are the most")
        return wire.u32(len(body)) + body


class RawEvent(NamedTuple):
    """An event whose fields haven't been read."""

    place: int
    moment: int
    kind: int
    fields: bytes

    def read(self) -> Event:
        """The event. BadEvent where the fields are broken."""
        reader = Reader(self.fields)
        try:
            event: Event = Event.FAMILY[self.kind].read(reader)
            reader.end()
        except WireError as error:
            raise BadEvent(self.place, str(error)) from None
        return event


class Placed(NamedTuple):
    """An event with its place in the script and its moment in milliseconds."""

    place: int
    moment: int
    event: Event


def _up_to(stream: BinaryIO, size: int) -> bytes:
    """So many bytes of the stream, or fewer at its end; a stream may return fewer in one read."""
    data = b""
    while len(data) < size:
        more = stream.read(size - len(data))
        if not more:
            break
        data += more
    return data


def _next_raw(stream: BinaryIO, place: int, last: int) -> Optional[RawEvent]:
    head = _up_to(stream, 4)
    if not head:
        return None
    length = int.from_bytes(head, "big")
    if len(head) < 4 or not SHORTEST <= length <= LONGEST:
        raise BadEvent(place, "no length of an event")
    body = _up_to(stream, length)
    if len(body) < length:
        raise BadEvent(place, "the script ends inside the event")
    moment, kind = int.from_bytes(body[:8], "big"), body[8]
    if kind not in Event.FAMILY:
        raise BadEvent(place, f"no kind {kind:02x}")
    if moment < last:
        raise BadEvent(place, "its moment is below that of the event before")
    return RawEvent(place, moment, kind, body[SHORTEST:])


def read_raw(stream: BinaryIO) -> Iterator[RawEvent]:
    """The events of a script one after another, their fields unread. BadEvent where no event begins."""
    place = last = 0
    while True:
        raw = _next_raw(stream, place, last)
        if raw is None:
            return
        yield raw
        place, last = place + 4 + SHORTEST + len(raw.fields), raw.moment


def read(stream: BinaryIO) -> Iterator[Placed]:
    """The events of a script one after another. BadEvent at the first that isn't one."""
    for raw in read_raw(stream):
        yield Placed(raw.place, raw.moment, raw.read())


def decode(script: bytes) -> List[Placed]:
    """The events of a whole script. BadEvent at the first that isn't one."""
    return list(read(io.BytesIO(script)))


# ---- what the transport brings


@dataclass(frozen=True)
class PeerKexinit(Event, number=0x01, name="PEER_KEXINIT"):
    """The peer's KEXINIT came (RFC 4253, section 7.1)."""


class HostKey(Variant):
    """The host key of an exchange."""


@dataclass(frozen=True)
class NoHostKey(HostKey, number=0, name="missing"):
    """There is none."""

    blob: bytes = part(Empty(), "host-key-blob", b"")


@dataclass(frozen=True)
class PlainHostKey(HostKey, number=1, name="plain"):
    """A plain key."""

    blob: bytes = part(KEY, "host-key-blob")


@dataclass(frozen=True)
class CertifiedHostKey(HostKey, number=2, name="certificate"):
    """A certificate."""

    blob: bytes = part(CERTIFICATE, "host-key-blob")


@dataclass(frozen=True)
class ExchangeDone(Event, number=0x02, name="EXCHANGE_DONE"):
    """A key exchange is done (RFC 4253, section 8)."""

    host_key: HostKey = part(OneOf(HostKey, "u8, str"))
    hash: bytes = part(HIDDEN)
    signature: bytes = part(HIDDEN)
    secret: Optional[bytes] = part(Secret())
    kex: str = part(TEXT)
    key: str = part(TEXT)
    cipher: str = part(TEXT)
    client_mac: str = part(TEXT)
    server_mac: str = part(TEXT)
    strict: bool = part(FLAG)


@dataclass(frozen=True)
class Payload(Event, number=0x03, name="PAYLOAD"):
    """A packet of the peer, decrypted; it may be empty."""

    packet: bytes = part(Packet())


@dataclass(frozen=True)
class TransportFailed(Event, number=0x04, name="TRANSPORT_FAILED"):
    """The transport failed."""


@dataclass(frozen=True)
class RekeyLimit(Event, number=0x05, name="REKEY_LIMIT"):
    """The keys have done enough (RFC 4253, section 9)."""


@dataclass(frozen=True)
class KeepaliveTimer(Event, number=0x08, name="KEEPALIVE_TIMER"):
    """The interval of keepalives has passed."""


@dataclass(frozen=True)
class InactivityTimer(Event, number=0x09, name="INACTIVITY_TIMER"):
    """The limit of inactivity has passed."""


# ---- authentication


@dataclass(frozen=True)
class Authenticate(Event, number=0x10, name="AUTHENTICATE"):
    """The user asks to be authenticated (RFC 4252, section 5)."""

    ticket: int = part(U32)
    user: str = part(TEXT)
    method: Method = part(OneOf(Method))


@dataclass(frozen=True)
class AuthInfoResponse(Event, number=0x11, name="AUTH_INFO_RESPONSE"):
    """Answers to prompts (RFC 4256, section 3.4)."""

    responses: Tuple[str, ...] = part(ALL_HIDDEN_TEXTS)


@dataclass(frozen=True)
class AuthGssapiToken(Event, number=0x12, name="AUTH_GSSAPI_TOKEN"):
    """A token (RFC 4462, section 3.4)."""

    token: bytes = part(HIDDEN)


@dataclass(frozen=True)
class AuthGssapiMic(Event, number=0x13, name="AUTH_GSSAPI_MIC"):
    """The MIC, and perhaps a token before it (RFC 4462, section 3.5)."""

    token: Optional[bytes] = part(Token())
    mic: bytes = part(HIDDEN)


@dataclass(frozen=True)
class AuthGssapiComplete(Event, number=0x14, name="AUTH_GSSAPI_COMPLETE"):
    """The exchange is complete without a MIC, perhaps with a last token (RFC 4462, section 3.5)."""

    token: Optional[bytes] = part(Token())


@dataclass(frozen=True)
class Signed(Event, number=0x15, name="SIGNED"):
    """The outside signer's answer: the bytes that were handed out, and the signature behind them as a string."""

    body: bytes = part(HIDDEN)


@dataclass(frozen=True)
class SignFailed(Event, number=0x16, name="SIGN_FAILED"):
    """The outside signer has no signature."""


# ---- opens and forwards


@dataclass(frozen=True)
class OpenSession(Event, number=0x17, name="OPEN_SESSION"):
    """A channel of the type session (RFC 4254, section 6.1)."""

    ticket: int = part(U32)


@dataclass(frozen=True)
class OpenX11(Event, number=0x18, name="OPEN_X11"):
    """A channel of the type x11 (RFC 4254, section 6.3.2)."""

    ticket: int = part(U32)
    originator: str = part(TEXT)
    originator_port: int = part(U32)


@dataclass(frozen=True)
class OpenDirectTcpip(Event, number=0x19, name="OPEN_DIRECT_TCPIP"):
    """A channel to a host and a port (RFC 4254, section 7.2)."""

    ticket: int = part(U32)
    host: str = part(TEXT)
    port: int = part(U32)
    originator: str = part(TEXT)
    originator_port: int = part(U32)


@dataclass(frozen=True)
class OpenDirectStreamlocal(Event, number=0x1A, name="OPEN_DIRECT_STREAMLOCAL"):
    """A channel to a socket at a path (OpenSSH's PROTOCOL, section 2.4)."""

    ticket: int = part(U32)
    path: str = part(TEXT)


@dataclass(frozen=True)
class TcpipForward(Event, number=0x1B, name="TCPIP_FORWARD"):
    """The server is to forward a port (RFC 4254, section 7.1)."""

    ticket: int = part(U32)
    address: str = part(TEXT)
    port: int = part(U32)


@dataclass(frozen=True)
class CancelTcpipForward(Event, number=0x1C, name="CANCEL_TCPIP_FORWARD"):
    """The server is to forward the port no longer (RFC 4254, section 7.1)."""

    ticket: int = part(U32)
    address: str = part(TEXT)
    port: int = part(U32)


@dataclass(frozen=True)
class StreamlocalForward(Event, number=0x1D, name="STREAMLOCAL_FORWARD"):
    """The server is to forward a socket at a path (OpenSSH's PROTOCOL, section 2.4)."""

    ticket: int = part(U32)
    path: str = part(TEXT)


@dataclass(frozen=True)
class CancelStreamlocalForward(Event, number=0x1E, name="CANCEL_STREAMLOCAL_FORWARD"):
    """The server is to forward the socket no longer (OpenSSH's PROTOCOL, section 2.4)."""

    ticket: int = part(U32)
    path: str = part(TEXT)


# ---- channels and the end


@dataclass(frozen=True)
class CloseChannel(Event, number=0x1F, name="CLOSE"):
    """The channel is to be closed (RFC 4254, section 5.3)."""

    channel: int = part(U32)


@dataclass(frozen=True)
class Disconnect(Event, number=0x20, name="DISCONNECT"):
    """The connection is to end (RFC 4253, section 11.1)."""

    reason: DisconnectReason = part(Among(DisconnectReason, 4))
    description: str = part(TEXT)
    language: str = part(TEXT)


@dataclass(frozen=True)
class Channel(Event, number=0x21, name="CHANNEL"):
    """What the user asks of a channel (RFC 4254, sections 5 and 6)."""

    channel: int = part(U32)
    message: ChannelMessage = part(OneOf(ChannelMessage))


@dataclass(frozen=True)
class ServerOpenReply(Event, number=0x22, name="SERVER_OPEN_REPLY"):
    """Whether a channel that the server opens is accepted; the reason counts where it isn't (RFC 4254, section 5.1)."""

    channel: int = part(U32)
    accept: bool = part(FLAG)
    reason: OpenFailure = part(Among(OpenFailure, 4))


# ---- requests without a channel


@dataclass(frozen=True)
class Rekey(Event, number=0x24, name="REKEY"):
    """The keys are to be exchanged again (RFC 4253, section 9)."""


@dataclass(frozen=True)
class AwaitExtensionInfo(Event, number=0x25, name="AWAIT_EXTENSION_INFO"):
    """The user waits for an extension of the server's (RFC 8308, section 2.3)."""

    ticket: int = part(U32)
    name: str = part(TEXT)


@dataclass(frozen=True)
class GetServerSigAlgs(Event, number=0x26, name="GET_SERVER_SIG_ALGS"):
    """The user asks which signatures the server takes (RFC 8308, section 3.1)."""

    ticket: int = part(U32)


@dataclass(frozen=True)
class Keepalive(Event, number=0x27, name="KEEPALIVE"):
    """A request keepalive@openssh.com is to be sent."""

    want_reply: bool = part(FLAG)


@dataclass(frozen=True)
class Ping(Event, number=0x28, name="PING"):
    """A request is to be sent whose answer is awaited."""

    ticket: int = part(U32)


@dataclass(frozen=True)
class NoMoreSessions(Event, number=0x29, name="NO_MORE_SESSIONS"):
    """A request no-more-sessions@openssh.com is to be sent (OpenSSH's PROTOCOL, section 2.2)."""

    want_reply: bool = part(FLAG)


@dataclass(frozen=True)
class HostkeysProve(Event, number=0x2A, name="HOSTKEYS_PROVE"):
    """The server is to prove that it has these keys (OpenSSH's PROTOCOL, section 2.5)."""

    ticket: int = part(U32)
    keys: Tuple[bytes, ...] = part(ListOf(KEY), "key")


@dataclass(frozen=True)
class GlobalRequest(Event, number=0x2B, name="GLOBAL_REQUEST"):
    """A global request of the user's own is to be sent (RFC 4254, section 4)."""

    ticket: int = part(U32)
    request: str = part(TEXT)
    body: bytes = part(BYTES)


@dataclass(frozen=True)
class Gone(Event, number=0x2F, name="GONE"):
    """No user is left."""


# ---- an agent's


@dataclass(frozen=True)
class AgentBytes(Event, number=0x40, name="AGENT_BYTES"):
    """Bytes of a connection to the agent."""

    connection: int = part(U32)
    piece: bytes = part(HIDDEN_REST)


@dataclass(frozen=True)
class AgentRequestAnswer(Event, number=0x41, name="AGENT_REQUEST_ANSWER"):
    """Whether the user allows the request that was asked about."""

    connection: int = part(U32)
    allowed: bool = part(FLAG)


@dataclass(frozen=True)
class AgentKeyAnswer(Event, number=0x42, name="AGENT_KEY_ANSWER"):
    """Whether the user confirms the use of the key that was asked about."""

    connection: int = part(U32)
    confirmed: bool = part(FLAG)


@dataclass(frozen=True)
class AgentClose(Event, number=0x43, name="AGENT_CLOSE"):
    """The agent's client went away."""

    connection: int = part(U32)


# The kinds of events by their names in docs/FORMATS.md.
EventKind = IntEnum("EventKind", {kind.NAME: number for number, kind in Event.FAMILY.items()})  # type: ignore[misc]
