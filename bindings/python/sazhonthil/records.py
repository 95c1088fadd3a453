"""The records that a session and an agent return (docs/FORMATS.md, "Records").

    for record in map(decode, session.take(events)):
        if isinstance(record, Payload):
            send(record.packet)

Each record, each resolution of a ticket and each type of channel that the server opens is a dataclass."""
from __future__ import annotations

from dataclasses import dataclass
from typing import ClassVar, Tuple

from . import wire
from .enums import AgentFault, AgentRequest, HashAlgorithm, HostKeysFault, LoginMethod, OpenFailure
from .shapes import (
    BLOB, BYTES, FLAG, HIDDEN, HIDDEN_REST, PROMPTS, TEXT, U32, Among, Frame, ListOf, Methods, Names, OneOf, Prompt, Variant, part,
)
from .wire import Reader, WireError
from .words import Line

HASH = Among(HashAlgorithm, 1, ("None", "Some(Sha256)", "Some(Sha512)"))
REASON = Among(OpenFailure, 4)


class NotARecord(ValueError):
    """The bytes aren't those of a record."""


class Record(Variant):
    """A record. HEADING is what a line begins with where the first field comes before the record's name."""

    HEADING: ClassVar[str] = ""

    def encode(self) -> bytes:
        """The record's number and its fields."""
        return wire.u8(self.NUMBER) + self.write()

    def show(self, line: Line) -> None:
        parts = self.parts()
        if self.HEADING:
            name, _, shape = parts[0]
            shape.show(line, self.HEADING, getattr(self, name))
            parts = parts[1:]
        line.word(self.NAME)
        for name, word, shape in parts:
            shape.show(line, word, getattr(self, name))


def decode(data: bytes) -> Record:
    """The record of these bytes, all of them. NotARecord where they aren't written so by `encode`."""
    reader = Reader(data)
    try:
        kind = Record.FAMILY.get(reader.u8())
        if kind is None:
            raise WireError("no such record")
        record: Record = kind.read(reader)
    except WireError as error:
        raise NotARecord(str(error)) from None
    if record.encode() != data:
        raise NotARecord("bytes are left over, or a field is written in another way")
    return record


# ---- the session


@dataclass(frozen=True)
class Payload(Record, number=0x01, name="Payload"):
    """A packet for the transport. It may hold a password, and so it is hidden; packets.py shows it."""

    packet: bytes = part(HIDDEN_REST)


@dataclass(frozen=True)
class BeginExchange(Record, number=0x02, name="BeginExchange"):
    """The transport is to begin a key exchange (RFC 4253, section 9)."""


@dataclass(frozen=True)
class Opened(Record, number=0x03, name="Opened"):
    """The session is open."""


@dataclass(frozen=True)
class KexDone(Record, number=0x20, name="KexDone"):
    """A key exchange is done, by this method."""

    kex: str = part(TEXT)


@dataclass(frozen=True)
class AuthBanner(Record, number=0x21, name="AuthBanner"):
    """The server's banner (RFC 4252, section 5.4)."""

    banner: str = part(TEXT)


@dataclass(frozen=True)
class HostKeysAnnounced(Record, number=0x2F, name="HostKeysAnnounced"):
    """The server says which host keys it has (OpenSSH's PROTOCOL, section 2.5). The blobs may be of any key."""

    keys: Tuple[bytes, ...] = part(ListOf(BLOB), "key")


# ---- a ticket's answer


class Resolution(Variant):
    """How what a ticket asked for ended."""


@dataclass(frozen=True)
class AuthSuccess(Resolution, number=0x00, name="AuthSuccess"):
    """The user is authenticated."""


@dataclass(frozen=True)
class AuthFailure(Resolution, number=0x01, name="AuthFailure"):
    """The user isn't authenticated (yet): the methods that can continue (RFC 4252, section 5.1)."""

    methods: Tuple[LoginMethod, ...] = part(Methods())
    partial: bool = part(FLAG)

    def show(self, line: Line) -> None:
        """The list is shown last."""
        line.flag("partial", self.partial)
        Methods().show(line, "methods", self.methods)


@dataclass(frozen=True)
class ExtInfoSeen(Resolution, number=0x02, name="ExtInfoSeen"):
    """The extension came (RFC 8308, section 2.3)."""


@dataclass(frozen=True)
class SigAlgs(Resolution, number=0x03, name="SigAlgs"):
    """Which signatures the server takes, if that is known (RFC 8308, section 3.1)."""

    known: bool = part(FLAG)
    names: Tuple[str, ...] = part(Names(), "name")


@dataclass(frozen=True)
class ChannelOpened(Resolution, number=0x04, name="ChannelOpened"):
    """The channel is open."""

    channel: int = part(U32)


@dataclass(frozen=True)
class ChannelOpenFailed(Resolution, number=0x05, name="ChannelOpenFailed"):
    """The channel isn't opened (RFC 4254, section 5.1)."""

    reason: OpenFailure = part(REASON)


@dataclass(frozen=True)
class ForwardPort(Resolution, number=0x06, name="ForwardPort"):
    """The port that the server forwards (RFC 4254, section 7.1)."""

    port: int = part(U32)


@dataclass(frozen=True)
class Done(Resolution, number=0x07, name="Done"):
    """It is done."""


@dataclass(frozen=True)
class Denied(Resolution, number=0x08, name="Denied"):
    """It is denied."""


@dataclass(frozen=True)
class Pong(Resolution, number=0x09, name="Pong"):
    """The answer to a PING."""


@dataclass(frozen=True)
class HostKeysProved(Resolution, number=0x0A, name="HostKeysProved"):
    """The server has proved that it has the keys."""


@dataclass(frozen=True)
class HostKeysRefused(Resolution, number=0x0B, name="HostKeysRefused"):
    """The server's proof of its keys is refused."""

    fault: HostKeysFault = part(Among(HostKeysFault, 1))


@dataclass(frozen=True)
class GlobalReply(Resolution, number=0x0C, name="GlobalReply"):
    """The answer to a global request of the user's own (RFC 4254, section 4)."""

    body: bytes = part(BYTES)


@dataclass(frozen=True)
class Dropped(Resolution, number=0x0D, name="Dropped"):
    """The ticket gets no answer any more."""


@dataclass(frozen=True)
class Resolved(Record, number=0x04, name=""):
    """A ticket's answer."""

    HEADING = "Resolved ticket"

    ticket: int = part(U32)
    resolution: Resolution = part(OneOf(Resolution), "")


# ---- what the user is asked for


class AuthRecord(Record):
    """What the user is asked for while it is authenticated."""

    HEADING = "Auth ticket"


@dataclass(frozen=True)
class SignRequest(AuthRecord, number=0x05, name="SignRequest"):
    """A signature by a key over these bytes (RFC 4252, section 7)."""

    ticket: int = part(U32)
    key: bytes = part(BLOB)
    hash: HashAlgorithm = part(HASH)
    body: bytes = part(HIDDEN)


@dataclass(frozen=True)
class SignRequestCert(AuthRecord, number=0x06, name="SignRequestCert"):
    """A signature by a certificate's key over these bytes."""

    ticket: int = part(U32)
    certificate: bytes = part(BLOB)
    hash: HashAlgorithm = part(HASH)
    body: bytes = part(HIDDEN)


@dataclass(frozen=True)
class AuthInfoRequest(AuthRecord, number=0x07, name="AuthInfoRequest"):
    """Answers to the server's prompts (RFC 4256, section 3.2)."""

    ticket: int = part(U32)
    name: str = part(TEXT)
    instructions: str = part(TEXT)
    prompts: Tuple[Prompt, ...] = part(PROMPTS)


@dataclass(frozen=True)
class GssapiResponse(AuthRecord, number=0x08, name="GssapiResponse"):
    """The mechanism that the server chose, and the bytes for a MIC (RFC 4462, section 3.3)."""

    ticket: int = part(U32)
    mechanism: bytes = part(HIDDEN)
    mic_data: bytes = part(HIDDEN)


@dataclass(frozen=True)
class GssapiToken(AuthRecord, number=0x09, name="GssapiToken"):
    """The server's token, and the bytes for a MIC (RFC 4462, section 3.4)."""

    ticket: int = part(U32)
    token: bytes = part(HIDDEN)
    mic_data: bytes = part(HIDDEN)


@dataclass(frozen=True)
class GssapiError(AuthRecord, number=0x0A, name="GssapiError"):
    """The server's error (RFC 4462, section 3.8)."""

    ticket: int = part(U32)
    major: int = part(U32)
    minor: int = part(U32)
    message: str = part(TEXT)


@dataclass(frozen=True)
class GssapiErrorToken(AuthRecord, number=0x0B, name="GssapiErrorToken"):
    """The token of the server's error (RFC 4462, section 3.9)."""

    ticket: int = part(U32)
    token: bytes = part(HIDDEN)


# ---- channels


class ChannelRecord(Record):
    """What happened on a channel of ours (RFC 4254, sections 5 and 6)."""

    HEADING = "Channel"


@dataclass(frozen=True)
class ChannelOpen(ChannelRecord, number=0x22, name="Open"):
    """The server has confirmed the channel (RFC 4254, section 5.1)."""

    channel: int = part(U32)
    packet_size: int = part(U32)
    window: int = part(U32)


@dataclass(frozen=True)
class ChannelSuccess(ChannelRecord, number=0x23, name="Success"):
    """A request succeeded (RFC 4254, section 5.4)."""

    channel: int = part(U32)


@dataclass(frozen=True)
class ChannelFailure(ChannelRecord, number=0x24, name="Failure"):
    """A request failed (RFC 4254, section 5.4)."""

    channel: int = part(U32)


@dataclass(frozen=True)
class ChannelClose(ChannelRecord, number=0x25, name="Close"):
    """The channel is closed (RFC 4254, section 5.3)."""

    channel: int = part(U32)


@dataclass(frozen=True)
class ChannelEof(ChannelRecord, number=0x26, name="Eof"):
    """The server sends no more bytes (RFC 4254, section 5.3)."""

    channel: int = part(U32)


@dataclass(frozen=True)
class ChannelOpenFailure(ChannelRecord, number=0x27, name="OpenFailure"):
    """The server doesn't open the channel (RFC 4254, section 5.1)."""

    channel: int = part(U32)
    reason: OpenFailure = part(REASON)
    description: str = part(TEXT)
    language: str = part(TEXT)


@dataclass(frozen=True)
class ChannelData(ChannelRecord, number=0x29, name="Data"):
    """Bytes (RFC 4254, section 5.2)."""

    channel: int = part(U32)
    body: bytes = part(BYTES)


@dataclass(frozen=True)
class ChannelExtendedData(ChannelRecord, number=0x2A, name="ExtendedData"):
    """Bytes of a type, as of stderr (RFC 4254, section 5.2)."""

    channel: int = part(U32)
    type: int = part(U32)
    body: bytes = part(BYTES)


@dataclass(frozen=True)
class ChannelXonXoff(ChannelRecord, number=0x2B, name="XonXoff"):
    """Whether the client can do flow control (RFC 4254, section 6.8)."""

    channel: int = part(U32)
    client_can_do: bool = part(FLAG)


@dataclass(frozen=True)
class ChannelExitStatus(ChannelRecord, number=0x2C, name="ExitStatus"):
    """The command's status (RFC 4254, section 6.10)."""

    channel: int = part(U32)
    status: int = part(U32)


@dataclass(frozen=True)
class ChannelExitSignal(ChannelRecord, number=0x2D, name="ExitSignal"):
    """The signal that ended the command: one of enums.Signal, or another name (RFC 4254, section 6.10)."""

    channel: int = part(U32)
    signal: str = part(TEXT)
    core_dumped: bool = part(FLAG)
    message: str = part(TEXT)
    language: str = part(TEXT)


@dataclass(frozen=True)
class ChannelWindowAdjusted(ChannelRecord, number=0x2E, name="WindowAdjusted"):
    """How many bytes may be sent from now on (RFC 4254, section 5.2)."""

    channel: int = part(U32)
    window: int = part(U32)


class ServerOpen(Variant):
    """A channel that the server opens, by its type."""


@dataclass(frozen=True)
class ServerSession(ServerOpen, number=0, name="Session"):
    """A session (RFC 4254, section 6.1)."""


@dataclass(frozen=True)
class ServerDirectTcpip(ServerOpen, number=1, name="DirectTcpIp"):
    """To a host and a port (RFC 4254, section 7.2)."""

    host: str = part(TEXT)
    port: int = part(U32)
    originator: str = part(TEXT)
    originator_port: int = part(U32)


@dataclass(frozen=True)
class ServerDirectStreamlocal(ServerOpen, number=2, name="DirectStreamLocal"):
    """To a socket at a path (OpenSSH's PROTOCOL, section 2.4)."""

    path: str = part(TEXT)


@dataclass(frozen=True)
class ServerX11(ServerOpen, number=3, name="X11"):
    """From an X11 client (RFC 4254, section 6.3.2)."""

    originator: str = part(TEXT)
    originator_port: int = part(U32)


@dataclass(frozen=True)
class ServerForwardedTcpip(ServerOpen, number=4, name="ForwardedTcpIp"):
    """From a port that is forwarded (RFC 4254, section 7.2)."""

    address: str = part(TEXT)
    port: int = part(U32)
    originator: str = part(TEXT)
    originator_port: int = part(U32)


@dataclass(frozen=True)
class ServerForwardedStreamlocal(ServerOpen, number=5, name="ForwardedStreamLocal"):
    """From a socket that is forwarded (OpenSSH's PROTOCOL, section 2.4)."""

    path: str = part(TEXT)


@dataclass(frozen=True)
class ServerAgentForward(ServerOpen, number=6, name="AgentForward"):
    """To the user's agent (OpenSSH's PROTOCOL)."""


@dataclass(frozen=True)
class ServerUnknown(ServerOpen, number=7, name="Unknown"):
    """Of a type that isn't known."""


@dataclass(frozen=True)
class ServerOpened(Record, number=0x28, name=""):
    """The server opens a channel (RFC 4254, section 5.1)."""

    HEADING = "ServerOpened channel"

    channel: int = part(U32)
    opened: ServerOpen = part(OneOf(ServerOpen), "")


# ---- an agent's


class AgentRecord(Record):
    """What an agent returns on one of its connections."""

    HEADING = "Agent connection"


@dataclass(frozen=True)
class AgentAnswer(AgentRecord, number=0x40, name="Answer"):
    """A whole frame with its length (draft-miller-ssh-agent, section 3)."""

    connection: int = part(U32)
    frame: bytes = part(Frame())


@dataclass(frozen=True)
class AgentAskRequest(AgentRecord, number=0x41, name="AskRequest"):
    """The user is asked whether the request is allowed."""

    connection: int = part(U32)
    message: AgentRequest = part(Among(AgentRequest, 1))


@dataclass(frozen=True)
class AgentAskKey(AgentRecord, number=0x42, name="AskKey"):
    """The user is asked whether the key of this blob may sign."""

    connection: int = part(U32)
    key: bytes = part(BLOB)


@dataclass(frozen=True)
class AgentClosed(AgentRecord, number=0x43, name="Closed"):
    """The agent closes the connection."""

    connection: int = part(U32)
    fault: AgentFault = part(Among(AgentFault, 1))
