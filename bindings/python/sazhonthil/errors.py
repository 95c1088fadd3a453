"""What goes wrong, as exceptions by kind: each is an Error, and has in `details` all that the library tells."""
from __future__ import annotations

from dataclasses import dataclass
from enum import IntEnum
from typing import Dict, Optional, Tuple, Type


class Code(IntEnum):
    """What a call of libsazhonthil_ssh returns (include/sazhonthil_ssh.h)."""

    OK = 0
    AGAIN = 1
    EOF = 2
    MISUSE = 3
    NO_MEMORY = 4
    CRYPTO = 5
    SYSTEM = 6
    BAD_NAME = 7
    NO_ADDRESS = 8
    NO_CONNECTION = 9
    TIMEOUT = 10
    CLOSED = 11
    BAD_PACKET = 12
    NO_ALGORITHM = 13
    BAD_SIGNATURE = 14
    HOST_UNKNOWN = 15
    HOST_CHANGED = 16
    HOST_REVOKED = 17
    HOST_REKEYED = 18
    HOSTS_FILE = 19
    REFUSED_BY_CORE = 20
    DISCONNECTED = 21
    NO_ANSWER = 22
    DENIED = 23
    NO_METHOD = 24
    NO_AGENT = 25
    NO_KEY = 26
    KEY_FILE = 27
    PASSPHRASE = 28
    SIGNING = 29
    NO_ANSWERS = 30
    CHANNEL_REFUSED = 31
    REQUEST_REFUSED = 32
    CHANNEL_CLOSED = 33
    FORWARD_REFUSED = 34
    CANNOT_LISTEN = 35


class Status(IntEnum):
    """What a call of the core returns (include/sazhonthil.h)."""

    OK = 0
    UNKNOWN = 1
    MISUSE = 2
    NOT_TEXT = 3
    BAD_INPUT = 4
    BAD_KEY = 5
    NOTHING = 6
    NO_ROOM = 7
    OVER = 8
    REMOTE_DISCONNECT = 9
    DISCONNECTED = 10
    CLOSED = 11
    ASKS_SIGNATURE = 12
    ASKS_REQUEST = 13
    ASKS_KEY = 14
    CLOSED_TOO_LONG = 15
    CLOSED_UNREADABLE = 16
    CLOSED_REFUSED = 17
    NO_MEMORY = 20
    READ_FAULT = 21
    WRITE_FAULT = 22
    SIGNER_FAULT = 23
    BAD_EVENT = 24
    OUT_OF_TURN = 25
    SCRIPT_TOO_LONG = 26
    TRANSPORT_FAILED = 27
    UNKNOWN_KEY = 28
    KEY_CHANGED = 29
    DECODE = 30
    SSH_KEY = 31
    INCONSISTENT = 32
    PENDING = 33
    NO_AUTH_METHOD = 34
    NOT_AUTHENTICATED = 35
    SSH_ENCODING = 36
    INVALID_DISCONNECT = 37
    RECV_ERROR = 38
    KEEPALIVE_TIMEOUT = 39
    INACTIVITY_TIMEOUT = 40
    REVOKED = 42
    REKEY_KEY = 43


@dataclass(frozen=True)
class Details:
    """What the library knows of an error; what it doesn't know is "", 0 or None."""

    code: Code
    host: str = ""
    status: Optional[Status] = None
    reason: int = 0
    server_words: str = ""
    file: str = ""
    line: int = 0
    key_type: str = ""
    fingerprint: str = ""
    errno: int = 0
    methods: Tuple[str, ...] = ()


class Error(Exception):
    """Anything that goes wrong here."""

    code = Code.SYSTEM

    def __init__(self, text: str, details: Optional[Details] = None) -> None:
        super().__init__(text)
        self.text = text
        self.details = details if details is not None else Details(self.code)

    def __str__(self) -> str:
        return self.text


class Misuse(Error, ValueError):
    """The call can't be made now, or not with these values."""

    code = Code.MISUSE


class Closed(Misuse):
    """The object was closed before."""


class NoMemory(Error, MemoryError):
    """Memory ran out."""

    code = Code.NO_MEMORY


class CannotConnect(Error, ConnectionError):
    """There is no connection to the host."""

    code = Code.NO_CONNECTION


class NoAddress(CannotConnect):
    """The host's name has no address, or isn't a name that can be looked for."""

    code = Code.NO_ADDRESS


class TimedOut(Error, TimeoutError):
    """It took too long. Of a command, `stdout` and `stderr` have what came until then."""

    code = Code.TIMEOUT
    stdout: object = None
    stderr: object = None


class ConnectionLost(Error, ConnectionError):
    """The connection ended: the server closed it, or it broke."""

    code = Code.CLOSED


class Disconnected(ConnectionLost):
    """The server ended the session, with a reason (RFC 4253, section 11.1) and its words."""

    code = Code.DISCONNECTED

    @property
    def reason(self) -> int:
        return self.details.reason

    @property
    def server_words(self) -> str:
        return self.details.server_words


class NoAnswer(ConnectionLost):
    """The server left too many keepalives unanswered."""

    code = Code.NO_ANSWER


class ProtocolError(Error):
    """The server sent what it may not send, or speaks nothing that is spoken here."""

    code = Code.BAD_PACKET


class NoAlgorithm(ProtocolError):
    """There is no algorithm in common with the server."""

    code = Code.NO_ALGORITHM


class HostKeyError(Error):
    """The server isn't shown to be the host."""

    code = Code.HOST_UNKNOWN

    @property
    def host(self) -> str:
        """As it stands in the known hosts: host, or [host]:port."""
        return self.details.host

    @property
    def key_type(self) -> str:
        return self.details.key_type

    @property
    def fingerprint(self) -> str:
        return self.details.fingerprint


class HostKeyUnknown(HostKeyError):
    """No line of the known hosts has the server's key."""


class _AtLine(HostKeyError):
    @property
    def file(self) -> str:
        """The known hosts file with the line that says so."""
        return self.details.file

    @property
    def line(self) -> int:
        """The line's number in it, from 1."""
        return self.details.line


class HostKeyChanged(_AtLine):
    """A line has another key, and none this one: the host was set up anew, or somebody is in between."""

    code = Code.HOST_CHANGED


class HostKeyRevoked(_AtLine):
    """A line revokes the server's key."""

    code = Code.HOST_REVOKED


class HostKeyReplaced(HostKeyError):
    """A later key exchange showed another host key than the first."""

    code = Code.HOST_REKEYED


class BadSignature(HostKeyError):
    """The server doesn't have the host key that it showed."""

    code = Code.BAD_SIGNATURE


class KnownHostsError(Error):
    """A known hosts file can't be read or written, or a line of it can't be read."""

    code = Code.HOSTS_FILE

    @property
    def file(self) -> str:
        return self.details.file


class AuthenticationFailed(Error):
    """The server doesn't let this user in so. `methods` are those that it would take."""

    code = Code.DENIED

    @property
    def methods(self) -> Tuple[str, ...]:
        return self.details.methods


class AgentError(AuthenticationFailed):
    """There is no agent, or it has no key that can be tried."""

    code = Code.NO_AGENT


class KeyFileError(Error):
    """The file isn't a private key that can be read."""

    code = Code.KEY_FILE

    @property
    def file(self) -> str:
        return self.details.file


class PassphraseError(KeyFileError):
    """The passphrase of a key file is wrong, or there is none."""

    code = Code.PASSPHRASE


class ChannelError(Error):
    """Something of a channel; the connection goes on."""

    code = Code.CHANNEL_CLOSED


class ChannelRefused(ChannelError):
    """The server opens no such channel: the reason (RFC 4254, section 5.1) and its words."""

    code = Code.CHANNEL_REFUSED

    @property
    def reason(self) -> int:
        return self.details.reason

    @property
    def server_words(self) -> str:
        return self.details.server_words


class RequestRefused(ChannelError):
    """The server refused what was asked of the channel."""

    code = Code.REQUEST_REFUSED


class ChannelClosed(ChannelError, BrokenPipeError):
    """The channel is closed, so that nothing can be written to it."""


class ForwardError(Error):
    """A forward isn't there."""

    code = Code.FORWARD_REFUSED


class ForwardRefused(ForwardError):
    """The server listens at no such port or socket."""


class CannotListen(ForwardError, OSError):
    """No socket here listens at this address."""

    code = Code.CANNOT_LISTEN


class LibraryMissing(Error, ImportError):
    """libsazhonthil_ssh.so isn't found, or is another one."""


# Each code's exception; the others are plain Errors.
KINDS: Dict[Code, Type[Error]] = {
    Code.MISUSE: Misuse,
    Code.NO_MEMORY: NoMemory,
    Code.BAD_NAME: NoAddress,
    Code.NO_ADDRESS: NoAddress,
    Code.NO_CONNECTION: CannotConnect,
    Code.TIMEOUT: TimedOut,
    Code.CLOSED: ConnectionLost,
    Code.BAD_PACKET: ProtocolError,
    Code.NO_ALGORITHM: NoAlgorithm,
    Code.BAD_SIGNATURE: BadSignature,
    Code.HOST_UNKNOWN: HostKeyUnknown,
    Code.HOST_CHANGED: HostKeyChanged,
    Code.HOST_REVOKED: HostKeyRevoked,
    Code.HOST_REKEYED: HostKeyReplaced,
    Code.HOSTS_FILE: KnownHostsError,
    Code.REFUSED_BY_CORE: ProtocolError,
    Code.DISCONNECTED: Disconnected,
    Code.NO_ANSWER: NoAnswer,
    Code.DENIED: AuthenticationFailed,
    Code.NO_METHOD: AuthenticationFailed,
    Code.NO_AGENT: AgentError,
    Code.NO_KEY: AgentError,
    Code.KEY_FILE: KeyFileError,
    Code.PASSPHRASE: PassphraseError,
    Code.SIGNING: AuthenticationFailed,
    Code.NO_ANSWERS: AuthenticationFailed,
    Code.CHANNEL_REFUSED: ChannelRefused,
    Code.REQUEST_REFUSED: RequestRefused,
    Code.CHANNEL_CLOSED: ChannelClosed,
    Code.FORWARD_REFUSED: ForwardRefused,
    Code.CANNOT_LISTEN: CannotListen,
}


def of(text: str, details: Details) -> Error:
    """The exception for a code."""
    return KINDS.get(details.code, Error)(text, details)


# ---- files


class FileStatus(IntEnum):
    """What an SFTP server answers (draft-ietf-secsh-filexfer-02, section 7)."""

    OK = 0
    EOF = 1
    NO_SUCH_FILE = 2
    PERMISSION_DENIED = 3
    FAILURE = 4
    BAD_MESSAGE = 5
    NO_CONNECTION = 6
    CONNECTION_LOST = 7
    OP_UNSUPPORTED = 8


class SFTPError(Error, OSError):
    """The server can't do what is asked of a file."""

    def __init__(self, text: str, status: int) -> None:
        super().__init__(text)
        self.status = FileStatus(status) if status in FileStatus.__members__.values() else status


class NoSuchFile(SFTPError, FileNotFoundError):
    """There is no such file."""


class PermissionDenied(SFTPError, PermissionError):
    """The user may not do that."""


def of_file(path: str, status: int, words: str) -> SFTPError:
    kinds: Dict[int, Type[SFTPError]] = {2: NoSuchFile, 3: PermissionDenied}
    said = words or (FileStatus(status).name.replace("_", " ").lower() if status in FileStatus.__members__.values() else f"status {status}")
    return kinds.get(status, SFTPError)(f"{path}: {said}" if path else said, status)
