"""The closed sets of numbers and names in events, records and packets."""
from __future__ import annotations

from enum import Enum, IntEnum


class Named(IntEnum):
    """A number that has a name."""

    @property
    def word(self) -> str:
        """The name as it is shown, in the spelling of the Rust crate."""
        return "".join(part.capitalize() for part in self.name.split("_"))


class DisconnectReason(Named):
    """Why a connection ends (RFC 4253, section 11.1)."""

    HOST_NOT_ALLOWED_TO_CONNECT = 1
    PROTOCOL_ERROR = 2
    KEY_EXCHANGE_FAILED = 3
    RESERVED = 4
    MAC_ERROR = 5
    COMPRESSION_ERROR = 6
    SERVICE_NOT_AVAILABLE = 7
    PROTOCOL_VERSION_NOT_SUPPORTED = 8
    HOST_KEY_NOT_VERIFIABLE = 9
    CONNECTION_LOST = 10
    BY_APPLICATION = 11
    TOO_MANY_CONNECTIONS = 12
    AUTH_CANCELLED_BY_USER = 13
    NO_MORE_AUTH_METHODS_AVAILABLE = 14
    ILLEGAL_USER_NAME = 15

    @property
    def word(self) -> str:
        return "MACError" if self is DisconnectReason.MAC_ERROR else super().word


class OpenFailure(Named):
    """Why a channel isn't opened (RFC 4254, section 5.1)."""

    ADMINISTRATIVELY_PROHIBITED = 1
    CONNECT_FAILED = 2
    UNKNOWN_CHANNEL_TYPE = 3
    RESOURCE_SHORTAGE = 4


class HashAlgorithm(Named):
    """The hash with which an RSA key signs; without one it signs with SHA-1 (RFC 8332, section 3)."""

    NONE = 0
    SHA256 = 1
    SHA512 = 2


class HostKeysFault(Named):
    """Why the server's proof of its host keys is refused (OpenSSH's PROTOCOL, section 2.5)."""

    SSH_ENCODING = 0
    WRONG_SERVER_SIG = 1


class AgentRequest(Named):
    """What an agent's client asks for (draft-miller-ssh-agent, section 3)."""

    REQUEST_KEYS = 0
    ADD_KEYS = 1
    REMOVE_KEYS = 2
    REMOVE_ALL_KEYS = 3
    SIGN = 4
    LOCK = 5
    UNLOCK = 6


class AgentFault(Named):
    """Why an agent closes a connection."""

    TOO_LONG = 1
    UNREADABLE = 2
    SIGNER_REFUSED = 3


class LoginMethod(str, Enum):
    """A method of authentication by its name (RFC 4252, section 5; RFC 4256, section 3.1; RFC 4462, section 3)."""

    NONE = "none"
    PASSWORD = "password"
    PUBLIC_KEY = "publickey"
    HOST_BASED = "hostbased"
    KEYBOARD_INTERACTIVE = "keyboard-interactive"
    GSSAPI_WITH_MIC = "gssapi-with-mic"


class Signal(str, Enum):
    """The standard's signals (RFC 4254, section 6.10). Another name is a text of its own, as `name@domain`."""

    ABRT = "ABRT"
    ALRM = "ALRM"
    FPE = "FPE"
    HUP = "HUP"
    ILL = "ILL"
    INT = "INT"
    KILL = "KILL"
    PIPE = "PIPE"
    QUIT = "QUIT"
    SEGV = "SEGV"
    TERM = "TERM"
    USR1 = "USR1"
