"""SSH over the proved client core.

    with sazhonthil.connect("host", user="me") as c:
        print(c.run("uname").stdout)

`connect` (client.py) and `aio.connect` log in to servers, by libsazhonthil_ssh. Below them are the core's own calls: known
hosts, sessions and agents (library.py). The formats need no library: `events` and `records` have a dataclass for each,
`show` has them in words (`python3 -m sazhonthil show`)."""
from . import enums, events, records  # noqa: F401
from .channels import Address, Exit, Terminal  # noqa: F401
from .client import Channel, CommandFailed, Completed, Connection, Forward, connect  # noqa: F401
from .errors import (  # noqa: F401
    AgentError, AuthenticationFailed, BadSignature, CannotConnect, CannotListen, ChannelClosed, ChannelError, ChannelRefused, Closed, Code,
    ConnectionLost, Details, Disconnected, Error, ForwardError, ForwardRefused, HostKeyChanged, HostKeyError, HostKeyReplaced,
    HostKeyRevoked, HostKeyUnknown, KeyFileError, KnownHostsError, LibraryMissing, Misuse, NoAddress, NoAlgorithm, NoAnswer, NoMemory,
    NoSuchFile, PassphraseError, PermissionDenied, ProtocolError, RequestRefused, SFTPError, Status, TimedOut,
)
from .library import (  # noqa: F401
    ABI, ALLOW, ASKS_KEY, ASKS_REQUEST, ASKS_SIGNATURE, BAD_INPUT, BAD_KEY, CLOSE, CLOSED, CLOSED_REFUSED, CLOSED_TOO_LONG,
    CLOSED_UNREADABLE, CONFIRM, DENY, DISCONNECTED, FRAME, KEY_CHANGED, MISUSE, NO_MEMORY, NO_ROOM, NOT_TEXT, NOTHING, OK, OVER,
    OVERSIZE, REFUSE, REFUSED, REMOTE_DISCONNECT, REVOKED, SIGNED, UNASKED, UNKNOWN, Agent, Handle, Output, Question, Refused, Session,
    Settings, check_host, check_known_hosts_openssh, default_settings, learn_host,
)
from .login import Accept, Challenge, HostKey  # noqa: F401


def __getattr__(name: str) -> object:
    """`lib`, the core's library itself, and `aio`."""
    if name == "lib":
        from .library import load

        return load()
    if name == "aio":
        import importlib

        return importlib.import_module(".aio", __name__)
    raise AttributeError(f"module {__name__!r} has no attribute {name!r}")
