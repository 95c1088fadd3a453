"""The proved SSH client core by ctypes: known hosts, a session, an agent whose caller signs. include/sazhonthil.h says what
each call returns.

The library is loaded by the first call of it: libsazhonthil.so, whose path is in the variable SAZHONTHIL, or else
libsazhonthil_ssh.so, which has the core in it (native.py says where that is looked for).

A session or an agent is used by one thread at a time: a second one waits. What is closed raises Closed."""
from __future__ import annotations

import ctypes as c
import functools
import os
import threading
from typing import Any, Callable, List, NamedTuple, Optional, Tuple, TypeVar

from . import native, records
from .errors import Closed, Error, Misuse, Status
from .events import LONGEST, Event

OK, UNKNOWN, MISUSE, NOT_TEXT, BAD_INPUT, BAD_KEY = Status.OK, Status.UNKNOWN, Status.MISUSE, Status.NOT_TEXT, Status.BAD_INPUT, Status.BAD_KEY
NOTHING, NO_ROOM, OVER = Status.NOTHING, Status.NO_ROOM, Status.OVER
REMOTE_DISCONNECT, DISCONNECTED, CLOSED = Status.REMOTE_DISCONNECT, Status.DISCONNECTED, Status.CLOSED
ASKS_SIGNATURE, ASKS_REQUEST, ASKS_KEY = Status.ASKS_SIGNATURE, Status.ASKS_REQUEST, Status.ASKS_KEY
CLOSED_TOO_LONG, CLOSED_UNREADABLE, CLOSED_REFUSED = Status.CLOSED_TOO_LONG, Status.CLOSED_UNREADABLE, Status.CLOSED_REFUSED
NO_MEMORY, KEY_CHANGED, REVOKED = Status.NO_MEMORY, Status.KEY_CHANGED, Status.REVOKED

ABI = 0x00010001

# what is handed in as an agent's input
FRAME, OVERSIZE, ALLOW, DENY, CONFIRM, REFUSE, CLOSE = range(7)
# what the caller tells of a signature
UNASKED, SIGNED, REFUSED = range(3)


class Handle(c.Structure):
    _fields_ = [("live", c.c_uint32), ("at", c.c_void_p)]


class Settings(c.Structure):
    """Sizes are bytes, times milliseconds; 0 is none of an interval or a limit."""

    _fields_ = [
        ("keepalive_interval", c.c_uint64),
        ("keepalive_max", c.c_uint64),
        ("inactivity_timeout", c.c_uint64),
        ("window_size", c.c_uint32),
        ("maximum_packet_size", c.c_uint32),
        ("max_events", c.c_uint32),
        ("anonymous", c.c_uint32),
    ]


_handle, _bytes, _size = c.POINTER(Handle), (c.c_char_p, c.c_size_t), c.POINTER(c.c_size_t)
_out = (c.c_char_p, c.c_size_t, _size)
_u16, _u32, _u64 = c.c_uint16, c.c_uint32, c.c_uint64

# Each call with the type of what it returns and the types of its arguments.
_CALLS: List[Tuple[Any, ...]] = [
    ("sshc_abi", _u32),
    ("sshc_known_hosts_check", _u32, *_bytes, _u16, *_bytes, *_bytes, c.POINTER(_u64)),
    ("sshc_known_hosts_check_openssh", _u32, *_bytes, _u16, *_bytes, *_bytes, c.POINTER(_u64)),
    ("sshc_known_hosts_learn", _u32, *_bytes, _u16, *_bytes, *_bytes, *_out),
    ("sshc_settings_default", None, c.POINTER(Settings)),
    ("sshc_session_new", _u32, _handle, c.POINTER(Settings), *_bytes, _u16, *_bytes),
    ("sshc_session_take", _u32, _handle, *_bytes, c.POINTER(_u64)),
    ("sshc_session_record", _u32, _handle, *_out),
    ("sshc_session_free", None, _handle),
    ("sshc_agent_new", _u32, _handle, _u32),
    ("sshc_agent_asks", _u32, _handle, _u64, _u32, _u32, *_bytes, c.POINTER(_u32)),
    ("sshc_agent_asked", _u32, _handle, _u32, *_out),
    ("sshc_agent_take", _u32, _handle, _u64, _u32, _u32, *_bytes, _u32, *_bytes, c.POINTER(_u32)),
    ("sshc_agent_answer", _u32, _handle, *_out),
    ("sshc_agent_forget", _u32, _handle, _u32),
    ("sshc_agent_free", None, _handle),
]


@functools.lru_cache(maxsize=None)
def load() -> c.CDLL:
    """The library. OSError or LibraryMissing where there is none, ImportError where its interface is another one."""
    named = os.environ.get("SAZHONTHIL")
    lib: c.CDLL = c.CDLL(named) if named else native.load()
    lib.sshc_abi.restype, lib.sshc_abi.argtypes = _u32, []
    if lib.sshc_abi() >> 16 != ABI >> 16 or lib.sshc_abi() < ABI:
        raise ImportError("the library's interface is another one")
    for name, result, *given in _CALLS:
        call = getattr(lib, name)
        call.restype, call.argtypes = result, given
    return lib


class Refused(Error):
    """A status of the header that isn't success."""

    def __init__(self, status: Status, detail: int = 0) -> None:
        super().__init__(status.name.lower().replace("_", " ") + (f", {detail}" if detail else ""))
        self.status, self.detail = status, detail


def _went(status: int) -> None:
    if status == NO_MEMORY:
        raise MemoryError
    if status != OK:
        raise Refused(Status(status))


def _copied(call: Callable[..., int], *given: Any) -> Tuple[int, bytes]:
    """What a call copies out; the memory grows to what it wants."""
    size, room = c.c_size_t(), 4096
    while True:
        to = c.create_string_buffer(room)
        status = call(*given, to, room, c.byref(size))
        if status != NO_ROOM:
            return status, to.raw[: size.value] if status == OK else b""
        room = size.value


def _judged(call: Callable[..., int], host: bytes, port: int, known_hosts: bytes, key: bytes) -> Tuple[Status, int]:
    line = c.c_uint64()
    status = call(host, len(host), port, known_hosts, len(known_hosts), key, len(key), c.byref(line))
    if status == NO_MEMORY:
        raise MemoryError
    return Status(status), line.value


def check_host(host: bytes, port: int, known_hosts: bytes, key: bytes) -> Tuple[Status, int]:
    """(status, line): OK, UNKNOWN, KEY_CHANGED or REVOKED with the line, or why there is no verdict."""
    return _judged(load().sshc_known_hosts_check, host, port, known_hosts, key)


def check_known_hosts_openssh(host: bytes, port: int, known_hosts: bytes, key: bytes) -> Tuple[Status, int]:
    """The same as OpenSSH reads the text, which may be any bytes: patterns, names in any case, any blanks; a line that
    can't be read is passed over."""
    return _judged(load().sshc_known_hosts_check_openssh, host, port, known_hosts, key)


def learn_host(host: bytes, port: int, known_hosts: bytes, key: bytes) -> bytes:
    """What is to be added to the known hosts so that they have the key."""
    status, added = _copied(load().sshc_known_hosts_learn, host, len(host), port, known_hosts, len(known_hosts), key, len(key))
    _went(status)
    return added


def default_settings() -> Settings:
    settings = Settings()
    load().sshc_settings_default(c.byref(settings))
    return settings


H = TypeVar("H", bound="_Handled")


class _Handled:
    """What holds memory of the library until it is closed, which may be done any number of times."""

    _free = ""

    def __init__(self) -> None:
        self._lock, self._is_closed = threading.RLock(), False
        self.lib, self.handle = load(), Handle()

    def _check(self) -> None:
        """Under the lock."""
        if self._is_closed:
            raise Closed(f"the {type(self).__name__.lower()} is closed")

    @property
    def is_closed(self) -> bool:
        return self._is_closed

    def close(self) -> None:
        if not hasattr(self, "handle"):  # it was never made
            return
        with self._lock:
            if not self._is_closed:
                self._is_closed = True
                getattr(self.lib, self._free)(c.byref(self.handle))

    def __enter__(self: H) -> H:
        return self

    def __exit__(self, *_: object) -> None:
        self.close()

    def __del__(self) -> None:
        self.close()


class Session(_Handled):
    """A session: events in, records out. `status` and `detail` say what became of the last events."""

    _free = "sshc_session_free"

    def __init__(self, host: bytes, port: int, known_hosts: bytes, settings: Optional[Settings] = None) -> None:
        super().__init__()
        self.status, self.detail = OK, 0
        given = c.byref(settings or default_settings())
        _went(self.lib.sshc_session_new(c.byref(self.handle), given, host, len(host), port, known_hosts, len(known_hosts)))

    def take(self, events: bytes) -> List[bytes]:
        """The records of these events of a script, each as bytes: a number and its fields. What isn't an event ends the
        session, as include/sazhonthil.h says; `event` and `step` refuse one that is too long before it is handed in."""
        with self._lock:
            self._check()
            detail = c.c_uint64()
            status = self.lib.sshc_session_take(c.byref(self.handle), events, len(events), c.byref(detail))
            self.status, self.detail = Status(status), detail.value
            taken: List[bytes] = []
            while True:
                status, record = _copied(self.lib.sshc_session_record, c.byref(self.handle))
                if status != OK:
                    return taken
                taken.append(record)

    def event(self, moment: int, kind: int, fields: bytes = b"") -> List[bytes]:
        """The records of one event, all as bytes. Misuse, and nothing is taken, where it is longer than a session takes."""
        if 9 + len(fields) > LONGEST:
            raise Misuse(f"an event of {9 + len(fields)} bytes, and {LONGEST} are the most: data is cut into pieces")
        return self.take((9 + len(fields)).to_bytes(4, "big") + moment.to_bytes(8, "big") + bytes([kind]) + fields)

    def step(self, event: Event, moment: int = 0) -> List[records.Record]:
        """The records of one event (see events.py and records.py). ValueError, and nothing is taken, where it is longer than a
        session takes: data is cut into pieces."""
        return [records.decode(record) for record in self.take(event.encode(moment))]


# Below, a field has the name `bytes`.
_Bytes = bytes


class Question(NamedTuple):
    """What a step of an agent asks to be signed."""

    hash: int
    bytes: _Bytes
    key: _Bytes
    pair: _Bytes


class Output(NamedTuple):
    """What a step of an agent returns."""

    status: Status
    bytes: _Bytes
    request: int


class Agent(_Handled):
    """An agent whose caller signs. A thread that asks and then takes has to do both before another asks."""

    _free = "sshc_agent_free"

    def __init__(self, asks: bool = False) -> None:
        super().__init__()
        _went(self.lib.sshc_agent_new(c.byref(self.handle), asks))

    def asks(self, moment: int, connection: int, input: int, frame: bytes = b"") -> Optional[Question]:
        """What a step with this input asks to be signed, or None."""
        with self._lock:
            self._check()
            hash = c.c_uint32()
            status = self.lib.sshc_agent_asks(c.byref(self.handle), moment, connection, input, frame, len(frame), c.byref(hash))
            if status == NOTHING:
                return None
            if status != ASKS_SIGNATURE:
                _went(status)
            parts = [_copied(self.lib.sshc_agent_asked, c.byref(self.handle), part) for part in range(3)]
        for status, _ in parts:
            _went(status)
        return Question(hash.value, *[part for _, part in parts])

    def take(
        self, moment: int, connection: int, input: int, frame: bytes = b"", told: int = UNASKED, signature: bytes = b""
    ) -> Output:
        """The output for an input, with the answer to what it asks."""
        request = c.c_uint32()
        given = (moment, connection, input, frame, len(frame), told, signature, len(signature))
        with self._lock:
            self._check()
            status = Status(self.lib.sshc_agent_take(c.byref(self.handle), *given, c.byref(request)))
            if status in (MISUSE, BAD_INPUT):
                raise Refused(status)
            return Output(status, _copied(self.lib.sshc_agent_answer, c.byref(self.handle))[1], request.value)

    def forget(self, connection: int) -> None:
        """Drops what the agent keeps of a connection that is closed."""
        with self._lock:
            self._check()
            _went(self.lib.sshc_agent_forget(c.byref(self.handle), connection))
