"""Channels and forwards of an engine, as coroutines that wait as the engine waits."""
from __future__ import annotations

import ctypes as c
from dataclasses import dataclass, field
from typing import Any, Callable, List, Mapping, Optional, Tuple, Union

from . import native
from .engine import Attempt, Engine, plain, text_of
from .errors import Closed, Code, Misuse, TimedOut

OUT, ERR = 0, 1
Address = Union[Tuple[str, int], str]


@dataclass(frozen=True)
class Exit:
    """What became of a command: its status, or the signal that ended it; neither where the server told nothing."""

    status: Optional[int]
    signal: Optional[str]
    message: str = ""
    core_dumped: bool = False


@dataclass(frozen=True)
class Terminal:
    """The terminal that a command is to have; modes are those of RFC 4254, section 8."""

    name: str = "xterm"
    columns: int = 80
    rows: int = 24
    modes: Mapping[int, int] = field(default_factory=dict)


def _exit_of(told: native.Exit) -> Exit:
    signal = text_of(told.signal) if told.has_signal else None
    return Exit(int(told.status) if told.has_status else None, signal, text_of(told.message), bool(told.core_dumped))


class Held:
    """Something that the library made for a connection, and that is freed once."""

    what = "it"
    frees = ""

    def __init__(self, engine: Engine, handle: int) -> None:
        self.engine, self.handle = engine, handle
        self._is_freed = False

    def at(self) -> int:
        """Under the guard."""
        self.engine.check()
        if self._is_freed:
            raise Closed(f"{self.what} is closed")
        return self.handle

    @property
    def is_freed(self) -> bool:
        return self._is_freed or self.engine.handle is None

    def free(self) -> None:
        """Any number of times, at any time."""
        with self.engine.guard:
            if self.is_freed:
                return
            self._is_freed = True
            getattr(self.engine.lib, self.frees)(self.handle)
            self.engine.poke()
            self.engine.step()

    def drop(self) -> None:
        """For the garbage collector."""
        if not self.is_freed:
            self._is_freed = True
            self.engine.bury(getattr(self.engine.lib, self.frees), self.handle)


class Channel(Held):
    what, frees = "the channel", "sazh_channel_free"

    # ---- opening

    @classmethod
    async def open(cls, engine: Engine, begin: Callable[[Any], Any], deadline: Optional[float]) -> Channel:
        made = native.Pointer()
        code = engine.once(lambda: begin(c.byref(made)))
        assert made.value is not None
        channel = cls(engine, made.value)
        if code is Code.AGAIN:
            try:
                await channel.settle(deadline)
            except BaseException:
                channel.free()
                raise
        return channel

    @classmethod
    async def session(cls, engine: Engine, deadline: Optional[float]) -> Channel:
        return await cls.open(engine, lambda made: engine.lib.sazh_open_session(engine.handle, made), deadline)

    @classmethod
    async def to(cls, engine: Engine, there: Address, deadline: Optional[float]) -> Channel:
        if isinstance(there, str):
            path = plain(there)
            return await cls.open(engine, lambda made: engine.lib.sazh_open_unix(engine.handle, path, made), deadline)
        host, port = plain(there[0]), port_of(there[1])
        return await cls.open(engine, lambda made: engine.lib.sazh_open_tcp(engine.handle, host, port, made), deadline)

    async def settle(self, deadline: Optional[float]) -> None:
        """Waits until the channel is open and all that was asked of it is answered."""
        await self.engine.until(lambda: self.engine.lib.sazh_channel_wait(self.at()), deadline)

    async def _ask(self, begin: Attempt, deadline: Optional[float]) -> None:
        await self.engine.started(begin, lambda: self.engine.lib.sazh_channel_wait(self.at()), deadline)

    async def start(
        self, command: Optional[str], env: Mapping[str, str], pty: Optional[Terminal], deadline: Optional[float], subsystem: bool = False
    ) -> None:
        """Starts a command, a shell (None) or a subsystem."""
        lib = self.engine.lib
        for name, value in env.items():
            given = plain(name), plain(value)
            self.engine.once(lambda: lib.sazh_environment(self.at(), *given))
        if pty is not None:
            modes = [native.Mode(code, value) for code, value in pty.modes.items()]
            given_pty = plain(pty.name), pty.columns, pty.rows, (native.Mode * len(modes))(*modes), len(modes)
            await self._ask(lambda: lib.sazh_pty(self.at(), *given_pty), deadline)
        if command is None:
            await self._ask(lambda: lib.sazh_shell(self.at()), deadline)
            return
        call, words = lib.sazh_subsystem if subsystem else lib.sazh_command, plain(command)
        await self._ask(lambda: call(self.at(), words), deadline)

    # ---- bytes

    def _take(self, stream: int, room: int) -> Tuple[int, bytes]:
        """What can be read at once: a code and at most so many bytes. Under the guard."""
        lib, at = self.engine.lib, self.at()
        got = c.c_size_t()
        ready = lib.sazh_readable(at, stream)
        to = c.create_string_buffer(max(1, min(room, ready)))
        code = int(lib.sazh_read(at, stream, to, len(to), c.byref(got)))
        return code, to.raw[: got.value]

    async def read(self, stream: int, room: int, deadline: Optional[float]) -> bytes:
        """At least one byte and at most `room`; none at the end."""
        if room <= 0:
            return b""
        taken = b""

        def attempt() -> int:
            nonlocal taken
            code, taken = self._take(stream, room)
            return code

        await self.engine.until(attempt, deadline)
        return taken

    async def write(self, data: bytes, deadline: Optional[float]) -> None:
        """All of it."""
        writing = Writing(self, data)
        await self.engine.until(writing.attempt, deadline)

    def eof(self) -> None:
        self.engine.once(lambda: self._and_step(self.engine.lib.sazh_write_eof(self.at())))

    def _and_step(self, code: int) -> int:
        if code == Code.OK:
            self.engine.step()
        return code

    # ---- what became of it

    def told(self) -> Exit:
        """As far as the server has told."""
        with self.engine.guard:
            return _exit_of(self.engine.lib.sazh_exit_of(self.at()))

    async def wait_exit(self, deadline: Optional[float]) -> Exit:
        exits: List[Exit] = []
        await self.engine.until(lambda: self._exited(exits), deadline)
        return exits[-1]

    def _exited(self, to: List[Exit]) -> int:
        """Under the guard: the library's texts go with the channel, so that they are copied at once."""
        told = native.Exit()
        code = int(self.engine.lib.sazh_wait_exit(self.at(), c.byref(told)))
        if code == Code.OK:
            to.append(_exit_of(told))
        return code

    def signal(self, name: str) -> None:
        given = plain(name)
        self.engine.once(lambda: self._and_step(self.engine.lib.sazh_signal(self.at(), given)))

    def resize(self, columns: int, rows: int) -> None:
        self.engine.once(lambda: self._and_step(self.engine.lib.sazh_window_change(self.at(), columns, rows)))

    async def run(self, given: Optional[bytes], ends: bool, deadline: Optional[float]) -> Running:
        """Hands in bytes and takes what comes on both streams, until the command has ended."""
        running = Running(self, given or b"", ends)
        try:
            await self.engine.until(running.attempt, deadline)
        except TimedOut as why:
            why.stdout, why.stderr = running.so_far()
            raise
        return running


class Writing:
    """Bytes that are handed in, as far as they may go."""

    def __init__(self, channel: Channel, data: bytes) -> None:
        self.channel, self.data, self.done = channel, data, 0
        self._at = c.cast(c.c_char_p(data), native.Pointer).value or 0

    def attempt(self) -> int:
        lib, taken = self.channel.engine.lib, c.c_size_t()
        while self.done < len(self.data):
            code = int(lib.sazh_write(self.channel.at(), self._at + self.done, len(self.data) - self.done, c.byref(taken)))
            self.done += taken.value
            if code != Code.OK:
                return code
        self.channel.at()
        return Code.OK


class Running:
    """A command that runs: bytes go in, and both streams are read at once, since they share a window."""

    def __init__(self, channel: Channel, given: bytes, ends: bool) -> None:
        self.channel, self.writing, self.ends = channel, Writing(channel, given), ends
        self.parts: Tuple[List[bytes], List[bytes]] = ([], [])
        self.exits: List[Exit] = []

    def _put(self) -> None:
        if self.writing.done < len(self.writing.data):
            code = self.writing.attempt()
            if code not in (Code.OK, Code.AGAIN):  # it takes no more: what it said may still be read
                self.writing.done = len(self.writing.data)
        if self.ends and self.writing.done == len(self.writing.data):
            self.ends = False
            self.channel.engine.lib.sazh_write_eof(self.channel.at())
            self.channel.engine.lib.sazh_step(self.channel.engine.handle)

    def attempt(self) -> int:
        lib, at = self.channel.engine.lib, self.channel.at()
        self._put()
        for stream in (OUT, ERR):
            while lib.sazh_readable(at, stream):
                self.parts[stream].append(self.channel._take(stream, 1 << 20)[1])
        if lib.sazh_at_eof(at, OUT) and lib.sazh_at_eof(at, ERR):
            return self.channel._exited(self.exits)
        return Code.AGAIN

    def so_far(self) -> Tuple[bytes, bytes]:
        return b"".join(self.parts[OUT]), b"".join(self.parts[ERR])

    @property
    def exit(self) -> Exit:
        return self.exits[-1]


def port_of(number: int) -> int:
    if not 0 <= number < 65536:
        raise Misuse(f"{number} is no port")
    return number


def _end_of(address: Address) -> native.End:
    if isinstance(address, str):
        return native.End(None, 0, plain(address))
    return native.End(plain(address[0]), port_of(address[1]), None)


class Forward(Held):
    """A forward; it works while the connection is driven."""

    what, frees = "the forward", "sazh_forward_free"

    @classmethod
    def begin(cls, engine: Engine, call: Callable[..., Any], *ends: Address) -> Tuple[Code, Forward]:
        made, given = native.Pointer(), [c.byref(_end_of(end)) for end in ends]
        code = engine.once(lambda: call(engine.handle, *given, c.byref(made)))
        assert made.value is not None
        return code, cls(engine, made.value)

    @classmethod
    def local(cls, engine: Engine, here: Address, there: Address) -> Forward:
        return cls.begin(engine, engine.lib.sazh_forward_local, here, there)[1]

    @classmethod
    def socks(cls, engine: Engine, here: Address) -> Forward:
        return cls.begin(engine, engine.lib.sazh_forward_dynamic, here)[1]

    @classmethod
    async def remote(cls, engine: Engine, there: Address, here: Address, deadline: Optional[float]) -> Forward:
        code, forward = cls.begin(engine, engine.lib.sazh_forward_remote, there, here)
        if code is Code.AGAIN:
            try:
                await engine.until(lambda: engine.lib.sazh_forward_wait(forward.at()), deadline)
            except BaseException:
                forward.free()
                raise
        return forward

    @property
    def port(self) -> int:
        with self.engine.guard:
            return int(self.engine.lib.sazh_forward_port(self.at()))
