"""SSH connections for asyncio: the face of client.py, awaited.

    async with sazhonthil.aio.connect("host", user="me") as c:
        print((await c.run("uname")).stdout)

No thread is made: the loop watches the connection's descriptors. All calls are made from the loop's own thread. A call that
is cancelled leaves the connection as it was, and its channels usable. Files at hand, key files and an agent's answers are
read in place."""
from __future__ import annotations

import asyncio
import os
import select
import socket
import weakref
from typing import Any, AsyncIterator, Awaitable, Callable, Dict, Generator, List, Mapping, Optional, Sequence, Set, Union, cast, overload

from . import channels, errors, files, login, native, wire
from .channels import ERR, OUT, Address, Exit, Terminal
from .client import Completed, Data, _started, _terminal, run
from .engine import Engine, Waits, deadline_in, left_to, plain
from .errors import CannotConnect, Code, Details, Error, Misuse, NoAddress, TimedOut
from .files import Attributes, Entry, Protocol, path_of
from .login import Accept, Answers, Decide, HostKey, Options, Passphrase, Path


class _LoopWaits(Waits):
    """Callers are coroutines of one loop, which watches the descriptors by an epoll of our own: they change often, and a
    number that is closed and used again is then found out."""

    def __init__(self, loop: asyncio.AbstractEventLoop) -> None:
        self._loop = loop
        self._epoll = select.epoll()
        self._watched: Dict[int, int] = {}
        self._timer: Optional[asyncio.Handle] = None
        self._futures: Set[asyncio.Future[None]] = set()
        self._engine: Optional[Engine] = None
        self._stamp, self._is_over = 0, False
        self._rested = loop.time()
        loop.add_reader(self._epoll.fileno(), self._ready)

    async def wait(self, engine: Engine, seen: int, deadline: Optional[float]) -> None:
        if self._stamp != seen or self._is_over:
            return
        future: asyncio.Future[None] = self._loop.create_future()
        self._futures.add(future)
        left = left_to(deadline)
        timer = None if left is None else self._loop.call_later(left, _give_up, future)
        try:
            await future
        finally:
            self._futures.discard(future)
            if timer is not None:
                timer.cancel()

    async def rest(self) -> None:
        """A caller for whom all is there already gives the loop a turn each ten milliseconds."""
        if self._loop.time() - self._rested > 0.01:
            await asyncio.sleep(0)
            self._rested = self._loop.time()

    def noted(self, engine: Engine, stamp: int) -> None:
        self._engine = engine
        if stamp != self._stamp:
            self._stamp = stamp
            self._tell()
            engine.tell_through()
        self._watch(engine)

    def _tell(self) -> None:
        for future in self._futures:
            if not future.done():
                future.set_result(None)

    def _watch(self, engine: Engine) -> None:
        wanted, milliseconds = engine.interest()
        for file in [it for it in self._watched if it not in wanted]:
            del self._watched[file]
            try:
                self._epoll.unregister(file)
            except OSError:
                pass  # it is closed
        for file, events in wanted.items():
            try:
                self._epoll.modify(file, events)
            except FileNotFoundError:
                self._epoll.register(file, events)
            self._watched[file] = events
        if self._timer is not None:
            self._timer.cancel()
        self._timer = None if milliseconds < 0 else self._loop.call_later(milliseconds / 1000, self._ready)

    def _ready(self) -> None:
        engine = self._engine
        if engine is None or self._is_over:
            return
        if engine.is_left:
            engine.close()
            return
        with engine.guard:
            if engine.handle is not None:
                engine.step()

    def wake(self) -> None:
        if not self._is_over and not self._loop.is_closed():
            self._loop.call_soon_threadsafe(self._ready)

    def end(self) -> None:
        self._is_over = True
        if self._timer is not None:
            self._timer.cancel()
        if not self._loop.is_closed():
            self._loop.remove_reader(self._epoll.fileno())
        self._epoll.close()
        self._tell()


def _give_up(future: asyncio.Future[None]) -> None:
    if not future.done():
        future.set_exception(TimedOut("it took too long"))


async def _dialled(host: str, port: int, timeout: Optional[float]) -> socket.socket:
    """A connected socket: each address is tried, one after another."""
    loop, deadline = asyncio.get_running_loop(), deadline_in(timeout)
    try:
        found = await asyncio.wait_for(loop.getaddrinfo(host, port, type=socket.SOCK_STREAM), left_to(deadline))
    except OSError as why:
        raise NoAddress(f"the host's name has no address: {host}", Details(Code.NO_ADDRESS, host)) from why
    except asyncio.TimeoutError:
        raise TimedOut(f"the name took too long: {host}") from None
    failure: Optional[BaseException] = None
    for n, (family, kind, protocol, _, address) in enumerate(found):
        left = left_to(deadline)
        made = socket.socket(family, kind, protocol)
        made.setblocking(False)
        try:
            await asyncio.wait_for(loop.sock_connect(made, address), None if left is None else left / (len(found) - n))
            return made
        except (OSError, asyncio.TimeoutError) as why:
            failure = why
            made.close()
        except BaseException:
            made.close()
            raise
    if isinstance(failure, asyncio.TimeoutError):
        raise TimedOut(f"{host} port {port} took too long") from None
    number = failure.errno if isinstance(failure, OSError) and failure.errno else 0
    raise CannotConnect(f"can't connect to {host} port {port}: {os.strerror(number)}", Details(Code.NO_CONNECTION, host, errno=number)) from failure


class _Connecting:
    """What `connect` returns: await it, or use it in `async with`."""

    def __init__(self, making: Callable[[], Awaitable[Connection]]) -> None:
        self._making = making
        self._made: Optional[Connection] = None

    def __await__(self) -> Generator[Any, None, Connection]:
        return self._making().__await__()

    async def __aenter__(self) -> Connection:
        self._made = await self._making()
        return self._made

    async def __aexit__(self, *_: object) -> None:
        if self._made is not None:
            await self._made.close()


def connect(
    host: str,
    port: int = 22,
    *,
    user: Optional[str] = None,
    password: Optional[str] = None,
    key: Union[Path, Sequence[Path], None] = None,
    passphrase: Passphrase = None,
    agent: Union[bool, Path, None] = None,
    answers: Optional[Answers] = None,
    known_hosts: Union[Path, Sequence[Path], None] = None,
    accept_new: bool = False,
    new_host: Union[Accept, Decide] = Accept.REFUSE,
    host_alias: Optional[str] = None,
    timeout: Optional[float] = 30,
    login_timeout: Optional[float] = 120,
    keepalive: int = 0,
    keepalive_max: int = 3,
    rekey_bytes: int = 0,
    rekey_seconds: int = 0,
    window: int = 0,
    ciphers: Optional[str] = None,
    host_key_algorithms: Optional[str] = None,
    banner: Optional[Callable[[str], None]] = None,
    sock: Optional[socket.socket] = None,
    jump: Optional[Connection] = None,
) -> _Connecting:
    """Connects and logs in; each argument is that of `sazhonthil.connect`, and new_host may be a coroutine function."""
    options = Options(
        host, port, user, password, key, passphrase, agent, answers, known_hosts, Accept.LEARN if accept_new else new_host, host_alias,
        timeout, login_timeout, keepalive, keepalive_max, rekey_bytes, rekey_seconds, window, ciphers, host_key_algorithms, banner, sock,
    )
    return _Connecting(lambda: _connected(options, jump))


async def _connected(options: Options, jump: Optional[Connection]) -> Connection:
    keys = login.read_keys(options)
    try:
        if not native.load().sazh_is_host_name(plain(options.host)):
            raise NoAddress(f"the host's name has a sign that no name has: {options.host}", Details(Code.BAD_NAME, options.host))
        begun = deadline_in(options.timeout)
        engine = login.make_engine(options, _LoopWaits(asyncio.get_running_loop()), jump._engine if jump is not None else None)
        lib, host = engine.lib, plain(options.host)
        try:
            if jump is not None:
                through = jump._engine
                await login.secure(engine, options, lambda: lib.sazh_connect_through(engine.handle, through.handle, host, options.port))
            else:
                line = options.sock if options.sock is not None else await _dialled(options.host, options.port, options.timeout)
                options.timeout = left_to(begun)
                file = line.detach()
                await login.secure(engine, options, lambda: lib.sazh_connect_fd(engine.handle, file, host, options.port))
            await login.log_in(engine, options, keys)
        except BaseException:
            engine.close()
            raise
    finally:
        for one in keys:
            one.free()
    return Connection(engine, jump)


class _Closing:
    """What is closed at the end of an `async with`, or once nobody has it any more."""

    async def close(self) -> None:
        raise NotImplementedError

    async def __aexit__(self, *_: object) -> None:
        await self.close()


class Connection(_Closing):
    """A connection whose user is in. `connect` makes it."""

    def __init__(self, engine: Engine, jump: Optional[Connection] = None) -> None:
        self._engine, self._jump = engine, jump
        self._finalizer = weakref.finalize(self, engine.leave)

    async def __aenter__(self) -> Connection:
        return self

    def __repr__(self) -> str:
        return f"<sazhonthil.aio.Connection to {self._engine.host}{', closed' if self.is_closed else ''}>"

    async def close(self) -> None:
        """Ends the session, with its channels and forwards."""
        self._engine.close()
        self._finalizer.detach()

    @property
    def is_closed(self) -> bool:
        """Whether it was closed here."""
        return self._engine.handle is None

    @property
    def is_over(self) -> bool:
        """Whether it was closed here, or is lost: only what came may still be read."""
        with self._engine.guard:
            return self.is_closed or bool(self._engine.lib.sazh_is_over(self._engine.handle))

    @property
    def agreed(self) -> Mapping[str, object]:
        """The server's version line, and the algorithms that the two sides agreed on."""
        return login.names_of(self._engine)

    @property
    def host_key(self) -> HostKey:
        return login._host_key(self._engine)

    def rekey(self) -> None:
        """Begins a key exchange."""
        engine = self._engine

        def begin() -> int:
            code = int(engine.lib.sazh_rekey(engine.handle))
            engine.step()
            return code

        engine.once(begin)

    @overload
    async def run(
        self, command: str, *, input: Union[str, Data, None] = ..., check: bool = ..., timeout: Optional[float] = ...,
        env: Optional[Mapping[str, str]] = ..., pty: Union[bool, Terminal] = ..., encoding: str = ..., errors: str = ...,
    ) -> Completed[str]: ...

    @overload
    async def run(
        self, command: str, *, input: Union[str, Data, None] = ..., check: bool = ..., timeout: Optional[float] = ...,
        env: Optional[Mapping[str, str]] = ..., pty: Union[bool, Terminal] = ..., encoding: None, errors: str = ...,
    ) -> Completed[bytes]: ...

    async def run(
        self, command: str, *, input: Union[str, Data, None] = None, check: bool = False, timeout: Optional[float] = None,
        env: Optional[Mapping[str, str]] = None, pty: Union[bool, Terminal] = False, encoding: Optional[str] = "utf-8", errors: str = "replace",
    ) -> Union[Completed[str], Completed[bytes]]:
        """Runs a command to its end (see `sazhonthil.Connection.run`)."""
        return await run(self._engine, command, input, check, timeout, env or {}, _terminal(pty), encoding, errors)

    async def open(
        self, command: Optional[str] = None, *, env: Optional[Mapping[str, str]] = None, pty: Union[bool, Terminal] = False,
        timeout: Optional[float] = None,
    ) -> Channel:
        """Starts a command, or a shell, and returns its channel."""
        return Channel(self, await _started(self._engine, command, env or {}, _terminal(pty), deadline_in(timeout), False))

    async def open_subsystem(self, name: str, *, timeout: Optional[float] = None) -> Channel:
        return Channel(self, await _started(self._engine, name, {}, None, deadline_in(timeout), True))

    async def open_to(self, there: Address, *, timeout: Optional[float] = None) -> Channel:
        """A channel that the server connects to (host, port), or to a socket of Unix."""
        return Channel(self, await channels.Channel.to(self._engine, there, deadline_in(timeout)))

    async def sftp(self, *, timeout: Optional[float] = None) -> SFTP:
        """The server's files. The timeout is for the beginning alone."""
        channel = await self.open_subsystem("sftp", timeout=timeout)
        protocol = Protocol(channel._inner, asyncio.Lock(), timeout)
        try:
            await protocol.begin()
        except BaseException:
            await channel.close()
            raise
        protocol.timeout = None
        return SFTP(channel, protocol)

    async def forward_local(self, here: Address, there: Address) -> Forward:
        """Listens here, and has the server connect there (see `sazhonthil.Connection.forward_local`)."""
        return Forward(self, channels.Forward.local(self._engine, here, there))

    async def forward_remote(self, there: Address, here: Address, *, timeout: Optional[float] = None) -> Forward:
        """Has the server listen there, and connects here. Port 0 is one that the server chooses."""
        return Forward(self, await channels.Forward.remote(self._engine, there, here, deadline_in(timeout)))

    async def forward_socks(self, here: Address) -> Forward:
        """Listens here for SOCKS5, and has the server connect where each client wants."""
        return Forward(self, channels.Forward.socks(self._engine, here))


class Reader:
    """A stream of a channel's output, in bytes."""

    def __init__(self, channel: Channel, stream: int) -> None:
        self._channel, self._stream = channel, stream
        self._buffer = bytearray()

    async def _fill(self) -> bool:
        more = await self._channel._inner.read(self._stream, 1 << 16, None)
        self._buffer += more
        return bool(more)

    def _taken(self, size: int) -> bytes:
        data = bytes(self._buffer[:size])
        del self._buffer[:size]
        return data

    async def read(self, size: int = -1) -> bytes:
        """So many bytes, fewer at the end, or all up to the end."""
        while (size < 0 or len(self._buffer) < size) and await self._fill():
            pass
        return self._taken(len(self._buffer) if size < 0 else size)

    async def read_some(self, size: int = 1 << 16) -> bytes:
        """At least one byte and at most so many; none at the end."""
        if self._buffer or size <= 0 or await self._fill():
            return self._taken(max(0, size))
        return b""

    async def readline(self) -> bytes:
        """A line with its line feed; at the end what is left."""
        while True:
            at = self._buffer.find(b"\n")
            if at >= 0 or not await self._fill():
                return self._taken(at + 1 if at >= 0 else len(self._buffer))

    async def __aiter__(self) -> AsyncIterator[bytes]:
        while line := await self.readline():
            yield line


class Channel(_Closing):
    """A channel: `stdout` and `stderr` are Readers, and share a window (see `sazhonthil.Channel`)."""

    def __init__(self, connection: Connection, inner: channels.Channel) -> None:
        self._connection, self._inner = connection, inner
        self._finalizer = weakref.finalize(self, inner.drop)
        self._has_ended = False
        self.stdout, self.stderr = Reader(self, OUT), Reader(self, ERR)

    async def __aenter__(self) -> Channel:
        return self

    async def close(self) -> None:
        """Closes the channel; what came and wasn't read is gone."""
        self._inner.free()
        self._finalizer.detach()

    @property
    def is_closed(self) -> bool:
        """Whether it was closed here."""
        return self._inner.is_freed

    async def read(self, size: int = -1) -> bytes:
        """As `stdout.read`: so many bytes, or all up to the end."""
        return await self.stdout.read(size)

    async def write(self, data: Data, *, timeout: Optional[float] = None) -> None:
        """All of it; ChannelClosed where the server takes no more."""
        await self._inner.write(bytes(data), deadline_in(timeout))

    async def send_eof(self) -> None:
        """No more bytes follow."""
        if not self._has_ended:
            self._has_ended = True
            try:
                self._inner.eof()
            except Error:
                if self._inner.is_freed:
                    raise  # else it is over: nothing can follow

    async def wait(self, timeout: Optional[float] = None) -> Exit:
        """What became of the command, once the server told it. Output that isn't read may hold it up."""
        return await self._inner.wait_exit(deadline_in(timeout))

    @property
    def exit_status(self) -> Optional[int]:
        """The status, if the server has told it by now."""
        return self._inner.told().status

    @property
    def exit_signal(self) -> Optional[str]:
        """The signal that ended the command, if the server has told it by now."""
        return self._inner.told().signal

    def send_signal(self, name: str) -> None:
        """TERM, INT ..; not every server passes it on, and none answers."""
        self._inner.signal(name)

    def resize(self, columns: int, rows: int) -> None:
        """The terminal has another size."""
        self._inner.resize(columns, rows)


class Forward(_Closing):
    """Listens until it is closed; the connections that came through it go on."""

    def __init__(self, connection: Connection, inner: channels.Forward) -> None:
        self._connection, self._inner = connection, inner
        self._finalizer = weakref.finalize(self, inner.drop)

    async def __aenter__(self) -> Forward:
        return self

    @property
    def port(self) -> int:
        """The port that is listened at."""
        return self._inner.port

    async def close(self) -> None:
        self._inner.free()
        self._finalizer.detach()


class SFTP(_Closing):
    """The files of a server (see `sazhonthil.sftp.SFTP`)."""

    def __init__(self, channel: Channel, protocol: Protocol) -> None:
        self._channel, self._protocol = channel, protocol

    async def __aenter__(self) -> SFTP:
        return self

    async def close(self) -> None:
        await self._channel.close()

    async def listdir(self, path: str = ".") -> List[str]:
        return [it.name for it in await self.scandir(path)]

    async def scandir(self, path: str = ".") -> List[Entry]:
        return await self._protocol.entries(path)

    async def mkdir(self, path: str, mode: int = 0o777) -> None:
        await self._protocol.do(path, files.MKDIR, path_of(path) + Attributes(mode=mode).encode())

    async def rmdir(self, path: str) -> None:
        await self._protocol.do(path, files.RMDIR, path_of(path))

    async def remove(self, path: str) -> None:
        await self._protocol.do(path, files.REMOVE, path_of(path))

    async def rename(self, old: str, new: str) -> None:
        """SFTPError where the new name is there."""
        await self._protocol.do(old, files.RENAME, path_of(old) + path_of(new))

    async def replace(self, old: str, new: str) -> None:
        """Renames, also over a file that is there (OpenSSH's extension posix-rename)."""
        await self._protocol.do(old, files.EXTENDED, wire.string(b"posix-rename@openssh.com") + path_of(old) + path_of(new))

    async def realpath(self, path: str = ".") -> str:
        return await self._protocol.name(path, files.REALPATH)

    async def readlink(self, path: str) -> str:
        return await self._protocol.name(path, files.READLINK)

    async def stat(self, path: str) -> Attributes:
        return await self._protocol.attributes(path, files.STAT, path_of(path))

    async def lstat(self, path: str) -> Attributes:
        """Of a symbolic link itself."""
        return await self._protocol.attributes(path, files.LSTAT, path_of(path))

    async def setstat(self, path: str, attributes: Attributes) -> None:
        """Sets those that aren't None."""
        await self._protocol.do(path, files.SETSTAT, path_of(path) + attributes.encode())

    async def open(self, path: str, mode: str = "rb") -> SFTPFile:
        """A binary file; `mode` is rb, wb, ab or xb, each with + too."""
        return SFTPFile(self._protocol, path, await self._protocol.open(path, files.flags_of(mode)))

    async def get(self, remote: str, local: Path) -> int:
        """Copies a file from the server; its size."""
        with open(local, "wb") as file:

            def put(place: int, data: bytes) -> None:
                file.seek(place)
                file.write(data)

            size = await self._protocol.get(remote, put)
            file.truncate(size)
            return size

    async def put(self, local: Path, remote: str, mode: Optional[int] = None) -> int:
        """Copies a file to the server; its size."""
        with open(local, "rb") as file:
            return await self._protocol.put(remote, file.read, mode)


class SFTPFile(_Closing):
    """A file of the server's, without a buffer: each call asks the server."""

    def __init__(self, protocol: Protocol, path: str, handle: bytes) -> None:
        self._protocol, self._path, self._handle = protocol, path, handle
        self._place, self._is_closed = 0, False

    async def __aenter__(self) -> SFTPFile:
        return self

    def _check(self) -> None:
        if self._is_closed:
            raise errors.Closed("the file is closed")

    async def read(self, size: int = -1) -> bytes:
        """So many bytes, fewer at the end, or all up to the end."""
        self._check()
        start, data = self._place, bytearray()

        def put(place: int, part: bytes) -> None:
            at = place - start
            if len(data) < at:
                data.extend(bytes(at - len(data)))
            data[at : at + len(part)] = part

        if size < 0:
            stop, hint = None, (await self.stat()).size or 0
        else:
            stop = hint = start + size
        self._place = await self._protocol.fetch(self._path, self._handle, start, stop, hint, put)
        return bytes(data[: self._place - start])

    async def write(self, data: Data) -> int:
        """All of it."""
        self._check()
        left, done = memoryview(bytes(data)), 0

        def take(size: int) -> bytes:
            nonlocal done
            part = bytes(left[done : done + size])
            done += len(part)
            return part

        self._place = await self._protocol.store(self._path, self._handle, self._place, take)
        return done

    def seek(self, place: int) -> None:
        """The next byte is read or written there, counted from the front."""
        if place < 0:
            raise Misuse("a place before the file")
        self._place = place

    def tell(self) -> int:
        return self._place

    async def stat(self) -> Attributes:
        self._check()
        return await self._protocol.attributes(self._path, files.FSTAT, wire.string(self._handle))

    async def close(self) -> None:
        if not self._is_closed:
            self._is_closed = True
            if not self._protocol.channel.is_freed:
                await self._protocol.close(self._path, self._handle)
