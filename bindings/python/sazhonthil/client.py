"""SSH connections that block their caller.

    with sazhonthil.connect("host", user="me") as c:
        print(c.run("uname").stdout)

Any number of threads may use one connection at once, each waiting for its own; a thread of the connection's own moves
what comes meanwhile. What is closed raises Closed, and may be closed again."""
from __future__ import annotations

import io
import socket
import weakref
from dataclasses import dataclass
from typing import TYPE_CHECKING, Any, Callable, Generic, Mapping, Optional, Sequence, Type, TypeVar, Union, cast, overload

from . import channels, login
from .channels import ERR, OUT, Address, Exit, Terminal
from .engine import Attempt, Engine, ThreadWaits, deadline_in, plain, sync
from .errors import Error, Misuse, TimedOut
from .login import Accept, Answers, HostKey, Options, Passphrase, Path

if TYPE_CHECKING:
    from types import TracebackType

    from .sftp import SFTP

S = TypeVar("S", str, bytes)
Data = Union[bytes, bytearray, memoryview]


@dataclass(frozen=True)
class Completed(Generic[S]):
    """A command that has ended. `exit_status` is None where a signal ended it, or where the server told nothing."""

    command: str
    stdout: S
    stderr: S
    exit_status: Optional[int]
    exit_signal: Optional[str] = None

    def check(self) -> None:
        """CommandFailed unless the status is 0."""
        if self.exit_status != 0:
            raise CommandFailed(self)


class CommandFailed(Error):
    """A command ended otherwise than with the status 0; `result` is what it left."""

    def __init__(self, result: Completed[Any]) -> None:
        how = f"the signal {result.exit_signal}" if result.exit_signal else f"the status {result.exit_status}"
        super().__init__(f"{result.command!r} ended with {how}")
        self.result = result


def connect(
    host: str,
    port: int = 22,
    *,
    user: Optional[str] = None,
    password: Optional[str] = None,
    key: Union[Path, Sequence[Path], None] = None,
    passphrase: Passphrase = None,
    agent: Union[bool, Path, None] = None,
    answers: Optional[Answers] = None,
    known_hosts: Union[Path, Sequence[Path], None] = None,
    accept_new: bool = False,
    new_host: Union[Accept, Callable[[HostKey], Accept]] = Accept.REFUSE,
    host_alias: Optional[str] = None,
    timeout: Optional[float] = 30,
    login_timeout: Optional[float] = 120,
    keepalive: int = 0,
    keepalive_max: int = 3,
    rekey_bytes: int = 0,
    rekey_seconds: int = 0,
    window: int = 0,
    ciphers: Optional[str] = None,
    host_key_algorithms: Optional[str] = None,
    banner: Optional[Callable[[str], None]] = None,
    sock: Optional[socket.socket] = None,
    jump: Optional[Connection] = None,
) -> Connection:
    """Connects and logs in.

    user                 by default the user of this process
    password             also the answer where the server asks one hidden question instead
    key, passphrase      files of private keys; a passphrase, or a function that is asked for one (three times at most)
    agent                True, or the path of its socket
    answers              answers what the server asks (Challenge), one text for each question
                         Without any of these four the agent of SSH_AUTH_SOCK is tried and then ~/.ssh/id_ed25519, id_ecdsa, id_rsa.
    known_hosts          files; by default ~/.ssh/known_hosts and /etc/ssh/ssh_known_hosts. The first one is learned to
    accept_new, new_host a host whose key isn't known is refused. accept_new=True learns its key; new_host is an Accept,
                         or a function that is shown the HostKey and returns one. A changed or revoked key is always refused
    host_alias           the name to look for in the known hosts, in place of host and port
    timeout              seconds for connecting and the first key exchange
    login_timeout        seconds for logging in, all methods together
    keepalive            every how many seconds the server is asked whether it is there; keepalive_max may stay unanswered
    rekey_bytes, rekey_seconds, window, ciphers, host_key_algorithms   as in include/sazhonthil_ssh.h; 0 and None: its own
    banner               is called with what the server says before the login
    sock                 a connected socket, which the connection takes
    jump                 a connection whose server connects to the host
    """
    options = Options(
        host, port, user, password, key, passphrase, agent, answers, known_hosts, Accept.LEARN if accept_new else new_host, host_alias,
        timeout, login_timeout, keepalive, keepalive_max, rekey_bytes, rekey_seconds, window, ciphers, host_key_algorithms, banner, sock,
    )
    keys = login.read_keys(options)
    try:
        engine = login.make_engine(options, ThreadWaits(), jump._engine if jump is not None else None)
        try:
            sync(login.secure(engine, options, _dialled(engine, options, jump)))
            sync(login.log_in(engine, options, keys))
            engine.waits.begin(engine)
        except BaseException:
            engine.close()
            raise
    finally:
        for one in keys:
            one.free()
    return Connection(engine, jump)


def _dialled(engine: Engine, options: Options, jump: Optional[Connection]) -> Attempt:
    lib, host, port = engine.lib, plain(options.host), options.port
    if jump is not None:
        through = jump._engine
        return lambda: lib.sazh_connect_through(engine.handle, through.handle, host, port)
    if options.sock is not None:
        file = options.sock.detach()
        return lambda: lib.sazh_connect_fd(engine.handle, file, host, port)
    return lambda: lib.sazh_connect(engine.handle, host, port)


class _Closing:
    """What is closed at the end of a `with`, or once nobody has it any more."""

    def close(self) -> None:
        raise NotImplementedError

    def __exit__(self, kind: Optional[Type[BaseException]], why: Optional[BaseException], trace: Optional[TracebackType]) -> None:
        self.close()


class Connection(_Closing):
    """A connection whose user is in. `connect` makes it."""

    def __init__(self, engine: Engine, jump: Optional[Connection] = None) -> None:
        self._engine, self._jump = engine, jump
        self._finalizer = weakref.finalize(self, engine.leave)

    def __enter__(self) -> Connection:
        return self

    def __repr__(self) -> str:
        return f"<sazhonthil.Connection to {self._engine.host}{', closed' if self.is_closed else ''}>"

    def close(self) -> None:
        """Ends the session, with its channels and forwards."""
        self._engine.close()
        self._finalizer.detach()

    @property
    def is_closed(self) -> bool:
        """Whether it was closed here."""
        return self._engine.handle is None

    @property
    def is_over(self) -> bool:
        """Whether it was closed here, or is lost: only what came may still be read."""
        with self._engine.guard:
            return self.is_closed or bool(self._engine.lib.sazh_is_over(self._engine.handle))

    @property
    def agreed(self) -> Mapping[str, object]:
        """The server's version line, and the algorithms that the two sides agreed on."""
        return login.names_of(self._engine)

    @property
    def host_key(self) -> HostKey:
        return login._host_key(self._engine)

    def rekey(self) -> None:
        """Begins a key exchange."""
        engine = self._engine

        def begin() -> int:
            code = int(engine.lib.sazh_rekey(engine.handle))
            engine.step()
            return code

        engine.once(begin)

    # ---- commands

    @overload
    def run(
        self, command: str, *, input: Union[str, Data, None] = ..., check: bool = ..., timeout: Optional[float] = ...,
        env: Optional[Mapping[str, str]] = ..., pty: Union[bool, Terminal] = ..., encoding: str = ..., errors: str = ...,
    ) -> Completed[str]: ...

    @overload
    def run(
        self, command: str, *, input: Union[str, Data, None] = ..., check: bool = ..., timeout: Optional[float] = ...,
        env: Optional[Mapping[str, str]] = ..., pty: Union[bool, Terminal] = ..., encoding: None, errors: str = ...,
    ) -> Completed[bytes]: ...

    def run(
        self, command: str, *, input: Union[str, Data, None] = None, check: bool = False, timeout: Optional[float] = None,
        env: Optional[Mapping[str, str]] = None, pty: Union[bool, Terminal] = False, encoding: Optional[str] = "utf-8", errors: str = "replace",
    ) -> Union[Completed[str], Completed[bytes]]:
        """Runs a command to its end, with `input` on its standard input (by default nothing).

        Its output is text, with U+FFFD for what isn't; with encoding=None it is bytes. check=True raises CommandFailed
        unless the status is 0. Behind the timeout the command's channel is closed, and TimedOut has what came. A server
        takes only those variables of `env` that it is set up for."""
        return sync(run(self._engine, command, input, check, timeout, env or {}, _terminal(pty), encoding, errors))

    def open(
        self, command: Optional[str] = None, *, env: Optional[Mapping[str, str]] = None, pty: Union[bool, Terminal] = False,
        timeout: Optional[float] = None,
    ) -> Channel:
        """Starts a command, or a shell, and returns its channel."""
        return Channel(self, sync(_started(self._engine, command, env or {}, _terminal(pty), deadline_in(timeout), False)))

    def open_subsystem(self, name: str, *, timeout: Optional[float] = None) -> Channel:
        return Channel(self, sync(_started(self._engine, name, {}, None, deadline_in(timeout), True)))

    def open_to(self, there: Address, *, timeout: Optional[float] = None) -> Channel:
        """A channel that the server connects to (host, port), or to a socket of Unix."""
        return Channel(self, sync(channels.Channel.to(self._engine, there, deadline_in(timeout))))

    def sftp(self, *, timeout: Optional[float] = None) -> SFTP:
        """The server's files. The timeout is for the beginning alone."""
        from .sftp import SFTP

        return SFTP._begin(self.open_subsystem("sftp", timeout=timeout), timeout)

    # ---- forwards

    def forward_local(self, here: Address, there: Address) -> Forward:
        """Listens here, and has the server connect there. An address is (host, port) or the path of a socket of Unix; the
        port 0 here is one that the system chooses."""
        return Forward(self, channels.Forward.local(self._engine, here, there))

    def forward_remote(self, there: Address, here: Address, *, timeout: Optional[float] = None) -> Forward:
        """Has the server listen there, and connects here. Port 0 is one that the server chooses."""
        return Forward(self, sync(channels.Forward.remote(self._engine, there, here, deadline_in(timeout))))

    def forward_socks(self, here: Address) -> Forward:
        """Listens here for SOCKS5, and has the server connect where each client wants."""
        return Forward(self, channels.Forward.socks(self._engine, here))


def _terminal(pty: Union[bool, Terminal]) -> Optional[Terminal]:
    return pty if isinstance(pty, Terminal) else Terminal() if pty else None


async def _started(
    engine: Engine, command: Optional[str], env: Mapping[str, str], pty: Optional[Terminal], deadline: Optional[float], is_subsystem: bool
) -> channels.Channel:
    channel = await channels.Channel.session(engine, deadline)
    try:
        await channel.start(command, env, pty, deadline, is_subsystem)
    except BaseException:
        channel.free()
        raise
    return channel


def _bytes_of(given: Union[str, Data, None], encoding: Optional[str]) -> Optional[bytes]:
    if isinstance(given, str):
        return given.encode(encoding or "utf-8")
    return None if given is None else bytes(given)


async def run(
    engine: Engine, command: str, given: Union[str, Data, None], check: bool, timeout: Optional[float], env: Mapping[str, str],
    pty: Optional[Terminal], encoding: Optional[str], errors: str,
) -> Union[Completed[str], Completed[bytes]]:
    """What both faces do for `run`."""
    data, deadline = _bytes_of(given, encoding), deadline_in(timeout)
    if encoding is not None:
        b"".decode(encoding, errors)  # an unknown encoding is found before the command runs
    channel = await _started(engine, command, env, pty, deadline, False)
    try:
        running = await channel.run(data, data is not None or pty is None, deadline)
    except TimedOut as why:
        if encoding is not None:
            why.stdout, why.stderr = (cast(bytes, it).decode(encoding, errors) for it in (why.stdout, why.stderr))
        raise
    finally:
        channel.free()
    how, (out, err) = running.exit, running.so_far()
    result: Any
    if encoding is None:
        result = Completed[bytes](command, out, err, how.status, how.signal)
    else:
        result = Completed[str](command, out.decode(encoding, errors), err.decode(encoding, errors), how.status, how.signal)
    if check:
        result.check()
    return cast(Union[Completed[str], Completed[bytes]], result)


class _Reader(io.RawIOBase):
    """A stream of a channel's output."""

    def __init__(self, channel: Channel, stream: int) -> None:
        self._channel, self._stream = channel, stream

    def readable(self) -> bool:
        return True

    def readinto(self, to: Any) -> int:
        data = self._channel.read_some(len(to), stream=self._stream)
        to[: len(data)] = data
        return len(data)


class _Writer(io.RawIOBase):
    """A channel's input; closing it says that no more bytes follow."""

    def __init__(self, channel: Channel) -> None:
        self._channel = channel

    def writable(self) -> bool:
        return True

    def write(self, data: Any) -> int:
        if self.closed:
            raise ValueError("I/O operation on closed file")
        taken = bytes(data)
        self._channel.write(taken)
        return len(taken)

    def close(self) -> None:
        if not self.closed:
            super().close()
            self._channel._end_input()

    def __del__(self) -> None:
        """The garbage collector ends no input: what it frees is the channel's."""


class Channel(_Closing):
    """A channel: `stdin`, `stdout` and `stderr` are binary files. Both outputs share a window, so that one of which a window
    (2 MiB) isn't read stops the other too."""

    def __init__(self, connection: Connection, inner: channels.Channel) -> None:
        self._connection, self._inner = connection, inner
        self._finalizer = weakref.finalize(self, inner.drop)
        self.stdin = cast(io.RawIOBase, _Writer(self))
        self.stdout = io.BufferedReader(_Reader(self, OUT), 1 << 16)
        self.stderr = io.BufferedReader(_Reader(self, ERR), 1 << 16)

    def __enter__(self) -> Channel:
        return self

    def close(self) -> None:
        """Closes the channel; what came and wasn't read is gone."""
        self._inner.free()
        self._finalizer.detach()

    @property
    def is_closed(self) -> bool:
        """Whether it was closed here."""
        return self._inner.is_freed

    def read(self, size: int = -1) -> bytes:
        """As `stdout.read`: so many bytes, or all up to the end."""
        return self.stdout.read(size)

    def read_some(self, size: int, *, stream: int = OUT, timeout: Optional[float] = None) -> bytes:
        """At least one byte and at most so many, of OUT or ERR; none at the end. What `stdout` has buffered isn't seen."""
        return sync(self._inner.read(stream, size, deadline_in(timeout)))

    def write(self, data: Data, *, timeout: Optional[float] = None) -> None:
        """All of it; ChannelClosed where the server takes no more."""
        sync(self._inner.write(bytes(data), deadline_in(timeout)))

    def send_eof(self) -> None:
        """No more bytes follow."""
        self.stdin.close()

    def _end_input(self) -> None:
        if not self._inner.is_freed:
            try:
                self._inner.eof()
            except Error:
                pass  # it is over: nothing can follow

    def wait(self, timeout: Optional[float] = None) -> Exit:
        """What became of the command, once the server told it. Output that isn't read may hold it up."""
        return sync(self._inner.wait_exit(deadline_in(timeout)))

    @property
    def exit_status(self) -> Optional[int]:
        """The status, if the server has told it by now."""
        return self._inner.told().status

    @property
    def exit_signal(self) -> Optional[str]:
        """The signal that ended the command, if the server has told it by now."""
        return self._inner.told().signal

    def send_signal(self, name: str) -> None:
        """TERM, INT ..; not every server passes it on, and none answers."""
        self._inner.signal(name)

    def resize(self, columns: int, rows: int) -> None:
        """The terminal has another size."""
        self._inner.resize(columns, rows)


class Forward(_Closing):
    """Listens until it is closed; the connections that came through it go on."""

    def __init__(self, connection: Connection, inner: channels.Forward) -> None:
        self._connection, self._inner = connection, inner
        self._finalizer = weakref.finalize(self, inner.drop)

    def __enter__(self) -> Forward:
        return self

    @property
    def port(self) -> int:
        """The port that is listened at."""
        return self._inner.port

    def close(self) -> None:
        self._inner.free()
        self._finalizer.detach()


__all__ = ["Accept", "Channel", "CommandFailed", "Completed", "Connection", "Exit", "Forward", "HostKey", "Misuse", "Terminal", "connect"]
