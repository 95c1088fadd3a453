"""A connection of libsazhonthil_ssh, and how its callers wait: the part that the blocking face (client.py) and that for
asyncio (aio.py) share.

Everything that may wait is written once, as a coroutine. `Waits` says how it waits: a thread sleeps in place, so that the
coroutine never yields and `sync` runs it as a plain call; under asyncio it awaits a future.

The library is called by one thread at a time (Guard), and never waits itself. While a thread of its own drives the
connection (or the loop does), packets are taken, forwards move and keepalives are sent also where nobody waits."""
from __future__ import annotations

import collections
import ctypes as c
import os
import select
import threading
import time
import weakref
from typing import Any, Callable, Collection, Coroutine, Deque, Dict, List, Optional, Tuple, TypeVar, cast

from . import errors, native
from .errors import Closed, Code, Details, Misuse, Status, TimedOut

T = TypeVar("T")
Attempt = Callable[[], Any]
WENT = (Code.OK, Code.EOF, Code.AGAIN)


def sync(coroutine: Coroutine[Any, Any, T]) -> T:
    """Runs a coroutine that waits in place."""
    try:
        coroutine.send(None)
    except StopIteration as done:
        return cast(T, done.value)
    coroutine.close()
    raise RuntimeError("a blocking call awaited a loop")


def deadline_in(seconds: Optional[float]) -> Optional[float]:
    return None if seconds is None else time.monotonic() + seconds


def left_to(deadline: Optional[float]) -> Optional[float]:
    """The seconds up to a deadline. TimedOut behind it."""
    if deadline is None:
        return None
    left = deadline - time.monotonic()
    if left <= 0:
        raise TimedOut("it took too long")
    return left


def text_of(given: Optional[bytes]) -> str:
    return "" if given is None else given.decode("utf-8", "replace")


def plain(text: str) -> bytes:
    """A text for the library, whose texts end with a zero byte."""
    data = os.fsencode(text)
    if b"\0" in data:
        raise Misuse("a text with a zero byte")
    return data


class Guard:
    """Lets one thread at a time into a connection and those that run through it, and none from a callback."""

    def __init__(self) -> None:
        self._lock, self._is_inside = threading.RLock(), False

    def __enter__(self) -> None:
        self._lock.acquire()
        if self._is_inside:  # this thread is in a callback
            self._lock.release()
            raise Misuse("a callback can't use its connection")
        self._is_inside = True

    def __exit__(self, *_: object) -> None:
        self._is_inside = False
        self._lock.release()


class Waits:
    """How callers of an engine wait, and who drives it meanwhile."""

    def begin(self, engine: Engine) -> None:
        """From now on the engine is driven by itself."""

    async def wait(self, engine: Engine, seen: int, deadline: Optional[float]) -> None:
        """Returns once the engine's stamp isn't `seen` any more, and maybe earlier. TimedOut at the deadline."""
        raise NotImplementedError

    async def rest(self) -> None:
        """Before a call: lets others go on, where that is the caller's duty."""

    def noted(self, engine: Engine, stamp: int) -> None:
        """After each call of the library, under the guard."""

    def wake(self) -> None:
        """Has the engine stepped soon; from any thread."""

    def end(self) -> None:
        """The engine is closed."""


class Engine:
    """One connection of the library."""

    def __init__(self, settings: native.Settings, waits: Waits, jump: Optional[Engine] = None) -> None:
        self.lib = native.load()
        self.handle: Optional[int] = None
        self.waits = waits
        self.jump: Optional[Engine] = jump
        self.guard: Guard = Guard() if jump is None else jump.guard
        self.through: weakref.WeakSet[Engine] = weakref.WeakSet()
        self.host = ""
        self.failure: Optional[BaseException] = None  # of a callback
        self.kept: List[object] = []  # what the library points at
        self.graves: Deque[Tuple[Any, int]] = collections.deque()
        self.is_left = False
        self._pokes = 0
        self._room = 16
        self._polls = (native.Pollfd * self._room)()
        made = native.Pointer()
        with self.guard:
            if jump is not None:
                jump.check()
            code = Code(self.lib.sazh_new(c.byref(made), c.byref(settings)))
            if code is not Code.OK or made.value is None:
                raise errors.of(text_of(self.lib.sazh_code_text(code)), Details(code))
            self.handle = made.value
            self.lib.sazh_set_blocking(self.handle, False)
            if jump is not None:
                jump.through.add(self)

    # ---- calls

    def check(self) -> None:
        if self.handle is None:
            raise Closed("the connection is closed")

    def stamp(self) -> int:
        """Another number once something has changed."""
        return int(self.lib.sazh_changes(self.handle)) + self._pokes

    def poke(self) -> None:
        """All who wait are to look again. Under the guard."""
        self._pokes += 1

    def note(self) -> int:
        stamp = self.stamp()
        self.waits.noted(self, stamp)
        if self.jump is not None and self.jump.handle is not None:
            self.jump.note()
        return stamp

    def tell_through(self) -> None:
        """Those that run through this connection have something to read."""
        for one in list(self.through):
            one.waits.wake()

    def error(self, code: Code) -> errors.Error:
        """The library's last error. Under the guard."""
        last = self.lib.sazh_error_of(self.handle).contents
        if last.code != code:
            return errors.of(text_of(self.lib.sazh_code_text(code)), Details(code, self.host))
        methods = tuple(name for name in text_of(self.lib.sazh_methods(self.handle)).split(",") if name)
        status = Status(last.status) if last.status in Status.__members__.values() else None
        words = (text_of(last.server_words), text_of(last.file), int(last.line), text_of(last.key_type), text_of(last.fingerprint))
        return errors.of(text_of(last.text), Details(code, self.host, status, int(last.reason), *words, int(last.system), methods))

    def tried(self, attempt: Attempt, also: Collection[Code] = ()) -> Code:
        """Makes a call; raises where it failed, unless the code is one of `also`. Under the guard."""
        code = Code(attempt())
        if self.failure is not None:
            failure, self.failure = self.failure, None
            raise failure
        if code in WENT or code in also:
            return code
        raise self.error(code)

    def once(self, attempt: Attempt, also: Collection[Code] = ()) -> Code:
        """A call that waits for nothing."""
        with self.guard:
            self.check()
            try:
                return self.tried(attempt, also)
            finally:
                self.note()

    async def until(self, attempt: Attempt, deadline: Optional[float] = None, also: Collection[Code] = ()) -> Code:
        """Makes a call again and again, until it is done."""
        await self.waits.rest()
        while True:
            with self.guard:
                self.check()
                before = self.stamp()
                try:
                    code = self.tried(attempt, also)
                finally:
                    seen = self.note()
            if code is not Code.AGAIN:
                return code
            left_to(deadline)
            if seen == before:  # else the call itself moved something, and may be done by now
                await self.waits.wait(self, seen, deadline)

    async def started(self, begin: Attempt, then: Attempt, deadline: Optional[float] = None, also: Collection[Code] = ()) -> Code:
        """A call, and another one that tells what came of it."""
        code = self.once(begin, also)
        return code if code is not Code.AGAIN else await self.until(then, deadline, also)

    # ---- driving

    def interest(self) -> Tuple[Dict[int, int], int]:
        """The descriptors with their events, and how many milliseconds they may be waited for (-1: for ever)."""
        count = self.lib.sazh_poll(self.handle, self._polls, self._room)
        while count > self._room:
            self._room = 2 * count
            self._polls = (native.Pollfd * self._room)()
            count = self.lib.sazh_poll(self.handle, self._polls, self._room)
        wanted: Dict[int, int] = {}
        for one in self._polls[:count]:
            wanted[one.fd] = wanted.get(one.fd, 0) | one.events
        return wanted, int(self.lib.sazh_timeout(self.handle))

    def step(self) -> None:
        """Has the library do what can be done. Under the guard."""
        while self.graves:
            free, at = self.graves.popleft()
            free(at)
        self.lib.sazh_step(self.handle)
        self.note()
        self.tell_through()

    def bury(self, free: Any, at: int) -> None:
        """Has something freed soon: this may be called by the garbage collector, in the middle of anything."""
        self.graves.append((free, at))
        self.waits.wake()

    # ---- the end

    def close(self) -> None:
        with self.guard:
            self.end()

    def end(self) -> None:
        """Under the guard."""
        if self.handle is None:
            return
        for one in list(self.through):
            one.end()
        if self.jump is not None:
            self.jump.through.discard(self)
        handle, self.handle = self.handle, None
        self.graves.clear()  # they go with the connection
        self.lib.sazh_free(handle)
        self.waits.end()

    def leave(self) -> None:
        """Nobody has the connection any more: whoever drives it closes it. This is called by the garbage collector."""
        self.is_left = True
        self.waits.wake()


class ThreadWaits(Waits):
    """Callers are threads that sleep. Up to `begin` the calling thread drives the connection; then one of its own does."""

    def __init__(self) -> None:
        self._condition = threading.Condition()
        self._stamp, self._is_over = 0, False
        self._pipe_lock = threading.RLock()
        self._reads, self._writes = os.pipe2(os.O_CLOEXEC | os.O_NONBLOCK)
        self._driver: Optional[threading.Thread] = None
        self._polled: Optional[Dict[int, int]] = None

    def begin(self, engine: Engine) -> None:
        self._driver = threading.Thread(target=self._drive, args=(engine,), name="sazhonthil", daemon=True)
        self._driver.start()

    def _drive(self, engine: Engine) -> None:
        while self._turn(engine, None):
            if engine.is_left:
                engine.close()
        self._close_pipe()

    def _turn(self, engine: Engine, seconds: Optional[float]) -> bool:
        """Waits for the connection's descriptors, for at most so long, and steps; whether the connection is there."""
        with engine.guard:
            if engine.handle is None:
                return False
            wanted, milliseconds = engine.interest()
            self._polled = wanted
        poll = select.poll()
        for file, events in wanted.items():
            poll.register(file, events)
        poll.register(self._reads, select.POLLIN)
        limit = None if seconds is None else int(seconds * 1000) + 1
        if milliseconds >= 0 and (limit is None or milliseconds < limit):
            limit = milliseconds
        ready = poll.poll(limit)
        if any(file == self._reads for file, _ in ready):
            try:
                os.read(self._reads, 4096)
            except BlockingIOError:
                pass
        with engine.guard:
            self._polled = None
            if engine.handle is None:
                return False
            engine.step()
        return True

    async def wait(self, engine: Engine, seen: int, deadline: Optional[float]) -> None:
        if self._driver is None:
            self._turn(engine, left_to(deadline))
            return
        with self._condition:
            while self._stamp == seen and not self._is_over:
                self._condition.wait(left_to(deadline))

    def noted(self, engine: Engine, stamp: int) -> None:
        with self._condition:
            is_new = stamp != self._stamp
            self._stamp = stamp
            if is_new:
                self._condition.notify_all()
        polled = self._polled
        if polled is not None and threading.current_thread() is not self._driver and engine.interest()[0] != polled:
            self.wake()
        if is_new:
            engine.tell_through()

    def wake(self) -> None:
        with self._pipe_lock:
            if self._writes >= 0:
                try:
                    os.write(self._writes, b"\0")
                except BlockingIOError:
                    pass

    def _close_pipe(self) -> None:
        with self._pipe_lock:
            for file in (self._reads, self._writes):
                if file >= 0:
                    os.close(file)
            self._reads = self._writes = -1

    def end(self) -> None:
        with self._condition:
            self._is_over = True
            self._condition.notify_all()
        self.wake()
        if self._driver is None:
            self._close_pipe()
