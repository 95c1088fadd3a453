"""The SFTP protocol, version 3 (draft-ietf-secsh-filexfer-02), over a channel: what both faces share.

A file is read and written by many requests at once. Where a call is given up in the middle, the answers that still come are
passed over, so that the next call finds its own."""
from __future__ import annotations

import os
import stat
from dataclasses import dataclass
from typing import Any, Callable, Dict, List, Optional, Set, Tuple

from . import errors, wire
from .channels import OUT, Channel
from .engine import deadline_in
from .errors import FileStatus, Misuse, ProtocolError
from .wire import Reader, WireError

INIT, VERSION, OPEN, CLOSE, READ, WRITE, LSTAT, FSTAT, SETSTAT, FSETSTAT = range(1, 11)
OPENDIR, READDIR, REMOVE, MKDIR, RMDIR, REALPATH, STAT, RENAME, READLINK, SYMLINK = range(11, 21)
STATUS, HANDLE, DATA, NAME, ATTRS, EXTENDED = 101, 102, 103, 104, 105, 200

FLAG_READ, FLAG_WRITE, FLAG_APPEND, FLAG_CREATE, FLAG_TRUNCATE, FLAG_EXCLUSIVE = 1, 2, 4, 8, 16, 32
HAS_SIZE, HAS_OWNER, HAS_MODE, HAS_TIMES, HAS_MORE = 1, 2, 4, 8, 0x80000000

CHUNK = 32768  # of a request: every server takes so much
DEPTH = 64  # requests at once
LONGEST = 1 << 20  # of a packet


@dataclass(frozen=True)
class Attributes:
    """What the server tells of a file; None is what it doesn't tell."""

    size: Optional[int] = None
    uid: Optional[int] = None
    gid: Optional[int] = None
    mode: Optional[int] = None
    atime: Optional[int] = None
    mtime: Optional[int] = None

    @property
    def is_dir(self) -> bool:
        return self.mode is not None and stat.S_ISDIR(self.mode)

    @property
    def is_file(self) -> bool:
        return self.mode is not None and stat.S_ISREG(self.mode)

    @property
    def is_symlink(self) -> bool:
        return self.mode is not None and stat.S_ISLNK(self.mode)

    def encode(self) -> bytes:
        flags, body = 0, b""
        if self.size is not None:
            flags, body = flags | HAS_SIZE, body + wire.u64(self.size)
        if self.uid is not None and self.gid is not None:
            flags, body = flags | HAS_OWNER, body + wire.u32(self.uid) + wire.u32(self.gid)
        if self.mode is not None:
            flags, body = flags | HAS_MODE, body + wire.u32(self.mode)
        if self.atime is not None and self.mtime is not None:
            flags, body = flags | HAS_TIMES, body + wire.u32(self.atime) + wire.u32(self.mtime)
        return wire.u32(flags) + body

    @classmethod
    def read(cls, reader: Reader) -> Attributes:
        flags = reader.u32()
        size = reader.u64() if flags & HAS_SIZE else None
        uid, gid = (reader.u32(), reader.u32()) if flags & HAS_OWNER else (None, None)
        mode = reader.u32() if flags & HAS_MODE else None
        atime, mtime = (reader.u32(), reader.u32()) if flags & HAS_TIMES else (None, None)
        if flags & HAS_MORE:
            for _ in range(reader.u32()):
                reader.string(), reader.string()
        return cls(size, uid, gid, mode, atime, mtime)


@dataclass(frozen=True)
class Entry:
    """A file of a folder."""

    name: str
    attributes: Attributes


def path_of(path: str) -> bytes:
    return wire.string(os.fsencode(path))


def flags_of(mode: str) -> int:
    """The flags for a mode of `open`: rb, wb, ab, xb, each with + too."""
    flags = {"r": FLAG_READ, "w": FLAG_WRITE | FLAG_CREATE | FLAG_TRUNCATE, "a": FLAG_WRITE | FLAG_CREATE | FLAG_APPEND,
             "x": FLAG_WRITE | FLAG_CREATE | FLAG_EXCLUSIVE}
    letters = sorted(mode)
    if "b" not in letters or letters.count("b") + letters.count("+") != len(mode) - 1 or not set(mode) & set(flags):
        raise Misuse(f"{mode!r} isn't rb, wb, ab or xb, each with + or without")
    return next(flags[it] for it in mode if it in flags) | (FLAG_READ | FLAG_WRITE if "+" in mode else 0)


class Protocol:
    """Requests and their answers. One call at a time: `gate` sees to it."""

    def __init__(self, channel: Channel, gate: Any, timeout: Optional[float]) -> None:
        self.channel, self.gate, self.timeout = channel, gate, timeout
        self.extensions: Dict[str, bytes] = {}
        self._next = 0
        self._came, self._unsent = bytearray(), b""
        self._awaited: Set[int] = set()

    # ---- packets

    async def _flush(self, data: bytes) -> None:
        """Sends all; what an earlier call left in the middle of a packet goes first."""
        from .channels import Writing

        writing = Writing(self.channel, self._unsent + data)
        self._unsent = b""
        try:
            await self.channel.engine.until(writing.attempt, deadline_in(self.timeout))
        finally:
            self._unsent = writing.data[writing.done :]

    async def _packet(self) -> Reader:
        """The next packet, behind its length."""
        came = self._came
        while True:
            if len(came) >= 4:
                size = int.from_bytes(came[:4], "big")
                if not 1 <= size <= LONGEST:
                    raise ProtocolError(f"a packet of SFTP with {size} bytes")
                if len(came) >= 4 + size:
                    packet = bytes(came[4 : 4 + size])
                    del came[: 4 + size]
                    return Reader(packet)
            more = await self.channel.read(OUT, 1 << 18, deadline_in(self.timeout))
            if not more:
                raise errors.ConnectionLost("the SFTP server ended")
            came += more

    def _request(self, kind: int, body: bytes) -> Tuple[int, bytes]:
        self._next = (self._next + 1) & 0xFFFFFFFF
        self._awaited.add(self._next)
        return self._next, wire.u32(5 + len(body)) + wire.u8(kind) + wire.u32(self._next) + body

    async def _answer(self, mine: Any) -> Tuple[int, int, Reader]:
        """The next answer to one of these requests: its request, its kind, its fields."""
        while True:
            reader = await self._packet()
            try:
                kind, number = reader.u8(), reader.u32()
            except WireError as why:
                raise ProtocolError(f"a broken packet of SFTP: {why}") from None
            if number not in self._awaited:
                raise ProtocolError("an answer of SFTP that nothing asked for")
            self._awaited.discard(number)
            if number in mine:
                return number, kind, reader

    async def _ask(self, kind: int, body: bytes) -> Tuple[int, Reader]:
        number, packet = self._request(kind, body)
        await self._flush(packet)
        _, came, reader = await self._answer((number,))
        return came, reader

    async def begin(self) -> None:
        async with self.gate:
            await self._flush(wire.u32(5) + wire.u8(INIT) + wire.u32(3))
            reader = await self._packet()
            try:
                if reader.u8() != VERSION or reader.u32() != 3:
                    raise ProtocolError("the server speaks another SFTP")
                while reader.left:
                    name, value = reader.string(), reader.string()
                    self.extensions[name.decode("utf-8", "replace")] = value
            except WireError as why:
                raise ProtocolError(f"a broken packet of SFTP: {why}") from None

    # ---- answers

    @staticmethod
    def _status(reader: Reader) -> Tuple[int, str]:
        status = reader.u32()
        words = reader.string().decode("utf-8", "replace") if reader.left else ""
        return status, "".join(it if it.isprintable() else "?" for it in words)

    def _want(self, path: str, wanted: int, came: int, reader: Reader) -> Reader:
        if came == wanted:
            return reader
        if came != STATUS:
            raise ProtocolError(f"an answer {came} of SFTP, and not {wanted}")
        status, words = self._status(reader)
        if status == FileStatus.OK:
            raise ProtocolError("an answer of SFTP without what was asked for")
        raise errors.of_file(path, status, words)

    async def call(self, path: str, wanted: int, kind: int, body: bytes) -> Reader:
        """Asks, and reads the answer of the wanted kind. Within the gate."""
        came, reader = await self._ask(kind, body)
        try:
            if wanted != STATUS:
                return self._want(path, wanted, came, reader)
            if came != STATUS:
                raise ProtocolError(f"an answer {came} of SFTP, and not a status")
            status, words = self._status(reader)
        except WireError as why:
            raise ProtocolError(f"a broken packet of SFTP: {why}") from None
        if status != FileStatus.OK:
            raise errors.of_file(path, status, words)
        return reader

    async def do(self, path: str, kind: int, body: bytes) -> None:
        async with self.gate:
            await self.call(path, STATUS, kind, body)

    async def attributes(self, path: str, kind: int, body: bytes) -> Attributes:
        async with self.gate:
            return await self._attributes(path, kind, body)

    async def _attributes(self, path: str, kind: int, body: bytes) -> Attributes:
        reader = await self.call(path, ATTRS, kind, body)
        try:
            return Attributes.read(reader)
        except WireError as why:
            raise ProtocolError(f"a broken packet of SFTP: {why}") from None

    async def name(self, path: str, kind: int) -> str:
        """The one name of an answer."""
        async with self.gate:
            reader = await self.call(path, NAME, kind, path_of(path))
            try:
                if reader.u32() != 1:
                    raise ProtocolError("an answer of SFTP with another count of names")
                return os.fsdecode(reader.string())
            except WireError as why:
                raise ProtocolError(f"a broken packet of SFTP: {why}") from None

    async def open(self, path: str, flags: int, attributes: Attributes = Attributes()) -> bytes:
        async with self.gate:
            return await self._handle(path, OPEN, path_of(path) + wire.u32(flags) + attributes.encode())

    async def _handle(self, path: str, kind: int, body: bytes) -> bytes:
        reader = await self.call(path, HANDLE, kind, body)
        try:
            return reader.string()
        except WireError as why:
            raise ProtocolError(f"a broken packet of SFTP: {why}") from None

    async def close(self, path: str, handle: bytes) -> None:
        await self.do(path, CLOSE, wire.string(handle))

    # ---- folders

    async def entries(self, path: str) -> List[Entry]:
        async with self.gate:
            handle = await self._handle(path, OPENDIR, path_of(path))
            found: List[Entry] = []
            while await self._some_entries(path, handle, found):
                pass
            await self.call(path, STATUS, CLOSE, wire.string(handle))
            return [it for it in found if it.name not in (".", "..")]

    async def _some_entries(self, path: str, handle: bytes, found: List[Entry]) -> bool:
        came, reader = await self._ask(READDIR, wire.string(handle))
        try:
            if came == STATUS:
                status, words = self._status(reader)
                if status == FileStatus.EOF:
                    return False
                raise errors.of_file(path, status, words)
            for _ in range(self._want(path, NAME, came, reader).u32()):
                name = os.fsdecode(reader.string())
                reader.string()
                if not name or "/" in name or "\0" in name:
                    raise ProtocolError("the server lists a name that no file has")
                found.append(Entry(name, Attributes.read(reader)))
        except WireError as why:
            raise ProtocolError(f"a broken packet of SFTP: {why}") from None
        return True

    # ---- bytes, by many requests at once

    async def fetch(self, path: str, handle: bytes, start: int, stop: Optional[int], hint: int, put: Callable[[int, bytes], None]) -> int:
        """Hands over the bytes from `start` up to `stop` or the end, each part with its place, in any order; returns where
        they end. Up to `hint` many requests are made at once, behind it one."""
        async with self.gate:
            waiting: Dict[int, Tuple[int, int]] = {}
            at, end, failure = start, stop, None
            while True:
                packets = []
                while (end is None or at < end) and failure is None and len(waiting) < (DEPTH if at < hint else 1):
                    size = CHUNK if end is None else min(CHUNK, end - at)
                    number, packet = self._request(READ, wire.string(handle) + wire.u64(at) + wire.u32(size))
                    waiting[number] = (at, size)
                    packets.append(packet)
                    at += size
                if packets:
                    await self._flush(b"".join(packets))
                if not waiting:
                    break
                number, kind, reader = await self._answer(waiting)
                place, size = waiting.pop(number)
                try:
                    data, failed = self._data(path, kind, reader)
                except WireError as why:
                    raise ProtocolError(f"a broken packet of SFTP: {why}") from None
                if failed is not None:
                    failure = failure or failed
                elif len(data) > size:
                    raise ProtocolError("more bytes of a file than were asked for")
                elif not data:
                    end = place if end is None else min(end, place)
                else:
                    put(place, data)
                    if len(data) < size:
                        place, size = place + len(data), size - len(data)
                        number, packet = self._request(READ, wire.string(handle) + wire.u64(place) + wire.u32(size))
                        waiting[number] = (place, size)
                        await self._flush(packet)
            if failure is not None:
                raise failure
            return at if end is None else end

    def _data(self, path: str, kind: int, reader: Reader) -> Tuple[bytes, Optional[errors.SFTPError]]:
        """Bytes, none at the end, or why there are none."""
        if kind == STATUS:
            status, words = self._status(reader)
            return b"", None if status == FileStatus.EOF else errors.of_file(path, status, words)
        data = self._want(path, DATA, kind, reader).string()
        if not data:
            raise ProtocolError("an answer of SFTP without bytes")
        return data, None

    async def store(self, path: str, handle: bytes, start: int, take: Callable[[int], bytes]) -> int:
        """Writes what `take` gives, up to its end, from `start` on; returns where it ends."""
        async with self.gate:
            waiting: Set[int] = set()
            at, is_over, failure = start, False, None
            while True:
                packets = []
                while not is_over and failure is None and len(waiting) < DEPTH:
                    data = take(CHUNK)
                    if not data:
                        is_over = True
                        break
                    number, packet = self._request(WRITE, wire.string(handle) + wire.u64(at) + wire.string(data))
                    waiting.add(number)
                    packets.append(packet)
                    at += len(data)
                if packets:
                    await self._flush(b"".join(packets))
                if not waiting:
                    break
                number, kind, reader = await self._answer(waiting)
                waiting.discard(number)
                try:
                    if kind != STATUS:
                        raise ProtocolError(f"an answer {kind} of SFTP, and not a status")
                    status, words = self._status(reader)
                except WireError as why:
                    raise ProtocolError(f"a broken packet of SFTP: {why}") from None
                if status != FileStatus.OK and failure is None:
                    failure = errors.of_file(path, status, words)
            if failure is not None:
                raise failure
            return at

    # ---- whole files

    async def get(self, remote: str, put: Callable[[int, bytes], None]) -> int:
        handle = await self.open(remote, FLAG_READ)
        try:
            size = (await self.attributes(remote, FSTAT, wire.string(handle))).size or 0
            return await self.fetch(remote, handle, 0, None, size, put)
        finally:
            await self.close(remote, handle)

    async def put(self, remote: str, take: Callable[[int], bytes], mode: Optional[int]) -> int:
        attributes = Attributes() if mode is None else Attributes(mode=mode)
        handle = await self.open(remote, FLAG_WRITE | FLAG_CREATE | FLAG_TRUNCATE, attributes)
        try:
            return await self.store(remote, handle, 0, take)
        finally:
            await self.close(remote, handle)
