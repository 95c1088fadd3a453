"""Files of a server, for callers that block (see client.py): `with c.sftp() as files: files.get("a", "b")`."""
from __future__ import annotations

import io
import os
import threading
from typing import TYPE_CHECKING, Any, BinaryIO, List, Optional, Union, cast

from . import files, wire
from .client import _Closing
from .engine import sync
from .errors import Misuse
from .files import Attributes, Entry, Protocol, path_of

if TYPE_CHECKING:
    from .client import Channel

LocalPath = Union[str, "os.PathLike[str]"]


class _Gate:
    """One thread at a time."""

    def __init__(self) -> None:
        self._lock = threading.Lock()

    async def __aenter__(self) -> None:
        self._lock.acquire()

    async def __aexit__(self, *_: object) -> None:
        self._lock.release()


class SFTP(_Closing):
    """The files of a server. A path that doesn't begin with / is one of the user's folder."""

    def __init__(self, channel: Channel, protocol: Protocol) -> None:
        self._channel, self._protocol = channel, protocol

    @classmethod
    def _begin(cls, channel: Channel, timeout: Optional[float]) -> SFTP:
        protocol = Protocol(channel._inner, _Gate(), timeout)
        try:
            sync(protocol.begin())
        except BaseException:
            channel.close()
            raise
        protocol.timeout = None
        return cls(channel, protocol)

    def __enter__(self) -> SFTP:
        return self

    def close(self) -> None:
        self._channel.close()

    @property
    def timeout(self) -> Optional[float]:
        """The seconds for each answer of the server's; None, as at first: no limit."""
        return self._protocol.timeout

    @timeout.setter
    def timeout(self, seconds: Optional[float]) -> None:
        self._protocol.timeout = seconds

    # ---- folders and names

    def listdir(self, path: str = ".") -> List[str]:
        return [it.name for it in self.scandir(path)]

    def scandir(self, path: str = ".") -> List[Entry]:
        return sync(self._protocol.entries(path))

    def mkdir(self, path: str, mode: int = 0o777) -> None:
        sync(self._protocol.do(path, files.MKDIR, path_of(path) + Attributes(mode=mode).encode()))

    def rmdir(self, path: str) -> None:
        sync(self._protocol.do(path, files.RMDIR, path_of(path)))

    def remove(self, path: str) -> None:
        sync(self._protocol.do(path, files.REMOVE, path_of(path)))

    def rename(self, old: str, new: str) -> None:
        """SFTPError where the new name is there."""
        sync(self._protocol.do(old, files.RENAME, path_of(old) + path_of(new)))

    def replace(self, old: str, new: str) -> None:
        """Renames, also over a file that is there (OpenSSH's extension posix-rename)."""
        sync(self._protocol.do(old, files.EXTENDED, wire.string(b"posix-rename@openssh.com") + path_of(old) + path_of(new)))

    def realpath(self, path: str = ".") -> str:
        return sync(self._protocol.name(path, files.REALPATH))

    def readlink(self, path: str) -> str:
        return sync(self._protocol.name(path, files.READLINK))

    # ---- attributes

    def stat(self, path: str) -> Attributes:
        return sync(self._protocol.attributes(path, files.STAT, path_of(path)))

    def lstat(self, path: str) -> Attributes:
        """Of a symbolic link itself."""
        return sync(self._protocol.attributes(path, files.LSTAT, path_of(path)))

    def setstat(self, path: str, attributes: Attributes) -> None:
        """Sets those that aren't None."""
        sync(self._protocol.do(path, files.SETSTAT, path_of(path) + attributes.encode()))

    # ---- bytes

    def open(self, path: str, mode: str = "rb", buffering: int = 1 << 18) -> BinaryIO:
        """A binary file; `mode` is rb, wb, ab or xb, each with + too."""
        raw = SFTPFile(self._protocol, path, sync(self._protocol.open(path, files.flags_of(mode))), mode)
        if buffering == 0:
            return cast(BinaryIO, raw)
        if "+" in mode:
            return io.BufferedRandom(raw, buffering)
        return io.BufferedReader(raw, buffering) if "r" in mode else io.BufferedWriter(raw, buffering)

    def get(self, remote: str, local: LocalPath) -> int:
        """Copies a file from the server; its size."""
        with open(local, "wb") as file:

            def put(place: int, data: bytes) -> None:
                file.seek(place)
                file.write(data)

            size = sync(self._protocol.get(remote, put))
            file.truncate(size)
            return size

    def put(self, local: LocalPath, remote: str, mode: Optional[int] = None) -> int:
        """Copies a file to the server; its size."""
        with open(local, "rb") as file:
            return sync(self._protocol.put(remote, file.read, mode))


class SFTPFile(io.RawIOBase):
    """A file of the server's, without a buffer."""

    def __init__(self, protocol: Protocol, path: str, handle: bytes, mode: str) -> None:
        self._protocol, self._path, self._handle, self._mode = protocol, path, handle, mode
        self._place = 0
        self.name = path

    def _check(self) -> None:
        if self.closed:
            raise ValueError("I/O operation on closed file")

    def readable(self) -> bool:
        return "r" in self._mode or "+" in self._mode

    def writable(self) -> bool:
        return "r" not in self._mode or "+" in self._mode

    def seekable(self) -> bool:
        return True

    def readinto(self, to: Any) -> int:
        self._check()
        start, view = self._place, memoryview(to)

        def put(place: int, data: bytes) -> None:
            view[place - start : place - start + len(data)] = data

        stop = start + len(view)
        self._place = sync(self._protocol.fetch(self._path, self._handle, start, stop, stop, put))
        return self._place - start

    def write(self, data: Any) -> int:
        self._check()
        reader = io.BytesIO(data)
        start = self._place
        self._place = sync(self._protocol.store(self._path, self._handle, start, reader.read))
        return self._place - start

    def stat(self) -> Attributes:
        self._check()
        return sync(self._protocol.attributes(self._path, files.FSTAT, wire.string(self._handle)))

    def seek(self, offset: int, whence: int = io.SEEK_SET) -> int:
        self._check()
        base = {io.SEEK_SET: 0, io.SEEK_CUR: self._place}.get(whence)
        if base is None:
            base = self.stat().size or 0
        if base + offset < 0:
            raise Misuse("a place before the file")
        self._place = base + offset
        return self._place

    def tell(self) -> int:
        return self._place

    def truncate(self, size: Optional[int] = None) -> int:
        self._check()
        size = self._place if size is None else size
        sync(self._protocol.do(self._path, files.FSETSTAT, wire.string(self._handle) + Attributes(size=size).encode()))
        return size

    def close(self) -> None:
        if not self.closed:
            super().close()
            if not self._protocol.channel.is_freed:
                sync(self._protocol.close(self._path, self._handle))

    def __del__(self) -> None:
        """The garbage collector asks nothing of the server."""
