"""Reads and writes the parts of which packets, events and records are made (RFC 4251, section 5)."""
from __future__ import annotations


class WireError(ValueError):
    """The bytes end inside a part, or a text isn't UTF-8."""


class Reader:
    """Reads parts from the front of some bytes. A part that can't be read leaves the reader where it was."""

    def __init__(self, data: bytes) -> None:
        self.data = data
        self.at = 0

    @property
    def left(self) -> int:
        """How many bytes are unread."""
        return len(self.data) - self.at

    def take(self, size: int) -> bytes:
        """The next bytes, so many of them."""
        if size > self.left:
            raise WireError("the bytes end inside a part")
        start, self.at = self.at, self.at + size
        return self.data[start : self.at]

    def number(self, size: int) -> int:
        """A number of so many bytes, the most significant one first."""
        return int.from_bytes(self.take(size), "big")

    def u8(self) -> int:
        return self.number(1)

    def u32(self) -> int:
        return self.number(4)

    def u64(self) -> int:
        return self.number(8)

    def boolean(self) -> bool:
        """A boolean: each byte but 0 is true."""
        return self.u8() != 0

    def string(self) -> bytes:
        """A string: a length of four bytes, and that many bytes."""
        start = self.at
        try:
            return self.take(self.u32())
        except WireError:
            self.at = start
            raise

    def text(self) -> str:
        """A string that is UTF-8."""
        start = self.at
        try:
            return self.string().decode("utf-8")
        except UnicodeDecodeError:
            self.at = start
            raise WireError("a text isn't UTF-8") from None

    def peek(self) -> bytes:
        """The unread bytes, which stay unread."""
        return self.data[self.at :]

    def rest(self) -> bytes:
        """The unread bytes, all of which count as read from then on."""
        return self.take(self.left)

    def end(self) -> None:
        """Refuses bytes that are left over."""
        if self.left:
            raise WireError("bytes are left over")


def number(value: int, size: int) -> bytes:
    """A number of so many bytes; one that needs more is a ValueError."""
    try:
        return int(value).to_bytes(size, "big")
    except OverflowError:
        raise ValueError(f"{value} is no number of {size} bytes") from None


def u8(value: int) -> bytes:
    return number(value, 1)


def u32(value: int) -> bytes:
    return number(value, 4)


def u64(value: int) -> bytes:
    return number(value, 8)


def boolean(value: bool) -> bytes:
    return b"\1" if value else b"\0"


def string(value: bytes) -> bytes:
    return u32(len(value)) + value


def text(value: str) -> bytes:
    return string(value.encode("utf-8"))
