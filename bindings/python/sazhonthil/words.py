"""Lines of words. Texts are quoted and escaped, so that a line is one line whatever is in it."""
from __future__ import annotations

import unicodedata

from .wire import Reader, WireError

# How many bytes are shown of a string that may be any bytes.
SHOWN = 64

_ESCAPES = {'"': '\\"', "\\": "\\\\", "\0": "\\0", "\t": "\\t", "\n": "\\n", "\r": "\\r"}

# What extends the character before it and is no combining mark (Other_Grapheme_Extend of the Unicode character database).
_EXTENDING = frozenset(
    map(
        chr,
        (
            0x09BE, 0x09D7, 0x0B3E, 0x0B57, 0x0BBE, 0x0BD7, 0x0CC0, 0x0CC2, 0x0CC7, 0x0CC8, 0x0CCA, 0x0CCB, 0x0CD5, 0x0CD6,
            0x0D3E, 0x0D57, 0x0DCF, 0x0DDF, 0x1715, 0x1734, 0x1B35, 0x1B3B, 0x1B3D, 0x1B43, 0x1B44, 0x1BAA, 0x1BF2, 0x1BF3,
            0x302E, 0x302F, 0xA953, 0xA9C0, 0x111C0, 0x11235, 0x1133E, 0x1134D, 0x11357, 0x114B0, 0x114BD, 0x115AF, 0x116B6,
            0x11930, 0x1193D, 0x11F41, 0x16FF0, 0x16FF1, 0x1D165, 0x1D166, 0x1D16D, 0x1D16E, 0x1D16F, 0x1D170,
            0x1D171, 0x1D172, 0xFF9E, 0xFF9F,
        ),
    )
)


def _escaped(char: str) -> str:
    if char in _ESCAPES:
        return _ESCAPES[char]
    if char.isascii() and char.isprintable():
        return char
    extends = unicodedata.category(char) in ("Mn", "Me") or char in _EXTENDING
    return char if char.isprintable() and not extends else f"\\u{{{ord(char):x}}}"


def quoted(text: str) -> str:
    """The text in quotes. What doesn't print, or changes the character before it, is written as its number."""
    is_plain = text.isascii() and text.isprintable() and '"' not in text and "\\" not in text
    return f'"{text}"' if is_plain else '"' + "".join(map(_escaped, text)) + '"'


def is_printable(name: str) -> bool:
    """Whether the text is made of visible ASCII characters, as names of algorithms are (RFC 4251, section 6)."""
    return name != "" and all("!" <= char <= "~" for char in name)


class Line:
    """A line of words, each with a space before it but the first."""

    def __init__(self) -> None:
        self.words: list[str] = []

    def __str__(self) -> str:
        return " ".join(self.words)

    def word(self, word: str) -> None:
        if word:
            self.words.append(word)

    def number(self, name: str, value: int) -> None:
        self.word(name)
        self.word(str(int(value)))

    def flag(self, name: str, value: bool) -> None:
        self.word(name)
        self.word("yes" if value else "no")

    def text(self, name: str, value: str) -> None:
        self.word(name)
        self.word(quoted(value))

    def size(self, name: str, value: bytes) -> None:
        """How many bytes there are, without the bytes."""
        self.word(name)
        self.word(f"of {len(value)} bytes")

    def data(self, name: str, value: bytes) -> None:
        """How many bytes there are, and the first of them: in quotes where they are a text, else as digits."""
        self.size(name, value)
        shown = value[:SHOWN]
        try:
            self.word(quoted(shown.decode("utf-8")))
        except UnicodeDecodeError:
            self.word(shown.hex())
        if len(value) > SHOWN:
            self.word("..")

    def blob(self, name: str, value: bytes) -> None:
        """A key, certificate or pair: the algorithm with which it begins, and how many bytes it has."""
        self.word(name)
        try:
            algorithm = Reader(value).text()
        except WireError:
            algorithm = ""
        self.size(algorithm if is_printable(algorithm) else "unknown", value)
