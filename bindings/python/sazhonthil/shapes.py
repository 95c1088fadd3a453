"""What a field is on the wire: how it is read, written and shown, each said once for events, records and packets."""
from __future__ import annotations

import dataclasses
import functools
from typing import Any, Callable, ClassVar, Dict, Generic, List, Optional, Sequence, Tuple, Type, TypeVar

from . import keys, wire
from .enums import LoginMethod, Named
from .wire import Reader, WireError
from .words import Line

T = TypeVar("T")
F = TypeVar("F", bound="Fields")


class Shape(Generic[T]):
    """A kind of field. `wire` is its name in docs/FORMATS.md, `least` the fewest bytes that it takes.

    Of a hidden one no line and no repr has the value."""

    wire = ""
    least = 0
    is_hidden = False

    def read(self, reader: Reader) -> T:
        raise NotImplementedError

    def write(self, value: T) -> bytes:
        raise NotImplementedError

    def show(self, line: Line, word: str, value: T) -> None:
        raise NotImplementedError

    def show_next(self, line: Line, word: str, reader: Reader) -> None:
        """Reads and shows the field; of one that ends early, what can be read is shown."""
        self.show(line, word, self.read(reader))


class Part(Shape[T]):
    """A field that is one part of the wire."""

    def __init__(
        self,
        wire_name: str,
        least: int,
        read: Callable[[Reader], T],
        write: Callable[[T], bytes],
        show: Callable[[Line, str, T], None],
        is_hidden: bool = False,
    ) -> None:
        self.wire, self.least, self.is_hidden = wire_name, least, is_hidden
        self._read, self._write, self._show = read, write, show

    def read(self, reader: Reader) -> T:
        return self._read(reader)

    def write(self, value: T) -> bytes:
        return self._write(value)

    def show(self, line: Line, word: str, value: T) -> None:
        self._show(line, word, value)


U8: Shape[int] = Part("u8", 1, Reader.u8, wire.u8, Line.number)
U32: Shape[int] = Part("u32", 4, Reader.u32, wire.u32, Line.number)
FLAG: Shape[bool] = Part("bool", 1, Reader.boolean, wire.boolean, Line.flag)
TEXT: Shape[str] = Part("text", 4, Reader.text, wire.text, Line.text)
# A text, such as a password, of which only the size is shown.
HIDDEN_TEXT: Shape[str] = Part("text", 4, Reader.text, wire.text, lambda line, word, value: line.size(word, value.encode()), True)
BYTES: Shape[bytes] = Part("str", 4, Reader.string, wire.string, Line.data)
# A string of which only the size is shown.
HIDDEN: Shape[bytes] = Part("str", 4, Reader.string, wire.string, Line.size, True)
# A string of which only the algorithm at its front and the size are shown.
BLOB: Shape[bytes] = Part("str", 4, Reader.string, wire.string, Line.blob)
# All bytes up to the end.
REST: Shape[bytes] = Part("the bytes", 0, Reader.rest, bytes, Line.data)
HIDDEN_REST: Shape[bytes] = Part("the bytes", 0, Reader.rest, bytes, Line.size, True)


class Checked(Shape[bytes]):
    """A blob that has to be valid, whole: a key, a certificate or a pair."""

    least = 4

    def __init__(self, wire_name: str, check: Callable[[bytes], None], is_hidden: bool = False) -> None:
        self.wire, self._check, self.is_hidden = wire_name, check, is_hidden

    def read(self, reader: Reader) -> bytes:
        blob = reader.string()
        self._check(blob)
        return blob

    def write(self, value: bytes) -> bytes:
        return wire.string(value)

    def show(self, line: Line, word: str, value: bytes) -> None:
        line.blob(word, value)


KEY = Checked("key", keys.check_key)
CERTIFICATE = Checked("cert", keys.check_certificate)
PAIR = Checked("pair", keys.check_pair, is_hidden=True)


class Among(Shape[Named]):
    """A number of one or four bytes that has to be one of an enumeration, shown by its name."""

    def __init__(self, names: Type[Named], size: int, words: Sequence[str] = (), wire_name: str = "") -> None:
        self.names, self.least, self.words = names, size, words
        self.wire = wire_name or f"u{8 * size}"

    def read(self, reader: Reader) -> Named:
        value = reader.number(self.least)
        try:
            return self.names(value)
        except ValueError:
            raise WireError(f"{value} is no {self.names.__name__}") from None

    def write(self, value: Named) -> bytes:
        return wire.number(self.names(value), self.least)

    def show(self, line: Line, word: str, value: Named) -> None:
        line.word(word)
        line.word(self.words[value] if self.words else self.names(value).word)


class Reason(Part[int]):
    """A number that is shown by its name where it has one: a packet may have any."""

    def __init__(self, names: Type[Named]) -> None:
        def show(line: Line, word: str, value: int) -> None:
            try:
                name = names(value).word
            except ValueError:
                name = str(value)
            line.word(word)
            line.word(name)

        super().__init__("u32", 4, Reader.u32, wire.u32, show)


class HiddenIfAny(Part[bytes]):
    """A string of which only the size is shown, in a packet that may end before it."""

    def __init__(self) -> None:
        super().__init__("str", 0, Reader.string, wire.string, Line.size)

    def show_next(self, line: Line, word: str, reader: Reader) -> None:
        if reader.left:
            super().show_next(line, word, reader)


HIDDEN_IF_ANY = HiddenIfAny()


class Empty(Part[bytes]):
    """A string that has to be empty."""

    def __init__(self) -> None:
        super().__init__("str", 4, Reader.string, wire.string, Line.blob)

    def read(self, reader: Reader) -> bytes:
        value = super().read(reader)
        if value:
            raise WireError("a string that has to be empty has bytes")
        return value


class Token(Shape[Optional[bytes]]):
    """A token of which only the size is shown; an empty string is none."""

    wire, least, is_hidden = "str", 4, True

    def read(self, reader: Reader) -> Optional[bytes]:
        return reader.string() or None

    def write(self, value: Optional[bytes]) -> bytes:
        return wire.string(value or b"")

    def show(self, line: Line, word: str, value: Optional[bytes]) -> None:
        line.size(word, value or b"")


class Secret(Shape[Optional[bytes]]):
    """Whether a secret is present, and the secret; where none is, its string is empty."""

    wire, least, is_hidden = "bool, str", 5, True

    def read(self, reader: Reader) -> Optional[bytes]:
        is_present, value = reader.boolean(), reader.string()
        if value and not is_present:
            raise WireError("an absent secret has bytes")
        return value if is_present else None

    def write(self, value: Optional[bytes]) -> bytes:
        return wire.boolean(value is not None) + wire.string(value or b"")

    def show(self, line: Line, word: str, value: Optional[bytes]) -> None:
        line.flag(f"{word}-present", value is not None)
        line.size(word, value or b"")


class Packet(Part[bytes]):
    """A packet of the peer, up to the end; those numbered 20 to 49 are the transport's own (RFC 4250, section 4.1.2).

    It may hold a password, and so it is hidden; packets.py shows it."""

    def __init__(self) -> None:
        super().__init__("the packet", 0, Reader.rest, bytes, Line.size, True)

    def read(self, reader: Reader) -> bytes:
        packet = super().read(reader)
        if packet and 20 <= packet[0] <= 49:
            raise WireError("a packet of the transport's own")
        return packet


class Frame(Part[bytes]):
    """A frame of an agent, of which the message's number is shown, and the size."""

    def __init__(self) -> None:
        super().__init__("str", 4, Reader.string, wire.string, Line.size, True)

    def show(self, line: Line, word: str, value: bytes) -> None:
        if len(value) > 4:
            line.number("message", value[4])
        line.size(word, value)


class Names(Shape[Tuple[str, ...]]):
    """A list of names, parted by commas (RFC 4251, section 5). Empty names are left out."""

    wire, least = "list", 4

    def read(self, reader: Reader) -> Tuple[str, ...]:
        return tuple(name for name in reader.text().split(",") if name)

    def write(self, value: Tuple[str, ...]) -> bytes:
        return wire.text(",".join(value))

    def show(self, line: Line, word: str, value: Tuple[str, ...]) -> None:
        for name in value:
            line.text(word, name)


class Methods(Shape[Tuple[LoginMethod, ...]]):
    """A list of methods of authentication, none of them twice (RFC 4252, section 5.1)."""

    wire, least = "list", 4

    def read(self, reader: Reader) -> Tuple[LoginMethod, ...]:
        names = [name for name in reader.text().split(",") if name]
        try:
            methods = tuple(map(LoginMethod, names))
        except ValueError:
            raise WireError("not the name of a method") from None
        if len(set(methods)) < len(methods):
            raise WireError("a method occurs twice")
        return methods

    def write(self, value: Tuple[LoginMethod, ...]) -> bytes:
        return wire.text(",".join(LoginMethod(method).value for method in value))

    def show(self, line: Line, word: str, value: Tuple[LoginMethod, ...]) -> None:
        line.word(word)
        for method in value:
            line.word(LoginMethod(method).value)


class ListOf(Shape[Tuple[Any, ...]]):
    """A number, and so many elements. `word` is what each is shown with (by default the list's own word); the number is shown
    where `is_counted` says so."""

    least = 4

    def __init__(self, element: Shape[Any], word: Optional[str] = None, is_counted: bool = False) -> None:
        self.element, self.word, self.is_counted = element, word, is_counted
        self.wire, self.is_hidden = f"u32, {element.wire}*", element.is_hidden

    def read(self, reader: Reader) -> Tuple[Any, ...]:
        count = reader.u32()
        if count * self.element.least > reader.left:
            raise WireError("more elements than the bytes can hold")
        return tuple(self.element.read(reader) for _ in range(count))

    def write(self, value: Sequence[Any]) -> bytes:
        return wire.u32(len(value)) + b"".join(map(self.element.write, value))

    def _show_count(self, line: Line, word: str, count: int) -> str:
        if self.is_counted:
            line.number(word, count)
        return word if self.word is None else self.word

    def show(self, line: Line, word: str, value: Sequence[Any]) -> None:
        word = self._show_count(line, word, len(value))
        for element in value:
            self.element.show(line, word, element)

    def show_next(self, line: Line, word: str, reader: Reader) -> None:
        count = reader.u32()
        word = self._show_count(line, word, count)
        for _ in range(count):
            self.element.show_next(line, word, reader)


class ToEnd(Part[Any]):
    """Elements up to the end of a packet."""

    def __init__(self, element: Shape[Any]) -> None:
        super().__init__(f"{element.wire}*", 0, Reader.rest, bytes, Line.size)
        self.element = element

    def show_next(self, line: Line, word: str, reader: Reader) -> None:
        while reader.left:
            self.element.show_next(line, word, reader)


# A number, and so many strings, or texts, of which only the sizes are shown.
ALL_HIDDEN = ListOf(HIDDEN, "one", is_counted=True)
ALL_HIDDEN_TEXTS = ListOf(HIDDEN_TEXT, "one", is_counted=True)


# ---- dataclasses whose fields have shapes


def part(shape: Shape[Any], word: Optional[str] = None, default: Any = dataclasses.MISSING) -> Any:
    """A field of a dataclass, with its shape and the word before it in lines (by default its name)."""
    return dataclasses.field(default=default, repr=not shape.is_hidden, metadata={"shape": shape, "word": word})


class Fields:
    """A dataclass that is read, written and shown field by field, in the order in which they are declared."""

    @classmethod
    @functools.lru_cache(maxsize=None)
    def parts(cls) -> List[Tuple[str, str, Shape[Any]]]:
        """The name, the word and the shape of each field."""
        found = []
        for field in dataclasses.fields(cls):
            word = field.metadata["word"]
            found.append((field.name, field.name.replace("_", "-") if word is None else word, field.metadata["shape"]))
        return found

    @classmethod
    def read(cls: Type[F], reader: Reader) -> F:
        """Reads the fields from the front of the reader's bytes."""
        return cls(*[shape.read(reader) for _, _, shape in cls.parts()])

    def write(self) -> bytes:
        """The bytes of the fields."""
        return b"".join(shape.write(getattr(self, name)) for name, _, shape in self.parts())

    def show(self, line: Line) -> None:
        """Adds a word and a value for each field."""
        for name, word, shape in self.parts():
            shape.show(line, word, getattr(self, name))


class Struct(Shape[F]):
    """The fields of a dataclass, one after another."""

    def __init__(self, fields: Type[F]) -> None:
        self.fields = fields
        shapes = [shape for _, _, shape in fields.parts()]
        self.wire, self.least = " and ".join(shape.wire for shape in shapes), sum(shape.least for shape in shapes)

    def read(self, reader: Reader) -> F:
        return self.fields.read(reader)

    def write(self, value: F) -> bytes:
        return value.write()

    def show(self, line: Line, word: str, value: F) -> None:
        value.show(line)

    def show_next(self, line: Line, word: str, reader: Reader) -> None:
        for _, name, shape in self.fields.parts():
            shape.show_next(line, name, reader)


class Variant(Fields):
    """One of a family of dataclasses, of which each has a number on the wire and a name in lines.

    A direct subclass begins a family; the classes below it name themselves by `number` and `name`."""

    NUMBER: ClassVar[int]
    NAME: ClassVar[str]
    FAMILY: ClassVar[Dict[int, Type[Any]]]

    def __init_subclass__(cls, number: Optional[int] = None, name: str = "", **rest: Any) -> None:
        super().__init_subclass__(**rest)
        if Variant in cls.__bases__:
            cls.FAMILY = {}
        elif number is not None:
            if number in cls.FAMILY:
                raise TypeError(f"{cls.FAMILY[number].__name__} has the number {number}")
            cls.NUMBER, cls.NAME = number, name
            cls.FAMILY[number] = cls


class OneOf(Shape[Variant]):
    """A number of one byte, and the fields of the variant that has it."""

    least = 1

    def __init__(self, family: Type[Variant], wire_name: str = "u8") -> None:
        self.family, self.wire = family, wire_name

    def read(self, reader: Reader) -> Variant:
        number = reader.u8()
        if number not in self.family.FAMILY:
            raise WireError(f"{number} is no {self.family.__name__}")
        kind: Type[Variant] = self.family.FAMILY[number]
        return kind.read(reader)

    def write(self, value: Variant) -> bytes:
        return wire.u8(value.NUMBER) + value.write()

    def show(self, line: Line, word: str, value: Variant) -> None:
        line.word(word)
        line.word(value.NAME)
        value.show(line)


# ---- elements of lists


@dataclasses.dataclass(frozen=True)
class Prompt(Fields):
    """A question to the user, and whether the answer may be shown as it is typed (RFC 4256, section 3.2)."""

    prompt: str = part(TEXT)
    echo: bool = part(FLAG)


@dataclasses.dataclass(frozen=True)
class Mode(Fields):
    """A mode of a terminal by its number, and its value (RFC 4254, section 8)."""

    mode: int = part(U8)
    value: int = part(U32)


@dataclasses.dataclass(frozen=True)
class Extension(Fields):
    """An extension of the server's (RFC 8308, section 2.3)."""

    extension: str = part(TEXT)
    value: bytes = part(BYTES)


PROMPTS = ListOf(Struct(Prompt))
MODES = ListOf(Struct(Mode))
EXTENSIONS = ListOf(Struct(Extension))
