"""docs/FORMATS.md and the tables of this package name the same numbers, with fields of the same types."""
from __future__ import annotations

import re
import unittest
from typing import Dict, List, Tuple

from sazhonthil import events as e
from sazhonthil import records as r
from sazhonthil.enums import AgentFault, AgentRequest, HashAlgorithm, HostKeysFault
from sazhonthil.shapes import Fields

from .samples import FORMATS

TEXT = FORMATS.read_text(encoding="utf-8")


def section(title: str) -> str:
    return TEXT.split(f"\n## {title}\n")[1].split("\n## ")[0]


def rows(text: str, head: str) -> List[List[str]]:
    """The cells of the table that begins with this cell."""
    lines = text[text.index(f"| {head} |") :].split("\n\n")[0].strip().split("\n")[2:]
    return [[cell.strip() for cell in line.strip("|").split("|")] for line in lines]


def types_of(fields: str) -> List[str]:
    """The types in a row's words: `ticket, text user` is a u32 and a text, and `u32 n, n times text` a list of texts."""
    fields = fields.replace(", all bytes up to the end", "")
    fields = re.sub(r"u32 n, n times (\w+)( \w+)? and (\w+)( \w+)?", r"list-of-\1-and-\3", fields)
    fields = re.sub(r"u32 n, n times (\w+)( \w+)?", r"list-of-\1", fields)
    found = [part.split()[0] for part in re.sub(r"\([^)]*\)", "", fields).split(", ") if part.strip()]
    return [{"none": "", "ticket": "u32", "the": "rest"}.get(name, name) for name in found if name != "none"]


def types_in(fields: type) -> List[str]:
    """The same of a dataclass."""
    assert issubclass(fields, Fields)
    found: List[str] = []
    for _, _, shape in fields.parts():
        wire = re.sub(r"^u32, (.*)\*$", lambda match: "list-of-" + match[1].replace(" ", "-"), shape.wire)
        found += wire.replace("the bytes", "rest").replace("the packet", "rest").split(", ")
    return found


class Events(unittest.TestCase):
    def test_kinds(self) -> None:
        found: Dict[int, Tuple[str, str]] = {}
        for numbers, names, fields in rows(section("Events"), "Kind"):
            kinds = [int(number, 16) for number in numbers.split(", ")]
            for number, name in zip(kinds, re.findall(r"[A-Z][A-Z0-9_]+", names)):
                found[number] = (name, fields)
        wanted = {number: kind.NAME for number, kind in e.Event.FAMILY.items()}
        self.assertEqual({number: name for number, (name, _) in found.items()}, wanted)
        for number, kind in e.Event.FAMILY.items():
            if kind not in (e.Authenticate, e.Channel, e.SignFailed):
                self.assertEqual(types_of(found[number][1].split(";")[0]), types_in(kind), kind.NAME)

    def test_two_kinds_in_a_row(self) -> None:
        """SIGNED and SIGN_FAILED have a row together, with their fields parted by a semicolon."""
        fields = next(row[2] for row in rows(section("Events"), "Kind") if row[0] == "15, 16")
        self.assertEqual([types_of(each) for each in fields.split("; ")], [types_in(e.Signed), types_in(e.SignFailed)])

    def test_methods(self) -> None:
        fields = next(row[2] for row in rows(section("Events"), "Kind") if row[0] == "10")
        head, _, methods = fields.partition(", its fields: ")
        self.assertEqual(types_of(head), types_in(e.Authenticate))
        found = {}
        for method in methods.split("; "):
            number, _, rest = method.partition(" ")
            found[int(number)] = types_of(rest.partition(": ")[2])
        self.assertEqual(found, {number: types_in(kind) for number, kind in e.Method.FAMILY.items()})

    def test_channel_sorts(self) -> None:
        found = {}
        for numbers, _, fields in rows(section("Events"), "Sort"):
            for number in numbers.split(", "):
                found[int(number)] = types_of(fields)
        self.assertEqual(found, {number: types_in(kind) for number, kind in e.ChannelMessage.FAMILY.items()})

    def test_hashes(self) -> None:
        self.assertIn("A `hash` is a u8: 0 none, 1 SHA-256, 2 SHA-512.", TEXT)
        self.assertEqual([(value.value, value.name) for value in HashAlgorithm], [(0, "NONE"), (1, "SHA256"), (2, "SHA512")])

    def test_bounds(self) -> None:
        self.assertIn(f"length of what follows, {e.SHORTEST} to {e.LONGEST}", TEXT)


class Records(unittest.TestCase):
    def test_numbers(self) -> None:
        """In the table each number, or some together, have their types after them."""
        heads = r"((?:[0-9a-f]{2}\b(?: [A-Z]\w+)?(?:, (?=[0-9a-f]{2}\b)| and )?)+)(?:[:,] )?(.*)"
        found = {}
        for _, cell in rows(section("Records"), "Record"):
            for part in re.split(r"; (?=[0-9a-f]{2}\b)", re.sub(r" \([^)]*\)", "", cell)):
                match = re.fullmatch(heads, part)
                assert match, part
                for number in re.findall(r"\b[0-9a-f]{2}\b", match[1]):
                    found[int(number, 16)] = types_of(match[2])
        self.assertEqual(set(found), set(r.Record.FAMILY))
        for number, record in r.Record.FAMILY.items():
            # After the number of a resolution or a type of channel its own fields follow, which have tables of their own.
            wanted = types_in(record)
            got = found[number][: len(wanted)] if record in (r.Resolved, r.ServerOpened) else found[number]
            self.assertEqual(got, wanted, record.__name__)

    def test_resolutions(self) -> None:
        line = re.search(r"^Resolutions: (.*?)\. A bool", section("Records"), re.M)
        assert line
        found = {}
        for part in re.sub(r" \([^)]*\)", "", line[1]).split("; "):
            match = re.fullmatch(r"([0-9a-f]{2}) (\w+)(?:: (.*))?", part)
            assert match, part
            found[int(match[1], 16)] = (match[2], types_of(match[3] or ""))
        wanted = {number: (kind.NAME, types_in(kind)) for number, kind in r.Resolution.FAMILY.items()}
        self.assertEqual(found, wanted)

    def test_server_opens(self) -> None:
        cell = next(cell for name, cell in rows(section("Records"), "Record") if name.startswith("ServerOpened"))
        found = {}
        for part in cell.partition("u8 type: ")[2].split("; "):
            match = re.fullmatch(r"(\d) ([\w-]+) ?(.*)", part)
            assert match, part
            found[int(match[1])] = (match[2].replace("-", ""), types_of(match[3]))
        wanted = {number: (kind.NAME.lower(), types_in(kind)) for number, kind in r.ServerOpen.FAMILY.items()}
        wanted[r.ServerAgentForward.NUMBER] = ("agent", [])
        self.assertEqual(found, wanted)

    def test_enumerations(self) -> None:
        records = section("Records")
        for names in (AgentRequest, AgentFault, HostKeysFault):
            self.assertIn("(" + ", ".join(f"{name.value} {name.word}" for name in names) + ")", records)


if __name__ == "__main__":
    unittest.main()
