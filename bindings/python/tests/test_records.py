"""Records: each is read back from its bytes, and what isn't written so is refused."""
from __future__ import annotations

import unittest

from sazhonthil import records as r

from .samples import LINES, OPENS, RECORDS, RESOLUTIONS, string


class Records(unittest.TestCase):
    def refuses(self, data: bytes) -> None:
        with self.assertRaises(r.NotARecord, msg=data.hex()):
            r.decode(data)

    def test_each_number_has_a_sample(self) -> None:
        for family, samples in ((r.Record, RECORDS), (r.Resolution, RESOLUTIONS), (r.ServerOpen, OPENS)):
            self.assertEqual(set(family.FAMILY), {sample.NUMBER for sample in samples})

    def test_round_trip(self) -> None:
        for record in RECORDS:
            self.assertEqual(r.decode(record.encode()), record)
        self.assertEqual(len({record.encode() for record in RECORDS}), len(RECORDS))

    def test_stored_lines(self) -> None:
        """Those lines of the stored run that are records come back as they were."""
        count = 0
        for line in LINES.read_text().split("\n")[:117]:
            self.assertEqual(r.decode(bytes.fromhex(line)).encode().hex(), line)
            count += 1
        self.assertEqual(count, 117)

    def test_unknown_numbers(self) -> None:
        self.refuses(b"")
        for number in set(range(256)) - set(r.Record.FAMILY):
            self.refuses(bytes([number]))
            self.refuses(bytes([number]) + bytes(40))
        ticket = b"\0\0\0\1"
        for data in (b"\4" + ticket + b"\x0e", b"\x28" + ticket + b"\x08", b"\x41" + ticket + b"\x07", b"\x43" + ticket + b"\0"):
            self.refuses(data)
        self.refuses(b"\x43" + ticket + b"\4")
        self.refuses(b"\4" + ticket + b"\x0b\2")
        for reason in (0, 5):
            self.refuses(b"\4" + ticket + b"\5" + reason.to_bytes(4, "big"))
            self.refuses(b"\x27" + ticket + reason.to_bytes(4, "big") + string(b"") + string(b""))
        self.refuses(b"\5" + ticket + string(b"key") + b"\3" + string(b"body"))

    def test_short_records(self) -> None:
        for record in RECORDS:
            data = record.encode()
            for size in range(1 if isinstance(record, r.Payload) else len(data)):
                self.refuses(data[:size])

    def test_bytes_left_over(self) -> None:
        for record in RECORDS:
            if not isinstance(record, r.Payload):
                self.refuses(record.encode() + b"\0")

    def test_texts_that_are_not_utf8(self) -> None:
        letter = "é".encode()
        for record in RECORDS:
            data = record.encode()
            for at in range(len(data)):
                if data[at : at + 2] == letter:
                    self.refuses(data[:at] + b"\xc3\x28" + data[at + 2 :])

    def test_booleans_are_0_or_1(self) -> None:
        self.refuses(b"\x2b\0\0\0\1\2")
        self.refuses(b"\4\0\0\0\1\1" + string(b"none") + b"\2")
        self.assertEqual(r.decode(b"\x2b\0\0\0\1\1"), r.ChannelXonXoff(1, True))

    def test_lists(self) -> None:
        for methods in (b"none,none", b"none,", b",none", b"foo", b"none,,password", b"None"):
            self.refuses(b"\4\0\0\0\1\1" + string(methods) + b"\0")
        for names in (b"a,", b",a", b",", b"a,,b"):
            self.refuses(b"\4\0\0\0\1\3\1" + string(names))
        self.refuses(b"\x2f\xff\xff\xff\xff")

    def test_secrets_are_not_in_repr(self) -> None:
        for hidden in (r.Payload(b"hunter2"), r.GssapiToken(1, b"hunter2", b"hunter2"), r.AgentAnswer(1, b"hunter2")):
            self.assertNotIn("hunter2", repr(hidden))


if __name__ == "__main__":
    unittest.main()
