"""Events: each is read back from its bytes, and what docs/FORMATS.md refuses is refused."""
from __future__ import annotations

import io
import unittest

from sazhonthil import events as e
from sazhonthil.enums import HashAlgorithm
from sazhonthil.shapes import Variant

from .samples import CERTIFICATE, KEY, LOGINS, MESSAGES, PAIR, RSA, SCRIPT, SIGNAL, TOP, exchange, string

FIRST = e.PeerKexinit().encode(5)

# The kinds whose last field is all bytes up to the end.
OPEN_ENDED = (e.Payload, e.AgentBytes)


def event(kind: int, fields: bytes, moment: int = 5) -> bytes:
    return string(moment.to_bytes(8, "big") + bytes([kind]) + fields)


class Slow(io.BytesIO):
    """A stream that returns a byte a read."""

    def read(self, size: int = -1) -> bytes:  # type: ignore[override]
        return super().read(min(size, 1))


class Events(unittest.TestCase):
    def refuses(self, kind: int, fields: bytes) -> None:
        """The second event is refused, at its place."""
        with self.assertRaises(e.BadEvent, msg=f"kind {kind:02x}, fields {fields.hex()}") as refused:
            e.decode(FIRST + event(kind, fields))
        self.assertEqual(refused.exception.place, len(FIRST))

    def takes(self, kind: int, fields: bytes) -> None:
        self.assertEqual(e.decode(event(kind, fields))[0].event.NUMBER, kind)

    def test_each_kind_has_a_sample(self) -> None:
        host_keys = [sample.host_key for sample in SCRIPT if isinstance(sample, e.ExchangeDone)]
        for family, samples in ((e.Event, SCRIPT), (e.Method, LOGINS), (e.ChannelMessage, MESSAGES), (e.HostKey, host_keys)):
            self.assertEqual(set(family.FAMILY), {sample.NUMBER for sample in samples})
        self.assertEqual({kind.value for kind in e.EventKind}, set(e.Event.FAMILY))
        self.assertEqual(e.EventKind.OPEN_X11, 0x18)

    def test_round_trip(self) -> None:
        script, places = b"", []
        for moment, sample in enumerate(SCRIPT):
            places.append(e.Placed(len(script), 1000 * moment, sample))
            script += sample.encode(1000 * moment)
        self.assertEqual(e.decode(script), places)
        self.assertEqual(list(e.read(Slow(script))), places)
        self.assertEqual(b"".join(at.event.encode(at.moment) for at in e.decode(script)), script)

    def test_samples_have_different_bytes(self) -> None:
        self.assertEqual(len({sample.encode() for sample in SCRIPT}), len(SCRIPT))

    def test_login_byte_by_byte(self) -> None:
        names = ("curve25519-sha256", "", "", "", "")
        script = [
            e.PeerKexinit(),
            e.ExchangeDone(e.PlainHostKey(KEY), b"session-id", b"", None, *names, False),
            e.Authenticate(1, "alice", e.Password("pw")),
            e.Payload(b"\6" + string(b"ssh-userauth")),
            e.Payload(b"\x34"),
        ]
        stored = (TOP / "examples" / "password-login" / "script").read_bytes()
        self.assertEqual(b"".join(event.encode() for event in script), stored)
        self.assertEqual([at.place for at in e.decode(stored)], [0, 13, 143, 176, 206])

    def test_signals_are_texts(self) -> None:
        self.assertEqual(e.decode(SIGNAL.encode())[0].event, SIGNAL)
        self.assertIn(b"\x0a\0\0\0\x04TERM", SIGNAL.encode())

    def test_booleans(self) -> None:
        for byte, value in ((b"\0", False), (b"\1", True), (b"\x80", True)):
            self.assertEqual(e.decode(event(0x27, byte))[0].event, e.Keepalive(value))

    def test_what_cannot_be_encoded(self) -> None:
        for broken in (e.OpenSession(-1), e.OpenSession(2**32), e.AgentBytes(1, bytes(262132)), e.Authenticate(1, "\ud800", e.NoMethod())):
            with self.assertRaises(ValueError):
                broken.encode()
        with self.assertRaises(ValueError):
            e.Gone().encode(2**64)
        self.assertEqual(len(e.AgentBytes(1, bytes(262131)).encode()), 262148)

    def test_script_that_ends_inside_an_event(self) -> None:
        whole = e.OpenDirectTcpip(1, "h", 22, "o", 23).encode(5)
        for size in range(1, len(whole)):
            with self.assertRaises(e.BadEvent) as refused:
                e.decode(FIRST + whole[:size])
            self.assertEqual(refused.exception.place, len(FIRST))
        self.assertEqual(e.decode(b""), [])

    def test_lengths(self) -> None:
        for length in (0, 8, 262145, 2**32 - 1):
            with self.assertRaises(e.BadEvent) as refused:
                e.decode(FIRST + length.to_bytes(4, "big") + bytes(7) + b"\5\1" + bytes(300000))
            self.assertEqual(refused.exception.place, len(FIRST))
        self.takes(0x40, bytes(262135))

    def test_moments(self) -> None:
        self.assertEqual([at.moment for at in e.decode(FIRST + FIRST + event(1, b"", 2**64 - 1))], [5, 5, 2**64 - 1])
        with self.assertRaises(e.BadEvent):
            e.decode(FIRST + event(1, b"", 4))

    def test_unknown_kinds(self) -> None:
        for kind in set(range(256)) - set(e.Event.FAMILY):
            self.refuses(kind, b"")

    def test_short_fields(self) -> None:
        for sample in SCRIPT:
            fields = sample.write()
            least = 4 if isinstance(sample, e.AgentBytes) else 0 if isinstance(sample, e.Payload) else len(fields)
            for size in range(least):
                self.refuses(sample.NUMBER, fields[:size])

    def test_bytes_left_over(self) -> None:
        for sample in SCRIPT:
            if not isinstance(sample, OPEN_ENDED):
                self.refuses(sample.NUMBER, sample.write() + b"\0")

    def test_texts_that_are_not_utf8(self) -> None:
        letter, found = "é".encode(), 0
        for sample in SCRIPT:
            fields = sample.write()
            for at in range(len(fields)):
                if fields[at : at + 2] == letter:
                    self.refuses(sample.NUMBER, fields[:at] + b"\xc3\x28" + fields[at + 2 :])
                    found += 1
        self.assertGreater(found, 40)

    def test_unknown_numbers(self) -> None:
        self.refuses(0x10, b"\0\0\0\1" + string(b"u") + b"\x08")
        self.refuses(0x10, b"\0\0\0\1" + string(b"u") + b"\x04" + string(KEY) + b"\x03")
        self.refuses(0x21, b"\0\0\0\1" + b"\x0d")
        for reason in (0, 16):
            self.refuses(0x20, reason.to_bytes(4, "big") + string(b"") + string(b""))
        for reason in (0, 5):
            self.refuses(0x22, b"\0\0\0\1\1" + reason.to_bytes(4, "big"))

    def test_blobs(self) -> None:
        """A key, certificate or pair is whole and valid, and none stands for another."""
        head = b"\0\0\0\1" + string(b"u")
        valid = {"key": KEY, "cert": CERTIFICATE, "pair": PAIR}
        for method, wanted in ((2, "pair"), (4, "key"), (5, "cert")):
            for sort, blob in valid.items():
                fields = head + bytes([method]) + string(blob) + b"\0"
                (self.takes if sort == wanted else self.refuses)(0x10, fields)
            blob = valid[wanted]
            for broken in (b"", blob[:-1], blob + b"\0", b"\0\0\0\1x" + blob):
                self.refuses(0x10, head + bytes([method]) + string(broken) + b"\0")
        self.refuses(0x10, head + b"\3" + string(PAIR) + string(KEY))
        self.refuses(0x2A, b"\0\0\0\1\0\0\0\1" + string(CERTIFICATE))

    def test_keys(self) -> None:
        """Valid keys of each kind, and some at the border."""
        point = string(b"nistp256") + string(b"\4" + bytes(64))
        taken = [
            RSA, string(b"ecdsa-sha2-nistp256") + point, string(b"sk-ecdsa-sha2-nistp256@openssh.com") + point + string(b"ssh:"),
            string(b"sk-ssh-ed25519@openssh.com") + string(bytes(32)) + string(b"ssh:"), string(b"own@example.org") + string(b"any"),
            string(b"ssh-dss") + string(b"\1") * 4, string(b"a" * 62 + b"@b") + string(b""),
        ]
        refused = [
            string(b"ssh-ed25519") + string(bytes(31)), string(b"ssh-rsa") + string(b"\1") + string(b"\0\1"),
            string(b"ssh-rsa") + string(b"\1") + string(b"\x80"), string(b"ssh-rsa") + string(b"\1") + string(b"\0"),
            string(b"ecdsa-sha2-nistp384") + point, string(b"ecdsa-sha2-nistp256") + string(b"nistp256") + string(b"\2" + bytes(64)),
            string(b"ssh-ed448") + string(b"any"), string(b"ssh-rsa@openssh.com") + string(b"any"), string(b"a" * 63 + b"@b") + string(b""),
            string(b"a@b@c") + string(b""), string(b"x@y") + string(b"-cert-v01@" * 9),
        ]
        for blob in taken:
            self.takes(0x2A, b"\0\0\0\1\0\0\0\1" + string(blob))
        for blob in refused:
            self.refuses(0x2A, b"\0\0\0\1\0\0\0\1" + string(blob))

    def test_host_keys(self) -> None:
        for sort, blob in ((0, KEY), (1, b""), (1, CERTIFICATE), (2, KEY), (2, b""), (3, KEY), (3, b"")):
            self.refuses(0x02, bytes([sort]) + string(blob) + exchange(e.NoHostKey()).write()[5:])

    def test_secret(self) -> None:
        absent = exchange(secret=None).write()
        at = absent.index(string(b"signature")) + len(string(b"signature"))
        self.assertEqual(absent[at : at + 5], bytes(5))
        self.refuses(0x02, absent[:at] + b"\0" + string(b"s") + absent[at + 5 :])
        self.assertIsNone(e.decode(event(0x02, absent))[0].event.secret)
        self.assertEqual(e.decode(exchange(secret=b"").encode())[0].event.secret, b"")

    def test_counts(self) -> None:
        for kind, head in ((0x11, b""), (0x2A, b"\0\0\0\1"), (0x10, b"\0\0\0\1" + string(b"u") + b"\7")):
            for count in (1, 2**32 - 1):
                self.refuses(kind, head + count.to_bytes(4, "big"))
        pty = b"\0\0\0\1\4\1" + string(b"t") + bytes(16)
        self.refuses(0x21, pty + b"\0\0\0\2" + bytes(9))
        self.takes(0x21, pty + b"\0\0\0\2" + bytes(10))

    def test_payloads(self) -> None:
        for number in (20, 30, 49):
            self.refuses(0x03, bytes([number]))
        for packet in (b"", b"\x13", b"\x32", b"\x32\x14"):
            self.takes(0x03, packet)

    def test_secrets_are_not_in_repr(self) -> None:
        secret = "hunter2"
        for hidden in (
            e.Password(secret), e.AuthInfoResponse((secret,)), e.X11(True, True, "p", secret, 0), e.Signed(secret.encode()),
            e.Payload(secret.encode()), e.AuthGssapiMic(secret.encode(), secret.encode()), e.Pair(secret.encode(), HashAlgorithm.NONE),
            exchange(secret=secret.encode()), e.AgentBytes(1, secret.encode()), e.Authenticate(1, "u", e.Password(secret)),
        ):
            self.assertNotIn(secret, repr(hidden))

    def test_a_number_is_given_once(self) -> None:
        with self.assertRaises(TypeError):
            type("Twice", (e.Event,), {}, number=0x01, name="TWICE")
        self.assertTrue(issubclass(e.Event, Variant))


if __name__ == "__main__":
    unittest.main()
