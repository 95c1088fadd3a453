"""The words: the stored run, whose words were written beside its lines by hand, and the program."""
from __future__ import annotations

import io
import subprocess
import sys
import unittest

from sazhonthil import show
from sazhonthil.enums import HashAlgorithm
from sazhonthil.events import X11, Authenticate, AuthInfoResponse, Channel, ExchangeDone, NoHostKey, Pair, Password
from sazhonthil.packets import Asked, show_packet
from sazhonthil.words import Line, quoted

from .samples import EVENTS, HERE, LINES, PAIR, RECORDS, SCRIPT, TOP, WORDS, string

PROGRAM = HERE.parent / "sshc_show"


def run(*words: object, given: bytes = b"", module: bool = False) -> "subprocess.CompletedProcess[bytes]":
    program = ["-m", "sazhonthil", "show"] if module else [PROGRAM]
    return subprocess.run([sys.executable, *program, *words], input=given, capture_output=True, cwd=HERE.parent, check=False)


def words_of(packet: bytes, asked: Asked = Asked.OTHER) -> str:
    line = Line()
    show_packet(line, packet, asked)
    return str(line)


class Show(unittest.TestCase):
    def test_stored_run(self) -> None:
        done = run("--events", EVENTS, given=LINES.read_bytes())
        self.assertEqual(done.stdout, WORDS.read_bytes())
        self.assertEqual((done.returncode, done.stderr), (1, b""))

    def test_module(self) -> None:
        words = WORDS.read_bytes()
        done = run("script", given=EVENTS.read_bytes(), module=True)
        self.assertEqual((done.stdout, done.returncode), (words[: words.index(b"KexDone")], 1))

    def test_login(self) -> None:
        """The lines of docs/FORMATS.md's login, in the words of the README."""
        lines = (
            "2000000011637572766532353531392d736861323536\n01050000000c7373682d7573657261757468\n"
            "013200000005616c6963650000000e7373682d636f6e6e656374696f6e0000000870617373776f726400000000027077\n"
            "040000000100\n03\nended script-end\n"
        )
        done = run("records", given=lines.encode())
        self.assertEqual((done.returncode, done.stderr), (0, b""))
        self.assertIn(done.stdout.decode(), (TOP / "README.md").read_text())

    def test_statuses(self) -> None:
        for words, status in (
            ((), 0), (("script",), 0), (("records",), 0), (("--version",), 0), (("--help",), 0), (("bogus",), 2), (("--bogus",), 2),
            (("script", "records"), 2), (("--events",), 2), (("--events", EVENTS, "--events", EVENTS), 2), (("--events", "missing"), 1),
        ):
            self.assertEqual(run(*words).returncode, status, words)
        self.assertEqual(run("--version").stdout, b"sshc_show 0.1.0\n")

    def test_last_lines(self) -> None:
        for line, is_shown in ((b"ended x", True), (b"error a 1", True), (b"ended \xff", False), (b"ended", False), (b"03\r", False)):
            out = io.BytesIO()
            self.assertEqual(show.show_records(io.BytesIO(b"03\n" + line), out), is_shown)
            self.assertEqual(out.getvalue(), b"Opened\n" + (line if is_shown else b"line 2: not a record") + b"\n")

    def test_each_is_one_line(self) -> None:
        words = show.Words()
        for text in [words.event(event) for event in SCRIPT] + [words.record(record) for record in RECORDS]:
            self.assertNotIn("\n", text)

    def test_secrets_are_not_shown(self) -> None:
        secret, words = "hunter2", show.Words()
        hidden = secret.encode()
        asks = string(b"u") + string(b"ssh-connection")
        for text in (
            words.event(Authenticate(1, "u", Password(secret))),
            words.event(Authenticate(1, "u", Pair(PAIR, HashAlgorithm.NONE))),
            words.event(AuthInfoResponse((secret,))),
            words.event(Channel(1, X11(True, True, "p", secret, 0))),
            words.event(ExchangeDone(NoHostKey(), hidden, hidden, hidden, "", "", "", "", "", True)),
            words_of(b"\x32" + asks + string(b"password") + b"\1" + string(hidden) + string(hidden)),
            words_of(b"\x32" + asks + string(b"other") + string(hidden)),
            words_of(b"\x3d\0\0\0\1" + string(hidden), Asked.PROMPTS),
            words_of(b"\x3d" + hidden),
        ):
            self.assertNotIn(secret, text)
            self.assertNotIn(hidden.hex(), text)
            self.assertNotIn("private", text)

    def test_packets_60_and_61(self) -> None:
        packet = b"\x3c" + string(b"a") + string(b"b")
        self.assertEqual(words_of(packet), "packet number 60 fields of 10 bytes")
        self.assertEqual(words_of(packet, Asked.PUBLIC_KEY), 'USERAUTH_PK_OK algorithm "a" key unknown of 1 bytes')
        self.assertEqual(words_of(packet, Asked.GSSAPI), "USERAUTH_GSSAPI_RESPONSE mechanism of 1 bytes left-over of 5 bytes")
        self.assertEqual(words_of(packet, Asked.PROMPTS), 'USERAUTH_INFO_REQUEST name "a" instruction "b" unreadable of 0 bytes')

    def test_quoting(self) -> None:
        self.assertEqual(quoted('a"\\\'\0\t\r\n\x1b é\u0301\u200b\u2028'), '"a\\"\\\\\'\\0\\t\\r\\n\\u{1b} é\\u{301}\\u{200b}\\u{2028}"')


if __name__ == "__main__":
    unittest.main()
