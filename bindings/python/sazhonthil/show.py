"""Prints records and events of an SSH session, each as one line of words. The program `sshc_show`."""
from __future__ import annotations

import argparse
import sys
from typing import BinaryIO, List, Optional

from . import events, records, requests
from .packets import Asked, show_packet
from .words import Line

VERSION = "0.1.0"

# The statuses of the program: all was shown; a line or an event couldn't be shown, or a file or stream failed.
SHOWN, NOT_ALL_SHOWN = 0, 1

# How the packets 60 and 61 are read after an AUTHENTICATE by this method.
_ASKED_BY = {
    requests.Pair: Asked.PUBLIC_KEY,
    requests.PairAndCertificate: Asked.PUBLIC_KEY,
    requests.OutsideKey: Asked.PUBLIC_KEY,
    requests.OutsideCertificate: Asked.PUBLIC_KEY,
    requests.KeyboardInteractive: Asked.PROMPTS,
    requests.GssapiWithMic: Asked.GSSAPI,
}


class Words:
    """Puts the records or the events of one session into words, in their order: a request to be authenticated decides what
    the packets 60 and 61 after it are."""

    def __init__(self) -> None:
        self.asked = Asked.OTHER

    def record(self, record: records.Record) -> str:
        """A record's name, its ticket, channel or connection, and its fields."""
        line = Line()
        if isinstance(record, records.Payload):
            line.word(record.NAME)
            self.asked = show_packet(line, record.packet, self.asked)
        else:
            record.show(line)
        return str(line)

    def event(self, event: events.Event) -> str:
        """An event's name and its fields."""
        line = Line()
        line.word(event.NAME)
        if isinstance(event, events.Payload):
            self.asked = show_packet(line, event.packet, self.asked)
        else:
            event.show(line)
        if isinstance(event, events.Authenticate):
            self.asked = _ASKED_BY.get(type(event.method), Asked.OTHER)
        return str(line)


def _print(out: BinaryIO, line: str) -> None:
    """Each line is there as soon as it is known, also where the lines come from a running program."""
    out.write(line.encode("utf-8") + b"\n")
    out.flush()


def _is_last(line: bytes) -> bool:
    """Whether the line is the last one of a run, which says how it ended."""
    return line.startswith((b"ended ", b"error ")) and all(0x20 <= byte < 0x7F for byte in line)


def _record_of(line: bytes) -> records.Record:
    """The record of a line: lower-case hexadecimal digits, two for each byte."""
    try:
        data = bytes.fromhex(line.decode("ascii"))
    except ValueError:
        raise records.NotARecord("not hexadecimal digits") from None
    if data.hex().encode() != line:
        raise records.NotARecord("not written in lower-case digits alone")
    return records.decode(data)


def show_records(stream: BinaryIO, out: BinaryIO) -> bool:
    """Shows lines of records, and returns whether each could be shown."""
    words, all_shown = Words(), True
    for number, line in enumerate(stream, 1):
        line = line[:-1] if line.endswith(b"\n") else line
        if _is_last(line):
            _print(out, line.decode("ascii"))
            continue
        try:
            _print(out, words.record(_record_of(line)))
        except records.NotARecord:
            _print(out, f"line {number}: not a record")
            all_shown = False
    return all_shown


def show_script(stream: BinaryIO, out: BinaryIO) -> bool:
    """Shows a script up to its end, or to where no event begins, and returns whether each event could be shown."""
    words, all_shown, number = Words(), True, 0
    try:
        for number, raw in enumerate(events.read_raw(stream), 1):
            try:
                _print(out, f"at {raw.place} moment {raw.moment} {words.event(raw.read())}")
            except events.BadEvent as error:
                _print(out, f"event {number} at {error.place}: bad fields")
                all_shown = False
    except events.BadEvent as error:
        _print(out, f"event {number + 1} at {error.place}: no event begins here")
        return False
    return all_shown


class _Once(argparse.Action):
    """An option that may be given once."""

    def __call__(self, parser, namespace, values, option_string=None):  # type: ignore[no-untyped-def]
        if getattr(namespace, self.dest) is not None:
            parser.error(f"{option_string} is given twice")
        setattr(namespace, self.dest, values)


def _arguments(words: List[str], program: str) -> argparse.Namespace:
    parser = argparse.ArgumentParser(
        prog=program, description="Prints records and events of an SSH session, each as one readable line.", allow_abbrev=False
    )
    parser.add_argument(
        "input", nargs="?", choices=("records", "script"), default="records",
        help="what standard input is: the lines that sshc script prints (records, the default), or a script",
    )
    parser.add_argument("--events", metavar="FILE", action=_Once, help="show the events of the script in FILE first")
    parser.add_argument("-V", "--version", action="version", version=f"sshc_show {VERSION}")
    return parser.parse_args(words)


def main(words: Optional[List[str]] = None, program: str = "sshc_show") -> int:
    """Shows what the arguments name, and returns the program's status."""
    arguments = _arguments(sys.argv[1:] if words is None else words, program)
    out, all_shown = sys.stdout.buffer, True
    try:
        if arguments.events is not None:
            with open(arguments.events, "rb") as script:
                all_shown = show_script(script, out)
        show = show_script if arguments.input == "script" else show_records
        all_shown = show(sys.stdin.buffer, out) and all_shown
    except OSError as error:
        print(f"Error: {error}", file=sys.stderr)
        return NOT_ALL_SHOWN
    return SHOWN if all_shown else NOT_ALL_SHOWN
