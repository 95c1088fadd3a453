"""Packets in words, by their numbers: those that a record 01 or an event PAYLOAD carries.

A packet that ends early, or has a text that isn't UTF-8, is shown as far as it can be read. Passwords, answers to prompts,
signatures, tokens and X11 cookies are shown by their sizes alone."""
from __future__ import annotations

from enum import Enum
from typing import Dict, NamedTuple, Tuple

from .enums import DisconnectReason, LoginMethod, OpenFailure
from .shapes import (
    ALL_HIDDEN, BLOB, BYTES, EXTENSIONS, FLAG, HIDDEN, HIDDEN_IF_ANY, HIDDEN_REST, PROMPTS, REST, TEXT, U32, Part, Reason, Shape, ToEnd,
)
from .wire import Reader, WireError, text
from .words import Line

Parts = Tuple[Tuple[str, Shape], ...]

USERAUTH_REQUEST = 50

# A text that decides which parts follow.
CHOICE: Shape[str] = Part("text", 4, Reader.text, text, Line.text)


class Asked(Enum):
    """How the user last asked to be authenticated, which decides what the packets 60 and 61 are (RFC 4252, section 6)."""

    OTHER = 0
    PUBLIC_KEY = 1
    PROMPTS = 2
    GSSAPI = 3


ASKED_BY = {
    LoginMethod.PUBLIC_KEY.value: Asked.PUBLIC_KEY,
    LoginMethod.KEYBOARD_INTERACTIVE.value: Asked.PROMPTS,
    LoginMethod.GSSAPI_WITH_MIC.value: Asked.GSSAPI,
}


class PacketRow(NamedTuple):
    """A packet's name, its parts, and those that follow by a choice among them."""

    name: str
    parts: Parts
    cases: Dict[str, Parts] = {}


_ADDRESS: Parts = (("address", TEXT), ("port", U32))
_ORIGINATOR: Parts = (("originator", TEXT), ("originator-port", U32))
_SIZE: Parts = (("columns", U32), ("rows", U32), ("width", U32), ("height", U32))
_RECIPIENT: Parts = (("recipient", U32),)

# USERAUTH_REQUEST by its method: RFC 4252, sections 5.2, 7 and 8; RFC 4256, section 3.1; RFC 4462, section 3.2.
METHODS: Dict[str, Parts] = {
    "none": (),
    "password": (("change", FLAG), ("password", HIDDEN), ("new-password", HIDDEN_IF_ANY)),
    "publickey": (("signed", FLAG), ("algorithm", TEXT), ("key", BLOB), ("signature", HIDDEN_IF_ANY)),
    "keyboard-interactive": (("language", TEXT), ("submethods", TEXT)),
    "gssapi-with-mic": (("mechanisms", ALL_HIDDEN),),
}

# GLOBAL_REQUEST by its name: RFC 4254, section 7.1; OpenSSH's PROTOCOL, sections 2.2, 2.4 and 2.5.
GLOBAL_REQUESTS: Dict[str, Parts] = {
    "tcpip-forward": _ADDRESS,
    "cancel-tcpip-forward": _ADDRESS,
    "streamlocal-forward@openssh.com": (("path", TEXT),),
    "cancel-streamlocal-forward@openssh.com": (("path", TEXT),),
    "keepalive@openssh.com": (),
    "no-more-sessions@openssh.com": (),
    "hostkeys-00@openssh.com": (("key", ToEnd(BLOB)),),
    "hostkeys-prove-00@openssh.com": (("key", ToEnd(BLOB)),),
}

# CHANNEL_OPEN by its type: RFC 4254, sections 6.1, 6.3.2 and 7.2; OpenSSH's PROTOCOL, section 2.4.
CHANNEL_TYPES: Dict[str, Parts] = {
    "session": (),
    "x11": (("originator", TEXT), ("port", U32)),
    "direct-tcpip": (("host", TEXT), ("port", U32), *_ORIGINATOR),
    "forwarded-tcpip": (*_ADDRESS, *_ORIGINATOR),
    "direct-streamlocal@openssh.com": (("path", TEXT), ("reserved", TEXT), ("reserved", U32)),
    "forwarded-streamlocal@openssh.com": (("path", TEXT), ("reserved", TEXT)),
    "auth-agent@openssh.com": (),
}

# CHANNEL_REQUEST by its name: RFC 4254, sections 6.2 to 6.10.
CHANNEL_REQUESTS: Dict[str, Parts] = {
    "pty-req": (("term", TEXT), *_SIZE, ("modes", HIDDEN)),
    "window-change": _SIZE,
    "x11-req": (("single", FLAG), ("protocol", TEXT), ("cookie", HIDDEN), ("screen", U32)),
    "env": (("name", TEXT), ("value", TEXT)),
    "shell": (),
    "exec": (("command", BYTES),),
    "subsystem": (("name", TEXT),),
    "signal": (("signal", TEXT),),
    "xon-xoff": (("client-can-do", FLAG),),
    "exit-status": (("status", U32),),
    "exit-signal": (("signal", TEXT), ("core-dumped", FLAG), ("message", TEXT), ("language", TEXT)),
    "auth-agent-req@openssh.com": (),
    "keepalive@openssh.com": (),
}

PACKETS: Dict[int, PacketRow] = {
    # RFC 4253, sections 10 to 11.4
    1: PacketRow("DISCONNECT", (("reason", Reason(DisconnectReason)), ("description", TEXT), ("language", TEXT))),
    2: PacketRow("IGNORE", (("body", HIDDEN),)),
    3: PacketRow("UNIMPLEMENTED", (("packet", U32),)),
    4: PacketRow("DEBUG", (("display", FLAG), ("message", TEXT), ("language", TEXT))),
    5: PacketRow("SERVICE_REQUEST", (("service", TEXT),)),
    6: PacketRow("SERVICE_ACCEPT", (("service", TEXT),)),
    # RFC 8308, section 2.3
    7: PacketRow("EXT_INFO", (("extensions", EXTENSIONS),)),
    # RFC 4252, sections 5 to 5.4
    USERAUTH_REQUEST: PacketRow("USERAUTH_REQUEST", (("user", TEXT), ("service", TEXT), ("method", CHOICE)), METHODS),
    51: PacketRow("USERAUTH_FAILURE", (("methods", TEXT), ("partial", FLAG))),
    52: PacketRow("USERAUTH_SUCCESS", ()),
    53: PacketRow("USERAUTH_BANNER", (("banner", TEXT), ("language", TEXT))),
    # RFC 4462, sections 3.4 to 3.9
    63: PacketRow("USERAUTH_GSSAPI_EXCHANGE_COMPLETE", ()),
    64: PacketRow("USERAUTH_GSSAPI_ERROR", (("major", U32), ("minor", U32), ("message", TEXT), ("language", TEXT))),
    65: PacketRow("USERAUTH_GSSAPI_ERRTOK", (("token", HIDDEN),)),
    66: PacketRow("USERAUTH_GSSAPI_MIC", (("mic", HIDDEN),)),
    # RFC 4254, section 4
    80: PacketRow("GLOBAL_REQUEST", (("request", CHOICE), ("want-reply", FLAG)), GLOBAL_REQUESTS),
    81: PacketRow("REQUEST_SUCCESS", (("body", REST),)),
    82: PacketRow("REQUEST_FAILURE", ()),
    # RFC 4254, sections 5 and 6
    90: PacketRow("CHANNEL_OPEN", (("type", CHOICE), ("sender", U32), ("window", U32), ("packet-size", U32)), CHANNEL_TYPES),
    91: PacketRow("CHANNEL_OPEN_CONFIRMATION", (*_RECIPIENT, ("sender", U32), ("window", U32), ("packet-size", U32))),
    92: PacketRow("CHANNEL_OPEN_FAILURE", (*_RECIPIENT, ("reason", Reason(OpenFailure)), ("description", TEXT), ("language", TEXT))),
    93: PacketRow("CHANNEL_WINDOW_ADJUST", (*_RECIPIENT, ("bytes", U32))),
    94: PacketRow("CHANNEL_DATA", (*_RECIPIENT, ("data", BYTES))),
    95: PacketRow("CHANNEL_EXTENDED_DATA", (*_RECIPIENT, ("code", U32), ("data", BYTES))),
    96: PacketRow("CHANNEL_EOF", _RECIPIENT),
    97: PacketRow("CHANNEL_CLOSE", _RECIPIENT),
    98: PacketRow("CHANNEL_REQUEST", (*_RECIPIENT, ("request", CHOICE), ("want-reply", FLAG)), CHANNEL_REQUESTS),
    99: PacketRow("CHANNEL_SUCCESS", _RECIPIENT),
    100: PacketRow("CHANNEL_FAILURE", _RECIPIENT),
}

# The packets 60 and 61: RFC 4252, section 7; RFC 4256, sections 3.2 and 3.4; RFC 4462, sections 3.3 and 3.4.
ANSWERS: Dict[Tuple[int, Asked], PacketRow] = {
    (60, Asked.PUBLIC_KEY): PacketRow("USERAUTH_PK_OK", (("algorithm", TEXT), ("key", BLOB))),
    (60, Asked.PROMPTS): PacketRow(
        "USERAUTH_INFO_REQUEST", (("name", TEXT), ("instruction", TEXT), ("language", TEXT), ("prompts", PROMPTS))
    ),
    (60, Asked.GSSAPI): PacketRow("USERAUTH_GSSAPI_RESPONSE", (("mechanism", HIDDEN),)),
    (61, Asked.PROMPTS): PacketRow("USERAUTH_INFO_RESPONSE", (("responses", ALL_HIDDEN),)),
    (61, Asked.GSSAPI): PacketRow("USERAUTH_GSSAPI_TOKEN", (("token", HIDDEN),)),
}


def _show_parts(line: Line, reader: Reader, parts: Parts) -> str:
    """Shows parts, and returns the choice among them."""
    choice = ""
    for word, shape in parts:
        if shape is CHOICE:
            choice = reader.text()
            line.text(word, choice)
        else:
            shape.show_next(line, word, reader)
    return choice


def _show_row(line: Line, reader: Reader, row: PacketRow) -> str:
    """Shows a packet, and returns the choice among its parts. Of a choice without a case the fields aren't shown."""
    choice = _show_parts(line, reader, row.parts)
    if row.cases:
        _show_parts(line, reader, row.cases.get(choice, (("fields", HIDDEN_REST),)))
    if reader.left:
        line.size("left-over", reader.peek())
    return choice


def show_packet(line: Line, packet: bytes, asked: Asked = Asked.OTHER) -> Asked:
    """Adds a packet's name and fields. Returns how the packets 60 and 61 that follow are to be read."""
    reader = Reader(packet)
    if not packet:
        line.word("empty packet")
        return asked
    number = reader.u8()
    row = ANSWERS.get((number, asked)) or PACKETS.get(number)
    try:
        if row is None:
            line.number("packet number", number)
            HIDDEN_REST.show_next(line, "fields", reader)
            return asked
        line.word(row.name)
        choice = _show_row(line, reader, row)
    except WireError:
        line.size("unreadable", reader.peek())
        return asked
    return ASKED_BY.get(choice, Asked.OTHER) if number == USERAUTH_REQUEST else asked
