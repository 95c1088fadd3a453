"""libsazhonthil_ssh by ctypes, call by call as include/sazhonthil_ssh.h declares them.

The library is looked for where the variable SAZHONTHIL_SSH says, then beside this file, then where the system looks."""
from __future__ import annotations

import ctypes as c
import functools
import os
from typing import Any, Dict, List, Tuple

from .errors import LibraryMissing

ABI = 0x00010002
NAME = "libsazhonthil_ssh.so"

Pointer = c.c_void_p
Text = c.c_char_p


class Settings(c.Structure):
    _fields_ = [
        ("size", c.c_size_t),
        ("ciphers", Text),
        ("host_key_algorithms", Text),
        ("host_key_alias", Text),
        ("family", c.c_int),
        ("connect_seconds", c.c_uint32),
        ("exchange_seconds", c.c_uint32),
        ("keepalive_seconds", c.c_uint32),
        ("keepalive_max", c.c_uint32),
        ("rekey_bytes", c.c_uint64),
        ("rekey_packets", c.c_uint64),
        ("rekey_seconds", c.c_uint32),
        ("window", c.c_uint32),
        ("banner", Pointer),
        ("own", Pointer),
    ]


class LastError(c.Structure):
    _fields_ = [
        ("code", c.c_int),
        ("text", Text),
        ("status", c.c_uint32),
        ("reason", c.c_uint32),
        ("server_words", Text),
        ("file", Text),
        ("line", c.c_uint64),
        ("key_type", Text),
        ("fingerprint", Text),
        ("system", c.c_int),
    ]


class HostKey(c.Structure):
    _fields_ = [
        ("type", Text),
        ("fingerprint", Text),
        ("blob", c.POINTER(c.c_uint8)),
        ("blob_len", c.c_size_t),
        ("host", Text),
        ("file", Text),
    ]


class Names(c.Structure):
    _fields_ = [
        ("server_version", Text),
        ("kex", Text),
        ("host_key", Text),
        ("cipher_out", Text),
        ("cipher_in", Text),
        ("mac_out", Text),
        ("mac_in", Text),
        ("is_strict", c.c_bool),
    ]


class Prompt(c.Structure):
    _fields_ = [("text", Text), ("echo", c.c_bool)]


class Mode(c.Structure):
    _fields_ = [("code", c.c_uint8), ("value", c.c_uint32)]


class Exit(c.Structure):
    _fields_ = [
        ("has_status", c.c_bool),
        ("has_signal", c.c_bool),
        ("status", c.c_uint32),
        ("signal", Text),
        ("message", Text),
        ("core_dumped", c.c_bool),
    ]


class End(c.Structure):
    _fields_ = [("host", Text), ("port", c.c_uint16), ("path", Text)]


class Pollfd(c.Structure):
    _fields_ = [("fd", c.c_int), ("events", c.c_short), ("revents", c.c_short)]


BANNER = c.CFUNCTYPE(None, Pointer, Pointer, c.c_size_t)
ANSWERS = c.CFUNCTYPE(c.c_bool, Pointer, Text, Text, c.c_size_t, c.POINTER(Prompt), c.POINTER(Pointer))
PASSPHRASE = c.CFUNCTYPE(Pointer, Pointer, Text)

_made = c.POINTER(Pointer)
_code, _u16, _u32 = c.c_int, c.c_uint16, c.c_uint32

# Each call with the type of what it returns and the types of its arguments.
CALLS: Dict[str, Tuple[Any, ...]] = {
    "sazh_abi": (_u32,),
    "sazh_code_text": (Text, _code),
    "sazh_error_of": (c.POINTER(LastError), Pointer),
    "sazh_is_over": (c.c_bool, Pointer),
    "sazh_settings_default": (None, c.POINTER(Settings)),
    "sazh_new": (_code, _made, c.POINTER(Settings)),
    "sazh_free": (None, Pointer),
    "sazh_hosts_file": (_code, Pointer, Text, c.c_bool),
    "sazh_hosts_narrow": (_code, Pointer, c.c_bool),
    "sazh_is_host_name": (c.c_bool, Text),
    "sazh_connect": (_code, Pointer, Text, _u16),
    "sazh_connect_fd": (_code, Pointer, c.c_int, Text, _u16),
    "sazh_connect_through": (_code, Pointer, Pointer, Text, _u16),
    "sazh_wait_connect": (_code, Pointer),
    "sazh_host_key_of": (HostKey, Pointer),
    "sazh_host_accept": (_code, Pointer, c.c_bool),
    "sazh_names_of": (Names, Pointer),
    "sazh_login_none": (_code, Pointer, Text),
    "sazh_login_password": (_code, Pointer, Text, Text),
    "sazh_login_prompts": (_code, Pointer, Text, ANSWERS, Pointer),
    "sazh_login_key": (_code, Pointer, Text, Pointer),
    "sazh_login_agent": (_code, Pointer, Text, Text),
    "sazh_wait_login": (_code, Pointer),
    "sazh_methods": (Text, Pointer),
    "sazh_is_partial": (c.c_bool, Pointer),
    "sazh_key_read": (_code, _made, Text, PASSPHRASE, Pointer, Text, c.c_size_t),
    "sazh_key_free": (None, Pointer),
    "sazh_key_type": (Text, Pointer),
    "sazh_key_fingerprint": (Text, Pointer),
    "sazh_key_has_certificate": (c.c_bool, Pointer),
    "sazh_open_session": (_code, Pointer, _made),
    "sazh_open_tcp": (_code, Pointer, Text, _u16, _made),
    "sazh_open_unix": (_code, Pointer, Text, _made),
    "sazh_channel_wait": (_code, Pointer),
    "sazh_channel_free": (None, Pointer),
    "sazh_pty": (_code, Pointer, Text, _u32, _u32, c.POINTER(Mode), c.c_size_t),
    "sazh_window_change": (_code, Pointer, _u32, _u32),
    "sazh_environment": (_code, Pointer, Text, Text),
    "sazh_shell": (_code, Pointer),
    "sazh_command": (_code, Pointer, Text),
    "sazh_subsystem": (_code, Pointer, Text),
    "sazh_signal": (_code, Pointer, Text),
    "sazh_forward_agent": (_code, Pointer, Text),
    "sazh_read": (_code, Pointer, c.c_int, Pointer, c.c_size_t, c.POINTER(c.c_size_t)),
    "sazh_ignore": (None, Pointer, c.c_int),
    "sazh_write": (_code, Pointer, Pointer, c.c_size_t, c.POINTER(c.c_size_t)),
    "sazh_write_eof": (_code, Pointer),
    "sazh_close": (_code, Pointer),
    "sazh_readable": (c.c_size_t, Pointer, c.c_int),
    "sazh_writable": (c.c_size_t, Pointer),
    "sazh_is_closed": (c.c_bool, Pointer),
    "sazh_at_eof": (c.c_bool, Pointer, c.c_int),
    "sazh_exit_of": (Exit, Pointer),
    "sazh_wait_exit": (_code, Pointer, c.POINTER(Exit)),
    "sazh_forward_local": (_code, Pointer, c.POINTER(End), c.POINTER(End), _made),
    "sazh_forward_dynamic": (_code, Pointer, c.POINTER(End), _made),
    "sazh_forward_remote": (_code, Pointer, c.POINTER(End), c.POINTER(End), _made),
    "sazh_forward_wait": (_code, Pointer),
    "sazh_forward_port": (_u16, Pointer),
    "sazh_forward_free": (None, Pointer),
    "sazh_set_blocking": (None, Pointer, c.c_bool),
    "sazh_step": (_code, Pointer),
    "sazh_changes": (c.c_uint64, Pointer),
    "sazh_poll": (c.c_size_t, Pointer, c.POINTER(Pollfd), c.c_size_t),
    "sazh_timeout": (c.c_int, Pointer),
    "sazh_turn": (_code, Pointer, c.c_int),
    "sazh_rekey": (_code, Pointer),
    "sazh_disconnect": (None, Pointer, Text),
}


def places() -> List[str]:
    """Where the library is looked for, in this order."""
    named = os.environ.get("SAZHONTHIL_SSH")
    beside = os.path.join(os.path.dirname(os.path.abspath(__file__)), NAME)
    return [named] if named else [*([beside] if os.path.exists(beside) else []), NAME, f"{NAME}.0"]


def _opened() -> c.CDLL:
    said = []
    for place in places():
        try:
            return c.CDLL(place)
        except OSError as why:
            said.append(str(why))
    raise LibraryMissing(f"{NAME} isn't found ({'; '.join(said)}): name it in the variable SAZHONTHIL_SSH")


@functools.lru_cache(maxsize=None)
def load() -> Any:
    """The library. LibraryMissing where there is none, or where its interface is an older or another one."""
    lib = _opened()
    lib.sazh_abi.restype, lib.sazh_abi.argtypes = _u32, []
    has = lib.sazh_abi()
    if has >> 16 != ABI >> 16 or has < ABI:
        raise LibraryMissing(f"{NAME} has the interface {has:#x}, and {ABI:#x} or a later one of that kind is needed")
    for name, (result, *given) in CALLS.items():
        call = getattr(lib, name)
        call.restype, call.argtypes = result, given
    return lib


@functools.lru_cache(maxsize=None)
def _strdup() -> Any:
    call = c.CDLL(None).strdup
    call.restype, call.argtypes = Pointer, [Text]
    return call


def copied(text: bytes) -> int:
    """A copy in memory of malloc, for the library to wipe and free."""
    if b"\0" in text:
        raise ValueError("a text with a zero byte")
    at = _strdup()(text)
    if at is None:
        raise MemoryError
    return int(at)
