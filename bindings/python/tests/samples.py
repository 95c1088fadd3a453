"""An event or more of each kind, and a record or more of each number, whose values are no defaults: for the tests.

Each text has an é and no other string has one, so that a test can break the texts alone."""
from __future__ import annotations

import pathlib
from typing import List, Optional

from sazhonthil import events as e
from sazhonthil import records as r
from sazhonthil.enums import (
    AgentFault, AgentRequest, DisconnectReason, HashAlgorithm, HostKeysFault, LoginMethod, OpenFailure, Signal,
)
from sazhonthil.shapes import Mode, Prompt

HERE = pathlib.Path(__file__).resolve().parent
TOP = HERE.parents[2]
FORMATS = TOP / "docs" / "FORMATS.md"
LINES, WORDS, EVENTS = HERE / "data" / "lines", HERE / "data" / "words", HERE / "data" / "events"


def string(body: bytes) -> bytes:
    return len(body).to_bytes(4, "big") + body


KEY = string(b"ssh-ed25519") + string(bytes.fromhex("9743ef2dda2eae39e325817702d66e2794d5e6f3f7f72eeff4045e7f4e21e649"))
RSA = string(b"ssh-rsa") + string(b"\1\0\1") + string(b"\0\xb5" + bytes(range(31)))
PAIR = KEY + string(b"private".ljust(32, b".") + KEY[-32:])
_STATEMENT = bytes(7) + b"\x2a" + b"\0\0\0\2" + string(b"id") + string(string(b"host.example")) + bytes(8) + b"\xff" * 8
CERTIFICATE = (
    string(b"ssh-ed25519-cert-v01@openssh.com") + string(b"nonce") + KEY[15:] + _STATEMENT
    + string(b"") + string(string(b"permit-pty") + string(b"")) + string(b"") + string(KEY)
    + string(string(b"ssh-ed25519") + string(b"signed"))
)

MANY, LAST = 0x01020304, 0xFFFFFFFF


def exchange(key: e.HostKey = e.PlainHostKey(KEY), secret: Optional[bytes] = b"shared", strict: bool = True) -> e.ExchangeDone:
    return e.ExchangeDone(key, b"hash", b"signature", secret, "kéx", "kéy", "cé", "mé1", "mé2", strict)


LOGINS = [
    e.NoMethod(),
    e.Password("sécret"),
    e.Pair(PAIR, HashAlgorithm.SHA512),
    e.PairAndCertificate(PAIR, CERTIFICATE),
    e.OutsideKey(RSA, HashAlgorithm.SHA256),
    e.OutsideCertificate(CERTIFICATE, HashAlgorithm.SHA512),
    e.OutsideKey(KEY, HashAlgorithm.NONE),
    e.KeyboardInteractive("pamé"),
    e.GssapiWithMic((b"\x06\x09", b"mechanism")),
]

MESSAGES = [
    e.Data(b"ls\n"),
    e.ExtendedData(7, b"\xff\0"),
    e.Eof(),
    e.Close(),
    e.Pty(True, "xtérm", 80, 24, 640, 480, (Mode(53, 1), Mode(255, LAST))),
    e.Pty(False, "é", 1, 2, 3, 4, ()),
    e.WindowChange(81, 25, 641, 481),
    e.X11(True, False, "proté", "cookié", 9),
    e.X11(False, True, "é", "é", LAST),
    e.Env(True, "LÁNGé", "Cé"),
    e.Shell(True),
    e.Shell(False),
    e.Exec(True, b"uname -a"),
    e.SendSignal("odé@example.org"),
    e.Subsystem(False, "sftpé"),
    e.AgentForward(True),
]

SCRIPT: List[e.Event] = [
    e.PeerKexinit(),
    exchange(),
    exchange(e.CertifiedHostKey(CERTIFICATE), None, False),
    exchange(e.NoHostKey(), b""),
    e.Payload(b"\x32packet"),
    e.Payload(b""),
    e.TransportFailed(),
    e.RekeyLimit(),
    e.KeepaliveTimer(),
    e.InactivityTimer(),
    *[e.Authenticate(MANY + number, "alicé", method) for number, method in enumerate(LOGINS)],
    e.AuthInfoResponse(("one é", "é", "é")),
    e.AuthInfoResponse(()),
    e.AuthGssapiToken(b"token"),
    e.AuthGssapiMic(b"token", b"mic"),
    e.AuthGssapiMic(None, b"mic"),
    e.AuthGssapiComplete(b"token"),
    e.AuthGssapiComplete(None),
    e.Signed(b"bytes and a signature"),
    e.SignFailed(),
    e.OpenSession(MANY),
    e.OpenX11(2, "::1é", 6000),
    e.OpenDirectTcpip(3, "dbé", 5432, "originé", 40000),
    e.OpenDirectStreamlocal(4, "/socké"),
    e.TcpipForward(5, "0.0.0.0é", 8080),
    e.CancelTcpipForward(6, "é", 22),
    e.StreamlocalForward(7, "/é"),
    e.CancelStreamlocalForward(8, "/éé"),
    e.CloseChannel(9),
    e.Disconnect(DisconnectReason.ILLEGAL_USER_NAME, "byé", "fré"),
    *[e.Channel(MANY - number, message) for number, message in enumerate(MESSAGES)],
    e.ServerOpenReply(11, True, OpenFailure.CONNECT_FAILED),
    e.ServerOpenReply(12, False, OpenFailure.RESOURCE_SHORTAGE),
    e.Rekey(),
    e.AwaitExtensionInfo(13, "server-sig-algsé"),
    e.GetServerSigAlgs(14),
    e.Keepalive(True),
    e.Keepalive(False),
    e.Ping(15),
    e.NoMoreSessions(True),
    e.HostkeysProve(16, (KEY, RSA)),
    e.GlobalRequest(17, "own@éxample", b"body"),
    e.Gone(),
    e.AgentBytes(18, b"piece"),
    e.AgentBytes(19, b""),
    e.AgentRequestAnswer(20, True),
    e.AgentRequestAnswer(21, False),
    e.AgentKeyAnswer(22, True),
    e.AgentClose(LAST),
]

RESOLUTIONS = [
    r.AuthSuccess(),
    r.AuthFailure((LoginMethod.PUBLIC_KEY, LoginMethod.HOST_BASED), True),
    r.AuthFailure((), False),
    r.ExtInfoSeen(),
    r.SigAlgs(True, ("rsa-sha2-256", "é")),
    r.SigAlgs(False, ()),
    r.ChannelOpened(5),
    r.ChannelOpenFailed(OpenFailure.UNKNOWN_CHANNEL_TYPE),
    r.ForwardPort(8080),
    r.Done(),
    r.Denied(),
    r.Pong(),
    r.HostKeysProved(),
    r.HostKeysRefused(HostKeysFault.WRONG_SERVER_SIG),
    r.GlobalReply(b"body"),
    r.Dropped(),
]

OPENS = [
    r.ServerSession(),
    r.ServerDirectTcpip("hé", 22, "oé", 23),
    r.ServerDirectStreamlocal("/pé"),
    r.ServerX11("oé", 6000),
    r.ServerForwardedTcpip("aé", 80, "oé", 81),
    r.ServerForwardedStreamlocal("/é"),
    r.ServerAgentForward(),
    r.ServerUnknown(),
]

RECORDS: List[r.Record] = [
    r.Payload(b"\x14any packet"),
    r.Payload(b""),
    r.BeginExchange(),
    r.Opened(),
    *[r.Resolved(MANY + number, resolution) for number, resolution in enumerate(RESOLUTIONS)],
    r.SignRequest(2, KEY, HashAlgorithm.SHA256, b"to be signed"),
    r.SignRequestCert(3, CERTIFICATE, HashAlgorithm.SHA512, b"to be signed"),
    r.AuthInfoRequest(4, "Logé", "séy it", (Prompt("Passwordé: ", False), Prompt("Coloré: ", True))),
    r.AuthInfoRequest(5, "é", "é", ()),
    r.GssapiResponse(6, b"mechanism", b"mic data"),
    r.GssapiToken(7, b"token", b""),
    r.GssapiError(8, 9, 10, "no tickét"),
    r.GssapiErrorToken(11, b"bad"),
    r.KexDone("curvé25519"),
    r.AuthBanner("bé\nware"),
    r.ChannelOpen(MANY, 32768, 65536),
    r.ChannelSuccess(12),
    r.ChannelFailure(13),
    r.ChannelClose(14),
    r.ChannelEof(15),
    r.ChannelOpenFailure(16, OpenFailure.RESOURCE_SHORTAGE, "latér", "é"),
    r.ChannelData(17, b"\r\n"),
    r.ChannelExtendedData(18, 19, b"err"),
    r.ChannelXonXoff(20, True),
    r.ChannelXonXoff(21, False),
    r.ChannelExitStatus(22, 255),
    r.ChannelExitSignal(23, "odé@example.org", True, "goné", "é"),
    r.ChannelWindowAdjusted(24, LAST),
    *[r.ServerOpened(MANY - number, opened) for number, opened in enumerate(OPENS)],
    r.HostKeysAnnounced((KEY, b"x", b"")),
    r.AgentAnswer(25, b"\0\0\0\1\6"),
    *[r.AgentAskRequest(26, message) for message in AgentRequest],
    r.AgentAskKey(27, KEY),
    *[r.AgentClosed(28, fault) for fault in AgentFault],
]

SIGNAL = e.Channel(3, e.SendSignal(Signal.TERM))
