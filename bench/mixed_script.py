#!/usr/bin/env python3
"""Writes a script to standard output, made from a number: the same words make the same bytes. The host key is that of
examples/password-login, whose known hosts text accepts it.

Usage: bench/mixed_script.py logins METHOD COUNT   so many requests by this method, each answered, and then one that succeeds
       bench/mixed_script.py mixed SEED COUNT      so many events of an open session, none of which ends it
       bench/mixed_script.py bytes MIB             so many MiB up and as many down on one channel
       bench/mixed_script.py channels COUNT EVENTS so many channels, and bytes up and down on each in turn
       bench/mixed_script.py walk SEED             any events, also broken ones and ones out of turn
       bench/mixed_script.py fields SEED           fields and packets at the border of their grammars
       bench/mixed_script.py edge NUMBER           a limit, on either side of it, or one of a row of cases: 0 to 191
METHOD is none, password, pair, pair-certificate, key, certificate, prompts or gssapi.
"""
import base64
import hashlib
import hmac
import random
import sys

from wire_parts import (
    HOST, PAIR_NAMES, any_name, certificate_blob, event, exchange_done, near_certificate, near_key, near_pair, near_plain, pair, plain_blob,
    string, toy_signature, u32,
)

KEY = string(b"ssh-ed25519") + string(bytes.fromhex("9743ef2dda2eae39e325817702d66e2794d5e6f3f7f72eeff4045e7f4e21e649"))
METHODS = ["none", "password", "pair", "pair-certificate", "key", "certificate", "prompts", "gssapi"]
CLASSES = dict(zip(METHODS, ["plain", "plain", "key", "key", "key", "key", "prompts", "gssapi"]))
NUMBERS = [1, 2, 5, 6, 7, 50, 51, 52, 53, 60, 61, 64, 65, 66, 79, *range(80, 102)]
WINDOW = 2_097_152
MOST_EVENTS = 8192
LONGEST = 262_144
NAMES = [b"", b"x", b"alice", "gr\u00fc\u00dfe".encode(), b"a" * 300]
OPENED = [b"session", b"x11", b"direct-tcpip", b"direct-streamlocal@openssh.com", b"forwarded-tcpip",
          b"forwarded-streamlocal@openssh.com", b"auth-agent@openssh.com", b"foo"]


class Channel:
    def __init__(self, waits):
        self.waits = waits
        self.window = 0


class Writer:
    """A script, and what the session is after it, so far as one has to know it to go on."""

    def __init__(self, seed, session_hash=b"session-id"):
        self.rng = random.Random(seed)
        self.out = []
        self.count = 0
        self.moment = 0
        self.flag = "ours"
        self.phase = "exchanging"
        self.session_hash = session_hash
        self.klass = "plain"
        self.signing = None
        self.method = "none"
        self.user = b""
        self.handed = b""
        self.number = 0
        self.channels = {}
        self.replies = []
        self.held = 0
        self.spoiled = 0.0
        self.agent_keys = []

    def put(self, kind, fields=b""):
        self.out.append(event(kind, fields, self.moment))
        self.count += 1

    def packet(self, number, body=b""):
        if number >= 50 and self.flag == "ours":
            self.held += len(body) + 1
        self.put(0x03, bytes([number]) + body)

    def ticket(self):
        return u32(self.rng.randrange(5))

    def text(self):
        if self.rng.random() < self.spoiled:
            return string(self.body(4))
        return string(self.rng.choice(NAMES))

    def flag_byte(self):
        return bytes([self.rng.choice((0, 1, 1, 7))])

    def port(self):
        return u32(self.rng.choice((0, 22, 8080, 65536, 2**32 - 1)))

    def body(self, most=600):
        return self.rng.randbytes(self.rng.randrange(most))

    # ---- the opening

    def exchange(self, blob=KEY, sort=1):
        if self.flag != "peer":
            self.put(0x01)
        session_hash = self.session_hash if self.phase == "exchanging" else b"other-id"
        self.out.append(exchange_done(blob, session_hash, sort, self.moment))
        self.count += 1
        self.flag, self.held = "idle", 0
        if self.phase == "exchanging":
            self.phase = "service"

    def method_fields(self, name, small=False):
        """The fields of a method; what it signs with is remembered."""
        rng, kind = self.rng, any_name(self.rng)
        code = bytes([METHODS.index(name)])
        self.klass, self.signing, self.method = CLASSES[name], None, name
        hashed = bytes([rng.randrange(3)])
        pair_name = b"ssh-ed25519" if small else rng.choice(PAIR_NAMES)
        if small:
            kind, hashed = b"ssh-ed25519", b"\0"
        if name == "password":
            return code + (string(b"pw") if small else self.text())
        if name == "pair":
            made, blob = pair(rng, pair_name)
            self.signing = ("toy", blob)
            return code + string(made) + hashed
        if name == "pair-certificate":
            blob = certificate_blob(rng, kind, 0 if small else rng.randrange(3))
            self.signing = ("toy", blob)
            return code + string(pair(rng, pair_name)[0]) + string(blob)
        if name in ("key", "certificate"):
            blob = plain_blob(rng, kind) if name == "key" else certificate_blob(rng, kind, 0 if small else rng.randrange(3))
            self.signing = ("outside", blob, hashed[0])
            return code + string(blob) + hashed
        if name == "prompts":
            return code + (string(b"") if small else self.text())
        if name == "gssapi":
            count = 1 if small else rng.randrange(3)
            return code + u32(count) + string(bytes.fromhex("06092a864886f712010202")) * count
        return code

    def authenticate(self, name, ticket=None, small=False):
        self.user = b"alice" if small else self.rng.choice(NAMES)
        fields = self.method_fields(name, small)
        self.put(0x10, (ticket or self.ticket()) + string(self.user) + fields)

    def service_accept(self):
        self.packet(6, string(b"ssh-userauth"))
        self.phase = "auth"

    def failure(self):
        names = self.rng.choice((b"password,publickey", b"publickey,,publickey,foo", b"keyboard-interactive", b"none"))
        self.packet(51, string(names) + self.flag_byte())
        self.signing = None

    def success(self):
        self.packet(52)
        self.phase = "open"

    def ask_to_sign(self):
        """PK_OK, and where the signer is outside the bytes that are handed out."""
        self.packet(60, string(b"any") + string(b"blob"))
        signing, self.signing = self.signing, None
        if signing and signing[0] == "outside":
            blob, hashed = signing[1:]
            name = blob[4:4 + int.from_bytes(blob[:4], "big")]
            if name.startswith(b"ssh-rsa") and hashed:
                name = [b"rsa-sha2-256", b"rsa-sha2-512"][hashed - 1] + name[len(b"ssh-rsa"):]
            request = b"\x32" + string(self.user) + string(b"ssh-connection") + string(b"publickey") + b"\1"
            self.handed = string(self.session_hash) + request + string(name) + string(blob)
            self.phase = "signature"

    def sign(self):
        self.put(0x15, string(self.handed + string(string(b"ssh-ed25519") + string(b"sig"))))
        self.phase = "auth"

    def prompt(self, count=1):
        prompts = (string(b"Code: ") + b"\0") * count
        self.packet(60, string(b"") + string(b"") + string(b"") + u32(count) + prompts)
        self.phase = "responses"

    def respond(self, count=1):
        self.put(0x11, u32(count) + string(b"42") * count)
        self.phase = "auth"

    def extensions(self):
        count = self.rng.randrange(4)
        body = u32(count)
        for _ in range(count):
            if self.rng.random() < 0.5:
                body += string(b"server-sig-algs") + string(b"ssh-ed25519,foo,,rsa-sha2-256,ssh-rsa,x@y,ssh-ed25519-cert-v01@openssh.com")
            else:
                body += self.text() + string(self.body(30))
        self.packet(7, body)

    def log_in(self):
        self.exchange()
        self.authenticate("password", u32(1), small=True)
        self.service_accept()
        self.success()

    # ---- the open session: what may come and doesn't end it

    def established(self):
        numbers = [number for number, channel in self.channels.items() if not channel.waits]
        return self.rng.choice(numbers) if numbers and self.rng.random() < 0.97 else self.rng.randrange(20)

    def waiting(self):
        numbers = [number for number, channel in self.channels.items() if channel.waits]
        return self.rng.choice(numbers) if numbers else None

    def open_channel(self, kind=None):
        kind = kind or self.rng.randrange(0x17, 0x1b)
        fields = {
            0x17: b"",
            0x18: self.text() + self.port(),
            0x19: self.text() + self.port() + self.text() + self.port(),
            0x1a: self.text(),
        }[kind]
        self.put(kind, self.ticket() + fields)
        self.number += 1
        self.channels[self.number] = Channel(waits=True)

    def confirm(self, number=None, window=None, size=None):
        number = number or self.waiting()
        if not number:
            return
        window = self.rng.choice((0, 100, 2**20, 2**32 - 1)) if window is None else window
        size = self.rng.choice((0, 1, 10, 1000, 32768, 2**32 - 1)) if size is None else size
        if size < 10:
            window = min(window, 100)
        self.packet(91, u32(number) + u32(number + 1000) + u32(window) + u32(size))
        self.channels[number].waits = False
        self.channels[number].window = window

    def fail(self):
        number = self.waiting() or 1
        self.packet(92, u32(number) + u32(self.rng.randrange(7)) + self.text() + self.text())
        if self.channels.get(number, Channel(False)).waits:
            del self.channels[number]

    def server_open(self):
        kind = self.rng.choice(OPENED)
        fields = {
            b"x11": self.text() + self.port(),
            b"direct-tcpip": self.text() + self.port() + self.text() + self.port(),
            b"forwarded-tcpip": self.text() + self.port() + self.text() + self.port(),
            b"direct-streamlocal@openssh.com": self.text(),
            b"forwarded-streamlocal@openssh.com": self.text(),
        }.get(kind, b"")
        self.packet(90, string(kind) + u32(self.number + 500) + u32(self.rng.choice((0, 50, 2**20)))
                    + u32(self.rng.choice((0, 1000, 32768))) + fields + self.body(3))
        self.number += 1
        if kind != b"foo":
            self.channels[self.number] = Channel(waits=False)

    def user_on_channel(self):
        rng, flag = self.rng, self.flag_byte()
        size = u32(80) + u32(25) + u32(0) + u32(0)
        count = rng.randrange(4)
        modes = u32(count) + b"".join(bytes([rng.randrange(4)]) + u32(rng.randrange(100)) for _ in range(count))
        length = rng.choice((0, 5, 500, 40000)) if rng.random() < 0.3 else rng.randrange(200)
        sort, fields = rng.choice((
            (0, string(rng.randbytes(length))), (0, string(self.body())), (1, u32(rng.randrange(3)) + string(self.body())),
            (2, b""), (3, b""), (4, flag + self.text() + size + modes), (5, size), (6, flag + self.flag_byte() + self.text() + self.text() + u32(0)),
            (7, flag + self.text() + self.text()), (8, flag), (9, flag + string(self.body(50))),
            (10, string(rng.choice((b"TERM", b"own@x", b"KILL")))), (11, flag + self.text()), (12, flag),
        ))
        self.put(0x21, u32(self.established()) + bytes([sort]) + fields)

    def peer_on_channel(self):
        rng, flag, number = self.rng, self.flag_byte(), u32(self.established())
        sort, fields = rng.choice((
            (93, u32(rng.choice((0, 1, 100, 2**31)))), (94, string(self.body())), (94, string(rng.randbytes(rng.choice((0, 30000))))),
            (95, u32(1) + string(self.body())), (96, b""), (98, string(b"xon-xoff") + b"\0" + flag),
            (98, string(b"exit-status") + b"\0" + u32(rng.randrange(300))),
            (98, string(b"exit-signal") + b"\0" + string(b"TERM") + flag + self.text() + self.text()),
            (98, string(b"keepalive@openssh.com") + flag), (98, self.text() + flag + self.body(4)), (99, b""), (100, b""),
        ))
        self.packet(sort, number + fields)

    def peer_close(self):
        number = self.established()
        self.packet(97, u32(number))
        if not self.channels.get(number, Channel(True)).waits:
            del self.channels[number]

    def ask(self):
        """A global request of the user's, and for which answer it waits."""
        kind = self.rng.choice((0x1b, 0x1c, 0x1d, 0x1e, 0x27, 0x28, 0x29, 0x2a, 0x2b))
        ticket, wanted = self.ticket(), self.flag_byte()
        waits, fields, asked = ticket != u32(0), b"", "simple"
        if kind in (0x1b, 0x1c):
            fields, asked = self.text() + self.port(), "forward" if kind == 0x1b else "simple"
        elif kind in (0x1d, 0x1e):
            fields = self.text()
        elif kind in (0x27, 0x29):
            ticket, fields, waits, asked = b"", wanted, wanted != b"\0", "nothing"
        elif kind == 0x28:
            waits, asked = True, "ping"
        elif kind == 0x2a:
            blobs = [plain_blob(self.rng, any_name(self.rng)) for _ in range(self.rng.randrange(3))]
            fields, waits, asked = u32(len(blobs)) + b"".join(map(string, blobs)), bool(blobs), blobs
        else:
            fields, asked = self.text() + string(self.body(20)), "own"
        self.put(kind, ticket + fields)
        if waits:
            self.replies.append(asked)

    def reply(self):
        asked = self.replies.pop(0) if self.replies else "simple"
        if self.rng.random() < 0.3:
            self.packet(82)
        elif asked == "forward":
            self.packet(81, self.rng.choice((b"", u32(8080), b"123")))
        elif asked == "own":
            self.packet(81, self.body(20))
        elif isinstance(asked, list):
            self.packet(81, self.proof(asked))
        else:
            self.packet(81)

    def proof(self, blobs):
        signatures = []
        for blob in blobs:
            signed = string(b"hostkeys-prove-00@openssh.com") + string(self.session_hash) + string(blob)
            name = self.rng.choice((b"rsa-sha2-256", b"ssh-rsa")) if blob[4:11] == b"ssh-rsa" else None
            signatures.append(string(toy_signature(blob, signed if self.rng.random() < 0.9 else b"", name)))
        return b"".join(signatures) + self.rng.choice((b"", b"", b"", b"x"))

    def server_asks(self):
        flag = self.flag_byte()
        keys = b"".join(string(plain_blob(self.rng, any_name(self.rng))) for _ in range(self.rng.randrange(3)))
        name, fields = self.rng.choice((
            (b"keepalive@openssh.com", b""), (b"keepalive", b""), (b"foo", self.body(5)), (b"", b""),
            (b"hostkeys-00@openssh.com", keys + string(self.body(9)) + string(KEY + b"more")),
        ))
        self.packet(80, string(name) + flag + fields)

    def passed(self):
        """What is passed over."""
        if self.rng.random() < 0.5:
            self.packet(self.rng.choice((2, 3, 4, 5, 6, 7, 51, 52, 53, 60, 79, 101, 192, 255)), self.body(20))
        else:
            self.put(self.rng.choice((0x03, 0x08, 0x09)))

    def user_rest(self):
        rng = self.rng
        kind, fields = rng.choice((
            (0x10, self.ticket() + self.text() + b"\0"), (0x11, u32(1) + self.text()), (0x12, string(b"t")), (0x13, string(b"") + string(b"m")),
            (0x14, string(b"")), (0x15, string(b"s")), (0x16, b""), (0x1f, u32(self.established())),
            (0x22, u32(self.established()) + self.flag_byte() + u32(rng.randrange(1, 5))), (0x25, self.ticket() + self.text()), (0x26, self.ticket()),
        ))
        self.put(kind, fields)

    def rekey(self):
        """An exchange of either side's, with packets that may come meanwhile, and their end."""
        begins = self.rng.choice((0x24, 0x05, 0x01))
        self.put(begins)
        self.flag = "peer" if begins == 0x01 else "ours"
        self.held = 0
        for _ in range(self.rng.randrange(4)):
            if self.flag == "ours" and self.held < 2 * WINDOW - 50_000:
                self.rng.choice((self.peer_on_channel, self.confirm, self.server_open, self.server_asks, self.reply, self.peer_close))()
            else:
                self.packet(2, string(b"padding"))
        self.exchange()

    def agent(self):
        rng, number = self.rng, u32(self.rng.randrange(4))
        if not self.agent_keys or rng.random() < 0.2:
            self.agent_keys.append(pair(rng, rng.choice(PAIR_NAMES)))
        made, blob = rng.choice(self.agent_keys)
        constraints = rng.choice((b"", b"\2", b"\1" + u32(3), b"\1" + u32(3) + b"\2\2", b"\1" + u32(0) + b"\1" + u32(0), b"\xff", b"\2\1"))
        message = rng.choice((
            b"\x0b", b"\x0b", b"\x0d" + string(blob) + string(self.body(40)) + u32(rng.choice((0, 2, 4, 6))),
            b"\x0d" + string(blob) + string(self.body(40)) + u32(0), b"\x11" + made + self.text(), b"\x11" + made + self.text(),
            b"\x19" + made + self.text() + constraints, b"\x12" + string(blob), b"\x13", b"\x16" + string(b"pw"), b"\x17" + string(b"pw"),
            b"\x17" + string(b"pw"), b"\x17" + string(b"wrong"), b"\x1b", b"",
        ))
        if rng.random() < 0.3:
            kind = rng.choice((0x41, 0x42, 0x42, 0x42))
            self.put(kind, number + self.flag_byte())
        else:
            frames = string(message) * rng.choice((1, 1, 2))
            cut = rng.randrange(len(frames) + 1) if rng.random() < 0.3 else len(frames)
            self.put(0x40, number + frames[:cut])
            if cut < len(frames):
                self.put(0x40, number + frames[cut:])
        if rng.random() < 0.3:
            self.moment += rng.choice((1, 1000, 2999))

    def open_event(self):
        """One or more events, none of which ends an open session."""
        weighted = (
            (self.open_channel, 3), (self.confirm, 4), (self.fail, 1), (self.server_open, 2), (self.user_on_channel, 16),
            (self.peer_on_channel, 16), (self.peer_close, 2), (self.ask, 4), (self.reply, 4), (self.server_asks, 2),
            (self.passed, 2), (self.user_rest, 3), (self.rekey, 1), (self.agent, 4),
        )
        self.rng.choices([act for act, _ in weighted], [weight for _, weight in weighted])[0]()

    # ---- any events

    def opening_event(self):
        """What may come in the phase, most often."""
        rng = self.rng
        if self.phase == "exchanging":
            rng.choice((self.exchange, self.exchange, self.exchange, lambda: self.put(0x01), self.passed, lambda: self.exchange(certificate_blob(rng), 2)))()
        elif self.phase == "service":
            rng.choice((lambda: self.authenticate(rng.choice(METHODS)), self.service_accept, self.service_accept, self.extensions, self.early_user))()
        elif self.phase == "responses":
            rng.choice((self.respond, self.respond, self.early_user))()
        elif self.phase == "signature":
            rng.choice((self.sign, self.sign, self.not_signed, self.early_user))()
        else:
            acts = [lambda: self.authenticate(rng.choice(METHODS)), self.failure, self.success, self.extensions, self.early_user,
                    lambda: self.packet(53, self.text() + self.text()), self.rekey_early]
            acts += {"plain": [lambda: self.packet(60, self.body(9))], "key": [self.ask_to_sign] * 3,
                     "prompts": [lambda: self.prompt(rng.randrange(3))] * 3, "gssapi": [self.gssapi] * 5}[self.klass]
            rng.choice(acts)()

    def not_signed(self):
        self.put(*self.rng.choice(((0x16, b""), (0x15, string(self.handed)), (0x15, string(b"x")))))
        self.phase = "auth"

    def gssapi(self):
        self.rng.choice((
            lambda: self.packet(60, string(b"oid")), lambda: self.packet(61, string(b"token")), lambda: self.packet(65, string(b"errtok")),
            lambda: self.packet(64, u32(1) + u32(2) + self.text() + self.text()), lambda: self.put(0x12, string(self.body(9))),
            lambda: self.put(0x13, string(self.body(3)) + string(b"mic")), lambda: self.put(0x14, string(self.body(3))),
        ))()

    def early_user(self):
        self.rng.choice((
            lambda: self.put(0x25, self.ticket() + self.text()), lambda: self.put(0x26, self.ticket()), lambda: self.put(0x28, self.ticket()),
            lambda: self.put(0x1b, self.ticket() + self.text() + self.port()), lambda: self.put(0x2a, self.ticket() + u32(0)),
            lambda: self.put(0x2a, self.ticket() + u32(1) + string(KEY)), lambda: self.put(0x2b, self.ticket() + self.text() + string(b"")),
            self.user_rest, self.agent, lambda: self.put(0x27, b"\1"),
        ))()

    def rekey_early(self):
        self.put(self.rng.choice((0x24, 0x01)))
        self.flag = "peer" if self.out[-1][12] == 0x01 else "ours"
        if self.flag == "ours" and self.rng.random() < 0.5:
            self.failure()
        if self.rng.random() < 0.9:
            self.exchange()

    def broken_event(self):
        """An event that is changed somewhere, out of turn, or ends the session."""
        rng = self.rng
        before = len(self.out)
        (self.open_event if self.phase == "open" else self.opening_event)()
        if len(self.out) == before:
            return
        last = bytearray(self.out[-1])
        change = rng.randrange(11)
        if change == 0:
            last[rng.randrange(len(last))] = rng.randrange(256)
        elif change == 1 and len(last) > 13:
            kept = rng.randrange(13, len(last))
            last = bytearray(string(bytes(last[4:kept])))
        elif change == 2:
            last = bytearray(string(bytes(last[4:]) + rng.randbytes(rng.randrange(1, 5))))
        elif change == 3:
            last[12] = rng.choice((0x01, 0x02, 0x03, 0x04, 0x05, 0x10, 0x17, 0x20, 0x24, 0x2f, rng.randrange(256)))
        elif change == 4 and len(last) > 20:
            at = rng.randrange(13, len(last) - 3)
            last[at:at + 4] = u32(rng.choice((0, 1, 2**32 - 1, rng.randrange(300))))
        elif change == 5:
            last = bytearray(event(0x20, u32(rng.randrange(17)) + self.text() + self.text(), self.moment))
        elif change == 6:
            last = bytearray(event(0x03, b"\1" + u32(rng.randrange(17)) + self.text() + self.text() + self.body(4), self.moment))
        elif change == 7:
            last = bytearray(event(0x03, bytes([rng.choice(NUMBERS)]) + self.body(14), self.moment))
        elif change == 8:
            last = bytearray(event(0x03, b"\x33" + string(rng.choice((b"", b"foo", b",", b"none"))) + self.flag_byte(), self.moment))
        elif change == 9:
            last = last * 2
        else:
            last = bytearray(rng.choice((event(0x2f, b"", self.moment), event(0x04, b"", self.moment), event(0x24, b"", self.moment),
                                         event(0x01, b"", self.moment), bytes(last[:rng.randrange(len(last))]))))
        self.out[-1] = bytes(last)

    def walk(self):
        rng = self.rng
        length = rng.choice((5, 15, 40, 120))
        broken = rng.choice((0.0, 0.01, 0.05, 0.2))
        self.spoiled = broken / 20
        if rng.random() < 0.6:
            self.log_in()
        while self.count < length:
            if rng.random() < broken:
                self.broken_event()
            elif self.phase == "open":
                self.open_event()
            else:
                self.opening_event()

    # ---- fields and packets at the border of their grammars

    def near_text(self):
        return string(self.rng.choice((b"", b"x", b"\xc3\xbc", b"\xff", b"\xed\xa0\x80", b"\xc0\x80", b"\xf4\x90\x80\x80"))) if self.rng.random() < 0.1 else self.text()

    def near_count(self, count):
        return u32(self.rng.choice((count, count, count, count, count + 1, max(count - 1, 0), 2**32 - 1)))

    def near_method(self):
        rng, code = self.rng, self.rng.randrange(9)
        hashed = bytes([rng.choice((0, 1, 2, 2, 3))])
        mechanisms = rng.randrange(3)
        fields = {
            1: self.near_text(), 2: string(near_pair(rng)[0]) + hashed, 3: string(near_pair(rng)[0]) + string(near_key(rng)),
            4: string(near_key(rng)) + hashed, 5: string(near_certificate(rng)) + hashed, 6: self.near_text(),
            7: self.near_count(mechanisms) + string(b"\xff") * mechanisms,
        }.get(code, b"")
        return bytes([code]) + fields

    def near_user(self):
        """An event of the user's with fields that may be outside the formats."""
        rng, flag, text = self.rng, self.flag_byte(), self.near_text
        keys, texts, modes = (rng.randrange(3) for _ in range(3))
        sorts = {
            0: string(b"data"), 1: u32(1) + string(b"data"), 4: flag + text() + bytes(16) + self.near_count(modes) + bytes(5) * modes, 5: bytes(16),
            6: flag + flag + text() + text() + u32(0), 7: flag + text() + text(), 8: flag, 9: flag + string(b"\xff"), 10: text(), 11: flag + text(), 12: flag,
        }
        sort = rng.randrange(14)
        kind, fields = rng.choice((
            *[(0x10, self.ticket() + text() + self.near_method())] * 6,
            (0x11, self.near_count(texts) + b"".join(text() for _ in range(texts))), (0x13, string(b"") + string(b"")),
            (0x18, self.ticket() + text() + self.port()), (0x19, self.ticket() + text() + self.port() + text() + self.port()),
            (0x1a, self.ticket() + text()), (0x1b, self.ticket() + text() + self.port()), (0x1d, self.ticket() + text()),
            (0x20, u32(rng.randrange(17)) + text() + text()), (0x21, u32(1) + bytes([sort]) + sorts.get(sort, b"")),
            (0x22, u32(1) + flag + u32(rng.randrange(6))), (0x25, self.ticket() + text()), (0x27, flag), (0x28, self.ticket()),
            (0x2a, self.ticket() + self.near_count(keys) + b"".join(string(near_key(rng)) for _ in range(keys))),
            (0x2b, self.ticket() + text() + string(b"\xff")), (0x41, u32(1) + flag), (rng.randrange(0x50), b""),
        ))
        self.put(kind, fields + (b"x" if rng.random() < 0.03 else b""))

    def near_packet(self):
        """A packet with fields that may be outside the formats."""
        rng, flag, text = self.rng, self.flag_byte(), self.near_text
        number = u32(rng.randrange(1, 4))
        keys = b"".join(string(near_key(rng)) for _ in range(rng.randrange(4)))
        count = rng.randrange(3)
        here = {"service": (1, 6, 7, 19), "auth": (1, 7, 51, 53, 60, 64 if self.klass == "gssapi" else 60), "open": range(256)}[self.phase]
        extensions = b"".join(rng.choice((string(b"server-sig-algs") + self.near_list(), text() + string(b"\xff"))) for _ in range(count))
        kind, fields = rng.choice([packet for packet in (
            (1, u32(rng.randrange(17)) + text() + text()), (6, string(b"ssh-userauth")), (7, self.near_count(count) + extensions),
            (51, self.near_list() + flag), (52, b""), (53, text() + text()), (60, text() + string(b"\xff")),
            (60, text() + text() + text() + self.near_count(count) + (text() + flag) * count), (64, bytes(8) + text() + text()),
            (80, text() + flag), (80, string(b"hostkeys-00@openssh.com") + flag + keys), (80, string(b"hostkeys-00@openssh.com") + flag + keys),
            (80, string(b"keepalives") + flag), (81, self.body(3)), (82, b""), (90, string(rng.choice(OPENED)) + bytes(12) + text() + self.port()),
            (90, string(rng.choice(OPENED)) + bytes(12) + text() + self.port() + text() + self.port()), (91, number + bytes(12)),
            (92, number + u32(rng.randrange(6)) + text() + text()), (93, number + bytes(4)), (94, number + string(b"\xff")), (95, number * 2 + string(b"")),
            (96, number), (97, number), (98, number + string(b"exit-signal") + flag + text() + flag + text() + text()), (98, number + text() + flag),
            (98, number + string(b"xon-xoff") + flag + flag), (98, number + string(b"exit-status") + flag + u32(1)), (99, number), (100, number),
            (rng.choice((0, 19, 20, 49, 50, 255)), b""),
        ) if packet[0] in here])
        if rng.random() < 0.05:
            fields = fields[:-1] if rng.random() < 0.5 else fields + b"x"
        self.put(0x03, bytes([kind]) + fields)

    def near_list(self):
        names = [b"ssh-ed25519", b"ssh-rsa", b"rsa-sha2-512", b"ssh-dss", b"sk-ssh-ed25519@openssh.com", b"sk-ssh-ed25519", b"a@b", b"a@b@c", b"",
                 b"publickey", b"none", b"hostbased", b"gssapi-with-mic", b"a" * 62 + b"@b", b"a" * 63 + b"@b", b"\xff" if self.rng.random() < 0.1 else b"-"]
        return string(b",".join(self.rng.choices(names, k=self.rng.randrange(5))))

    def near_exchange(self):
        rng = self.rng
        sort, blob = rng.choice(((0, b""), (0, KEY), (1, KEY), (1, near_key(rng)), (1, near_plain(rng)), (2, near_certificate(rng)), (3, KEY), (2, KEY)))
        secret = rng.choice((b"\0" + string(b""), b"\1" + string(b""), b"\2" + string(b"secret"), b"\0" + string(b"secret")))
        names = b"".join(self.near_text() for _ in range(5))
        if self.phase != "exchanging" or rng.random() < 0.7:
            self.put(0x01)
        self.put(0x02, bytes([sort]) + string(blob) + string(self.session_hash) + string(b"") + secret + names + self.flag_byte())

    def near_agent(self):
        """Keys that the agent takes or doesn't, and a listing behind each."""
        made, blob = near_pair(self.rng)
        constraints = b"".join(self.rng.choice((b"\1" + u32(9), b"\2", b"\3", b"\xff", b"\1\0")) for _ in range(self.rng.randrange(4)))
        for message in (self.rng.choice((b"\x11" + made + self.near_text(), b"\x19" + made + self.near_text() + constraints)), b"\x0b",
                        b"\x0d" + string(blob) + string(b"data") + u32(self.rng.randrange(8)), b"\x0b" + self.body(3)):
            self.put(0x40, u32(self.rng.randrange(9)) + string(message))

    def near_fields(self):
        """A few of these in one phase."""
        start = self.rng.randrange(5)
        if start == 0:
            self.near_exchange()
            return
        self.exchange()
        if start > 1:
            self.authenticate(self.rng.choice(METHODS), u32(1))
        if start > 2:
            self.service_accept()
        if start > 3:
            self.success()
            self.open_channel(0x17)
            self.confirm(1, 100, 50)
        acts = [self.near_user] * 4 + [self.near_packet] * 3 + [self.near_agent]
        while self.count < 30:
            self.rng.choice(acts)()
            if self.rng.random() < 0.02:
                self.near_exchange()

    # ---- limits

    def edge(self, number):
        acts = [
            lambda: self.as_many(MOST_EVENTS), lambda: self.as_many(MOST_EVENTS, b"\0"), lambda: self.as_many(MOST_EVENTS + 1),
            lambda: self.much_held(0), lambda: self.much_held(1), lambda: self.passed_packet(LONGEST - 9), lambda: self.passed_packet(LONGEST - 8),
            lambda: self.out.append(string(bytes(8))), lambda: self.out.append(u32(9)), lambda: self.out.append(b"\0\0"),
            lambda: self.out.append(string(bytes(8) + b"\x08")), self.many_agent_keys, lambda: self.granted(2**32 - 1),
            lambda: self.granted(2**32 - 2), lambda: self.long_data(7), lambda: self.long_data(2**32 - 1), self.last_moment,
            lambda: self.nested(8), lambda: self.nested(9), lambda: self.named(64), lambda: self.named(65), lambda: self.certified(64),
            lambda: self.certified(65), lambda: self.confirmed_in_exchange(0x21, b"\2"), lambda: self.confirmed_in_exchange(0x1f),
            lambda: self.awaited_in_exchange(0x16), lambda: self.awaited_in_exchange(0x24), lambda: self.awaited_in_exchange(0x2f),
        ]
        for begins in (0x01, 0x24, 0x05):
            for packet in (6, 7, 19, 50, 80, 255):
                acts += [lambda begins=begins, packet=packet: self.in_exchange(begins, packet, True),
                         lambda begins=begins, packet=packet: self.in_exchange(begins, packet, False)]
        for kind in ("pair", "pair-certificate", "key", "certificate"):
            for name in (*PAIR_NAMES, b"sk-ssh-ed25519@openssh.com", b"x@y"):
                acts += [lambda kind=kind, name=name, hashed=hashed: self.signed_by(kind, name, hashed) for hashed in range(4)]
        acts[number]()

    def in_exchange(self, begins, number, is_open):
        """Packets and timers while an exchange runs, and the same number again behind it."""
        self.log_in() if is_open else self.exchange()
        self.put(begins)
        self.put(0x05)
        self.put(0x08)
        self.put(0x03, bytes([number]))
        self.put(0x01)
        self.exchange()
        self.put(0x03, bytes([number]))

    def signed_by(self, kind, name, hashed):
        """A login by a key of this sort, with a hash that may be none."""
        rng = self.rng
        made, blob = pair(rng, name) if name in PAIR_NAMES else (b"", plain_blob(rng, name))
        certified = certificate_blob(rng, name)
        fields = {
            "pair": b"\2" + string(made) + bytes([hashed]), "pair-certificate": b"\3" + string(made) + string(certified),
            "key": b"\4" + string(blob) + bytes([hashed]), "certificate": b"\5" + string(certified) + bytes([hashed]),
        }[kind]
        self.exchange()
        self.put(0x10, u32(1) + string(b"alice") + fields)
        self.service_accept()
        self.packet(60, string(b"any") + string(b"blob"))
        self.put(0x16)
        self.success()

    def as_many(self, count, more=b""):
        self.exchange()
        while self.count < count:
            self.put(0x08)
        self.out.append(more)

    def much_held(self, more):
        """Twice the window in packets, and so many bytes more, while an exchange of ours runs."""
        self.log_in()
        self.put(0x24)
        self.flag = "ours"
        for _ in range(32):
            self.packet(255, bytes(2 * WINDOW // 32 - 1))
        if more:
            self.packet(100 + more, b"")
        self.exchange()

    def passed_packet(self, length):
        self.exchange()
        self.put(0x03, b"\2" + bytes(length - 1))

    def many_agent_keys(self):
        """Keys until a listing is as long as it may be; one key more isn't taken."""
        for size in (60_000, 60_000, 60_000, 60_000, 21_000, 900, 300, 100, 3, 1, 1):
            made = string(b"ssh-rsa") + string(b"\x7f" * size) + string(b"\3") + string(b"\5") * 4 + string(b"")
            self.put(0x40, u32(1) + string(b"\x11" + made))
            self.put(0x40, u32(1) + string(b"\x0b"))

    def granted(self, window):
        self.log_in()
        self.open_channel(0x17)
        self.confirm(1, window, 32768)
        for amount in (0, 1, 1, 2**32 - 1):
            self.packet(93, u32(1) + u32(amount))

    def long_data(self, size):
        self.log_in()
        self.open_channel(0x17)
        self.confirm(1, 100_000, size)
        self.put(0x21, u32(1) + b"\0" + string(self.rng.randbytes(200_000)))
        self.put(0x21, u32(1) + b"\1" + u32(9) + string(self.rng.randbytes(9)))
        self.put(0x21, u32(1) + b"\3")
        self.packet(93, u32(1) + u32(99_999))
        self.packet(93, u32(1) + u32(5))
        self.packet(93, u32(1) + u32(2**32 - 1))

    def last_moment(self):
        self.moment = 2**64 - 1
        self.put(0x40, u32(1) + string(b"\x19" + pair(self.rng)[0] + string(b"") + b"\1" + u32(2**32 - 1)))
        self.put(0x40, u32(1) + string(b"\x0b"))
        self.moment -= 1
        self.put(0x08)

    def nested(self, count):
        self.exchange(certificate_blob(self.rng, b"ssh-ed25519", count - 1), 2)

    def named(self, length):
        self.exchange(string(b"a" * (length - 2) + b"@b") + string(b""))

    def certified(self, length):
        self.exchange(certificate_blob(self.rng, b"a" * (length - 11) + b"@b"), 2)

    def confirmed_in_exchange(self, kind, fields=b""):
        """An end that waits for an open of ours, which is confirmed while an exchange of ours runs."""
        self.log_in()
        self.open_channel(0x17)
        self.put(kind, u32(1) + fields)
        self.put(0x24)
        self.flag = "ours"
        self.confirm(1, 100, 100)
        self.exchange()

    def awaited_in_exchange(self, kind):
        """An outside signer that is asked while an exchange of ours runs."""
        self.exchange()
        self.authenticate("key", u32(1), small=True)
        self.service_accept()
        self.put(0x24)
        self.flag = "ours"
        self.ask_to_sign()
        self.put(kind)
        self.put(0x26, u32(5))
        self.exchange()

    # ---- what is measured

    def logins(self, name, count):
        self.exchange()
        self.authenticate(name, u32(1), small=True)
        self.service_accept()
        for ticket in range(2, count + 1):
            self.answered(name)
            self.packet(51, string(b"password,publickey") + b"\0")
            self.authenticate(name, u32(ticket), small=True)
        self.answered(name)
        self.success()

    def answered(self, name):
        """What the server asks of a method before it accepts or refuses."""
        if CLASSES[name] == "key":
            self.ask_to_sign()
            if self.phase == "signature":
                self.sign()
        elif name == "prompts":
            self.prompt()
            self.respond()
        elif name == "gssapi":
            self.packet(60, string(bytes.fromhex("06092a864886f712010202")))
            self.put(0x12, string(b"token"))
            self.packet(61, string(b"token"))
            self.put(0x13, string(b"") + string(b"mic"))

    def mixed(self, count):
        self.log_in()
        while self.count < count:
            self.open_event()

    def megabytes(self, mebibytes):
        """Pieces of 32 KiB, each granted again; our window is brought back by the session itself."""
        self.log_in()
        self.open_channel(0x17)
        self.confirm(1, WINDOW, 32768)
        piece = self.rng.randbytes(32768)
        for turn in range(1, 32 * mebibytes + 1):
            self.put(0x21, u32(1) + b"\0" + string(piece))
            self.packet(94, u32(1) + string(piece))
            if turn % 32 == 0:
                self.packet(93, u32(1) + u32(32 * 32768))

    def many_channels(self, count, events):
        self.log_in()
        for number in range(1, count + 1):
            self.open_channel(0x17)
            self.confirm(number, WINDOW, 32768)
        for turn in range((events - self.count) // 2):
            number = u32(turn % count + 1)
            self.put(0x21, number + b"\0" + string(b"0123456789"))
            self.packet(94, number + string(b"0123456789"))


def known_text(rng):
    """A known hosts text for the host of examples/password-login, most often one that accepts its key."""
    accepted = base64.b64encode(KEY).decode()
    salt = rng.randbytes(20)
    hashed = f"|1|{base64.b64encode(salt).decode()}|{base64.b64encode(hmac.new(salt, HOST.encode(), hashlib.sha1).digest()).decode()}"
    other = base64.b64encode(plain_blob(rng, any_name(rng))).decode()
    good = [f"{HOST} ssh-ed25519 {accepted}", f"{hashed} ssh-ed25519 {accepted}", f"a,{HOST},b any {accepted} comment", f"{HOST} x {accepted}\r"]
    near = base64.b64encode(near_key(rng)).decode()
    rest = ["", f"#{HOST} ssh-ed25519 {other}", f"#a,{HOST} ssh-ed25519 {other}", f"other ssh-ed25519 {other}", f"|1|AAAA|AAAA ssh-ed25519 {other}", "|1| x y", f"{HOST}"]
    padded = base64.b64encode(plain_blob(rng, b"x@y")).decode()
    others = [base64.b64encode(plain_blob(rng)).decode() for _ in range(2)]
    bad = [f"{HOST} x {near}", f"{HOST} x {near}", f"{HOST} x {padded.rstrip('=')}", f"{HOST} x {padded}", f"{HOST} x {others[0]}\n{HOST} x {others[1]}", f"{HOST} x {others[0]}\n{HOST} x ====",
           f"{HOST} ssh-rsa {other}", f"{HOST} ssh-ed25519 {other}", f"{HOST} ssh-ed25519 {accepted[:-2]}", f"{HOST}  ssh-ed25519",
           f"{hashed} x {base64.b64encode(certificate_blob(rng, any_name(rng))).decode()}", f"{HOST} x {accepted[:rng.randrange(len(accepted))]}",
           f"{HOST} x {base64.b64encode(KEY + b'more').decode()}", f"{HOST} x {accepted[:20]}={accepted[20:]}"]
    lines = [rng.choice(good)] if rng.random() < 0.95 else []
    lines += rng.choices(rest, k=rng.randrange(3))
    if rng.random() < 0.2:
        lines.append(rng.choice(bad))
    rng.shuffle(lines)
    return "\n".join(lines) + rng.choice(("", "\n"))


def script_of(words):
    kind, rest = words[0], words[1:]
    writer = Writer(int(rest[0]) if kind in ("mixed", "walk", "fields") else 1)
    if kind == "logins":
        writer.logins(rest[0], int(rest[1]))
    elif kind == "mixed":
        writer.mixed(int(rest[1]))
    elif kind == "bytes":
        writer.megabytes(int(rest[0]))
    elif kind == "channels":
        writer.many_channels(int(rest[0]), int(rest[1]))
    elif kind == "fields":
        writer.near_fields()
    elif kind == "edge":
        writer.edge(int(rest[0]))
    else:
        writer.walk()
    return writer


def main():
    sys.stdout.buffer.write(b"".join(script_of(sys.argv[1:]).out))


if __name__ == "__main__":
    main()
