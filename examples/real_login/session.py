"""Drives `sshc script` over two pipes beside a transport: writes events, reads records, and does what they say.

The bytes of events and records are those of docs/FORMATS.md. Nothing here decides anything about the session: who may
log in, what is sent when, which channel has how much window is the program's.
"""
import os
import select
import subprocess
import time

from transport import KEXINIT, Reader, string, u32

# events
PEER_KEXINIT, EXCHANGE_DONE, PAYLOAD = 0x01, 0x02, 0x03
AUTHENTICATE, AUTH_INFO_RESPONSE, SIGNED = 0x10, 0x11, 0x15
OPEN_SESSION, OPEN_DIRECT_TCPIP, CHANNEL, DISCONNECT, REKEY = 0x17, 0x19, 0x21, 0x20, 0x24
# records
SEND, BEGIN_EXCHANGE, OPENED, RESOLVED, SIGN_REQUEST, PROMPTS, KEX_DONE = 0x01, 0x02, 0x03, 0x04, 0x05, 0x07, 0x20
CHANNEL_OPEN, CLOSED, EOF, OPEN_FAILED, DATA, EXTENDED_DATA, EXIT_STATUS = 0x22, 0x25, 0x26, 0x27, 0x29, 0x2A, 0x2C
# resolutions
AUTH_SUCCESS = 0
# what a user asks of a channel
SEND_DATA, SEND_EOF, CLOSE, EXEC, SUBSYSTEM = 0, 2, 3, 9, 11

# numbers of packets (RFC 4250, section 4.1)
SERVICE_ACCEPT, TRANSPORTS_OWN, USERAUTH = 6, range(20, 50), 50


class Ended(Exception):
    """The program ended; its last line tells how."""


class Channel:
    def __init__(self, number):
        self.number, self.output, self.errors = number, b"", b""
        self.exit_status, self.is_ended, self.is_closed = None, False, False


class Session:
    """One connection: a transport, and the program that says what is sent over it."""

    def __init__(self, program, transport, host, port, known_hosts, sign, answer):
        self.transport, self.sign, self.answer = transport, sign, answer
        words = [*program, "script", host, str(port), known_hosts]
        self.program = subprocess.Popen(words, stdin=subprocess.PIPE, stdout=subprocess.PIPE, bufsize=0)
        self.start, self.lines = time.monotonic(), b""
        self.is_exchanging = self.is_open = False
        self.held = []
        self.tickets, self.resolved, self.channels, self.exchanges = 0, {}, {}, 0
        self.begin_exchange()

    # ---- events

    def tell(self, kind, fields=b""):
        """Writes an event. Lines that come meanwhile are kept, so that neither side waits for the other."""
        moment = int((time.monotonic() - self.start) * 1000)
        event = string(moment.to_bytes(8, "big") + bytes([kind]) + fields)
        into, out = self.program.stdin.fileno(), self.program.stdout.fileno()
        while event:
            readable, writable, _ = select.select([out], [into], [])
            if readable:
                self.keep_lines()
            if writable:
                event = event[os.write(into, event[: select.PIPE_BUF]) :]

    def ticket(self):
        self.tickets += 1
        return self.tickets

    def authenticate(self, user, method, fields):
        ticket = self.ticket()
        self.tell(AUTHENTICATE, u32(ticket) + string(user) + bytes([method]) + fields)
        return self.until(ticket)[0] == AUTH_SUCCESS

    def open(self, kind, fields=b""):
        """Opens a channel, and waits until it is confirmed. The line of the answer may come before the channel's own."""
        self.wait(lambda: not self.is_exchanging)
        ticket = self.ticket()
        self.tell(kind, u32(ticket) + fields)
        number = Reader(self.until(ticket)[1:]).u32()
        return self.channels.setdefault(number, Channel(number))

    def ask(self, channel, sort, fields=b""):
        self.wait(lambda: not self.is_exchanging)
        self.tell(CHANNEL, u32(channel.number) + bytes([sort]) + fields)

    # ---- the loop

    def until(self, ticket):
        self.wait(lambda: ticket in self.resolved)
        return self.resolved.pop(ticket)

    def wait(self, is_there):
        """Goes on with packets and records until something is there."""
        while not is_there():
            self.turn()

    def turn(self, timeout=10.0):
        """Does one thing: what the program says first, then packets, and waits where there is neither."""
        out = self.program.stdout
        if b"\n" in self.lines or select.select([out], [], [], 0.0)[0]:
            self.read_records()
        elif self.transport.has_packet():
            self.packet(self.transport.receive())
        else:
            ready, _, _ = select.select([out, self.transport], [], [], timeout)
            if not ready:
                raise TimeoutError(f"nothing came for {timeout} seconds")
            if self.transport in ready and not self.transport.read_more():
                raise ConnectionError("the server closed the connection")

    def packet(self, payload):
        if payload[0] == KEXINIT:
            self.tell(PEER_KEXINIT)
            if not self.is_exchanging:
                self.settle(BEGIN_EXCHANGE)
            self.finish_exchange(payload)
        elif payload[0] not in TRANSPORTS_OWN:
            self.tell(PAYLOAD, payload)
            self.settle_questions(payload[0])

    def settle_questions(self, number):
        """While the user logs in, a packet may end in a question to the user, behind which no packet may be written: so its
        lines are read first. Each packet that the server sends then has one at least, but for EXT_INFO and what is ignored.
        """
        if not self.is_open and (number == SERVICE_ACCEPT or number >= USERAUTH):
            self.read_records()

    def settle(self, kind):
        seen = self.read_records()
        while kind not in seen:
            seen = self.read_records()

    # ---- key exchanges

    def begin_exchange(self):
        self.is_exchanging = True
        self.transport.begin()

    def rekey(self):
        """The user asks for new keys; nothing else may be asked until the exchange is done."""
        self.tell(REKEY)
        self.settle(BEGIN_EXCHANGE)

    def finish_exchange(self, theirs):
        done = self.transport.exchange(theirs)
        names = [b"curve25519-sha256", b"ssh-ed25519", b"aes256-gcm@openssh.com", b"", b""]
        fields = b"\1" + string(done.host_key) + string(done.hash) + string(done.signature) + b"\0" + string(b"")
        self.tell(EXCHANGE_DONE, fields + b"".join(map(string, names)) + bytes([done.strict]))
        self.settle(KEX_DONE)

    # ---- records

    def read_records(self):
        """Reads what the program wrote, and does what it says; the kinds that came."""
        while b"\n" not in self.lines:
            self.keep_lines()
        *lines, self.lines = self.lines.split(b"\n")
        kinds = []
        for line in lines:
            if line.startswith((b"ended ", b"error ")):
                raise Ended(line.decode())
            record = bytes.fromhex(line.decode())
            kinds.append(record[0])
            self.act(record[0], Reader(record[1:]))
        return kinds

    def keep_lines(self):
        more = os.read(self.program.stdout.fileno(), 65536)
        if not more:
            raise Ended("the program closed its output")
        self.lines += more

    def act(self, kind, fields):
        if kind == SEND:
            self.send(fields.rest())
        elif kind == BEGIN_EXCHANGE:
            self.begin_exchange()
        elif kind == KEX_DONE:
            self.is_exchanging, self.exchanges = False, self.exchanges + 1
            self.send_held()
        elif kind == OPENED:
            self.is_open = True
        elif kind == RESOLVED:
            ticket = fields.u32()
            self.resolved[ticket] = fields.rest()
        elif kind == SIGN_REQUEST:
            self.signature(fields)
        elif kind == PROMPTS:
            self.prompts(fields)
        else:
            self.channel(kind, fields)

    def send(self, packet):
        """Sends a packet; one that comes while an exchange of ours runs waits for the new keys (RFC 4253, section 7.1)."""
        if self.is_exchanging:
            self.held.append(packet)
        else:
            self.transport.send(packet)

    def send_held(self):
        for packet in self.held:
            self.transport.send(packet)
        self.held = []

    def signature(self, fields):
        """A signature is wanted: the bytes go back as they came, with the signature behind them."""
        _ticket, _key, _hash, to_sign = fields.u32(), fields.string(), fields.u8(), fields.string()
        self.tell(SIGNED, string(to_sign + string(self.sign(to_sign))))

    def prompts(self, fields):
        _ticket, _name, _instructions = fields.u32(), fields.string(), fields.string()
        prompts = [(fields.string(), fields.u8()) for _ in range(fields.u32())]
        answers = [string(self.answer(prompt)) for prompt, _ in prompts]
        self.tell(AUTH_INFO_RESPONSE, u32(len(answers)) + b"".join(answers))

    def channel(self, kind, fields):
        if kind < CHANNEL_OPEN or kind > 0x2E:
            return
        number = fields.u32()
        channel = self.channels.setdefault(number, Channel(number))
        if kind == DATA:
            channel.output += fields.string()
        elif kind == EXTENDED_DATA:
            _code = fields.u32()
            channel.errors += fields.string()
        elif kind == EXIT_STATUS:
            channel.exit_status = fields.u32()
        elif kind == EOF:
            channel.is_ended = True
        elif kind == CLOSED:
            channel.is_closed = True

    # ---- the end

    def leave(self):
        """Says goodbye (reason 11, by application), and gives the program's last line."""
        self.tell(DISCONNECT, u32(11) + string(b"bye") + string(b""))
        try:
            while True:
                self.read_records()
        except Ended as last:
            return str(last)
        finally:
            self.program.stdin.close()
            self.program.wait()
            self.transport.socket.close()
