"""Drives `sshc_forward_main` over two pipes, between local sockets and the channels of a session (../real_login/session.py).

The bytes of events and lines are those of docs/FORMATS.md, "Events and lines of forwards". What is sent when, and what an
end or a failure of one side does to the other, is the program's; here bytes are only moved.
"""
import os
import select
import socket
import subprocess

from session import CHANNEL, CLOSE, CLOSED, DATA, EOF, OPEN_DIRECT_TCPIP, SEND_DATA, SEND_EOF, Ended, Session
from transport import Reader, string, u32

# events of forwards
ACCEPTED, OPENED, OPEN_FAILED, INCOMING, BYTES, STREAM_END = 1, 2, 3, 4, 5, 6
CHANNEL_DATA, CHANNEL_EOF, CHANNEL_CLOSE, STREAM_FAILED = 7, 8, 9, 10
# what is to be done
OPEN, SEND, EOF_ON_CHANNEL, WRITE, END_WRITING, CLOSE_STREAM, CLOSE_CHANNEL = range(0x81, 0x88)
# events and records of the session
TCPIP_FORWARD, SERVER_OPEN_REPLY, SERVER_OPENED = 0x1B, 0x22, 0x28
CHANNEL_OPENED, FORWARD_PORT, FORWARDED_TCPIP = 4, 6, 4

PIECE = 32768


class Stream:
    """A local socket: bytes that are to be written to it, and whether the end of writing is due behind them."""

    def __init__(self, number, connection):
        self.number, self.socket = number, connection
        self.waiting, self.ends, self.is_read = b"", False, False
        connection.setblocking(False)

    def fileno(self):
        return self.socket.fileno()


class Forwards(Session):
    """A session whose channels are paired with local sockets by `sshc_forward_main`."""

    def __init__(self, program, forwarder, transport, host, port, known_hosts):
        self.forwarder = subprocess.Popen(forwarder, stdin=subprocess.PIPE, stdout=subprocess.PIPE, bufsize=0)
        self.output, self.last = b"", None
        self.streams, self.opening, self.numbers, self.most_at_once = {}, {}, 0, 0
        self.listener = self.target = self.connect_to = None
        super().__init__(program, transport, host, port, known_hosts, None, None)

    # ---- events of forwards

    def forward(self, kind, *fields):
        """Writes an event of forwards; lines that come meanwhile are kept, so that neither side waits for the other."""
        event = string(bytes([kind]) + b"".join(fields))
        into, out = self.forwarder.stdin.fileno(), self.forwarder.stdout.fileno()
        while event:
            readable, writable, _ = select.select([out], [into], [])
            if readable:
                self.keep_output()
            if writable:
                event = event[os.write(into, event[: select.PIPE_BUF]) :]

    def keep_output(self):
        more = os.read(self.forwarder.stdout.fileno(), 65536)
        if not more:
            raise Ended("the program of forwards closed its output")
        self.output += more

    def add(self, connection):
        self.numbers += 1
        self.streams[self.numbers] = Stream(self.numbers, connection)
        self.most_at_once = max(self.most_at_once, len(self.streams))
        return self.numbers

    def accept(self):
        connection, address = self.listener.accept()
        number = self.add(connection)
        host, port = self.target
        fields = (u32(number), string(host.encode()), u32(port), string(address[0].encode()), u32(address[1]))
        self.forward(ACCEPTED, *fields)

    def read_stream(self, stream):
        try:
            body = stream.socket.recv(PIECE)
        except OSError:
            stream.is_read = True
            self.forward(STREAM_FAILED, u32(stream.number))
            return
        if body:
            self.forward(BYTES, u32(stream.number), string(body))
        else:
            stream.is_read = True
            self.forward(STREAM_END, u32(stream.number))

    def write_stream(self, stream):
        try:
            stream.waiting = stream.waiting[stream.socket.send(stream.waiting) :]
        except OSError:
            stream.waiting = b""
            self.forward(STREAM_FAILED, u32(stream.number))
        self.end_writing(stream)

    def end_writing(self, stream):
        if stream.ends and not stream.waiting:
            stream.ends = False
            try:
                stream.socket.shutdown(socket.SHUT_WR)
            except OSError:
                pass

    # ---- what is to be done

    def read_output(self):
        *lines, self.output = self.output.split(b"\n")
        for line in lines:
            if line.startswith((b"left ", b"error ")):
                self.last = line.decode()
            else:
                body = bytes.fromhex(line.decode())
                self.perform(body[0], Reader(body[1:]))

    def perform(self, kind, fields):
        number = fields.u32()
        if kind == OPEN:
            ticket = self.ticket()
            self.opening[ticket] = number
            self.tell(OPEN_DIRECT_TCPIP, u32(ticket) + fields.rest())
        elif kind == SEND:
            self.tell(CHANNEL, u32(number) + bytes([SEND_DATA]) + fields.rest())
        elif kind == EOF_ON_CHANNEL:
            self.tell(CHANNEL, u32(number) + bytes([SEND_EOF]))
        elif kind == CLOSE_CHANNEL:
            self.tell(CHANNEL, u32(number) + bytes([CLOSE]))
        elif kind == WRITE:
            self.streams[number].waiting += fields.string()
        elif kind == END_WRITING:
            self.streams[number].ends = True
            self.end_writing(self.streams[number])
        elif kind == CLOSE_STREAM:
            self.close_stream(self.streams.pop(number))

    def close_stream(self, stream):
        """Closes a socket; bytes that wait for it are written before."""
        stream.socket.setblocking(True)
        try:
            stream.socket.sendall(stream.waiting)
        except OSError:
            pass
        stream.socket.close()

    # ---- what happens in the session

    def act(self, kind, fields):
        if kind == SERVER_OPENED:
            self.server_opened(fields.u32(), fields.u8())
        else:
            super().act(kind, fields)
            self.settle_opens()

    def settle_opens(self):
        for ticket in [ticket for ticket in self.opening if ticket in self.resolved]:
            number, answer = self.opening.pop(ticket), Reader(self.resolved.pop(ticket))
            if answer.u8() == CHANNEL_OPENED:
                self.forward(OPENED, u32(number), answer.body[1:])
            else:
                self.forward(OPEN_FAILED, u32(number))

    def server_opened(self, channel, sort):
        """The server opens a channel for a connection to the forwarded port: a local socket is connected for it."""
        is_ours = sort == FORWARDED_TCPIP and self.connect_to
        self.tell(SERVER_OPEN_REPLY, u32(channel) + bytes([bool(is_ours)]) + u32(1))
        if is_ours:
            number = self.add(socket.create_connection(self.connect_to))
            self.forward(INCOMING, u32(channel), u32(number))

    def channel(self, kind, fields):
        number = fields.body[:4]
        if kind == DATA:
            self.forward(CHANNEL_DATA, number, fields.body[4:])
        elif kind == EOF:
            self.forward(CHANNEL_EOF, number)
        elif kind == CLOSED:
            self.forward(CHANNEL_CLOSE, number)

    # ---- the loop

    def turn(self, timeout=10.0):
        """Does what can be done: lines of either program, packets, and what the sockets have or take."""
        outputs = [self.program.stdout, self.forwarder.stdout]
        reading = [stream for stream in self.streams.values() if not stream.is_read]
        writing = [stream for stream in self.streams.values() if stream.waiting]
        waits = not (self.transport.has_packet() or b"\n" in self.lines or b"\n" in self.output)
        sources = outputs + [self.transport] + reading + ([self.listener] if self.listener else [])
        ready, writable, _ = select.select(sources, writing, [], timeout if waits else 0.0)
        if waits and not ready and not writable:
            raise TimeoutError(f"nothing came for {timeout} seconds")
        if self.forwarder.stdout in ready:
            self.keep_output()
        self.read_output()
        if self.program.stdout in ready or b"\n" in self.lines:
            self.read_records()
        if self.transport in ready and not self.transport.read_more():
            raise ConnectionError("the server closed the connection")
        while self.transport.has_packet() and b"\n" not in self.lines:
            self.packet(self.transport.receive())
        for stream in writable:
            if stream.number in self.streams:
                self.write_stream(stream)
        for stream in reading:
            if stream in ready and stream.number in self.streams:
                self.read_stream(stream)
        if self.listener in ready:
            self.accept()

    # ---- forwards

    def forward_local(self, target):
        """Listens on a port, whose connections are forwarded to a host and port that the server reaches."""
        self.target = target
        self.listener = socket.create_server(("127.0.0.1", 0), backlog=256)
        return self.listener.getsockname()[1]

    def forward_remote(self, connect_to):
        """The server listens on a port, whose connections come back and are connected here."""
        self.connect_to = connect_to
        ticket = self.ticket()
        self.tell(TCPIP_FORWARD, u32(ticket) + string(b"127.0.0.1") + u32(0))
        answer = Reader(self.until(ticket))
        if answer.u8() != FORWARD_PORT:
            raise Ended("the server refuses to listen")
        return answer.u32()

    def close_forwards(self):
        """Ends the program of forwards, and gives its last line."""
        self.forwarder.stdin.close()
        while self.last is None:
            self.keep_output()
            self.read_output()
        self.forwarder.wait()
        return self.last


