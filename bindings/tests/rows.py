"""Worked runs of crates/sshc_rows_session/data/runs, read for callers in any language.

    rows.py RUNS           runs them through the Python module, and compares records, status, place or line
    rows.py RUNS --dump    prints them as lines of hexadecimal bytes for the callers in C, Rust and Go

Left out: rows in which the toy pair signs or verifies, since the session of the C library signs nothing and accepts no
proof; those of an agent run through the agent's calls, with the toy signature made here."""
import hashlib
import hmac
import os
import struct
import sys


def string(bytes):
    return struct.pack(">I", len(bytes)) + bytes


def read_string(bytes):
    count = struct.unpack(">I", bytes[:4])[0]
    return bytes[4 : 4 + count], bytes[4 + count :]


def word_bytes(word):
    form, _, value = word.partition(":")
    if form == "u32":
        return struct.pack(">I", int(value))
    if form == "hex":
        return string(bytes.fromhex(value))
    if form == "str":
        return string(value.replace("+", " ").encode())
    return bytes.fromhex(word)


class Row:
    def __init__(self, name):
        self.name, self.known, self.events, self.records, self.bytes = name, b"", [], [], b""
        self.answer, self.status = [], 0

    def add(self, moment, event):
        self.events.append((moment, event))
        self.bytes += struct.pack(">IQ", len(event) + 8, moment) + event

    def is_agents(self):
        return any(0x40 <= event[0] <= 0x43 for _, event in self.events)

    def is_mixed(self):
        return self.is_agents() and not all(0x40 <= event[0] <= 0x43 for _, event in self.events)

    def wants_toy(self):
        """Whether the toy pair signs (AUTHENTICATE with a pair at hand) or verifies (HOSTKEYS_PROVE) for the session."""
        return any(event[0] == 0x2A or event[0] == 0x10 and read_string(event[5:])[1][:1] in (b"\2", b"\3") for _, event in self.events)

    def wanted(self):
        """The status and the place or line that the C library is to return for the last event."""
        ends = {"remote-disconnect": 9, "disconnected": 10, "closed": 11, "script-end": 0}
        status = ends[self.answer[1]] if self.answer[0] == "ended" else self.status
        return status, int(self.answer[2]) if len(self.answer) > 2 else 0


def read(path):
    rows = []
    with open(path) as lines:
        for line in lines:
            verb, _, rest = line.strip().partition(" ")
            words = rest.split()
            if verb == "row":
                rows.append(Row(rest))
            elif verb == "known":
                rows[-1].known += rest.encode() + b"\n"
            elif verb == "event":
                rows[-1].add(0, b"".join(map(word_bytes, words)))
            elif verb == "at":
                rows[-1].add(int(words[0]), b"".join(map(word_bytes, words[1:])))
            elif verb == "bytes":
                rows[-1].bytes += b"".join(map(word_bytes, words))
                rows[-1].events.append((None, b"\0"))
            elif verb == "record":
                rows[-1].records.append(b"".join(map(word_bytes, words)))
            elif verb == "answer":
                rows[-1].answer = words
            elif verb == "status":
                rows[-1].status = int(rest)
    return rows


def dump(rows):
    for row in rows:
        if row.is_agents() or row.wants_toy():
            continue
        status, detail = row.wanted()
        print(row.name, row.known.hex() or "-", row.bytes.hex() or "-", status, detail, *[record.hex() for record in row.records])


def run_session(row):
    import sazhonthil

    with sazhonthil.Session(b"localhost", 13265, row.known) as session:
        got = session.take(row.bytes)
        assert got == row.records, (row.name, [it.hex() for it in got], [it.hex() for it in row.records])
        assert (session.status, session.detail) == row.wanted(), (row.name, session.status, session.detail, row.answer)


def run_one_by_one(row):
    """The same with one call for each event."""
    import sazhonthil

    with sazhonthil.Session(b"localhost", 13265, row.known) as session:
        got, left = [], row.bytes
        while left:
            size = 4 + int.from_bytes(left[:4], "big")
            got += session.take(left[:size])
            left = left[size:]
            if session.status != 0:
                break
        assert got == row.records, (row.name, [it.hex() for it in got])
        assert (session.status, session.detail) == row.wanted(), (row.name, session.status, session.detail, row.answer)


def toy_name(key, hash):
    name = read_string(key)[0]
    return {1: b"rsa-sha2-256", 2: b"rsa-sha2-512"}.get(hash, name) if name == b"ssh-rsa" else name


def run_agent(row):
    import sazhonthil as s

    got, buffers = [], {}

    def step(agent, moment, connection, input, frame=b""):
        question = agent.asks(moment, connection, input, frame)
        told, signature = s.UNASKED, b""
        if question:
            name = toy_name(question.key, question.hash)
            told = s.REFUSED if name.startswith(b"sk-") or len(name) > 64 else s.SIGNED
            signature = string(name) + string(hmac.new(question.key, question.bytes, hashlib.sha1).digest())
        output = agent.take(moment, connection, input, frame, told, signature if told == s.SIGNED else b"")
        head = struct.pack(">I", connection)
        if output.status == s.OK:
            got.append(b"\x40" + head + string(output.bytes))
        elif output.status == s.ASKS_REQUEST:
            got.append(b"\x41" + head + bytes([output.request]))
        elif output.status == s.ASKS_KEY:
            got.append(b"\x42" + head + string(output.bytes))
        elif output.status in (s.CLOSED_TOO_LONG, s.CLOSED_UNREADABLE, s.CLOSED_REFUSED):
            got.append(b"\x43" + head + bytes([output.status - 14]))

    with s.Agent() as agent:
        for moment, event in row.events:
            kind, connection, rest = event[0], struct.unpack(">I", event[1:5])[0], event[5:]
            if kind == 0x40:
                buffer = buffers.get(connection, b"") + rest
                while len(buffer) >= 4:
                    size = struct.unpack(">I", buffer[:4])[0]
                    if size > 262144:
                        step(agent, moment, connection, s.OVERSIZE)
                        buffer = b""
                        break
                    if len(buffer) < 4 + size:
                        break
                    step(agent, moment, connection, s.FRAME, buffer[4 : 4 + size])
                    buffer = buffer[4 + size :]
                buffers[connection] = buffer
            elif kind == 0x43:
                step(agent, moment, connection, s.CLOSE)
            else:
                yes, no = (s.ALLOW, s.DENY) if kind == 0x41 else (s.CONFIRM, s.REFUSE)
                step(agent, moment, connection, yes if rest[0] else no)
    assert got == row.records, (row.name, [it.hex() for it in got], [it.hex() for it in row.records])


def main():
    rows = read(sys.argv[1])
    if sys.argv[2:] == ["--dump"]:
        return dump(rows)
    sys.path.insert(0, os.path.join(os.path.dirname(os.path.abspath(__file__)), "..", "python"))
    ran = {"session": 0, "agent": 0, "left out": 0}
    for row in rows:
        if row.is_agents() and not row.is_mixed() and all(event != b"\0" for _, event in row.events) and row.answer[1] == "script-end":
            run_agent(row)
            ran["agent"] += 1
        elif row.is_agents() or row.wants_toy():
            ran["left out"] += 1
        else:
            run_session(row)
            run_one_by_one(row)
            ran["session"] += 1
    print(f"python: {ran['session']} rows of a session and {ran['agent']} of an agent as they are to be; left out: {ran['left out']}")


main()
