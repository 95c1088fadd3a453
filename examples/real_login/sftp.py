"""As much of SFTP (version 3, draft-ietf-secsh-filexfer-02) as lists a directory over a channel."""
from session import SEND_DATA
from transport import Reader, string, u32

INIT, VERSION, CLOSE, OPENDIR, READDIR, STATUS, HANDLE, NAME = 1, 2, 4, 11, 12, 101, 102, 104


class Sftp:
    def __init__(self, session, channel):
        self.session, self.channel, self.buffer = session, channel, b""
        self.ask(bytes([INIT]) + u32(3), VERSION)

    def ask(self, request, *answers):
        """Sends a request, and reads its answer from the channel's bytes."""
        self.session.ask(self.channel, SEND_DATA, string(string(request)))
        self.session.wait(self.has_answer)
        reader = Reader(self.buffer)
        answer = Reader(reader.string())
        self.buffer = reader.rest()
        kind = answer.u8()
        if kind not in answers:
            raise ValueError(f"the server answers with {kind}")
        return kind, answer

    def has_answer(self):
        self.buffer, self.channel.output = self.buffer + self.channel.output, b""
        return len(self.buffer) >= 4 and len(self.buffer) >= 4 + Reader(self.buffer).u32()

    def names(self, path):
        _, answer = self.ask(bytes([OPENDIR]) + u32(1) + string(path), HANDLE)
        _request, handle = answer.u32(), answer.string()
        found = []
        while True:
            kind, answer = self.ask(bytes([READDIR]) + u32(2) + string(handle), NAME, STATUS)
            if kind == STATUS:
                break
            _request = answer.u32()
            found += [self.name(answer) for _ in range(answer.u32())]
        self.ask(bytes([CLOSE]) + u32(3) + string(handle), STATUS)
        return sorted(found)

    def name(self, answer):
        name, _long = answer.string(), answer.string()
        self.skip_attributes(answer)
        return name.decode()

    def skip_attributes(self, answer):
        """Size, owner, permissions and times, each only where its flag is set."""
        flags = answer.u32()
        answer.take(8 * (flags & 1) + 8 * (flags >> 1 & 1) + 4 * (flags >> 2 & 1) + 8 * (flags >> 3 & 1))
