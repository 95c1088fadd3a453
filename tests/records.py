"""Which bytes are a record, from docs/FORMATS.md ("Records") alone: a reader apart from the code."""

METHODS = (b"none", b"password", b"publickey", b"hostbased", b"keyboard-interactive", b"gssapi-with-mic")


class Broken(Exception):
    pass


class Bytes:
    def __init__(self, body):
        self.body, self.at = body, 0

    def take(self, count):
        if len(self.body) - self.at < count:
            raise Broken
        self.at += count
        return self.body[self.at - count : self.at]

    def u8(self):
        return self.take(1)[0]

    def u32(self):
        return int.from_bytes(self.take(4), "big")

    def str(self):
        return self.take(self.u32())

    def text(self):
        try:
            return self.str().decode()
        except UnicodeDecodeError:
            raise Broken from None

    def bool(self):
        """A record is written with 0 or 1."""
        self.among(2)

    def among(self, count, first=0):
        if not first <= self.u8() < first + count:
            raise Broken

    def reason(self):
        if not 1 <= self.u32() <= 4:
            raise Broken

    def methods(self):
        text = self.str()
        names = text.split(b",") if text else []
        if len(set(names)) < len(names) or not set(names) <= set(METHODS):
            raise Broken

    def names(self):
        if b"" in (text := self.text().encode()).split(b",") and text:
            raise Broken

    def each(self, read):
        for _ in range(self.u32()):
            read()

    def read(self, parts):
        """Each letter is one part: b u8 of 0 or 1, 4 u32, s str, t text, r a reason, h a hash, m methods, n names."""
        for part in parts:
            {"b": self.bool, "4": self.u32, "s": self.str, "t": self.text, "r": self.reason, "h": lambda: self.among(3),
             "m": self.methods, "n": self.names}[part]()

    def prompt(self):
        self.read("tb")


RESOLUTIONS = {0: "", 1: "mb", 2: "", 3: "bn", 4: "4", 5: "r", 6: "4", 7: "", 8: "", 9: "", 10: "", 11: "b", 12: "s", 13: ""}
PARTS = {
    0x02: "", 0x03: "", 0x05: "4shs", 0x06: "4shs", 0x08: "4ss", 0x09: "4ss", 0x0A: "444t", 0x0B: "4s", 0x20: "t", 0x21: "t",
    0x22: "444", 0x23: "4", 0x24: "4", 0x25: "4", 0x26: "4", 0x27: "4rtt", 0x29: "4s", 0x2A: "44s", 0x2B: "4b", 0x2C: "44",
    0x2D: "4tbtt", 0x2E: "44", 0x40: "4s", 0x42: "4s",
}
OPENS = {0: "", 1: "t4t4", 2: "t", 3: "t4", 4: "t4t4", 5: "t", 6: "", 7: ""}


def is_record(body):
    c = Bytes(body)
    try:
        number = c.u8()
        if number == 0x01:
            return True
        if number == 0x04:
            c.u32()
            c.read(RESOLUTIONS[c.u8()])
        elif number == 0x07:
            c.read("4tt")
            c.each(c.prompt)
        elif number == 0x28:
            c.u32()
            c.read(OPENS[c.u8()])
        elif number == 0x2F:
            c.each(c.str)
        elif number == 0x41:
            c.u32()
            c.among(7)
        elif number == 0x43:
            c.u32()
            c.among(3, 1)
        else:
            c.read(PARTS[number])
    except (Broken, KeyError):
        return False
    return c.at == len(body)
