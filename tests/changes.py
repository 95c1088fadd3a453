"""Random changes of worked inputs, for tests/fuzz.py: of bytes, of scripts event by event, of texts line by line."""
import random

LONGEST = 1 << 16
NUMBERS = (0, 1, 2, 4, 5, 8, 9, 255, 32768, 262144, 262145, 2**31, 2**32 - 1)
SMALL = tuple(number.to_bytes(4, "big") for number in (0, 1, 1, 2, 2, 3, 4, 100, 2**32 - 1))


class Quick(random.Random):
    """Random choices in half the time, which is most of the time of making an input."""

    def choice(self, items):
        return items[int(self.random() * len(items))]

    def randrange(self, first, last=None):
        return int(self.random() * first) if last is None else first + int(self.random() * (last - first))


def u32(number):
    return number.to_bytes(4, "big")


def string(body):
    return u32(len(body)) + body


def changed(rng, body, others):
    """Some bytes of the input are other ones, are gone, doubled, or come from another input."""
    body = bytearray(body)
    for _ in range(rng.choice((1, 1, 1, 2, 3, 8))):
        at = rng.randrange(len(body) + 1)
        sort = rng.randrange(8)
        if sort == 0 and at < len(body):
            body[at] ^= 1 << rng.randrange(8)
        elif sort == 1 and at < len(body):
            body[at] = rng.randrange(256)
        elif sort == 2:
            del body[at : at + rng.choice((1, 1, 2, 4, 16))]
        elif sort == 3:
            body[at:at] = rng.randbytes(rng.choice((1, 1, 2, 4)))
        elif sort == 4:
            body[at : at + 4] = u32(rng.choice(NUMBERS))
        elif sort == 5:
            body[at:at] = body[at : at + rng.choice((1, 4, 8, 32))]
        elif sort == 6:
            other = rng.choice(others)
            start = rng.randrange(len(other) + 1)
            body[at : at + rng.choice((0, 4, 16))] = other[start : start + rng.choice((4, 16, 64))]
        else:
            del body[at:]
    return bytes(body[:LONGEST])


def pieces(script):
    """The events of a script, each with its length; what is no event is the last piece."""
    out, at = [], 0
    while len(script) - at >= 4 and at + 4 + int.from_bytes(script[at : at + 4], "big") <= len(script):
        end = at + 4 + int.from_bytes(script[at : at + 4], "big")
        out.append(script[at:end])
        at = end
    return out + ([script[at:]] if at < len(script) else [])


def refielded(rng, event, others, head):
    """The event, whose fields begin at this place, is changed within its length."""
    sort = rng.randrange(4)
    if len(event) < head + 4 or sort == 0:
        return string(event[4:head] + changed(rng, event[head:], [rng.choice(rng.choice(others))]))
    at = head + rng.randrange(len(event) - head - 3)
    if sort == 1:
        return event[:head] + rng.choice(SMALL) + event[head + 4 :]
    if sort == 2:
        return event[:at] + rng.choice(SMALL) + event[at + 4 :]
    return event[:at] + bytes([event[at] ^ 1 << rng.randrange(8)]) + event[at + 1 :]


def shuffled(rng, events, others, head):
    """Events are changed in their fields, which begin at this place, are gone, doubled, exchanged, or come from others."""
    events = list(events)
    for _ in range(rng.choice((1, 1, 2, 4))):
        at, sort = rng.randrange(len(events) + 1), rng.randrange(8)
        if sort < 2 and at < len(events) and len(events[at]) >= head:
            events[at] = refielded(rng, events[at], others, head)
        elif sort == 2 and at < len(events):
            del events[at]
        elif sort == 3 and at < len(events):
            events.insert(at, events[at])
        elif sort == 4 and len(events) > 1:
            one = rng.randrange(len(events) - 1)
            events[one], events[one + 1] = events[one + 1], events[one]
        else:
            other = rng.choice(others)
            start = rng.randrange(len(other) + 1)
            events[at:at] = other[start : start + rng.choice((1, 2, 8))]
    return events


def in_order(events):
    """No moment is below that of the event before."""
    last, out = bytes(8), []
    for event in events:
        if len(event) >= 12 and event[4:12] < last:
            event = event[:4] + last + event[12:]
        last = event[4:12] if len(event) >= 12 else last
        out.append(event)
    return out


def broken_text(rng, text, others, words):
    """Lines of a text are changed, doubled, exchanged or gone, or have another word."""
    lines = text.split(b"\n")
    for _ in range(rng.choice((1, 1, 2, 3))):
        if not lines:
            return rng.choice(others)
        at, sort = rng.randrange(len(lines)), rng.randrange(6)
        if sort == 0:
            lines[at] = changed(rng, lines[at], others)
        elif sort == 1:
            lines.insert(at, rng.choice(rng.choice(others).split(b"\n")))
        elif sort == 2:
            del lines[at]
        elif sort == 3:
            parts = lines[at].split(b" ")
            parts[rng.randrange(len(parts))] = rng.choice(words)
            lines[at] = b" ".join(parts)
        elif sort == 4:
            lines[at] += rng.choice((b"\r", b" ", b"=", b" a comment", b"\xff"))
        else:
            rng.shuffle(lines)
    return b"\n".join(lines)[:LONGEST]
