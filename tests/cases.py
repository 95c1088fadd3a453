#!/usr/bin/env python3
"""Cases for `sshc_bench cases` and bench/plain, made at random from worked inputs, for tests/fuzz.py. A case is what a program is
given, in the bytes of crates/sshc_bench/README.md. Each generator yields so many of one kind.

Usage: tests/cases.py, which writes stdin and the end of stdout of crates/sshc_bench, its cases and their outcomes, from worked rows
"""
import base64
import pathlib
import sys

HERE = pathlib.Path(__file__).resolve().parent
sys.path[:0] = [str(HERE), str(HERE.parent / "bench")]
from changes import LONGEST, Quick, broken_text, changed, in_order, pieces, shuffled, string, u32  # noqa: E402
from mixed_script import KEY, Writer, known_text  # noqa: E402
from proxy_rows import BLOBS, K1, K2, K3, K4, bind, listing, sign  # noqa: E402
from wire_parts import PAIR_NAMES, any_name, certificate_blob, event, exchange_done, near_key, pair, plain_blob  # noqa: E402
from worked_rows import ROWS, rows_in  # noqa: E402

DATA = HERE.parent / "crates"
SCRIPT_FIELDS, FORWARD_FIELDS = 13, 5


def case(kind, words=b"", file=b"", given=b"", answers=b""):
    body = bytes([kind]) + string(words) + string(file) + string(given) + string(answers)
    return u32(len(body)) + body


def taken_apart(body):
    """The words, the file, the input and the answers of a case."""
    parts, at = [], 5
    while at < len(body):
        end = at + 4 + int.from_bytes(body[at : at + 4], "big")
        parts.append(body[at + 4 : end])
        at = end
    return parts


# ---- scripts


def made_scripts(rng):
    """Known hosts texts and scripts that are made from numbers."""
    for _ in range(300):
        seed = rng.randrange(1 << 30)
        writer = Writer(seed)
        sort = rng.randrange(4)
        if sort == 0:
            writer.mixed(rng.choice((20, 60)))
        elif sort == 1:
            writer.near_fields()
        else:
            writer.walk()
        if sum(map(len, writer.out)) < LONGEST // 2:
            yield known_text(rng).encode(), writer.out


def scripts(rng, count):
    """The worked runs of sessions and agents, and scripts made from numbers, event by event."""
    rows = [(row.known.encode(), pieces(row.script)) for row in rows_in(ROWS) if row.script]
    accepting = next(row.known.encode() for row in rows_in(ROWS) if row.name == "password")
    sources = rows + list(made_scripts(rng))
    others = [events for _, events in sources]
    for _ in range(count):
        known, events = rng.choice(sources)
        known = known if rng.random() < 0.5 else accepting
        events = shuffled(rng, events, others, SCRIPT_FIELDS)
        if rng.random() < 0.95:
            events = in_order(events)
        script = b"".join(events)
        if rng.random() < 0.03:
            script = changed(rng, script, [b"".join(rng.choice(others))])
        yield case(0, b"script\nlocalhost\n13265\nfile", known, script[:LONGEST])


# ---- frames of an agent


def agent_messages(rng):
    """Messages to an agent about a few keys."""
    keys = [pair(rng, rng.choice(PAIR_NAMES)) for _ in range(12)]
    messages = [b"\x0b"] * 8 + [b"\x13", b"\x16" + string(b"pw"), b"\x16" + string(b""), b"\x17" + string(b"pw"), b"\x17" + string(b"pw"),
                                b"\x17" + string(b"")]
    for made, blob in keys:
        messages += [b"\x11" + made + string(b"a comment")] * 2
        messages += [b"\x19" + made + string(b"") + limits for limits in (b"", b"\2", b"\2", b"\1" + u32(3), b"\1" + u32(0) + b"\2")]
        messages += [b"\x0d" + string(blob) + string(rng.randbytes(20)) + u32(flags) for flags in (0, 0, 2, 4)] * 2
        messages += [b"\x12" + string(blob), b"\x0d" + string(plain_blob(rng)) + string(b"") + u32(0)]
    return messages


def agent_events(rng, messages):
    """Some messages of some connections, in pieces, with the user's answers."""
    events, moment = [], 0
    for _ in range(rng.choice((2, 4, 8, 16))):
        moment += rng.choice((0, 0, 0, 1, 1000, 2999))
        number = u32(rng.randrange(3))
        if rng.random() < 0.2:
            events.append(event(rng.choice((0x41, 0x42, 0x42, 0x42, 0x43)), number + rng.choice((b"\0", b"\1")), moment))
            continue
        message = rng.choice(messages)
        if rng.random() < 0.15:
            message = changed(rng, message, messages)
        frame = string(message) if rng.random() < 0.98 else u32(rng.choice((0, 5, 262144, 262145))) + message
        cut = rng.randrange(len(frame)) if rng.random() < 0.2 else len(frame)
        events += [event(0x40, number + part, moment) for part in (frame[:cut], frame[cut:]) if part]
    return events


def frames(rng, count):
    """Frames of an agent's clients, before any session; and the worked runs of agents, event by event."""
    messages = agent_messages(rng)
    rows = [pieces(row.script) for row in rows_in(ROWS)]
    rows = [events for events in rows if any(len(one) > 12 and one[12] & 0xF0 == 0x40 for one in events)]
    for _ in range(count):
        if rng.random() < 0.75:
            events = agent_events(rng, messages)
        else:
            events = in_order(shuffled(rng, rng.choice(rows), rows, SCRIPT_FIELDS))
        yield case(0, b"script\nlocalhost\n13265\nfile", b"", b"".join(events)[:LONGEST])


# ---- known hosts texts


def host_lines(rng):
    """Lines of known hosts texts, good and bad ones, in texts."""
    texts = [row.known.encode() for row in rows_in(ROWS) if row.known]
    folder = DATA / "sshc_rows_formats/data"
    texts += [(folder / name).read_bytes() for name in ("plain", "marks", "wild", "worked", "marks.hashed", "doubled", "pairs")]
    texts += [known_text(rng).encode() for _ in range(400)]
    key = base64.b64encode(KEY)
    texts += [b"|1|" + b" ".join((b"x|y", b"ssh-ed25519", key)), b"*,!local* ssh-ed25519 " + key, b"localhost,[localhost]:13265 x " + key]
    return texts


HOST_WORDS = (b"", b"*", b"@revoked", b"localhost", b"[localhost]:13265", b"!localhost", b"|1|x|y", b"a,[localhost]:13265", b"x,localhost,", b"#")


def hosts_words(rng, blobs):
    """Arguments about the file."""
    host, port = (b"localhost", b"13265") if rng.random() < 0.8 else rng.choice(((b"localhost", b"22"), (b"other", b"022"), (b"", b"65536")))
    verb = rng.choice((b"check", b"check", b"check", b"keys", b"keys", b"learn"))
    words = [b"hosts", verb, host, port, b"file" if rng.random() < 0.95 else b"absent"]
    if verb != b"keys":
        key = base64.b64encode(rng.choice(blobs) if rng.random() < 0.3 else KEY)
        if rng.random() < 0.05:
            key = bytes(byte & 127 for byte in changed(rng, key, [key]) if byte & 127 != 10)
        words.append(key)
    return b"\n".join(words)


def hosts(rng, count):
    """Known hosts texts, judged by a script's exchange, or by the arguments of known hosts."""
    texts = host_lines(rng)
    blobs = [near_key(rng) for _ in range(200)] + [plain_blob(rng, any_name(rng)) for _ in range(50)]
    for _ in range(count):
        text = rng.choice(texts)
        if rng.random() < 0.3:
            text += b"\n" + rng.choice(texts)
        if rng.random() < 0.75:
            text = broken_text(rng, text, texts, HOST_WORDS)
        if rng.random() < 0.3:
            blob = KEY if rng.random() < 0.7 else rng.choice(blobs)
            given = event(0x01, b"") + exchange_done(blob, sort=2 if b"-cert-v01@" in blob[:60] else 1)
            yield case(0, b"script\nlocalhost\n13265\nfile", text, given)
        else:
            yield case(0, hosts_words(rng, blobs), text)


# ---- policies


def policy_text(rng, texts):
    keys = [blob.encode() for blob in BLOBS.values()]
    lines = [b"allow %s %s" % (rng.choice(keys), rng.choice(keys)) for _ in range(rng.choice((0, 1, 2, 4, 8)))]
    lines += rng.choice(([], [b""], [b"# a comment", b""]))
    rng.shuffle(lines)
    text = b"\n".join(lines)
    return broken_text(rng, text, texts, POLICY_WORDS) if rng.random() < 0.4 else text


POLICY_WORDS = (b"", b"allow", b"deny", b"#", b"AAAA", *[blob.encode() for blob in BLOBS.values()])


def conversation(rng, rsa):
    """Messages of a client to a proxy, and what an agent would answer to those that can be forwarded."""
    keys, asked, answers, hosts_bound = (K1, K2, K3, K4), [], [], 0
    for _ in range(rng.choice((1, 2, 4, 8))):
        sort = rng.randrange(8)
        if sort < 3:
            host, session = rng.choice(keys), rng.randbytes(rng.choice((2, 20)))
            asked.append(bind(host, session, rest=rng.choice((b"", b"", b"", b"x")), signature=rng.choice((None, None, None, b"", string(b"x")))))
            hosts_bound += 1
        elif sort < 5:
            asked.append(b"\x0b" + rng.choice((b"", b"x")))
            held = [(rng.choice((*keys, rsa)), rng.choice((b"", b"c", b"\xc3\xbc"))) for _ in range(rng.randrange(4))]
            answers.append(rng.choice((listing(*held), listing(*held), b"\x05", listing(*held) + b"x")))
        elif sort < 7:
            asked.append(sign(rng.choice(keys)))
            if hosts_bound:
                answers.append(rng.choice((b"\x0e" + string(b"a signature"), b"\x0e", b"\x05", b"")))
        else:
            asked.append(rng.choice((b"", b"\x0d", b"\x11x", b"\x13", b"\x1b" + string(b"query"), b"\x1b" + string(b"session-bind@openssh.com"))))
    return asked, answers


def stream_of(rng, messages, others):
    """The frames of messages, some of them changed."""
    messages = [changed(rng, one, others) if rng.random() < 0.1 else one for one in messages]
    stream = b"".join(map(string, messages))
    return changed(rng, stream, others) if rng.random() < 0.05 else stream


def policies(rng, count):
    """A policy's text, a client's frames and an agent's answers."""
    rsa = plain_blob(rng, b"ssh-rsa")
    keys = [blob.encode() for blob in BLOBS.values()]
    texts = [b"allow %s %s\n# a comment\n\n" % (rng.choice(keys), rng.choice(keys)) for _ in range(20)]
    texts += [base64.b64encode(certificate_blob(rng)), base64.b64encode(rsa), base64.b64encode(plain_blob(rng, b"x@y"))]
    for _ in range(count):
        asked, answers = conversation(rng, rsa)
        others = asked + answers or [b""]
        text = policy_text(rng, texts)
        yield case(1, b"", text, stream_of(rng, asked, others)[:LONGEST], stream_of(rng, answers, others)[:LONGEST])


# ---- events of forwards


FORWARD_KINDS = (1, 1, 1, 2, 2, 3, 4, 5, 5, 5, 5, 5, 6, 6, 7, 7, 7, 7, 7, 8, 8, 9, 9, 10)


def forward_event(rng):
    one, other, body = u32(rng.randrange(1, 9)), u32(rng.randrange(1, 9)), string(rng.randbytes(rng.choice((0, 1, 5, 40))))
    kind = rng.choice(FORWARD_KINDS)
    fields = {
        1: one + string(b"h") + u32(80) + string(b"o") + u32(9), 2: one + other, 4: one + other, 5: one + body, 7: one + body,
    }.get(kind, one)
    return string(bytes([kind]) + fields)


def forwards(rng, count):
    """The worked runs of forwards and events made at random, event by event."""
    runs = []
    for line in (DATA / "sshc_rows_formats/data/forwards").read_text().splitlines():
        if line and not line.startswith("#"):
            runs.append(pieces(bytes.fromhex(line.split("|")[5].replace(" ", ""))))
    runs = [events for events in runs if events]
    runs += [[forward_event(rng) for _ in range(30)] for _ in range(200)]
    for _ in range(count):
        if rng.random() < 0.5:
            events = shuffled(rng, rng.choice(runs), runs, FORWARD_FIELDS)
        else:
            events = [forward_event(rng) for _ in range(rng.choice((4, 12)))]
            events = shuffled(rng, events, runs, FORWARD_FIELDS) if rng.random() < 0.3 else events
        script = b"".join(events)
        if rng.random() < 0.03:
            script = changed(rng, script, [b"".join(rng.choice(runs))])
        yield case(2, given=script[:LONGEST])


KINDS = {"scripts": scripts, "frames": frames, "hosts": hosts, "policies": policies, "forwards": forwards}


# ---- the stored run


def outcome(status, written, left):
    return bytes([status]) + string(written) + string(left)


def row_of(path, name):
    lines = (DATA / path).read_text().splitlines()
    return next(parts for parts in ([part.strip() for part in line.split("|")] for line in lines) if parts[0] == name)


def stored():
    """A few worked rows as cases, each with its outcome."""
    login = next(row for row in rows_in(ROWS) if row.name == "password")
    known, script, key = login.known.encode(), b"script\nlocalhost\n13265\nfile", base64.b64encode(KEY)
    yield case(0, script, known, login.script), outcome(login.status, login.wanted.encode(), known)
    yield case(0, script, b"\xff", login.script), outcome(3, b"error known-file\n", b"\xff")
    yield case(0, b"hosts\ncheck\nlocalhost\n13265\nfile\n" + key, known), outcome(0, b"known\n", known)
    learned = b"\n[localhost]:13265 ssh-ed25519 " + key + b"\n"
    yield case(0, b"hosts\nlearn\nlocalhost\n13265\nabsent\n" + key, b"#"), outcome(0, b"learned\n", b"#" + learned)
    for name, status in (("each-kind-of-frame", 0), ("an-agent-that-ends-before-its-answer", 25)):
        row = row_of("sshc_rows_formats/data/proxy/runs", name)
        policy = (DATA / "sshc_rows_formats/data" / row[1]).read_bytes()
        given, answers, written, left = (bytes.fromhex(row[at]) for at in (2, 5, 8, 9))
        yield case(1, b"", policy, given, answers), outcome(status, written, left)
    yield case(1, b"", (DATA / "sshc_rows_formats/data/proxy/bad").read_bytes()), outcome(5, b"error policy 3\n", b"")
    row = row_of("sshc_rows_formats/data/forwards", "a_whole_life")
    lines = "".join(one.strip() + "\n" for one in row[6].split(";") if one.strip())
    yield case(2, given=bytes.fromhex(row[5].replace(" ", ""))), outcome(int(row[4]), lines.encode(), b"")


# how many lines of measurements stand before the outcomes
MEASURED = 13


def main():
    given, outcomes = zip(*stored())
    (DATA / "sshc_bench/stdin").write_bytes(b"".join(given))
    path = DATA / "sshc_bench/stdout"
    lines = path.read_bytes().split(b"\n", MEASURED)[:MEASURED]
    path.write_bytes(b"".join(line + b"\n" for line in lines) + b"".join(outcomes))


if __name__ == "__main__":
    main()
