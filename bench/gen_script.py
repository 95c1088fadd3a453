#!/usr/bin/env python3
"""gen_script.py SEED BLOCKS: writes the script that `sshc gen SEED BLOCKS` makes and runs, to standard output, so that
`sshc script localhost 13265 KNOWN` and the plain loop can read it. It is written from the definitions in
crates/sshc_run/specs (Blocks.antt, Events.antt). KNOWN is `examples/password-login/known_hosts`."""
import sys


def u32(n):
    return n.to_bytes(4, "big")


def string(text):
    return u32(len(text)) + text


class Script:
    def __init__(self):
        self.text, self.events = bytearray(), 0

    def add(self, moment, kind, fields):
        self.text += u32(9 + len(fields)) + moment.to_bytes(8, "big") + bytes([kind]) + fields
        self.events += 1


KEY = bytes.fromhex("9743ef2dda2eae39e325817702d66e2794d5e6f3f7f72eeff4045e7f4e21e649")
BLOB = string(b"ssh-ed25519") + string(KEY)
# a host key, the hash, an empty signature, no secret, the name of the exchange; the other names are empty
EXCHANGE = b"\x01" + string(BLOB) + string(b"session-id") + bytes(9) + string(b"curve25519-sha256") + bytes(17)


def exchange(script, moment):
    script.add(moment, 0x01, b"")
    script.add(moment, 0x02, EXCHANGE)


def begin(script):
    exchange(script, 0)
    script.add(0, 0x10, u32(1) + string(b"alice") + b"\x01" + string(b"pw"))
    script.add(0, 0x03, b"\x06" + string(b"ssh-userauth"))
    script.add(0, 0x03, b"\x34")
    script.add(0, 0x17, u32(2))
    script.add(0, 0x03, b"\x5b" + u32(1) + u32(0) + u32(1 << 20) + u32(1 << 15))


def generated(seed, blocks):
    script, state = Script(), seed

    def draw(bound):
        nonlocal state
        state = (state * 6364136223846793005 + 1442695040888963407) % 2**64
        return (state >> 33) % 2**32 % bound

    def alike(beginning):
        count = 1 + draw(200)
        return beginning + string(bytes([count]) * count)

    begin(script)
    for k in range(1, blocks + 1):
        kind = draw(8)
        if kind == 0:
            script.add(k, 0x21, alike(u32(1) + b"\0"))
        elif kind == 1:
            script.add(k, 0x03, alike(b"\x5e" + u32(1)))
        elif kind == 2:
            script.add(k, 0x03, b"\x5d" + u32(1) + u32(draw(1000)))
        elif kind == 3:
            script.add(k, 0x27, b"\x01")
            script.add(k, 0x03, b"\x52")
        elif kind == 4:
            script.add(k, 0x1B, u32(2 + k) + u32(0) + u32(0))
            script.add(k, 0x03, b"\x51" + u32(1024 + draw(1000)))
        elif kind == 5:
            script.add(k, 0x40, u32(1) + u32(1) + b"\x0b")
        elif kind == 6:
            exchange(script, k)
        else:
            script.add(k, 0x03, b"\x02")
    return script


if __name__ == "__main__":
    made = generated(int(sys.argv[1]), int(sys.argv[2]))
    sys.stdout.buffer.write(made.text)
    print(f"{made.events} events", file=sys.stderr)
