#!/usr/bin/env python3
"""Runs two programs over many scripts that are made from numbers (mixed_script.py), each with a known hosts text, and compares
their lines, last lines and statuses. A script that ends early is run again without the event that ended it. From number 0 on
it also compares many lists of words. Of each difference it prints the first event at which the two differ, and it keeps the
script and the known hosts text. At the end it prints how the scripts ended.

Usage: bench/differ.py FIRST SECOND FROM TO [FOLDER]
The programs are called with the words script, host, port and known hosts file. FOLDER is where differing scripts are kept.
"""
import base64
import collections
import os
import random
import subprocess
import sys
import tempfile

from mixed_script import KEY, Writer, known_text

EDGES = 192
MOST_RUNS = 12
PORTS = ["22", "022", "00022", "000022", "0", "65535", "65536", "13265 ", "+22", "-1", "", "0x16", "\u0662\u0662"]


class Pair:
    def __init__(self, programs, folder):
        self.programs = programs
        self.known = os.path.join(folder, "known")

    def outcomes(self, script, words=None):
        """The status and what was written, of each program."""
        return [self.outcome(program, script, words) for program in self.programs]

    def outcome(self, program, script, words=None):
        words = words or ["script", "localhost", "13265", self.known]
        done = subprocess.run([program, *words], input=script, stdout=subprocess.PIPE, check=False)
        return done.returncode, done.stdout

    def first_event(self, events):
        """The number of the first event at which the outcomes differ."""
        low, high = 0, len(events)
        while high - low > 1:
            middle = (low + high) // 2
            first, second = self.outcomes(b"".join(events[:middle]))
            low, high = (low, middle) if first != second else (middle, high)
        return high - 1

    def last_event(self, events):
        """The number of the event that ends the run."""
        low, high = 0, len(events)
        while high - low > 1:
            middle = (low + high) // 2
            ends = self.outcome(self.programs[1], b"".join(events[:middle]))[1].endswith(b"ended script-end\n")
            low, high = (middle, high) if ends else (low, middle)
        return low

    def report(self, seed, events):
        at = self.first_event(events)
        outcomes = self.outcomes(b"".join(events[:at + 1]))
        place = sum(map(len, events[:at]))
        print(f"seed {seed}: the two differ at event {at}, place {place}: {events[at].hex()[:2000]}")
        lines = [told.split(b"\n") for _, told in outcomes]
        same = next((n for n, (a, b) in enumerate(zip(*lines)) if a != b), 0)
        for program, (status, _), told in zip(self.programs, outcomes, lines):
            print(f"  {os.path.basename(program)}: status {status}, lines from {same}: {b' '.join(told[same:same + 4]).decode()[:600]}")


def compare_words(both):
    """Arguments that are right and wrong, and known hosts files of all sorts, over a login."""
    writer = Writer(1)
    writer.log_in()
    script, differing = b"".join(writer.out), 0
    key = base64.b64encode(KEY)
    texts = [b"localhost x " + key, b"[localhost]:13265 x " + key, b"\xff", b"", b"[]:13265 x " + key + b"\n\xc3", b"[localhost]:65535 x " + key]
    words = [["script", host, port, both.known] for host in ("localhost", "") for port in PORTS]
    words += [["script", "localhost", "13265", path] for path in ("/", "/no/such/file", "")]
    words += [[], ["script"], ["script", "localhost", "22"], ["Script", "localhost", "22", both.known], ["script", "localhost", "22", both.known, "x"]]
    for text in texts:
        with open(both.known, "wb") as file:
            file.write(text)
        for given in words:
            first, second = both.outcomes(script, given or [""])
            if first != second:
                differing += 1
                print(f"words {given}, known hosts text {text}: {first}, {second}")
    print(f"{len(texts) * len(words)} lists of words, {differing} differ")
    return differing


def made(seed):
    """A script's events and a known hosts text."""
    rng = random.Random(seed)
    writer = Writer(seed, rng.choice((b"session-id", b"", b"\xff" * 64)))
    if seed < EDGES:
        writer.edge(seed)
        return writer.out, None
    if seed % 50 == 0:
        writer.mixed(rng.choice((300, 1500)))
        return writer.out, None
    if seed % 2:
        writer.walk()
    else:
        writer.near_fields()
    known = known_text(rng).encode()
    return writer.out, known + b"\xff" if seed % 97 == 0 else known


def compare_script(both, seed, events, ends):
    """Compares the script, and then without the event that ended it, and so on. How many runs, and the first that differs."""
    for run in range(MOST_RUNS):
        script = b"".join(events)
        one, other = both.outcomes(script)
        end = one[1].split(b"\n")[-2]
        ends[b" ".join(end.split(b" ")[:2]).decode()] += 1
        if one != other:
            both.report(seed, events)
            return run + 1, script
        if end in (b"ended script-end", b"error known-file") or len(events) > 200:
            break
        del events[both.last_event(events)]
    return run + 1, None


def main():
    first, last = int(sys.argv[3]), int(sys.argv[4])
    keep = sys.argv[5] if len(sys.argv) > 5 else None
    ends, events_run, runs, differing = collections.Counter(), 0, 0, 0
    with open(os.path.join(os.path.dirname(__file__), "../examples/password-login/known_hosts"), "rb") as file:
        accepting = file.read()
    with tempfile.TemporaryDirectory() as folder:
        both = Pair(sys.argv[1:3], folder)
        differing += compare_words(both) if first == 0 else 0
        for seed in range(first, last):
            events, known = made(seed)
            with open(both.known, "wb") as file:
                file.write(known or accepting)
            events_run += len(events)
            more, script = compare_script(both, seed, events, ends)
            runs += more
            if script is None:
                continue
            differing += 1
            if keep:
                for name, body in (("script", script), ("known", known or accepting)):
                    with open(os.path.join(keep, f"{seed}.{name}"), "wb") as file:
                        file.write(body)
    for end, count in ends.most_common():
        print(f"{count:8} {end}")
    print(f"{last - first} scripts of {events_run} events in {runs} runs, {differing} differ")
    return differing > 0


if __name__ == "__main__":
    sys.exit(main())
