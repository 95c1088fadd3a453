#!/usr/bin/env python3
"""Changes worked inputs at random, and runs the proved code over them beside programs or readers that were written apart:
scripts, agents' frames, known hosts texts, and policies with the streams of a proxy beside the plain loop of bench/plain,
forward events beside bench/forward.rs. Records are read by the Python package beside tests/records.py. The same number makes the same inputs. It prints each
difference, how the inputs ended, how many got past the first reader, and how many there were a second.

Usage: tests/fuzz.py FOLDER KIND COUNT [SEED]
FOLDER is where the proved programs lie as NAME/out/NAME (crates, say): sshc_bench, which takes many cases; for records it isn't
looked at. KIND is scripts, frames, hosts, policies, forwards or records. All but records need rustc. A difference's case is kept as
fuzz-KIND-NUMBER in the current folder; `sshc_bench cases` runs it alone.
"""
import collections
import os
import pathlib
import struct
import subprocess
import sys
import tempfile
import time

HERE = pathlib.Path(__file__).resolve().parent
SHOW = HERE.parent / "bindings" / "python" / "sshc_show"
sys.path[:0] = [str(HERE), str(HERE.parent / "bench")]
import cases  # noqa: E402
from changes import Quick, changed  # noqa: E402
from records import is_record  # noqa: E402
from worked_rows import ROWS, rows_in  # noqa: E402

BATCH, SECONDS, MOST_DIFFERENCES = 2000, 120, 100


def plain(folder):
    """The plain loop, built."""
    out = os.path.join(folder, "plain")
    subprocess.run(["rustc", "--edition", "2021", "-O", "-o", out, str(HERE.parent / "bench/plain/main.rs")], check=True)
    return out


# ---- two programs over many cases


class Side:
    """A program that runs many cases in one process."""

    def __init__(self, words, folder, name):
        self.words, self.given, self.told = words, os.path.join(folder, f"{name}.in"), os.path.join(folder, f"{name}.out")

    def start(self, batch):
        with open(self.given, "wb") as file:
            file.write(b"".join(batch))
        with open(self.given, "rb") as given, open(self.told, "wb") as told:
            self.process = subprocess.Popen(self.words, stdin=given, stdout=told)

    def finish(self):
        """What was written, and how the process ended: its status, or `hangs`."""
        try:
            ended = self.process.wait(SECONDS)
        except subprocess.TimeoutExpired:
            self.process.kill()
            self.process.wait()
            ended = "hangs"
        with open(self.told, "rb") as told:
            return told.read(), ended


def outcomes(told):
    """The outcomes that are written whole: the status, what the program wrote, and what it left."""
    found, at = [], 0
    while len(told) - at >= 9:
        size = struct.unpack_from(">I", told, at + 1)[0]
        middle = at + 5 + size
        if middle + 4 > len(told):
            break
        end = middle + 4 + struct.unpack_from(">I", told, middle)[0]
        if end > len(told):
            break
        found.append((told[at], told[at + 5 : middle], told[middle + 4 : end]))
        at = end
    return found


def finished(sides, batch, ends):
    """The cases of a batch that both programs have begun, each with its outcomes. Where a program stops in a case, that is told
    in place of its outcome, and the cases behind it are run anew."""
    while batch:
        ended = [side.finish() for side in sides]
        found = [outcomes(told) for told, _ in ended]
        done = min(map(len, found))
        yield from zip(batch, *found)
        if done == len(batch):
            return
        yield batch[done], *[one[done] if len(one) > done else ("stopped", end, b"") for one, (_, end) in zip(found, ended)]
        ends["a program stopped"] += 1
        batch = batch[done + 1 :]
        for side in sides:
            side.start(batch)


def batches(inputs):
    batch = []
    for one in inputs:
        batch.append(one)
        if len(batch) == BATCH:
            yield batch
            batch = []
    if batch:
        yield batch


# ---- what became of an input


def past_scripts(status, written, left):
    return (
        ("every event was read", status != 24), ("a record was written", not written.startswith(b"e")),
        ("the session was opened", b"\n03\n" in written or written.startswith(b"03\n")),
    )


FAILURE = b"0000000500000001" b"05\n"


def past_frames(status, written, left):
    answers = written.count(b"\n40") + written.startswith(b"40")
    return (
        ("every event was read", status != 24), ("a frame was answered", answers > 0),
        ("one was answered with more than a failure", answers > written.count(FAILURE)),
    )


def past_hosts(status, written, left):
    return (
        ("arguments, key and file were read", status not in (2, 3, 5)),
        ("a line of the host was found", status in (29, 30, 31) or status == 0 and written not in (b"", b"learned\n")),
    )


def past_policies(status, written, left):
    return (
        ("the policy was read", status not in (3, 5)), ("a message was forwarded", bool(left)),
        ("a message was answered with more than a failure", status not in (3, 5) and len(written) > 5 * written.count(b"\0\0\0\1\5")),
    )


def past_forwards(status, written, left):
    return ("every event was read", status != 24), ("a line was written", written.count(b"\n") > 1)


PAST = {"scripts": past_scripts, "frames": past_frames, "hosts": past_hosts, "policies": past_policies, "forwards": past_forwards}


def label(outcome):
    """The last line's first two words where they tell an end, or the status."""
    status, written, _ = outcome
    words = written[written.rfind(b"\n", 0, -1) + 1 : -1].split(b" ")[:2]
    return b" ".join(words).decode() if words[0] in (b"ended", b"error", b"left") else f"status {status}"


def compared(kind, folder, place, rng, count, ends, past):
    """The cases on which the two programs differ, with what each made of them. The next batch is made while one is run."""
    sides = [Side([place("sshc_bench"), "cases"], folder, "proved"), Side([plain(folder), "many"], folder, "plain")]
    before = []
    for batch in batches(cases.KINDS[kind](rng, count)):
        yield from judged(kind, sides, before, ends, past)
        for side in sides:
            side.start(batch)
        before = batch
    yield from judged(kind, sides, before, ends, past)


def judged(kind, sides, batch, ends, past):
    for one, first, second in finished(sides, batch, ends):
        if first != second:
            yield one, [first, second]
        if first[0] != "stopped":
            ends[label(first)] += 1
            past.update([what for what, is_so in PAST[kind](*first) if is_so])


# ---- a program beside a reader


EXTRA_RECORDS = (
    "0400000001" "01" "0000000d" "70617373776f72642c6e6f6e65" "01", "0400000001" "03" "01" "00000007" "612c622c636363",
    "0700000001" "0000000161" "00000000" "00000002" "0000000150" "01" "0000000151" "00", "2d00000005" "00000003485550" "00" "00000000" "00000000",
    "2800000005" "01" "0000000168" "00000016" "000000016f" "00000009", "2f" "00000002" "0000000161" "00000000", "43" "00000001" "02",
    "27" "00000005" "00000002" "0000000161" "00000000", "0a" "00000001" "00000001" "00000002" "0000000165",
)


def records(rng, count, ends):
    """Many lines in one process: each is shown, or is told to be no record."""
    worked = [bytes.fromhex(line) for row in rows_in(ROWS) for line in row.wanted.split("\n") if line and " " not in line]
    worked += [bytes.fromhex(line) for line in EXTRA_RECORDS]
    for start in range(0, count, BATCH):
        bodies = [changed(rng, rng.choice(worked), worked) for _ in range(min(BATCH, count - start))]
        lines = b"".join(body.hex().encode() + b"\n" for body in bodies)
        done = subprocess.run([sys.executable, SHOW], input=lines, stdout=subprocess.PIPE, check=False)
        shown = done.stdout.split(b"\n")[:-1]
        if len(shown) != len(bodies):
            yield lines, [(done.returncode, done.stdout[-300:])]
            continue
        for number, (body, line) in enumerate(zip(bodies, shown), 1):
            refused = line == b"line %d: not a record" % number
            ends["no record" if refused else "a record"] += 1
            if refused == is_record(body):
                yield body, [line, "a record" if is_record(body) else "no record"]


def main():
    if len(sys.argv) < 4 or sys.argv[2] not in (*cases.KINDS, "records"):
        sys.exit(__doc__)
    kind, count, seed = sys.argv[2], int(sys.argv[3]), int(sys.argv[4]) if len(sys.argv) > 4 else 1
    place = lambda name: os.path.join(os.path.abspath(sys.argv[1]), name, "out", name)
    rng, ends, past, differing = Quick(f"{kind} {seed}"), collections.Counter(), collections.Counter(), 0
    began = time.monotonic()
    with tempfile.TemporaryDirectory(dir="/dev/shm") as folder:
        found = records(rng, count, ends) if kind == "records" else compared(kind, folder, place, rng, count, ends, past)
        for body, results in found:
            differing += 1
            print(f"{kind} {seed}, difference {differing}: {[str(one)[-300:] for one in results]}", flush=True)
            with open(f"fuzz-{kind}-{differing}", "wb") as file:
                file.write(body)
            if differing == MOST_DIFFERENCES:
                break
    for end, times in ends.most_common():
        print(f"{times:10} {end}")
    for what, times in past.most_common():
        print(f"{times:10} of them: {what}")
    took, run = time.monotonic() - began, sum(ends.values())
    print(f"{run} {kind} from seed {seed} in {took:.0f} seconds, {run / took:.0f} a second: {differing} differ")
    return differing > 0


if __name__ == "__main__":
    sys.exit(main())
