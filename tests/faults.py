#!/usr/bin/env python3
"""Refuses one call at a time, over the worked rows of the repository: each request for memory, each read and each write of each
row's run, one number at a time (fault.c). It prints how many calls were refused, what came of them, and each run whose end is
neither the row's own nor the fault's, or whose lines are no front of the row's.

Usage: tests/faults.py FOLDER [KIND ..]
FOLDER is where the proved programs lie as NAME/out/NAME (crates, say); KIND is memory, read or write (all three).
It needs a C compiler.
"""
import collections
import os
import pathlib
import socket
import struct
import subprocess
import sys
import tempfile
import threading

HERE = pathlib.Path(__file__).resolve().parent
sys.path.insert(0, str(HERE.parent / "bench"))
from worked_rows import ROWS, rows_in  # noqa: E402

KINDS = ("memory", "read", "write")
# the statuses of each fault: a read may be of a file (3); the proxy tells its client's stream, its agent's and its policy's file apart
LINES = {"memory": (20,), "read": (3, 21), "write": (22,)}
RELAYED = {"memory": (20,), "read": (3, 21, 22), "write": (21, 22)}
RESULTS = {"ok": 0, "TooLong": 24, "UnexpectedEnd": 25}


class Case:
    """A program's run: what it is given, and what it writes where nothing is refused."""

    def __init__(self, name, words, script, wanted, status, faults=LINES, upstream=None):
        self.name, self.words, self.script, self.wanted, self.status = name, words, script, wanted, status
        self.faults, self.upstream = faults, upstream


def forward_cases(program):
    """The rows of forwards without failing calls of their own."""
    path = HERE.parent / "crates/sshc_rows_formats/data/forwards"
    for line in path.read_text().splitlines():
        if line.startswith("#") or not line:
            continue
        name, words, reads, writes, status, events, lines = [part.strip() for part in line.split("|")]
        if reads or writes or words:
            continue
        wanted = "".join(one.strip() + "\n" for one in lines.split(";") if one.strip())
        yield Case(f"forward {name}", [program], bytes.fromhex(events.replace(" ", "")), wanted.encode(), int(status))


def session_cases(program, folder):
    """The worked runs of a session, each with a known hosts file of its own."""
    for number, row in enumerate(rows_in(ROWS)):
        known = os.path.join(folder, f"known-{number}")
        with open(known, "w", encoding="utf-8") as file:
            file.write(row.known)
        words = [program, "script", "localhost", "13265", known]
        yield Case(f"run {row.name}", words, row.script, row.wanted.encode(), row.status)


class Upstream:
    """An agent at a Unix socket, which answers each connection with the bytes that it is given and then ends."""

    def __init__(self, folder):
        self.path, self.answer = os.path.join(folder, "upstream"), b""
        self.listener = socket.socket(socket.AF_UNIX)
        self.listener.bind(self.path)
        self.listener.listen()
        threading.Thread(target=self.serve, daemon=True).start()

    def serve(self):
        while True:
            stream, _ = self.listener.accept()
            with stream:
                try:
                    stream.sendall(self.answer)
                    stream.shutdown(socket.SHUT_WR)
                    while stream.recv(65536):
                        pass
                except OSError:
                    pass


def proxy_cases(program, upstream):
    """The rows of the proxy's runs without failing calls of their own."""
    folder = HERE.parent / "crates/sshc_rows_formats/data"
    for line in (folder / "proxy/runs").read_text().splitlines():
        if line.startswith("#") or not line:
            continue
        name, policy, asked, reads, writes, answers, upper_reads, upper_writes, wanted, _, result = [part.strip() for part in line.split("|")]
        if reads or writes or upper_reads or upper_writes or result not in RESULTS:
            continue
        words = [program, upstream.path, str(folder / policy)]
        case = Case(f"proxy {name}", words, bytes.fromhex(asked), bytes.fromhex(wanted), RESULTS[result], RELAYED, upstream)
        case.answers = bytes.fromhex(answers)
        yield case


class Faults:
    def __init__(self, folder):
        self.counts = os.path.join(folder, "counts")
        with open(self.counts, "wb") as file:
            file.write(bytes(24))
        library = os.path.join(folder, "fault.so")
        subprocess.run(["cc", "-O2", "-shared", "-fPIC", "-o", library, str(HERE / "fault.c")], check=True)
        self.environment = {"LD_PRELOAD": library, "FAULT_COUNTS": self.counts}
        self.ends, self.strange = collections.Counter(), 0

    def run(self, case, kind="none", at=0):
        environment = dict(self.environment, FAULT_KIND=kind, FAULT_AT=str(at))
        if case.upstream:
            case.upstream.answer = case.answers
        done = subprocess.run(case.words, input=case.script, stdout=subprocess.PIPE, env=environment, check=False)
        return done.returncode, done.stdout

    def calls(self):
        with open(self.counts, "rb") as file:
            return dict(zip(KINDS, struct.unpack("<3Q", file.read())))

    def is_expected(self, case, kind, status, written):
        """The row's own end, or the fault's status over lines that are a front of the row's, and its name if one is written."""
        if (status, written) == (case.status, case.wanted):
            return True
        if status not in case.faults[kind] and status not in case.faults["memory"]:
            return False
        whole, _, last = written.rpartition(b"\n")[0].rpartition(b"\n")
        if last.startswith(b"error "):
            is_named = last in (b"error no-memory", b"error known-file", f"error {kind}-fault".encode())
            return is_named and case.wanted.startswith(whole) and written.endswith(b"\n")
        return case.wanted.startswith(written)

    def take(self, case, kinds):
        first = self.run(case)
        if first != (case.status, case.wanted):
            self.strange += 1
            print(f"{case.name}: without a fault it gives {first}, not the row's")
            return
        counts = self.calls()
        for kind in kinds:
            for at in range(counts[kind]):
                status, written = self.run(case, kind, at)
                self.ends[kind, "the row's own" if (status, written) == (case.status, case.wanted) else f"status {status}"] += 1
                if not self.is_expected(case, kind, status, written):
                    self.strange += 1
                    print(f"{case.name}: {kind} {at} of {counts[kind]} refused: status {status}, {written[-200:]!r}")


def main():
    if len(sys.argv) < 2:
        sys.exit(__doc__)
    programs, kinds = sys.argv[1], sys.argv[2:] or KINDS
    place = lambda name: os.path.join(os.path.abspath(programs), name, "out", name)
    with tempfile.TemporaryDirectory() as folder:
        faults, cases = Faults(folder), []
        if os.path.exists(place("sshc")):
            cases += session_cases(place("sshc"), folder)
        if os.path.exists(place("sshc_forward_main")):
            cases += forward_cases(place("sshc_forward_main"))
        if os.path.exists(place("sshc_proxy_main")):
            cases += proxy_cases(place("sshc_proxy_main"), Upstream(folder))
        for case in cases:
            faults.take(case, kinds)
        for (kind, end), count in sorted(faults.ends.items()):
            print(f"{count:8} {kind}: {end}")
        print(f"{sum(faults.ends.values())} calls refused in {len(cases)} runs, {faults.strange} strange")
        return faults.strange > 0


if __name__ == "__main__":
    sys.exit(main())
