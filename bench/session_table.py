#!/usr/bin/env python3
"""Measures two programs over the scripts of mixed_script.py, and prints a table: the instructions of each by callgrind (its
own and those of its start), and its least processor time, with all lines into /dev/null.

Usage: bench/session_table.py RUNS PROGRAM PLAIN KNOWN [PART..]
PART is logins, mixed, bytes or channels; without one all are measured.
"""
import os
import re
import subprocess
import sys
import tempfile

from best import run
from mixed_script import METHODS, script_of

LOGINS = (200, 1200)
MIXED = (1500, 5500)
BYTES = (16, 64)
CHANNELS = ((1, 8000), (100, 8000), (2000, 8000))


def instructions(words, source):
    with open(source, "rb") as given:
        told = subprocess.run(
            ["valgrind", "--tool=callgrind", "--callgrind-out-file=/dev/null", *words],
            stdin=given, stdout=subprocess.DEVNULL, stderr=subprocess.PIPE, check=True,
        )
    return int(re.search(rb"Collected : (\d+)", told.stderr).group(1))


def processor(words, source, runs):
    """The least of so many runs, in milliseconds."""
    uses = [run(words, source, os.devnull)[1] for _ in range(runs)]
    return 1000 * min(use.ru_utime + use.ru_stime for use in uses)


class Table:
    def __init__(self, runs, programs, folder):
        self.runs, self.programs, self.source = runs, programs, os.path.join(folder, "script")

    def measured(self, words):
        """How many events a script has, and of each program its instructions and its time."""
        writer = script_of([str(word) for word in words])
        with open(self.source, "wb") as file:
            file.write(b"".join(writer.out))
        for program in self.programs:
            with open(self.source, "rb") as given:
                end = subprocess.run(program, stdin=given, stdout=subprocess.PIPE, check=True).stdout[-17:]
            if end != b"ended script-end\n":
                sys.exit(f"{words}: {program[0]} ends otherwise")
        counts = [instructions(program, self.source) for program in self.programs]
        times = [processor(program, self.source, self.runs) for program in self.programs]
        return writer.count, counts, times

    def row(self, name, words):
        events, counts, times = self.measured(words)
        print(f"| {name} | {events:,} | {counts[0]:,} | {counts[1]:,} | {counts[0] / counts[1]:.1f} | {times[0]:.1f} | {times[1]:.1f} |", flush=True)
        return events, counts

    def rows(self, name, words, sizes, unit):
        """Two sizes, and what each event or unit more takes."""
        (few, before), (many, after) = (self.row(f"{name}, {size}", [*words, size]) for size in sizes)
        steps = many - few if unit == "event" else sizes[1] - sizes[0]
        more = [(last - first) / steps for first, last in zip(before, after)]
        print(f"| {name}, {'an' if unit == 'event' else 'a'} {unit} more | | {more[0]:,.0f} | {more[1]:,.0f} | {more[0] / more[1]:.1f} | | |", flush=True)


def main():
    runs, program, plain, known, *parts = sys.argv[1:]
    words = ["script", "localhost", "13265", known]
    with tempfile.TemporaryDirectory() as folder:
        table = Table(int(runs), [[program, *words], [plain, *words]], folder)
        print("| Script | Events | Instructions, `sshc` | Plain | Ratio | Processor, `sshc` (ms) | Plain |\n|---|---|---|---|---|---|---|")
        if not parts or "logins" in parts:
            for method in METHODS:
                table.rows(f"logins by {method}", ["logins", method], LOGINS, "event")
        if not parts or "mixed" in parts:
            table.rows("mixed events", ["mixed", 7], MIXED, "event")
        if not parts or "bytes" in parts:
            table.rows("MiB up and down", ["bytes"], BYTES, "MiB")
        if not parts or "channels" in parts:
            for count, events in CHANNELS:
                table.row(f"{count} channel{'s' if count > 1 else ''}", ["channels", count, events])


if __name__ == "__main__":
    main()
