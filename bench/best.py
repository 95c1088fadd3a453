#!/usr/bin/env python3
"""Runs a program several times, and tells the last line that it prints, its best time by the clock, its least processor
time (its own and the system's for it), and its peak memory in one run more.

Usage: bench/best.py RUNS INPUT OUTPUT PROGRAM WORDS..
INPUT is a file for standard input. OUTPUT is a file for standard output, or `-` for a pipe that is read whole.
"""
import os
import subprocess
import sys
import time


def run(words, source, output):
    """The time, the use of the processor, and what was written to the pipe."""
    target = subprocess.PIPE if output == "-" else open(output, "wb")
    with open(source, "rb") as given:
        begin = time.perf_counter()
        child = subprocess.Popen(words, stdin=given, stdout=target)
        told = child.stdout.read() if output == "-" else b""
        _, _, use = os.wait4(child.pid, 0)
        seconds = time.perf_counter() - begin
        child.returncode = 0
    return seconds, use, told


def peak(words, source):
    """In KiB, by time(1), whose own memory is the least that it tells."""
    with open(source, "rb") as given:
        done = subprocess.run(
            ["/usr/bin/time", "-f", "%M", *words], stdin=given, stdout=subprocess.DEVNULL, stderr=subprocess.PIPE, check=False
        )
    return int(done.stderr.split()[-1])


def main():
    runs, source, output, words = int(sys.argv[1]), sys.argv[2], sys.argv[3], sys.argv[4:]
    results = [run(words, source, output) for _ in range(runs)]
    best = min(seconds for seconds, _, _ in results)
    processor = min(use.ru_utime + use.ru_stime for _, use, _ in results)
    told = results[-1][2]
    line = told.splitlines()[-1].decode() + ": " if told else ""
    print(f"{line}{best * 1000:.1f} ms, processor {processor * 1000:.1f} ms, {peak(words, source)} KiB")


if __name__ == "__main__":
    main()
