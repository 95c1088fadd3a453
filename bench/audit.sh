#!/bin/sh
# `sshc_audit_main hash`, `drop` and `remove` beside `ssh-keygen -H` and `ssh-keygen -R`, on the same files in the same run:
# 1,000, 10,000 and 100,000 lines of one name each. For each file the programs run in turn, and each one's fastest run counts.
# Build the program first: `rt run` in crates/sshc_audit_main. AUDIT names another program, RUNS another number of runs.
cd "$(dirname "$0")/.." || exit 1
AUDIT=${AUDIT:-crates/sshc_audit_main/out/sshc_audit_main} RUNS=${RUNS:-5} exec python3 - <<'END'
import base64, os, random, shutil, subprocess, tempfile, time

random.seed(1)
ours, runs = os.environ["AUDIT"], int(os.environ["RUNS"])


def line(i):
    blob = b"\0\0\0\x0bssh-ed25519\0\0\0\x20" + random.randbytes(32)
    return f"host{i}.example.org ssh-ed25519 {base64.b64encode(blob).decode()}\n"


def seconds(words, prepare=lambda: None):
    """The fastest of the runs, in seconds from start to end."""
    best = None
    for _ in range(runs):
        prepare()
        begin = time.perf_counter()
        ended = subprocess.run(words, stdout=subprocess.DEVNULL, stderr=subprocess.DEVNULL).returncode
        took = time.perf_counter() - begin
        if ended != 0:
            raise SystemExit(f"{words} ended with {ended}")
        best = took if best is None else min(best, took)
    return best


def peak(words):
    """The peak memory of one run in KiB."""
    told = subprocess.run(["/usr/bin/time", "-q", "-f", "%M", *words], stdout=subprocess.DEVNULL, stderr=subprocess.PIPE)
    return int(told.stderr.split()[-1])


print("call      lines    bytes  ours ms  growth  ssh-keygen ms  ratio  ours KiB")
with tempfile.TemporaryDirectory() as folder:
    known, salts, copy = (os.path.join(folder, name) for name in ("known", "salts", "copy"))
    before = {}
    for lines in (1_000, 10_000, 100_000):
        with open(known, "w") as file:
            file.writelines(line(i) for i in range(lines))
        with open(salts, "w") as file:
            file.writelines(random.randbytes(20).hex() + "\n" for _ in range(lines))
        host = f"host{lines // 2}.example.org"
        fresh = lambda: shutil.copy(known, copy)
        calls = (
            ("hash", [ours, "hash", known, salts], ["ssh-keygen", "-H", "-f", copy]),
            ("remove", [ours, "remove", host, "22", known], ["ssh-keygen", "-R", host, "-f", copy]),
            ("drop", [ours, "drop", known], None),
        )
        for name, words, theirs in calls:
            took = seconds(words)
            growth = f"{took / before[name]:6.1f}" if name in before else "      "
            before[name] = took
            beside = seconds(theirs, fresh) if theirs else None
            other = f"{beside * 1000:13.2f} {took / beside:6.2f}" if beside else " " * 20
            print(f"{name:8} {lines:6} {os.path.getsize(known):8} {took * 1000:8.2f}  {growth} {other}  {peak(words):8}")
END
