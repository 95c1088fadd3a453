#!/bin/sh
# `sshc hosts check` beside `ssh-keygen -F` for an absent host, on the same files in the same run: 1,000, 10,000 and
# 100,000 lines, plain and hashed. For each file the programs run in turn, and each one's fastest run counts.
# Build the program first: `rt run` in crates/sshc. SSHC names another program, RUNS another number of runs.
cd "$(dirname "$0")/.." || exit 1
SSHC=${SSHC:-crates/sshc/out/sshc} RUNS=${RUNS:-15} exec python3 - <<'END'
import base64, hashlib, hmac, os, random, subprocess, tempfile, time

ABSENT = "absent.example.net"
KEY = base64.b64encode(b"\0\0\0\x0bssh-ed25519\0\0\0\x20" + bytes(32)).decode()


def line(i, hashed):
    host = f"host{i}.example.org"
    blob = b"\0\0\0\x0bssh-ed25519\0\0\0\x20" + random.randbytes(32)
    key = base64.b64encode(blob).decode()
    if not hashed:
        return f"{host},10.{i >> 16 & 255}.{i >> 8 & 255}.{i & 255} ssh-ed25519 {key}\n"
    salt = random.randbytes(20)
    digest = hmac.new(salt, host.encode(), hashlib.sha1).digest()
    return f"|1|{base64.b64encode(salt).decode()}|{base64.b64encode(digest).decode()} ssh-ed25519 {key}\n"


def fastest(old, words):
    """The fastest of the runs so far and one more, in seconds from start to end."""
    begin = time.perf_counter()
    ended = subprocess.run(words, stdout=subprocess.DEVNULL).returncode
    seconds = time.perf_counter() - begin
    if ended != 1:
        raise SystemExit(f"{words[0]} ended with {ended}")
    return min(old, seconds)


def peak(words):
    """The peak memory of one run in KiB."""
    told = subprocess.run(["/usr/bin/time", "-q", "-f", "%M", *words], stdout=subprocess.DEVNULL, stderr=subprocess.PIPE)
    return int(told.stderr)


random.seed(1)
ours = os.environ["SSHC"]
print("file             lines    bytes   sshc ms  ssh-keygen ms  ratio  sshc's growth  sshc KiB  ssh-keygen KiB")
with tempfile.TemporaryDirectory() as folder:
    for hashed in (False, True):
        before = None
        for lines in (1_000, 10_000, 100_000):
            path = os.path.join(folder, "known_hosts")
            with open(path, "w") as file:
                file.writelines(line(i, hashed) for i in range(lines))
            sshc = [ours, "hosts", "check", ABSENT, "22", path, KEY]
            keygen = ["ssh-keygen", "-F", ABSENT, "-f", path]
            mine = theirs = float("inf")
            for _ in range(int(os.environ["RUNS"])):
                mine = fastest(mine, sshc)
                theirs = fastest(theirs, keygen)
            growth = f"{mine / before:.1f}" if before else "-"
            before = mine
            print(f"{'hashed' if hashed else 'plain':8} {lines:13,} {os.path.getsize(path):8} {mine * 1000:9.2f} {theirs * 1000:14.2f}"
                  f" {mine / theirs:6.2f} {growth:>14} {peak(sshc):9} {peak(keygen):15}")
END
