"""The measurements of bench/client.sh."""
import os
import re
import shutil
import subprocess
import sys
import tempfile
import threading
import time

from servers import Scratch

CLIENT = os.path.abspath(sys.argv[1])
MEGABYTES, LOGINS, ROUNDS = [int(it) for it in (sys.argv[2:] + ["1024", "200", "3"][len(sys.argv) - 2 :])]
CIPHERS = ("aes256-gcm@openssh.com", "chacha20-poly1305@openssh.com", "aes256-ctr")


def peak(pid):
    """The most memory of a process so far, in MiB; 0 once it is gone."""
    try:
        with open(f"/proc/{pid}/status") as file:
            return next((int(line.split()[1]) / 1024 for line in file if line.startswith("VmHWM:")), 0)
    except OSError:
        return 0


def measured(words, env, stdin):
    """Wall seconds, processor seconds and the most memory in MiB of a program, of which the output is thrown away. The
    memory is asked for each 20 ms, since what the system tells at the end counts the memory of this process too."""
    begun, memory = time.monotonic(), [0]
    child = subprocess.Popen(words, env=env, stdin=stdin, stdout=subprocess.DEVNULL, stderr=subprocess.DEVNULL)

    def watch():
        while now := peak(child.pid):
            memory[0] = now
            time.sleep(0.02)

    watcher = threading.Thread(target=watch, daemon=True)
    watcher.start()
    _, status, used = os.wait4(child.pid, 0)
    child.returncode = os.waitstatus_to_exitcode(status)
    if child.returncode:
        sys.exit(f"{words[0]} ended with {child.returncode}")
    return time.monotonic() - begun, used.ru_utime + used.ru_stime, memory[0]


class Beside:
    def __init__(self, scratch, port):
        self.scratch, self.port = scratch, port
        self.env = {**os.environ, "SSH_AUTH_SOCK": scratch.socket}

    def words(self, name, cipher):
        scratch = self.scratch
        if name == "client":
            return [CLIENT, "-F", "none", "-p", str(self.port), "-l", scratch.user, "-o", f"UserKnownHostsFile={scratch.folder}/known_hosts", "-c", cipher, "localhost"]
        options = ["UserKnownHostsFile=" + f"{scratch.folder}/known_hosts", "GlobalKnownHostsFile=/dev/null", "ControlMaster=no", "KexAlgorithms=curve25519-sha256"]
        options += ["MACs=hmac-sha2-256-etm@openssh.com", "StrictHostKeyChecking=yes", "IdentityFile=none", "Compression=no"]
        return ["ssh", "-F", "/dev/null", "-p", str(self.port), "-l", scratch.user, "-c", cipher, *[it for option in options for it in ("-o", option)], "localhost"]

    def once(self, name, cipher, command, file=None):
        with open(file or os.devnull, "rb") as stdin:
            return measured([*self.words(name, cipher), command], self.env, stdin)

    def both(self, what, cipher, command, file=None):
        """Each in turn, so that what else the machine does meets both."""
        got = {"ssh": [], "client": []}
        for _ in range(ROUNDS):
            for name in got:
                got[name].append(self.once(name, cipher, command, file))
        best = {name: min(all) for name, all in got.items()}
        for name, (wall, used, memory) in best.items():
            print(f"{what} {cipher} {name}: {wall:.2f} s, {MEGABYTES / wall:.0f} MiB/s, {used:.2f} s of a processor, {memory:.1f} MiB", flush=True)
        print(f"{what} {cipher}: {best['ssh'][0] / best['client'][0]:.2f} of ssh's rate, {best['client'][1] / best['ssh'][1]:.2f} of its processor time", flush=True)

    def logins(self):
        took = {"ssh": 0.0, "client": 0.0}
        used = {"ssh": 0.0, "client": 0.0}
        for _ in range(LOGINS):
            for name in took:
                wall, processor, _ = self.once(name, CIPHERS[0], "true")
                took[name] += wall
                used[name] += processor
        for name in took:
            print(f"{LOGINS} logins {name}: {took[name]:.2f} s, {used[name]:.2f} s of a processor", flush=True)

    def shares(self):
        """The instructions of the client and of the core's calls in it, by callgrind."""
        if not shutil.which("valgrind"):
            return
        for what, command, megabytes in (("a login", "true", 0), ("16 MiB down", "head -c 16777216 /dev/zero", 16)):
            with tempfile.TemporaryDirectory() as folder:
                words = ["valgrind", "--tool=callgrind", f"--callgrind-out-file={folder}/out", *self.words("client", CIPHERS[0]), command]
                subprocess.run(words, env=self.env, stdin=subprocess.DEVNULL, stdout=subprocess.DEVNULL, stderr=subprocess.DEVNULL, check=True)
                lines = subprocess.run(["callgrind_annotate", "--inclusive=yes", "--threshold=100", f"{folder}/out"], capture_output=True, text=True).stdout
            number = lambda text: int(text.replace(",", ""))
            total = number(re.search(r"^ *([\d,]+).*PROGRAM TOTALS", lines, re.M)[1])
            calls = {name: number(count) for count, name in re.findall(r"^ *([\d,]+) .*?[:/](sshc_\w+)(?: |$)", lines, re.M)}
            own = sum(calls.values())
            print(f"{what}: {total} instructions, {own} of them in the core ({own / total:.1%}): {calls}", flush=True)


def main():
    with Scratch() as scratch:
        port = scratch.sshd()
        scratch.know(port, "ed25519")
        scratch.add_key("ed25519")
        zeros = f"{scratch.folder}/bytes"
        with open(zeros, "wb") as file:
            part = os.urandom(1 << 20)
            for _ in range(MEGABYTES):
                file.write(part)
        os.chmod(zeros, 0o644)
        beside = Beside(scratch, port)
        for cipher in CIPHERS:
            beside.both("down", cipher, f"cat {zeros}")
            beside.both("up", cipher, "cat > /dev/null", zeros)
        beside.logins()
        beside.shares()


main()
