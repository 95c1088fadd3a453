#!/usr/bin/env python3
"""Faults that the client once had, or that clients have: what it does with closed descriptors, full disks, connections that
break, peers that pause, hosts that are known otherwise. Against an sshd that runs as this user.

    faults.py CLIENT"""
import fcntl
import os
import pty
import shutil
import signal
import socket
import struct
import subprocess
import sys
import tempfile
import termios
import threading
import time

import bad_servers
from local_sshd import Answering, Place, can_connect, echo, free_port, run_all, said_back, until, want
from terminals import Terminal

HERE = os.path.dirname(os.path.abspath(__file__))


# ---- descriptors


def relay(port, seen):
    """A relay to the server, which keeps what it hands on."""

    def serve(line):
        other = socket.create_connection(("127.0.0.1", port))

        def copy(one, two):
            while data := one.recv(65536):
                seen.append(data)
                two.sendall(data)
            two.shutdown(socket.SHUT_WR)

        back = threading.Thread(target=copy, args=(other, line), daemon=True)
        back.start()
        copy(line, other)
        back.join()

    return Answering(serve)


def a_closed_descriptor_is_no_socket(place):
    seen = []
    between = relay(PORT, seen)
    place.known(between.port, "ed25519", name="known_relay")
    for number, command in ((1, "echo SECRET-WORDS"), (2, "echo SECRET-WORDS >&2"), (0, "cat")):
        words = [*place.words(between.port, known="known_relay"), "localhost", command]
        others = {name: subprocess.DEVNULL for at, name in enumerate(("stdin", "stdout", "stderr")) if at != number}
        ran = subprocess.run(words, preexec_fn=lambda: os.close(number), env=place.environment, timeout=20, **others)
        want((ran.returncode, b"SECRET" in b"".join(seen)), (0, False), f"descriptor {number} is closed: its status, and output in the connection as it is")


def output_that_cant_be_written_is_an_error(place):
    with open("/dev/full", "wb") as full:
        status, _, said = place.run(PORT, command="head -c 1000000 /dev/zero", stdout=full, stderr=subprocess.PIPE)
    want((status, "can't write standard output" in said), (255, True), "a full disk")
    ran = subprocess.run(f"{' '.join(place.words(PORT))} localhost yes 2>/dev/null | head -1", shell=True, capture_output=True, env=place.environment, timeout=20)
    want(ran.stdout, b"y\n", "a reader that goes away")


def standard_descriptors_are_left_as_they_are(place):
    mine, theirs = pty.openpty()
    read, write = os.pipe()
    process = subprocess.Popen([*place.words(PORT, "-T"), "localhost", "sleep 2"], stdin=theirs, stdout=theirs, stderr=write, env=place.environment)
    for _ in range(15):
        for file in (theirs, write):
            want(fcntl.fcntl(file, fcntl.F_GETFL) & os.O_NONBLOCK, 0, "O_NONBLOCK on a descriptor that others share")
        time.sleep(0.1)
    process.send_signal(signal.SIGTERM)
    process.wait()
    want(fcntl.fcntl(theirs, fcntl.F_GETFL) & os.O_NONBLOCK, 0, "O_NONBLOCK after a signal")
    for file in (mine, theirs, read, write):
        os.close(file)


def whole_packets_before_the_end_are_read(place):
    """So much waits that one read takes just all of it, and the next one finds the end."""
    for blocks in (1, 2, 3):
        process, told = [], threading.Event()
        peer = EndsAtOnce(process, told, blocks * 65536)
        listener = Answering(peer.serve)
        path = place.write("ends", f"[127.0.0.1]:{listener.port} ssh-ed25519 {bad_servers.host_line()}\n")
        place.write("secret", "secret\n")
        words = [place.client, "-F", "none", "-p", str(listener.port), "-o", f"UserKnownHostsFile={path}", "-w", place.path("secret"), "-o", "PubkeyAuthentication=no", "127.0.0.1", "x"]
        process.append(subprocess.Popen(words, stdin=subprocess.DEVNULL, stdout=subprocess.PIPE, stderr=subprocess.PIPE, env=place.environment))
        told.set()
        output, said = process[0].communicate(timeout=30)
        want((process[0].returncode, len(output), said), (0, peer.sent, b""), f"{blocks} times 65,536 bytes and the end")


class EndsAtOnce(bad_servers.Peer):
    """Sends a command's output, its status and the channel's end in just so many bytes, and closes, while the client stands still."""

    def __init__(self, process, told, count):
        super().__init__(None, "nothing")
        self.process, self.told, self.count, self.sent = process, told, count, 0

    def serve(self, line):
        self.line = line
        self.run()

    def session(self):
        self.receive()
        self.send(b"\x5b" + struct.pack(">IIII", 1, 0, 1 << 20, 1 << 15))
        self.receive()
        self.told.wait(10)
        time.sleep(0.3)
        os.kill(self.process[0].pid, signal.SIGSTOP)
        end = [b"\x63" + struct.pack(">I", 1), b"\x62" + struct.pack(">I", 1) + bad_servers.string(b"exit-status") + b"\0" + struct.pack(">I", 0), b"\x61" + struct.pack(">I", 1)]
        data = lambda count: b"\x5e" + struct.pack(">I", 1) + bad_servers.string(b"x" * count)
        left = self.count - sum(self.size_of(it) for it in end)
        while left:
            size = 16384
            while self.size_of(data(size)) > left or 0 < left - self.size_of(data(size)) < 64:
                size -= 1
            self.send(data(size))
            left -= self.size_of(data(size))
            self.sent += size
        for it in end:
            self.send(it)
        self.line.shutdown(socket.SHUT_WR)
        time.sleep(0.3)
        os.kill(self.process[0].pid, signal.SIGCONT)

    def size_of(self, payload):
        padding = 16 - (len(payload) + 1) % 16
        return 4 + 1 + len(payload) + padding + (16 if padding < 4 else 0) + 16


# ---- the terminal


def a_signal_at_the_password_prompt_brings_the_echo_back(place):
    def serve(line):
        peer = bad_servers.Peer(line, "names-password")
        peer.run()

    listener = Answering(serve)
    path = place.write("asks", f"[127.0.0.1]:{listener.port} ssh-ed25519 {bad_servers.host_line()}\n")
    words = [place.client, "-F", "none", "-p", str(listener.port), "-o", f"UserKnownHostsFile={path}", "-o", "PubkeyAuthentication=no", "me@127.0.0.1", "x"]
    with Terminal(place, words) as it:
        it.until("assword")
        until(lambda: not termios.tcgetattr(it.theirs)[3] & termios.ECHO, "the echo is off")
        it.type("\x03")
        want((it.ended(), it.is_as_before()), (-signal.SIGINT, True), "Ctrl-C at the prompt")


# ---- forwards


def a_forward_whose_reader_breaks_is_closed(place):
    ended = threading.Event()

    def stream(line):
        try:
            while True:
                line.sendall(b"x" * 65536)
        finally:
            ended.set()

    other, local = Answering(stream), free_port()
    with place.running(PORT, "-L", f"{local}:127.0.0.1:{other.port}"):
        until(lambda: can_connect(local), "the forward listens")
        until(ended.is_set, "the stream of the first connection ends")
        ended.clear()
        line = socket.create_connection(("127.0.0.1", local))
        line.recv(1000)
        line.setsockopt(socket.SOL_SOCKET, socket.SO_LINGER, struct.pack("ii", 1, 0))
        line.close()
        want(ended.wait(20), True, "the server's side ends after a reset here")


def a_forward_whose_reader_pauses_stops_no_other(place):
    def stream(line):
        while True:
            line.sendall(b"x" * 65536)

    endless, other, one, two = Answering(stream), Answering(echo), free_port(), free_port()
    with place.running(PORT, "-L", f"{one}:127.0.0.1:{endless.port}", "-L", f"{two}:127.0.0.1:{other.port}") as process:
        until(lambda: can_connect(two), "the forward listens")
        paused = [socket.create_connection(("127.0.0.1", one)) for _ in range(3)]
        for line in paused:
            line.recv(1000)
        time.sleep(3)
        for _ in range(5):
            line = socket.create_connection(("127.0.0.1", two), 5)
            want(said_back(line, b"hello" * 100000), b"hello" * 100000, "another forward meanwhile")
        with open(f"/proc/{process.pid}/statm") as file:
            pages = int(file.read().split()[1])
        want(pages * 4096 < 400 << 20, True, "memory while readers pause")
        for line in paused:
            got = 0
            while got < 8 << 20:
                got += len(line.recv(1 << 20))


def a_server_that_sends_beyond_the_window_is_left(place):
    """Nobody reads the output, and the server goes on without being given more of the window."""
    listener = Answering(lambda line: bad_servers.Peer(line, "beyond-the-window").run())
    path = place.write("floods", f"[127.0.0.1]:{listener.port} ssh-ed25519 {bad_servers.host_line()}\n")
    words = [place.client, "-F", "none", "-p", str(listener.port), "-o", f"UserKnownHostsFile={path}", "-w", place.write("secret", "secret\n"), "127.0.0.1", "x"]
    process = subprocess.Popen(words, stdin=subprocess.DEVNULL, stdout=subprocess.PIPE, stderr=subprocess.PIPE, env=place.environment)
    time.sleep(3)
    output, said = process.communicate(timeout=30)
    want((process.returncode, b"more than a channel's window" in said, len(output) < 8 << 20), (255, True, True), f"a flood: {len(output)} bytes, {said}")


def a_local_forward_listens_in_both_families(place):
    other = Answering(echo)
    for form in ("{}:127.0.0.1:{}", "*:{}:127.0.0.1:{}", ":{}:127.0.0.1:{}"):
        local = free_port()
        with place.running(PORT, "-L", form.format(local, other.port)):
            until(lambda: can_connect(local), f"IPv4 of {form}")
            if socket.has_ipv6 and can_listen("::1"):
                until(lambda: can_connect(local, "::1"), f"IPv6 of {form}")
    taken = socket.create_server(("127.0.0.1", 0))
    status, _, said = place.run(PORT, "-N", "-o", "ExitOnForwardFailure=yes", "-L", f"127.0.0.1:{taken.getsockname()[1]}:127.0.0.1:1", command=None)
    want((status, "can't listen at 127.0.0.1" in said), (255, True), "a port that is taken")


def can_listen(host):
    try:
        socket.create_server((host, 0), family=socket.AF_INET6).close()
        return True
    except OSError:
        return False


def a_remote_forward_tells_its_port(place):
    one, two = Answering(lambda line: line.sendall(b"one")), Answering(lambda line: line.sendall(b"two"))
    with place.running(PORT, "-R", f"0:127.0.0.1:{one.port}") as process:
        until(lambda: any(b"Allocated port" in it for it in process.said), "the port is printed")
        port = int(process.said[0].split()[2])
        want(socket.create_connection(("127.0.0.1", port), 5).recv(10), b"one", "the port that the server chose")
    gateway = place.sshd(more="GatewayPorts clientspecified\n")
    place.known(gateway, "ed25519", name="gateway")
    port = free_port()
    words = ["-R", f"127.0.0.1:{port}:127.0.0.1:{one.port}", "-R", f"127.0.0.2:{port}:127.0.0.1:{two.port}", "-o", f"UserKnownHostsFile={place.path('gateway')}"]
    with place.running(gateway, *words):
        until(lambda: can_connect(port) and can_connect(port, "127.0.0.2"), "both listen")
        want(socket.create_connection(("127.0.0.1", port), 5).recv(10), b"one", "the first address")
        want(socket.create_connection(("127.0.0.2", port), 5).recv(10), b"two", "the second address")


def a_host_that_takes_nothing_holds_no_other(place):
    """A connection here that isn't answered, since the listener's queue is full, is waited for beside the others."""
    full = socket.socket()
    full.bind(("127.0.0.1", 0))
    full.listen(0)
    filling = []
    for _ in range(4):
        line = socket.socket()
        line.setblocking(False)
        line.connect_ex(full.getsockname())
        filling.append(line)
    other, slow, quick = Answering(echo), free_port(), free_port()
    with place.running(PORT, "-R", f"{slow}:127.0.0.1:{full.getsockname()[1]}", "-R", f"{quick}:127.0.0.1:{other.port}"):
        until(lambda: can_connect(slow) and can_connect(quick), "both listen")
        waiting = socket.create_connection(("127.0.0.1", slow))
        time.sleep(0.5)
        began = time.monotonic()
        want(said_back(socket.create_connection(("127.0.0.1", quick), 10), b"hello"), b"hello", "another forward meanwhile")
        want(time.monotonic() - began < 5, True, "at once")
        waiting.close()


# ---- hosts


def a_host_is_known_by_any_of_its_keys(place):
    for kind, wanted in (("ecdsa", "ecdsa-sha2-nistp256"), ("rsa", "rsa-sha2-512")):
        for hashed in (False, True):
            place.known(PORT, kind, name="one_key", hashed=hashed)
            status, _, said = place.run(PORT, "-v", "-o", "StrictHostKeyChecking=yes", known="one_key")
            want((status, wanted in said), (0, True), f"known by {kind} alone, hashed {hashed}")


def errors_name_key_file_line_and_words(place):
    fingerprint = lambda name: subprocess.run(["ssh-keygen", "-l", "-f", place.path(name)], capture_output=True, text=True, check=True).stdout.split()[1]
    ours = fingerprint("host_ed25519.pub")
    other = " ".join(place.read("user_ed25519.pub").split()[:2])
    path = place.write("changed", f"# none\n[localhost]:{PORT} {other}\n")
    status, _, said = place.run(PORT, known="changed")
    want((status, ours in said, "ssh-ed25519" in said, f"{path} line 2" in said), (255, True, True, True), f"another key: {said}")
    place.write("revoked", f"@revoked [localhost]:{PORT} {place.read('host_ed25519.pub')}")
    status, _, said = place.run(PORT, "-o", "HostKeyAlgorithms=ssh-ed25519", known="revoked")
    want((status, ours in said, f"{place.path('revoked')} line 1 revokes" in said), (255, True, True), f"a revoked key: {said}")
    status, _, said = place.run(PORT, "-o", "StrictHostKeyChecking=yes", known="none_at_all")
    want((status, "can't be read" in said), (255, True), f"a file that isn't there: {said}")
    place.write("empty", "")
    status, _, said = place.run(PORT, "-o", "BatchMode=yes", known="empty")
    want((status, ours in said, f"[localhost]:{PORT}" in said), (255, True, True), f"an unknown key: {said}")
    strict = place.sshd(more="MaxAuthTries 2\n")
    place.known(strict, "ed25519", name="strict")
    for i in range(4):
        place.make_key(f"useless{i}", "ed25519")
    words = [it for i in range(4) for it in ("-i", place.path(f"useless{i}"))]
    status, _, said = place.run(strict, *words, known="strict")
    want((status, "Too many authentication failures" in said), (255, True), f"the server's words: {said}")


def wrong_words_are_refused(place):
    for words in (["-p", "twenty"], ["-p", "70000"], ["-o", "ServerAliveInterval=x"], ["-L", "1:2"], ["-L", "8080"], ["-o", "BatchMode=maybe"], ["-o", "Port"]):
        status, _, said = place.run(PORT, *words)
        want((status, words[-1].split("=")[-1] in said), (255, True), f"{words}: {said}")
    if os.geteuid() == 0:
        ran = subprocess.run([place.client, "-F", "none", "localhost", "true"], preexec_fn=lambda: os.setuid(54321), capture_output=True, env={"HOME": "/"}, timeout=20)
        want((ran.returncode, b"no name for this user" in ran.stderr), (255, True), "a user without a name")


# ---- time


def a_server_that_exchanges_no_keys_is_left(place):
    silent = Answering(lambda line: (line.sendall(b"SSH-2.0-Silent\r\n"), line.recv(1 << 20), time.sleep(30)))
    began = time.monotonic()
    status, _, said = place.run(silent.port, "-o", "ConnectTimeout=2")
    want((status, "took too long" in said, time.monotonic() - began < 10), (255, True, True), f"no KEXINIT: {said}")

    def serve(line):
        peer = bad_servers.Peer(line, "never-rekeys")
        peer.run()

    listener = Answering(serve)
    path = place.write("never", f"[127.0.0.1]:{listener.port} ssh-ed25519 {bad_servers.host_line()}\n")
    place.write("secret", "secret\n")
    words = [place.client, "-F", "none", "-p", str(listener.port), "-o", f"UserKnownHostsFile={path}", "-o", "PubkeyAuthentication=no", "-w", place.path("secret"),
             "-o", "ServerAliveInterval=1", "-o", "ServerAliveCountMax=2", "-o", "RekeyLimit=default 1s", "127.0.0.1", "x"]
    began = time.monotonic()
    ran = subprocess.run(words, capture_output=True, stdin=subprocess.DEVNULL, env=place.environment, timeout=30)
    want((ran.returncode, b"too long" in ran.stderr, time.monotonic() - began < 15), (255, True, True), f"new keys that never come: {ran.stderr}")


# ---- secrets, and how it is built


def build(folder, *more):
    library = os.environ.get("SAZHONTHIL_ARCHIVE")
    words = ["make", "-s", "-C", f"{HERE}/..", f"OUT={folder}", *([f"LIB={library}"] if library else []), *more]
    subprocess.run(words, check=True, capture_output=True)


def secrets_are_wiped_before_they_are_freed(place):
    """A client whose free() looks for the password and the passphrase in what it frees."""
    if not (shutil.which("make") and os.environ.get("SAZHONTHIL_ARCHIVE")):
        return
    with tempfile.TemporaryDirectory() as folder:
        subprocess.run(["cc", "-O2", "-c", f"{HERE}/freed_secrets.c", "-o", f"{folder}/freed_secrets.o"], check=True)
        build(folder, f"LDFLAGS=-Wl,--wrap=free {folder}/freed_secrets.o")
        secret = "correct-horse-battery-staple"
        place.write("secret", secret + "\n")
        listener = Answering(lambda line: bad_servers.Peer(line, "names-password").run())
        path = place.write("asks", f"[127.0.0.1]:{listener.port} ssh-ed25519 {bad_servers.host_line()}\n")
        words = ["-F", "none", "-p", str(listener.port), "-o", f"UserKnownHostsFile={path}", "-o", "PubkeyAuthentication=no", "-w", place.path("secret"), "me@127.0.0.1", "x"]
        ran = subprocess.run([f"{folder}/sazh", *words], stdin=subprocess.DEVNULL, capture_output=True, env={**place.environment, "LOOKED_FOR": place.path("secret")}, timeout=30)
        want((ran.returncode, b"looked at" in ran.stderr, b"found" in ran.stderr), (0, True, False), f"a password: {ran.stderr}")
        place.make_key("sealed", "ed25519", secret)
        place.write("authorized_keys", place.read("authorized_keys") + place.read("sealed.pub"))
        words = [f"{folder}/sazh", *place.words(PORT, key="sealed")[1:], "localhost", "echo in"]
        with Terminal(place, words, LOOKED_FOR=place.path("secret")) as it:
            it.until("Passphrase of ")
            it.type(secret + "\r")
            it.until("in\r\n")
            it.until("looked at")
            want((it.ended(), b"found" in it.seen), (0, False), f"a passphrase: {it.seen}")


def it_is_built_and_installed_as_packages_want(place):
    if not (shutil.which("make") and os.environ.get("SAZHONTHIL_ARCHIVE")):
        return
    with tempfile.TemporaryDirectory() as folder:
        build(folder, "LDFLAGS=-Wl,-soname,by-the-test", "install", f"DESTDIR={folder}/root", "PREFIX=/usr")
        want(os.access(f"{folder}/root/usr/bin/sazh", os.X_OK), True, "make install")
        told = subprocess.run(["readelf", "-d", "-h", f"{folder}/root/usr/bin/sazh"], capture_output=True, text=True, check=True).stdout
        want([it in told for it in ("BIND_NOW", "PIE", "by-the-test")], [True] * 3, "hardening, LDFLAGS")


if __name__ == "__main__":
    TESTS = [a_closed_descriptor_is_no_socket, output_that_cant_be_written_is_an_error, standard_descriptors_are_left_as_they_are, whole_packets_before_the_end_are_read,
             a_signal_at_the_password_prompt_brings_the_echo_back, a_forward_whose_reader_breaks_is_closed, a_forward_whose_reader_pauses_stops_no_other,
             a_server_that_sends_beyond_the_window_is_left,
             a_local_forward_listens_in_both_families, a_remote_forward_tells_its_port, a_host_that_takes_nothing_holds_no_other, a_host_is_known_by_any_of_its_keys,
             errors_name_key_file_line_and_words, wrong_words_are_refused, a_server_that_exchanges_no_keys_is_left, secrets_are_wiped_before_they_are_freed,
             it_is_built_and_installed_as_packages_want]
    with Place(sys.argv[1]) as place:
        PORT = place.sshd()
        place.known(PORT, "ed25519", "ecdsa", "rsa")
        sys.exit(run_all([it for it in TESTS if len(sys.argv) < 3 or it.__name__ in sys.argv[2:]], place, "faults"))
