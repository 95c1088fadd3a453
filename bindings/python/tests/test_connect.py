"""Connections to servers, as a table: what is tried (a function below, with the servers that it is tried on) against Debian's
sshd, dropbear and asyncssh, each started here on the loopback. `python3 -m tests.test_connect` prints the table."""
import contextlib
import gc
import io
import os
import signal
import socket
import subprocess
import sys
import threading
import time
import unittest

import sazhonthil
from sazhonthil import Accept

from .servers import PASSWORD, Listening, Place, can_connect, echo, free_port, needs_library, said_back, until

SCENARIOS = []
EVERY = ("sshd", "dropbear", "asyncssh")
SHELLS = ("sshd", "dropbear")
MB = 1 << 20


def on(*servers):
    """Registers a scenario for these servers; its first line of documentation is its row in the table."""

    def register(scenario):
        SCENARIOS.append((scenario, servers))
        return scenario

    return register


def words(server, shell, asyncssh):
    """A command, as the server has it: a shell's, or one of asyncssh_server.py."""
    return asyncssh if server.name == "asyncssh" else shell


# ---- logging in


@on(*EVERY)
def login_by_key(t, server):
    """login by a key file"""
    with server.connect() as c:
        t.assertEqual(c.run("echo well").stdout, "well\n")
        t.assertIn(c.agreed["kex"], ("curve25519-sha256", "curve25519-sha256@libssh.org"))
        t.assertEqual(c.host_key.blob[:15], b"\0\0\0\x0bssh-ed25519")


@on(*EVERY)
def login_by_sealed_key(t, server):
    """by a key file with a passphrase, and with a wrong one"""
    sealed, asked = server.place.path("user_sealed"), []
    server.connect(key=sealed, passphrase="open sesame").close()
    server.connect(key=sealed, passphrase=lambda file: asked.append(file) or "open sesame").close()
    t.assertEqual(asked, [sealed])
    for wrong in ("open", None):
        with t.assertRaises(sazhonthil.PassphraseError):
            server.connect(key=sealed, passphrase=wrong)

    def fails(_):
        raise ZeroDivisionError

    with t.assertRaises(ZeroDivisionError):
        server.connect(key=sealed, passphrase=fails)


@on("sshd")
def login_by_agent(t, server):
    """by an agent, which refuses the first key"""
    path = server.place.path("agent")
    agent = subprocess.Popen(["ssh-agent", "-D", "-a", path], stdout=subprocess.DEVNULL, start_new_session=True)
    server.place.processes.append(agent)
    until(lambda: os.path.exists(path), "the agent starts")
    with t.assertRaises(sazhonthil.AgentError):
        server.connect(key=None, agent=path)
    for name in ("other_ed25519", "user_ed25519"):
        subprocess.run(["ssh-add", "-q", server.place.path(name)], check=True, env={**os.environ, "SSH_AUTH_SOCK": path})
    server.connect(key=None, agent=path).close()
    with t.assertRaises(sazhonthil.AgentError):
        server.connect(key=None, agent=server.place.path("no_agent"))


@on("asyncssh")
def login_by_password(t, server):
    """by a password, and by answers to prompts"""
    server.connect(key=None, password=PASSWORD).close()
    seen = []

    def answers(challenge):
        seen.extend(challenge.questions)
        return [PASSWORD for _ in challenge.questions]

    server.connect(key=None, answers=answers).close()
    t.assertEqual([it.echo for it in seen], [False])
    with t.assertRaises(ZeroDivisionError):
        server.connect(key=None, answers=lambda challenge: [1 / 0])


@on("asyncssh")
def wrong_password(t, server):
    """a wrong password, wrong answers"""
    with t.assertRaises(sazhonthil.AuthenticationFailed) as caught:
        server.connect(key=None, password="wrong")
    t.assertIn("password", caught.exception.methods)
    with t.assertRaises(sazhonthil.AuthenticationFailed):
        server.connect(key=None, answers=lambda challenge: ["wrong"] * len(challenge.questions))


@on(*EVERY)
def wrong_key(t, server):
    """a key that the server doesn't have"""
    with t.assertRaises(sazhonthil.AuthenticationFailed) as caught:
        server.connect(key=server.place.path("other_ed25519"))
    t.assertIn("publickey", caught.exception.methods)
    with t.assertRaises(sazhonthil.KeyFileError):
        server.connect(key=server.place.path("authorized_keys"))
    with t.assertRaises(sazhonthil.KeyFileError):
        server.connect(key=server.place.path("no_such_file"))


@on(*EVERY)
def several_keys(t, server):
    """the second of two keys"""
    server.connect(key=[server.place.path("other_ed25519"), server.place.path("user_ed25519")]).close()


# ---- the host's key


@on(*EVERY)
def host_key_unknown(t, server):
    """host key unknown: refused, accepted once, learned, by a function"""
    with t.assertRaises(sazhonthil.HostKeyUnknown) as caught:
        server.connect(known_hosts=())
    t.assertEqual((caught.exception.host, caught.exception.key_type), (server.host, "ssh-ed25519"))
    shown = []
    server.connect(known_hosts=(), new_host=lambda key: shown.append(key) or Accept.ONCE).close()
    t.assertEqual((shown[0].host, shown[0].fingerprint), (server.host, caught.exception.fingerprint))
    learned = server.place.path(f"learned{server.port}")
    with t.assertRaises(sazhonthil.HostKeyUnknown):
        server.connect(known_hosts=learned, new_host=lambda key: Accept.REFUSE)
    t.assertFalse(os.path.exists(learned))
    server.connect(known_hosts=learned, accept_new=True).close()
    with open(learned) as file:
        t.assertEqual(file.read(), f"{server.host} {server.host_key()}\n")
    server.connect(known_hosts=learned).close()
    with t.assertRaises(ZeroDivisionError):
        server.connect(known_hosts=(), new_host=lambda key: 1 / 0)


@on(*EVERY)
def host_key_changed(t, server):
    """host key changed: file and line; nothing accepts it"""
    other = server.place.read("other_ed25519.pub").strip()
    first = server.place.write("first", "# nothing\n")
    changed = server.place.write("changed", f"# a comment\n\n{server.host} {other}\n")
    with t.assertRaises(sazhonthil.HostKeyChanged) as caught:
        server.connect(known_hosts=[first, changed], accept_new=True)
    t.assertEqual((caught.exception.file, caught.exception.line), (changed, 3))
    t.assertIn(f"{changed} line 3", str(caught.exception))


@on(*EVERY)
def host_key_revoked(t, server):
    """host key revoked"""
    line = f"{server.host} {server.host_key()}"
    revoked = server.place.write("revoked", f"{line}\n@revoked {line}\n")
    with t.assertRaises(sazhonthil.HostKeyRevoked) as caught:
        server.connect(known_hosts=revoked, new_host=Accept.LEARN)
    t.assertEqual((caught.exception.file, caught.exception.line), (revoked, 2))


# ---- commands


@on(*EVERY)
def ten_megabytes_each_way(t, server):
    """a command with 10 MB each way"""
    data = os.urandom(10 * MB)
    with server.connect() as c:
        got = c.run("cat", input=data, encoding=None)
        t.assertEqual((got.stdout == data, got.exit_status), (True, 0))


@on(*EVERY)
def exit_status_and_signal(t, server):
    """exit status and signal"""
    with server.connect() as c:
        t.assertEqual([c.run(f"exit {n}").exit_status for n in (0, 7, 255)], [0, 7, 255])
        killed = c.run(words(server, "kill -TERM $$", "die TERM"))
        t.assertEqual((killed.exit_status, killed.exit_signal), (None, "TERM"))
        with t.assertRaises(sazhonthil.CommandFailed) as caught:
            c.run("exit 3", check=True)
        t.assertEqual(caught.exception.result.exit_status, 3)
        t.assertEqual(c.run("exit 0", check=True).exit_status, 0)


@on(*EVERY)
def stderr_apart(t, server):
    """the standard error apart"""
    with server.connect() as c:
        got = c.run(words(server, "echo one; echo two >&2", "warn two"))
        t.assertEqual((got.stdout, got.stderr), (words(server, "one\n", ""), "two\n"))


@on(*SHELLS)
def files_of_a_channel(t, server):
    """a channel's files: lines, an end of the input, a text"""
    with server.connect() as c, c.open("sort; echo done >&2; exit 4") as channel:
        channel.stdin.write(b"b\na\n")
        channel.stdin.close()
        t.assertEqual([line for line in io.TextIOWrapper(channel.stdout, "utf-8")], ["a\n", "b\n"])
        t.assertEqual(channel.stderr.read(), b"done\n")
        t.assertEqual((channel.wait().status, channel.exit_status, channel.exit_signal), (4, 4, None))
        with t.assertRaises(ValueError):
            channel.stdin.write(b"more")


@on(*SHELLS)
def terminal_and_environment(t, server):
    """a terminal of a size; variables where the server takes them"""
    with server.connect() as c:
        got = c.run("stty size; echo $TERM", pty=sazhonthil.Terminal("vt100", 132, 50))
        t.assertEqual(got.stdout.split(), ["50", "132", "vt100"])
        if server.name == "sshd":
            t.assertEqual(c.run("echo $SAZH_A", env={"SAZH_A": "b c"}).stdout, "b c\n")
        with c.open(pty=True) as shell:
            shell.write(b"echo $((6*7)); exit 5\n")
            t.assertIn(b"42", shell.read())
            t.assertEqual(shell.wait().status, 5)


@on(*SHELLS)
def timeouts(t, server):
    """a command that takes too long; what came is told, and the connection goes on"""
    with server.connect() as c:
        begun = time.monotonic()
        with t.assertRaises(sazhonthil.TimedOut) as caught:
            c.run("echo begun; sleep 30", timeout=0.5)
        t.assertEqual(caught.exception.stdout, "begun\n")
        t.assertLess(time.monotonic() - begun, 5)
        t.assertEqual(c.run("echo well").stdout, "well\n")
        with c.open("sleep 30") as channel:
            with t.assertRaises(TimeoutError):
                channel.read_some(10, timeout=0.2)
            with t.assertRaises(TimeoutError):
                channel.wait(timeout=0.2)


@on("sshd")
def input_that_nobody_reads(t, server):
    """10 MB for a command that reads none of it"""
    with server.connect() as c:
        t.assertEqual(c.run("exit 6", input=bytes(10 * MB)).exit_status, 6)
        with c.open("exec 0<&-; sleep 0.2") as channel, t.assertRaises(BrokenPipeError):
            while True:
                channel.write(bytes(MB))


# ---- forwards


@on(*EVERY)
def local_forward(t, server):
    """a local forward: 1 MB there and back; it ends with its block"""
    data = os.urandom(MB)
    with Listening(echo) as target, server.connect() as c:
        with c.forward_local(("localhost", 0), ("127.0.0.1", target.port)) as forward:
            port = forward.port
            t.assertTrue(said_back(port, data) == data)
        t.assertFalse(can_connect(port))
        with t.assertRaises(sazhonthil.Closed):
            forward.port
        forward.close()


@on(*EVERY)
def remote_forward(t, server):
    """a remote forward likewise (sshd: by a port of its choice)"""
    data = os.urandom(MB)
    with Listening(echo) as target, server.connect() as c:
        # dropbear chooses no port, and asyncssh tells the one that it chose as 0 where a client comes
        port = 0 if server.name == "sshd" else free_port()
        with c.forward_remote(("localhost", port), ("127.0.0.1", target.port)) as forward:
            port = forward.port
            t.assertTrue(said_back(port, data) == data)
        if server.name == "dropbear":  # it goes on listening; what comes is closed at once
            with socket.create_connection(("127.0.0.1", port), 10) as line:
                t.assertEqual(line.recv(1), b"")
        else:
            until(lambda: not can_connect(port), "the server listens no longer")


@on(*SHELLS)
def slow_target(t, server):
    """a remote forward to a listener that answers after a second: what was sent meanwhile isn't lost"""
    with socket.socket() as listener, server.connect() as c:
        listener.bind(("127.0.0.1", 0))
        listener.listen(0)
        there = listener.getsockname()
        with contextlib.ExitStack() as stack:
            while True:  # until nobody more fits
                filler = stack.enter_context(socket.socket())
                filler.settimeout(0.3)
                try:
                    filler.connect(there)
                except OSError:
                    break
            forward = c.forward_remote(("localhost", free_port()), there)
            with socket.create_connection(("127.0.0.1", forward.port), 10) as line:
                line.sendall(b"sent at once")
                line.shutdown(socket.SHUT_WR)
                time.sleep(0.3)
        said, end = b"", time.monotonic() + 20
        listener.settimeout(10)
        while said != b"sent at once" and time.monotonic() < end:
            with listener.accept()[0] as one:
                one.settimeout(5)
                said = b"".join(iter(lambda: one.recv(100), b""))
        t.assertEqual(said, b"sent at once")


@on("sshd")
def forwards_of_other_kinds(t, server):
    """SOCKS5, sockets of Unix both ways, a channel to a port, and forwards that are refused"""
    with Listening(echo) as target, server.connect() as c:
        with c.forward_socks(("localhost", 0)) as forward, socket.create_connection(("127.0.0.1", forward.port), 10) as line:
            line.sendall(b"\5\1\0\5\1\0\1\x7f\0\0\1" + target.port.to_bytes(2, "big") + b"hello")
            got = b""
            while len(got) < 17:
                got += line.recv(100)
            t.assertEqual((got[:4], got[12:]), (b"\5\0\5\0", b"hello"))
        path = server.place.path("forwarded")
        with c.forward_local(path, ("127.0.0.1", target.port)), socket.socket(socket.AF_UNIX) as line:
            line.connect(path)
            line.sendall(b"to a port")
            t.assertEqual(line.recv(100), b"to a port")
        t.assertFalse(os.path.exists(path))
        with c.open_to(("127.0.0.1", target.port)) as channel:
            channel.write(b"at once")
            t.assertEqual(channel.read(7), b"at once")
        with t.assertRaises(sazhonthil.ChannelRefused):
            c.open_to(("127.0.0.1", free_port()))
        with t.assertRaises(sazhonthil.CannotListen):
            c.forward_local(("127.0.0.1", target.port), ("localhost", 1))
    with server.place.sshd(more="AllowTcpForwarding no").connect() as c, t.assertRaises(sazhonthil.ForwardRefused):
        c.forward_remote(("localhost", 0), ("localhost", 1))


# ---- what goes wrong


@on(*EVERY)
def lost_connection(t, server):
    """the server is killed: whoever waits is told, and every later call"""
    lost = {"sshd": server.place.sshd, "dropbear": server.place.dropbear, "asyncssh": server.place.asyncssh}[server.name]()
    with lost.connect() as c:
        with c.open("cat") as channel:
            channel.write(b"x")
            t.assertEqual(channel.read(1), b"x")
            killer = threading.Timer(0.2, kill_all, (lost,))
            killer.start()
            with t.assertRaises(sazhonthil.ConnectionLost):
                channel.read_some(1, timeout=20)
            killer.join()
        t.assertTrue(c.is_over)
        for _ in range(2):
            with t.assertRaises(ConnectionError):
                c.run("echo")
        with t.assertRaises(sazhonthil.ConnectionLost):
            c.forward_local(("localhost", 0), ("localhost", 1))


def children_of(process):
    told = subprocess.run(["ps", "-e", "-o", "pid=,ppid="], capture_output=True, text=True, check=True).stdout
    pairs = [tuple(map(int, line.split())) for line in told.splitlines()]
    found = [process.pid]
    for _ in range(4):
        found += [pid for pid, parent in pairs if parent in found and pid not in found]
    return found[1:]


def kill_all(server):
    """Connections of sshd and of dropbear are sessions of their own."""
    for pid in children_of(server.process):
        with contextlib.suppress(ProcessLookupError):
            os.kill(pid, signal.SIGKILL)
    server.kill()


@on("sshd")
def no_answer(t, server):
    """the server is stopped: keepalives find it out"""
    stopped = server.place.sshd()
    with stopped.connect(keepalive=1, keepalive_max=1) as c:
        t.assertEqual(c.run("echo").exit_status, 0)
        all_of = children_of(stopped.process)
        for pid in all_of:
            os.kill(pid, signal.SIGSTOP)
        try:
            with t.assertRaises(sazhonthil.NoAnswer):
                c.run("echo", timeout=20)
        finally:
            for pid in all_of:
                os.kill(pid, signal.SIGCONT)


@on("sshd")
def nobody_there(t, server):
    """no listener, no address, a listener that says nothing, one that isn't SSH's"""
    with t.assertRaises(sazhonthil.CannotConnect):
        sazhonthil.connect("127.0.0.1", free_port(), known_hosts=())
    with t.assertRaises(sazhonthil.NoAddress):
        sazhonthil.connect("no-such-host.invalid", known_hosts=())
    for name in ("a,b", "a b", "-v", ""):
        with t.assertRaises(sazhonthil.NoAddress):
            sazhonthil.connect(name, known_hosts=())
    with Listening(lambda line: line.recv(1) and time.sleep(5)) as silent, t.assertRaises(sazhonthil.TimedOut):
        sazhonthil.connect("127.0.0.1", silent.port, known_hosts=(), timeout=0.3)
    with Listening(lambda line: line.sendall(b"SSH-1.5-old\r\n") or line.recv(1)) as other, t.assertRaises(sazhonthil.ProtocolError):
        sazhonthil.connect("127.0.0.1", other.port, known_hosts=())
    with Listening(lambda line: line.close()) as gone, t.assertRaises(sazhonthil.ConnectionLost):
        sazhonthil.connect("127.0.0.1", gone.port, known_hosts=())


@on(*SHELLS)
def paused_reader(t, server):
    """a channel that nobody reads: others go on, and nothing is lost"""
    with server.connect() as c, c.open("head -c 20000000 /dev/zero") as paused:
        for n in range(5):
            t.assertEqual(c.run(f"echo {n}").stdout, f"{n}\n")
        time.sleep(0.3)
        t.assertEqual(len(paused.read()), 20000000)
        t.assertEqual(paused.wait().status, 0)


@on(*EVERY)
def rekeys_between_commands(t, server):
    """new keys before each command"""
    with server.connect() as c:
        for n in range(5):
            c.rekey()
            t.assertEqual(c.run(f"echo {n}").stdout, f"{n}\n")


@on(*SHELLS)
def rekeys_under_load(t, server):
    """new keys after each 256 kB, and others at once, with 10 MB each way"""
    data = os.urandom(10 * MB)
    with server.connect(rekey_bytes=256 * 1024) as c:
        over = threading.Event()

        def rekey():
            while not over.wait(0.05):
                c.rekey()

        other = threading.Thread(target=rekey)
        other.start()
        try:
            t.assertTrue(c.run("cat", input=data, encoding=None).stdout == data)
        finally:
            over.set()
            other.join()


# ---- threads, closing


@on("sshd", "asyncssh")
def threads(t, server):
    """eight threads on one connection, 20 commands each, and bytes on a channel of their own"""
    failed = []

    def use(c, n):
        try:
            with c.open("cat") as channel:
                for i in range(20):
                    said = f"{n} {i} {'x' * 5000}\n".encode()
                    channel.write(said)
                    if channel.stdout.readline() != said:
                        raise AssertionError("other bytes")
                    if c.run(f"echo {n} {i}").stdout != f"{n} {i}\n":
                        raise AssertionError("another answer")
        except BaseException as why:
            failed.append(why)

    with server.connect() as c:
        users = [threading.Thread(target=use, args=(c, n)) for n in range(8)]
        for one in users:
            one.start()
        for one in users:
            one.join()
    t.assertEqual(failed, [])


@on("sshd", "dropbear")
def two_threads_on_one_channel(t, server):
    """one thread writes and another reads the same channel, 10 MB"""
    data = os.urandom(10 * MB)
    with server.connect() as c, c.open("cat") as channel:
        writer = threading.Thread(target=lambda: (channel.write(data), channel.send_eof()))
        writer.start()
        t.assertTrue(channel.read() == data)
        writer.join()


@on("sshd")
def closing(t, server):
    """closed twice, used after the end, closed while others wait"""
    c = server.connect()
    channel, forward = c.open("cat"), c.forward_local(("localhost", 0), ("localhost", 1))
    for one in (forward, channel):
        one.close()
        one.close()
    for use in (lambda: channel.write(b"x"), lambda: channel.read_some(1), lambda: channel.wait(), lambda: channel.exit_status, lambda: channel.send_signal("INT")):
        with t.assertRaises(sazhonthil.Closed):
            use()
    channel.send_eof()
    waiting, told = c.open("cat"), []

    def wait():
        try:
            waiting.read_some(1)
        except sazhonthil.Error as why:
            told.append(type(why))

    others = [threading.Thread(target=wait) for _ in range(3)]
    for one in others:
        one.start()
    time.sleep(0.2)
    c.close()
    c.close()
    for one in others:
        one.join(5)
    t.assertEqual(told, [sazhonthil.Closed] * 3)
    t.assertTrue(c.is_closed and c.is_over)
    uses = (lambda: c.run("echo"), lambda: c.open("echo"), lambda: c.forward_socks(("localhost", 0)), lambda: c.agreed, c.rekey, c.sftp,
            lambda: waiting.write(b"x"), lambda: waiting.wait(), lambda: forward.port)
    for use in uses:
        with t.assertRaises(sazhonthil.Closed):
            use()
    waiting.close()
    forward.close()


@on("sshd")
def left_to_the_collector(t, server):
    """connections and channels that are dropped are freed, and their threads end; no descriptor is left"""
    before, files = threading.active_count(), len(os.listdir("/proc/self/fd"))
    for wrong in ({"ciphers": "rot13"}, {"known_hosts": "/"}, {"known_hosts": ()}, {"key": server.place.path("other_ed25519")}):
        with t.assertRaises(sazhonthil.Error):
            server.connect(**wrong)
    for _ in range(5):
        c = server.connect()
        for _ in range(20):
            c.open("cat")
        t.assertEqual(c.run("echo well").stdout, "well\n")
    del c
    gc.collect()
    until(lambda: threading.active_count() <= before, "the threads end")
    until(lambda: len(os.listdir("/proc/self/fd")) <= files, "no descriptor is left")
    with server.connect() as c, c.open("cat") as kept:
        del c
        gc.collect()
        kept.write(b"still there")
        t.assertEqual(kept.read(11), b"still there")


@on("sshd")
def callbacks(t, server):
    """a banner, and a callback that fails"""
    banner = server.place.sshd(more=f"Banner {server.place.write('banner', 'Hello, this is a test.')}")
    said = []
    with banner.connect(banner=said.append) as c:
        t.assertEqual("".join(said), "Hello, this is a test.")
        t.assertEqual(c.run("echo well").stdout, "well\n")
    with t.assertRaises(ZeroDivisionError):
        banner.connect(banner=lambda text: 1 / 0)


@on("sshd")
def through_another(t, server):
    """through a jump host, and over a socket of one's own"""
    inner = server.place.sshd("rsa")
    data = os.urandom(3 * MB)
    with server.connect() as jump, inner.connect(jump=jump) as c:
        t.assertTrue(c.run("cat", input=data, encoding=None).stdout == data)
        t.assertEqual(jump.run("echo outer").stdout, "outer\n")
        jump.close()
        with t.assertRaises(sazhonthil.Closed):
            c.run("echo")
    with server.connect(sock=socket.create_connection(("127.0.0.1", server.port))) as c:
        t.assertEqual(c.run("echo well").stdout, "well\n")


# ---- files


@on("sshd", "asyncssh")
def files_by_sftp(t, server):
    """files by SFTP: 10 MB put and got, folders, names, attributes, errors"""
    data = os.urandom(10 * MB + 12345)
    here, there = server.place.path("here"), server.place.path(f"there{server.port}")
    with open(here, "wb") as file:
        file.write(data)
    os.mkdir(there)
    with server.connect() as c, c.sftp() as files:
        t.assertEqual(files.put(here, f"{there}/a"), len(data))
        t.assertEqual(files.get(f"{there}/a", server.place.path("back")), len(data))
        with open(server.place.path("back"), "rb") as file:
            t.assertTrue(file.read() == data)
        t.assertEqual((files.stat(f"{there}/a").size, files.stat(f"{there}/a").is_file, files.stat(there).is_dir), (len(data), True, True))
        files.mkdir(f"{there}/folder")
        files.rename(f"{there}/a", f"{there}/folder/b")
        t.assertEqual(sorted(files.listdir(there)), ["folder"])
        t.assertEqual([(it.name, it.attributes.size) for it in files.scandir(f"{there}/folder")], [("b", len(data))])
        with files.open(f"{there}/folder/b") as file:
            file.seek(1000)
            t.assertTrue(file.read(100000) == data[1000:101000])
            file.seek(-5, io.SEEK_END)
            t.assertEqual(file.read(), data[-5:])
        with files.open(f"{there}/c", "wb") as file:
            for at in range(0, MB, 1000):
                file.write(data[at : at + 1000])
        with files.open(f"{there}/c", "ab") as file:
            file.write(b"and more")
        with files.open(f"{there}/c") as file:
            got = file.read()
        t.assertTrue(got[-8:] == b"and more" and got[:MB] == data[:MB])
        with t.assertRaises(FileNotFoundError):
            files.get(f"{there}/nothing", server.place.path("nothing"))
        with t.assertRaises(sazhonthil.SFTPError):
            files.rmdir(f"{there}/folder")
        files.put(os.devnull, f"{there}/empty")
        t.assertEqual(files.get(f"{there}/empty", server.place.path("back")), 0)
        for name in ("c", "empty", "folder/b"):
            files.remove(f"{there}/{name}")
        files.rmdir(f"{there}/folder")
        t.assertEqual((files.listdir(there), files.realpath(there)), ([], os.path.realpath(there)))
        if server.name == "sshd":
            os.mkfifo(f"{there}/fifo")
            names = [f"n{n}" for n in range(500)]
            for name in names:
                open(f"{there}/{name}", "w").close()
            t.assertEqual(sorted(files.listdir(there)), sorted([*names, "fifo"]))
    files.close()
    with t.assertRaises(sazhonthil.Closed):
        files.listdir(there)


# ---- the table


@needs_library
class Connections(unittest.TestCase):
    """A test for each scenario and server."""

    @classmethod
    def setUpClass(cls):
        cls.place, cls.servers = Place(), {}

    @classmethod
    def tearDownClass(cls):
        cls.place.close()

    def server(self, name):
        if name not in self.servers:
            try:
                self.servers[name] = getattr(self.place, name)()
            except unittest.SkipTest as why:
                self.servers[name] = why
        found = self.servers[name]
        if isinstance(found, unittest.SkipTest):
            raise found
        return found


def _test(scenario, name):
    def test(self):
        scenario(self, self.server(name))

    test.__doc__ = f"{scenario.__doc__} ({name})"
    return test


for _scenario, _servers in SCENARIOS:
    for _name in _servers:
        setattr(Connections, f"test_{_scenario.__name__}_{_name}", _test(_scenario, _name))


def main():
    """Runs the table and prints it."""
    seen = {}
    suite = unittest.defaultTestLoader.loadTestsFromTestCase(Connections)
    result = unittest.TextTestRunner(stream=sys.stderr, verbosity=2).run(suite)
    bad = {it._testMethodName: "FAILED" for it, _ in result.failures + result.errors}
    bad.update({it._testMethodName: "-" for it, _ in result.skipped})
    for scenario, servers in SCENARIOS:
        for name in servers:
            seen[scenario, name] = bad.get(f"test_{scenario.__name__}_{name}", "yes")
    print("| Scenario | " + " | ".join(EVERY) + " |")
    print("|---" * (1 + len(EVERY)) + "|")
    for scenario, _ in SCENARIOS:
        print(f"| {scenario.__doc__} | " + " | ".join(seen.get((scenario, name), "") for name in EVERY) + " |")
    return 0 if result.wasSuccessful() else 1


if __name__ == "__main__":
    sys.exit(main())
