#!/usr/bin/env python3
"""Clients that do wrong, many of them, and places where no agent may listen. On this machine alone.

    hostile.py AGENT"""
import os
import random
import resource
import shutil
import signal
import socket
import struct
import subprocess
import sys
import time

from scratch import FAILURE, IDENTITIES_ANSWER, LOCK, PLAIN, REMOVE_ALL, SIGN_RESPONSE, SUCCESS, UNLOCK
from scratch import Line, private_parts, sign_request, strings, tests_of, text, until, want

IS_CHECKED = sys.argv[1].endswith(".by") if len(sys.argv) > 1 else False


def memory_kb(agent):
    with open(f"/proc/{agent.process.pid}/status") as file:
        return next(int(line.split()[1]) for line in file if line.startswith("VmRSS"))


def processor_seconds(agent):
    with open(f"/proc/{agent.process.pid}/stat") as file:
        fields = file.read().rsplit(")", 1)[1].split()
    return (int(fields[11]) + int(fields[12])) / os.sysconf("SC_CLK_TCK")


# ---- clients that do wrong


def frames_in_pieces(scratch):
    agent = scratch.start()
    agent.add(scratch.key("ed25519"))
    with agent.line() as line:
        for byte in text(bytes([11])):
            line.socket.sendall(bytes([byte]))
            time.sleep(0.005)
        want(line.take()[0], IDENTITIES_ANSWER, "a frame that comes byte by byte")
        line.socket.sendall(text(bytes([11])) * 3 + text(b"") + text(b"\xff"))
        want([line.take()[0] for _ in range(5)], [12, 12, 12, FAILURE, FAILURE], "frames in one piece")
        line.socket.sendall(text(bytes([11])) * 2)
        line.socket.shutdown(socket.SHUT_WR)
        want((line.take()[0], line.take()[0], line.take()), (12, 12, None), "answers to a client that sends no more")
    for name, sent, answers in (
        ("a length above the limit", struct.pack(">I", 262145), []),
        ("the greatest length", b"\xff" * 4, []),
        ("a listing, and a length above the limit", text(b"\x0b") + b"\xff" * 4, [12]),
        ("a sign request that can't be read", text(b"\x0d\0\0"), []),
        ("a listing, and a sign request without data", text(b"\x0b") + text(b"\x0d" + text(agent.line().blobs()[0])), [12]),
    ):
        with agent.line() as line:
            line.socket.sendall(sent)
            for answer in answers:
                want(line.take()[0], answer, name)
            want(line.take(), None, name)
    with agent.line() as line:
        want(line.ask(b"\x0b" + bytes(262143))[0], IDENTITIES_ANSWER, "the longest frame")
        line.socket.sendall(struct.pack(">I", 262144) + b"\x0b")
    with agent.line() as line:
        want(len(line.blobs()), 1, "a listing after all that")
    agent.end()


def clients_that_dont_read(scratch):
    """Nothing more is read of them, so that the agent's memory stays; their answers come once they read."""
    agent = scratch.start()
    for i in range(20):
        agent.add(scratch.key("ecdsa521", f"k{i}"))
    with agent.line() as other:
        other.blobs()
        before, sent, lines = memory_kb(agent), [], [agent.line() for _ in range(4)]
        for line in lines:
            line.socket.setblocking(False)
            count = 0
            for _ in range(100):
                try:
                    while True:
                        count += line.socket.send(text(b"\x0b") * 200)
                except BlockingIOError:
                    time.sleep(0.001)
            sent.append(count)
        begun, used = time.monotonic(), processor_seconds(agent)
        want(len(other.blobs()), 20, "a listing beside clients that don't read")
        time.sleep(0.5)
        idle = (processor_seconds(agent) - used) / (time.monotonic() - begun)
        after = memory_kb(agent)
        want(after - before < 4000 * (10 if IS_CHECKED else 1), True, f"{after - before} kB more for {len(lines)} clients that don't read")
        want(idle < 0.3, True, f"the processor's time while they don't read: {idle}")
        for line, count in zip(lines, sent):
            line.socket.settimeout(60)
            wanted = count // 5
            for _ in range(wanted):
                want(line.take()[0], IDENTITIES_ANSWER, "an answer that was kept")
            line.socket.close()
    agent.end()
    return f"{sum(sent) // 5} listings asked without reading, {after - before} kB more"


def signatures_beside_idle_clients(scratch):
    agent = scratch.start()
    agent.add(scratch.key("ed25519"))
    idle = [agent.line() for _ in range(200)]
    for line in idle[::2]:
        line.socket.sendall(b"\0\0")
    with agent.line() as line:
        blob, begun = line.blobs()[0], time.monotonic()
        made = {line.ask(sign_request(blob, b"%d" % i)) for i in range(1000)}
    taken = time.monotonic() - begun
    want((len(made), {answer[0] for answer in made}), (1000, {SIGN_RESPONSE}), "signatures")
    for line in idle:
        line.socket.close()
    agent.end()
    return f"1,000 signatures beside 200 idle connections in {taken:.2f} s"


def slow_signatures_dont_stop_others(scratch):
    """A client that asks for hundreds of RSA signatures at once has one made in a round."""
    agent = scratch.start()
    agent.add(scratch.key("rsa"))
    with agent.line() as busy, agent.line() as other:
        blob, slowest = other.blobs()[0], 0.0
        busy.socket.sendall(text(sign_request(blob, b"x", 4)) * 300)
        for _ in range(20):
            begun = time.monotonic()
            other.blobs()
            slowest = max(slowest, time.monotonic() - begun)
        for _ in range(300):
            want(busy.take()[0], SIGN_RESPONSE, "a signature")
    want(slowest < 3, True, f"the slowest listing beside signatures: {slowest}")
    agent.end()
    return f"the slowest listing {1000 * slowest:.0f} ms"


def more_clients_than_fit(scratch):
    limit = 64
    agent = scratch.start(preexec_fn=lambda: resource.setrlimit(resource.RLIMIT_NOFILE, (limit, limit)))
    lines = []
    for _ in range(100):
        lines.append(agent.line())
        lines[-1].send(b"\x0b")
    time.sleep(0.5)
    answered = [line for line in lines if not line.is_quiet(0)]
    want(0 < len(answered) <= limit, True, f"{len(answered)} clients answered where {limit} files may be open")
    used = processor_seconds(agent)
    time.sleep(0.5)
    want(processor_seconds(agent) - used < 0.2, True, "no processor's time while clients wait")
    for line in answered:
        line.socket.close()
    for line in lines:
        if line not in answered:
            want(line.take()[0], IDENTITIES_ANSWER, "a client that waited")
            line.socket.close()
    agent.end()
    return f"{len(answered)} of 100 clients at once with {limit} files"


def clients_of_other_users(scratch):
    """Where the socket's folder is opened afterwards, the peer's user is looked at. Only root can try."""
    if os.geteuid() != 0:
        return "passed over: not root"
    agent = scratch.start()
    os.chmod(scratch.folder, 0o755)
    os.chmod(agent.path, 0o666)
    child = os.fork()
    if child == 0:
        os.setuid(65534)
        try:
            status = 0 if Line(agent.path).ask(b"\x0b") is None else 1
        except BrokenPipeError:
            status = 0
        os._exit(status)
    want(os.waitpid(child, 0)[1], 0, "another user's request, which isn't answered")
    with agent.line() as line:
        want(line.blobs(), [], "the own user's request")
    os.chmod(scratch.folder, 0o700)
    agent.end()


def garbage(scratch):
    """Random bytes and frames on many connections; the agent goes on."""
    agent, chance = scratch.start(), random.Random(7)
    agent.add(scratch.key("ed25519"))
    pair = private_parts(scratch.at("ed25519"))[0]
    numbers = [1, 9, 11, 13, 17, 18, 25, 26, 27, 255]
    for _ in range(300):
        with agent.line() as line:
            parts = []
            for _ in range(chance.randrange(1, 6)):
                body = bytearray(bytes([chance.choice(numbers)]) + chance.choice([b"", pair + text(b"c"), chance.randbytes(chance.randrange(80)), text(chance.randbytes(9)) * 3]))
                for _ in range(chance.randrange(3)):
                    body[chance.randrange(len(body))] = chance.randrange(256)
                parts.append(text(bytes(body)) if chance.randrange(9) else chance.randbytes(chance.randrange(20)))
            try:
                line.socket.sendall(b"".join(parts))
                line.socket.shutdown(socket.SHUT_WR)
                while line.take() is not None:
                    pass
            except (BrokenPipeError, ConnectionResetError):
                pass
    with agent.line() as line:
        want(line.ask(bytes([REMOVE_ALL]))[0], SUCCESS, "a removal of all after garbage")
    agent.add(scratch.at("ed25519"))
    want(agent.signs("ed25519"), True, "a signature after garbage")
    agent.end()


def memory_runs_out(scratch):
    """Requests for memory are refused now and then: connections may end, the agent doesn't, and afterwards all is well."""
    if not IS_CHECKED:
        return "passed over: the build under AddressSanitizer alone refuses memory"
    pairs = [private_parts(scratch.key(kind))[0] for kind in ("ed25519", "ecdsa256", "rsa")]
    rounds = 0
    for one_of in (300, 60, 15):
        agent = scratch.start(env={"REFUSE_MEMORY": f"30000 {one_of} 200000"})
        for kind in ("ed25519", "ecdsa256", "rsa"):
            agent.add(scratch.at(kind))
            want(agent.signs(kind), True, "a signature while there is memory")
        begun = time.monotonic()
        while time.monotonic() < begun + 8:
            rounds += 1
            with agent.line() as line:
                sent = [bytes([17]) + pair + text(b"comment") for pair in pairs] + [b"\x0b"] + [sign_request(strings(pair)[1], b"x") for pair in pairs[:1]]
                sent += [bytes([LOCK]) + text(b"word"), bytes([UNLOCK]) + text(b"word"), bytes([REMOVE_ALL])]
                try:
                    for body in sent:
                        if line.ask(body) is None:
                            break
                except BrokenPipeError:
                    pass
        with agent.line() as line:
            line.ask(bytes([UNLOCK]) + text(b"word"))
        agent.run("ssh-add", "-D")
        until(lambda: agent.run("ssh-add", scratch.at("ed25519"))[0] == 0, "an addition after that")
        want((agent.listing(), agent.signs("ed25519")), ([scratch.public("ed25519")], True), "a key after that")
        agent.end()
    return f"{rounds} rounds"


# ---- where it listens


def refused(scratch, path, words):
    """The agent doesn't start there, and says so in these words."""
    ran = subprocess.run([scratch.agent, "-D", "-a", path], capture_output=True, text=True, env=PLAIN, timeout=60)
    want((ran.returncode, ran.stdout, all(word in ran.stderr for word in words)), (1, "", True), f"an agent at {path}: {ran.stderr}")
    return ran.stderr.strip()


def folders_of_others(scratch):
    folder = scratch.at("folder")
    os.mkdir(folder)
    for mode in (0o711, 0o755, 0o777, 0o1777, 0o720, 0o702, 0o710):
        os.chmod(folder, mode)
        said = refused(scratch, f"{folder}/agent", ["others may enter", f"chmod 700 {folder}"])
        want(os.listdir(folder), [], "what is left in the folder")
    os.chmod(folder, 0o700)
    if os.geteuid() == 0:
        os.chown(folder, 65534, 65534)
        refused(scratch, f"{folder}/agent", ["another user"])
        os.chown(folder, 0, 0)
    refused(scratch, f"{folder}/missing/agent", ["No such file"])
    refused(scratch, f"{folder}/" + "x" * 120, ["too long"])
    refused(scratch, f"{folder}/a\nb", ["control character"])
    refused(scratch, f"{folder}/", ["no name"])
    agent = scratch.start(at=f"{folder}/agent")
    want((os.stat(folder).st_mode & 0o777, os.stat(agent.path).st_mode & 0o777), (0o700, 0o600), "the modes")
    agent.end()
    with scratch_umask(0):
        agent = scratch.start(at=f"{folder}/agent")
        want(os.stat(agent.path).st_mode & 0o777, 0o600, "the socket's mode where the umask is 0")
    agent.end()
    return said.replace(scratch.folder, "..")


class scratch_umask:
    def __init__(self, mask):
        self.mask = mask

    def __enter__(self):
        self.before = os.umask(self.mask)

    def __exit__(self, *_):
        os.umask(self.before)


def same_place_again(scratch):
    path = scratch.at("agent")
    first = scratch.start(at=path)
    refused(scratch, path, ["another agent answers", "-k"])
    first.process.kill()
    first.process.wait()
    want(os.path.exists(path), True, "the socket of an agent that was killed")
    second = scratch.start(at=path)
    second.add(scratch.key("ed25519"))
    want(second.signs("ed25519"), True, "a signature by the agent that took the place")
    os.rename(path, path + ".old")
    third = scratch.start(at=path)
    second.process.terminate()
    want(second.process.wait(60), 0, "the end of the agent whose socket was moved away")
    with third.line() as line:
        want(line.blobs(), [], "the agent at the path, after the other one's end")
    third.end()
    scratch.write("file", "kept")
    refused(scratch, scratch.at("file"), ["no socket"])
    os.symlink(scratch.at("file"), scratch.at("link"))
    refused(scratch, scratch.at("link"), ["no socket"])
    want(scratch.read("file"), "kept", "a file that is no socket")


def two_at_once(scratch):
    """Of many agents that begin at a socket that was left, one has it."""
    first = scratch.start(at=scratch.at("agent"))
    first.process.kill()
    first.process.wait()
    for _ in range(5):
        begun = [subprocess.Popen([scratch.agent, "-D", "-a", scratch.at("agent")], stdout=subprocess.DEVNULL, stderr=subprocess.DEVNULL, env=PLAIN) for _ in range(8)]
        until(lambda: sum(one.poll() is None for one in begun) == 1, "one agent that stays")
        with Line(scratch.at("agent")) as line:
            want(line.blobs(), [], "the one that stays")
        for one in begun:
            if one.poll() is None:
                one.kill()
            one.wait()


def ends(scratch):
    for by in (signal.SIGTERM, signal.SIGHUP, signal.SIGINT):
        agent = scratch.start()
        with agent.line() as line:
            line.blobs()
            agent.end(by)
            want(line.take(), None, "a connection after the end")


# ---- its process


def closed_descriptors(scratch):
    agent = scratch.at("agent")
    started = subprocess.Popen(["sh", "-c", f"exec {scratch.agent} -D -a {agent} <&- >&- 2>&-"], env=PLAIN)
    until(lambda: os.path.exists(agent), "the socket")
    with Line(agent) as line:
        want(line.blobs(), [], "a listing")
        for number in range(3 if os.geteuid() == 0 else 0):
            want(os.readlink(f"/proc/{started.pid}/fd/{number}"), "/dev/null", "a descriptor that was closed")
    started.terminate()
    want(started.wait(60), 0, "its end")
    said = subprocess.run(["sh", "-c", f"{scratch.agent} -s -a {agent} <&- 2>&-"], capture_output=True, text=True, env=PLAIN, timeout=60)
    number = int(said.stdout.split("SSH_AGENT_PID=")[1].split(";")[0])
    with Line(agent) as line:
        want(line.blobs(), [], "a listing")
        if os.geteuid() == 0:
            want({os.readlink(f"/proc/{number}/fd/{it}") for it in range(3)}, {"/dev/null"}, "the descriptors in the background")
    os.kill(number, signal.SIGTERM)
    until(lambda: not os.path.exists(agent), "the socket's removal")


def no_core_dumps(scratch):
    agent = scratch.start()
    with agent.line() as line:
        line.blobs()
    with open(f"/proc/{agent.process.pid}/limits") as file:
        want([line.split()[4:6] for line in file if line.startswith("Max core")], [["0", "0"]], "the limit of core files")
    if os.geteuid() != 0:
        want(os.access(f"/proc/{agent.process.pid}/mem", os.R_OK), False, "its memory, for a process of the same user's")
    agent.end()
    if os.geteuid() != 0:
        return "its memory isn't to be read"
    folder = scratch.at("nobody")
    os.chmod(scratch.folder, 0o755)
    os.mkdir(folder, 0o700)
    shutil.copy(scratch.agent, scratch.at("copy"))
    os.chmod(scratch.at("copy"), 0o755)
    os.chown(folder, 65534, 65534)
    nobody = subprocess.Popen([scratch.at("copy"), "-D", "-a", f"{folder}/agent"], env=PLAIN, stdout=subprocess.DEVNULL, preexec_fn=lambda: (os.setgid(65534), os.setuid(65534)))
    try:
        until(lambda: os.path.exists(f"{folder}/agent"), "the socket")
        with Line(f"{folder}/agent") as line:
            want(line.blobs(), [], "a listing of another user's agent, by root")
        want(os.stat(f"/proc/{nobody.pid}/mem").st_uid, 0, "whose memory's file is, of a process that may not be dumped")
    finally:
        nobody.terminate()
        nobody.wait(60)


def found_in_memory(agent, words):
    """How often each of these is in the process's memory."""
    counts = [0] * len(words)
    with open(f"/proc/{agent.process.pid}/maps") as maps, open(f"/proc/{agent.process.pid}/mem", "rb") as memory:
        for line in maps:
            place, rights = line.split()[:2]
            if "w" not in rights or "[v" in line:
                continue
            begin, end = (int(it, 16) for it in place.split("-"))
            memory.seek(begin)
            content = memory.read(end - begin)
            counts = [count + content.count(word) for count, word in zip(counts, words)]
    return counts


def secrets_are_wiped(scratch):
    """After keys are removed and the lock is off, no private number and no word of a lock is in the memory."""
    if os.geteuid() != 0 or IS_CHECKED:
        return "passed over: only root reads its memory, and not under AddressSanitizer, which keeps freed memory"
    agent = scratch.start()
    secrets = []
    for kind in ("ed25519", "ecdsa256", "ecdsa521", "rsa"):
        fields = private_parts(scratch.key(kind))[1]
        secrets += [fields[2][:32]] if kind == "ed25519" else [fields[3]] if kind != "rsa" else [fields[3], fields[5], fields[6]]
        agent.add(scratch.at(kind))
    want(all(found_in_memory(agent, secrets)), True, "the private numbers of keys that are held")
    for kind in ("ed25519", "ecdsa256", "ecdsa521", "rsa"):
        want(agent.signs(kind), True, "a signature")
    with agent.line() as line:
        line.ask(bytes([LOCK]) + text(b"a word to lock by"))
        want(found_in_memory(agent, [b"a word to lock by"])[0] > 0, True, "the word of a lock")
        line.ask(bytes([UNLOCK]) + text(b"a wrong word to lock by"))
        line.ask(bytes([UNLOCK]) + text(b"a word to lock by"))
        want(line.ask(bytes([REMOVE_ALL]))[0], SUCCESS, "a removal of all")
        want(found_in_memory(agent, [*secrets, b"word to lock by"]), [0] * (len(secrets) + 1), "what is in the memory afterwards")
        pair = private_parts(scratch.at("ed25519"))[0]
        line.ask(bytes([25]) + pair + text(b"") + b"\1\0\0\0\1")
    until(lambda: found_in_memory(agent, secrets[:1]) == [0], "an expired key that nobody asks for: out of the memory", 10)
    agent.end()


if __name__ == "__main__":
    tests_of([frames_in_pieces, clients_that_dont_read, signatures_beside_idle_clients, slow_signatures_dont_stop_others, more_clients_than_fit, clients_of_other_users, garbage, memory_runs_out, folders_of_others, same_place_again, two_at_once, ends, closed_descriptors, no_core_dumps, secrets_are_wiped])
