#!/usr/bin/env python3
"""What a host to which an agent is forwarded gets signed, by both modes of the proxy: the mode by hosts, and the one that
ties each signature to its session. It starts and stops all processes itself, and needs openssh-client.

Usage: examples/proxy/attack.py COMMAND [WORDS..]
COMMAND runs the program, as for run.py. The exit status is 1 where an answer isn't the one that is expected."""
import base64
import socket
import subprocess
import sys
import tempfile

from proxied import (Agent, ask, binding, kind, make_key, sign_request, start_proxy, string, toy_signature,
                     write_policy)

USERAUTH_REQUEST = b"\x32"
SERVICE = b"ssh-connection"


def login(session, user, key, host=None):
    """The bytes that are signed for a login (RFC 4252, section 7), or for one that names the host key."""
    method = b"publickey-hostbound-v00@openssh.com" if host else b"publickey"
    body = string(session) + USERAUTH_REQUEST + string(user) + string(SERVICE) + string(method) + b"\x01"
    return body + string(b"ssh-ed25519") + string(key) + (string(host) if host else b"")


def write_session_policy(folder, gate, build):
    """`work` logs in as alice at gate, and over gate at build."""
    with open(f"{folder}/known_hosts", "w") as file:
        for name, key in (("gate", gate), ("build", build)):
            file.write(f"{name} ssh-ed25519 {base64.b64encode(key).decode()}\n")
    with open(f"{folder}/session-policy", "w") as file:
        file.write("# the key by its comment\nallow work alice@gate\nallow work alice@build via gate\n")
    return f"{folder}/session-policy", f"{folder}/known_hosts"


def start_session(command, agent, policy, known_hosts):
    ours, theirs = socket.socketpair()
    words = [*command, "session", agent.path, policy, known_hosts]
    process = subprocess.Popen(words, stdin=theirs, stdout=theirs, stderr=subprocess.PIPE, text=True)
    theirs.close()
    return process, ours


def cases(work, gate, build):
    """What is bound, what is asked, and the answers: by hosts, by session, and why the latter refuses."""
    one, two, other = b"session one", b"session two", b"another session"
    at_gate = [(gate, one, False)]
    forwarded = [(gate, one, True)]
    at_build = [(gate, one, True), (build, two, False)]
    sign = lambda body: sign_request(work, body)
    return [
        ("a login at gate", at_gate, sign(login(one, b"alice", work)), "signature", "signature", None),
        ("nothing bound: a login", [], sign(login(one, b"alice", work)), "failure", "failure", "nothing-bound"),
        ("arbitrary bytes", at_gate, sign(b"any bytes"), "signature", "failure", "no-login"),
        ("another session's login", at_gate, sign(login(other, b"alice", work)), "signature", "failure", "other-session"),
        ("agent forwarded to gate: its login", forwarded, sign(login(one, b"alice", work)), "signature", "failure",
         "forwarding"),
        ("agent forwarded to gate: another session's login", forwarded, sign(login(other, b"alice", work)), "signature",
         "failure", "forwarding"),
        ("another user", at_gate, sign(login(one, b"root", work)), "signature", "failure", "not-allowed"),
        ("over gate to build, with the host key named", at_build, sign(login(two, b"alice", work, build)), "signature",
         "signature", None),
        ("over gate to build, without it", at_build, sign(login(two, b"alice", work)), "signature", "failure",
         "other-host"),
        ("over gate, the host key of gate named", at_build, sign(login(two, b"alice", work, gate)), "signature", "failure",
         "other-host"),
        ("build without gate", [(build, two, False)], sign(login(two, b"alice", work, build)), "signature", "failure",
         "not-allowed"),
    ]


def answer_of(stream, bindings, frame):
    for host, session, forwarding in bindings:
        ask(stream, binding(host, session, toy_signature(host, session), forwarding))
    return kind(ask(stream, frame))


def main():
    if len(sys.argv) < 2:
        raise SystemExit(__doc__)
    command, wrong = sys.argv[1:], 0
    with tempfile.TemporaryDirectory() as folder:
        work, gate, build = (make_key(folder, name) for name in ("work", "gate", "build"))
        agent = Agent(folder, ["work"])
        policy = write_policy(folder, [(work, gate), (work, build)])
        session_policy = write_session_policy(folder, gate, build)
        try:
            print("case: by hosts; by session")
            for name, bindings, frame, by_hosts, by_session, why in cases(work, gate, build):
                process, stream = start_proxy(command, agent, policy)
                hosts = answer_of(stream, bindings, frame)
                stream.close()
                process.wait()
                process, stream = start_session(command, agent, *session_policy)
                session = answer_of(stream, bindings, frame)
                stream.close()
                said = [line for line in process.communicate()[1].splitlines() if line.startswith("refused ")]
                told = said[-1].removeprefix("refused ") if said else None
                print(f"{name}: {hosts}; {session}" + (f", {told}" if told else ""))
                if (hosts, session, told) != (by_hosts, by_session, why):
                    print(f"  expected: {by_hosts}; {by_session}, {why}")
                    wrong = 1
        finally:
            agent.stop()
    return wrong


sys.exit(main())
