#!/usr/bin/env python3
"""What people do with the client, against an sshd that runs as this user.

    uses.py CLIENT"""
import os
import shutil
import socket
import struct
import subprocess
import sys
import threading
import time

from local_sshd import Answering, Place, can_connect, echo, free_port, run_all, said_back, until, want

MANY = os.urandom(1 << 20) * 20


def a_command(place):
    want(place.run(PORT, command="echo hello; echo error >&2; exit 7"), (7, b"hello\n", "error\n"), "a command")
    want(place.run(PORT, command="cat", input=MANY)[:2], (0, MANY), "20 MB there and back")
    status, _, said = place.run(PORT, command="kill -9 $$")
    want((status, "signal KILL" in said), (255, True), "a command that is killed")


def ciphers_and_new_keys(place):
    for cipher in ("aes256-gcm@openssh.com", "chacha20-poly1305@openssh.com", "aes256-ctr"):
        for key in ("ssh-ed25519", "ecdsa-sha2-nistp256", "rsa-sha2-512", "rsa-sha2-256"):
            want(place.run(PORT, "-c", cipher, "-o", f"HostKeyAlgorithms={key}", command="wc -c", input=MANY[:100000])[:2], (0, b"100000\n"), f"{cipher} {key}")
        want(place.run(PORT, "-c", cipher, "-o", "RekeyLimit=3M", command="cat", input=MANY)[:2], (0, MANY), f"{cipher}, new keys at each 3 MB")
    want(place.run(PORT, "-c", "aes128-ctr")[0], 255, "a cipher that isn't there")


def key_files(place):
    for kind in ("ed25519", "ecdsa", "rsa"):
        want(place.run(PORT, key=f"user_{kind}", command="echo in")[:2], (0, b"in\n"), f"a key file of {kind}")
    place.make_key("pem", "rsa", "", "-m", "PEM")
    place.make_key("pkcs8", "ecdsa", "", "-m", "PKCS8")
    place.write("authorized_keys", place.read("authorized_keys") + place.read("pem.pub") + place.read("pkcs8.pub"))
    for name in ("pem", "pkcs8"):
        want(place.run(PORT, key=name, command="echo in")[:2], (0, b"in\n"), f"a key file as {name}")
    os.chmod(place.path("pem"), 0o644)
    status, _, said = place.run(PORT, key="pem")
    want((status, "others may read" in said), (255, True), "a key file that others may read")
    status, _, said = place.run(PORT, key="authorized_keys")
    want((status, "permission denied (publickey)" in said), (255, True), "no key")


def certificates(place):
    place.make_key("authority", "ed25519")
    place.make_key("certified", "ecdsa")
    subprocess.run(["ssh-keygen", "-q", "-s", place.path("authority"), "-I", "name", "-n", place.user, place.path("certified.pub")], check=True, capture_output=True)
    port = place.sshd(more=f"TrustedUserCAKeys {place.path('authority.pub')}")
    place.known(port, "ed25519", name="certified_hosts")
    want(place.run(port, key="certified", known="certified_hosts", command="echo in")[:2], (0, b"in\n"), "a certificate")
    with Agent(place) as agent:
        agent.only("certified")
        words = ["-o", f"IdentityAgent={agent.socket}"]
        want(place.run(port, *words, key="nothing", known="certified_hosts", command="echo in")[:2], (0, b"in\n"), "a certificate in an agent")
    os.remove(place.path("certified-cert.pub"))
    want(place.run(port, key="certified", known="certified_hosts", command="echo in")[0], 255, "the key without its certificate")


def the_keys_of_an_agent(place):
    with Agent(place) as agent:
        for kind in ("rsa", "ecdsa", "ed25519"):
            agent.only(f"user_{kind}")
            want(place.run(PORT, "-o", f"IdentityAgent={agent.socket}", key="nothing", command="echo in")[:2], (0, b"in\n"), f"an agent's key of {kind}")
        got = place.run(PORT, "-A", "-o", f"IdentityAgent={agent.socket}", key="nothing", command="ssh-add -l")
        want((got[0], b"ED25519" in got[1]), (0, True), "the agent forwarded")


class Agent:
    def __init__(self, place):
        self.place, self.socket = place, place.path("agent")

    def __enter__(self):
        self.process = self.place.start(["ssh-agent", "-D", "-a", self.socket], stdout=subprocess.DEVNULL)
        until(lambda: os.path.exists(self.socket), "the agent starts")
        return self

    def __exit__(self, *_):
        self.process.terminate()
        self.process.wait()
        if os.path.exists(self.socket):
            os.remove(self.socket)

    def only(self, *names):
        env = {**os.environ, "SSH_AUTH_SOCK": self.socket}
        subprocess.run(["ssh-add", "-q", "-D"], check=True, env=env, capture_output=True)
        for name in names:
            subprocess.run(["ssh-add", "-q", self.place.path(name)], check=True, env=env)


def local_and_remote_forwards(place):
    other, local, remote = Answering(echo), free_port(), free_port()
    with place.running(PORT, "-L", f"{local}:127.0.0.1:{other.port}", "-R", f"{remote}:127.0.0.1:{other.port}"):
        for at in (local, remote):
            until(lambda: can_connect(at), "the forward listens")
            line = socket.create_connection(("127.0.0.1", at), 20)
            want(said_back(line, MANY[: 2 << 20]), MANY[: 2 << 20], "2 MB there and back")


def sockets_of_unix(place):
    other, here, there = Answering(echo), place.path("here"), place.path("there")
    with place.running(PORT, "-L", f"{here}:127.0.0.1:{other.port}", "-R", f"{there}:127.0.0.1:{other.port}", "-L", f"{place.path('both')}:{there}"):
        for path in (here, there, place.path("both")):
            until(lambda: os.path.exists(path), "the socket is there")
            line = socket.socket(socket.AF_UNIX)
            line.settimeout(20)
            line.connect(path)
            want(said_back(line, b"through a socket"), b"through a socket", path)
        want(os.stat(here).st_mode & 0o777, 0o600, "the mode of the socket here")


def socks(place):
    other, local = Answering(echo), free_port()
    with place.running(PORT, "-D", str(local)):
        until(lambda: can_connect(local), "the SOCKS port listens")
        for target in (b"\x01\x7f\0\0\1", b"\x03\x09localhost"):
            line = socket.create_connection(("127.0.0.1", local), 20)
            line.sendall(b"\5\1\0")
            want(line.recv(2), b"\5\0", "the method")
            line.sendall(b"\5\1\0" + target + struct.pack(">H", other.port) + b"early ")
            want(line.recv(10)[:2], b"\5\0", "the answer")
            want(said_back(line, b"and late"), b"early and late", "bytes through SOCKS")
        line = socket.create_connection(("127.0.0.1", local), 20)
        line.sendall(b"\5\1\0\5\1\0\x01\x7f\0\0\1" + struct.pack(">H", free_port()))
        want(line.recv(2), b"\5\0", "the method")
        want(line.recv(10)[:2], b"\5\5", "a port that isn't there")


def jumps(place):
    text = f"""
Host hop
  HostName localhost
  Port {PORT}
Host last
  HostName 127.0.0.1
  Port {PORT}
  ProxyJump hop
Host *
  UserKnownHostsFile {place.path('jump_hosts')}
  StrictHostKeyChecking accept-new
  IdentityFile {place.path('user_ed25519')}
"""
    config = place.write("jump_config", text)
    run = lambda *words, **how: subprocess.run([place.client, "-F", config, *words], capture_output=True, env=place.environment, timeout=60, **how)
    got = run("last", "cat", input=MANY[: 2 << 20])
    want((got.returncode, got.stdout), (0, MANY[: 2 << 20]), "2 MB through a jump host")
    want(place.read("jump_hosts").count("\n"), 2, "a line for each host")
    want(run("-J", "hop,hop", "-p", str(PORT), "127.0.0.1", "echo far").stdout, b"far\n", "two hops")
    want(run("-W", f"127.0.0.1:{PORT}", "hop", input=b"").stdout[:8], b"SSH-2.0-", "-W")
    got = run("-o", f"ProxyCommand={place.client} -F {config} -W %h:%p hop", "last", "echo by a program")
    want(got.stdout, b"by a program\n", "ProxyCommand")
    for words in ("$(touch x)", "a;b", "`x`"):
        ran = run("-o", f"ProxyCommand=touch {place.path('touched')} %h", "-o", f"HostName={words}", "last", "true")
        want((ran.returncode, os.path.exists(place.path("touched"))), (255, False), f"a ProxyCommand for {words}")
    circle = place.write("circle", f"Host one\n  ProxyJump two\nHost two\n  ProxyJump one\n")
    ran = subprocess.run([place.client, "-F", circle, "one", "true"], capture_output=True, env=place.environment, timeout=20)
    want((ran.returncode, b"through itself" in ran.stderr), (255, True), "a circle of jump hosts")
    want(run("-J", "hop", "-p", str(free_port()), "127.0.0.1", "true").returncode, 255, "nothing listens behind the jump host")


def configuration(place):
    os.makedirs(place.path(".ssh"), exist_ok=True)
    place.write(".ssh/more", f"Host box\n  Port {PORT}\n")
    place.write(".ssh/config", f"""
# a comment
Include more
Host box b?x
  HostName = localhost
  User "{place.user}"
  IdentityFile ~/user_ed25519
  UserKnownHostsFile ~/known_hosts
Host *
  Port 1
""")
    ran = subprocess.run([place.client, "box", "echo configured"], capture_output=True, env=place.environment, timeout=60)
    want(ran.stdout, b"configured\n", "a host of ~/.ssh/config")
    ran = subprocess.run([place.client, "-o", "HostKeyAlias=other", "-o", "StrictHostKeyChecking=yes", "box", "true"], capture_output=True, env=place.environment, timeout=60)
    want((ran.returncode, b" of other\n" in ran.stderr), (255, True), "HostKeyAlias")
    os.remove(place.path(".ssh/config"))


def a_new_host_is_learned(place):
    path = place.path("learned")
    want(place.run(PORT, "-o", "StrictHostKeyChecking=accept-new", known="learned")[0], 0, "a new host")
    want((place.read("learned").split()[:2], os.stat(path).st_mode & 0o777), ([f"[localhost]:{PORT}", "ssh-ed25519"], 0o600), "its line")
    want(place.run(PORT, "-o", "StrictHostKeyChecking=yes", known="learned")[0], 0, "the second time it is known")
    want(place.run(PORT, "-o", "StrictHostKeyChecking=yes", "-o", "HostKeyAlias=x", known="learned")[0], 255, "another name isn't")
    for name in ("x,github.com", "x github.com", "x\ngithub.com", "*"):
        status, _, _ = place.run(PORT, "-o", "StrictHostKeyChecking=accept-new", "-o", f"HostName={name}", known="learned")
        want((status, place.read("learned").count("\n")), (255, 1), f"a host named {name!r}")


def environment_and_names(place):
    env = {**place.environment, "SAZH_ONE": "1", "SAZH_TWO": "2"}
    ran = subprocess.run([*place.words(PORT, "-o", "SendEnv=SAZH_ON*", "-o", "SetEnv=SAZH_SET=3"), "localhost", "echo $SAZH_ONE $SAZH_TWO $SAZH_SET"], capture_output=True, env=env, timeout=60)
    want(ran.stdout, b"1 3\n", "variables of the environment")


def other_programs(place):
    """sftp -S, scp -S, rsync -e and git, which call ssh with words of their own."""
    wrapper = place.write("wrapper", f"#!/bin/sh\nexec {' '.join(place.words(PORT))} \"$@\"\n")
    os.chmod(wrapper, 0o755)
    place.write("source", "some bytes\n")
    call = lambda *words, **how: subprocess.run(words, check=True, capture_output=True, timeout=60, env={**place.environment, **how})
    place.write("batch", f"get {place.path('source')} {place.path('by_sftp')}\n")
    call("sftp", "-b", place.path("batch"), "-S", wrapper, "localhost")
    call("scp", "-S", wrapper, f"localhost:{place.path('source')}", place.path("by_scp"))
    call("scp", "-O", "-S", wrapper, place.path("source"), f"localhost:{place.path('by_old_scp')}")
    names = ["by_sftp", "by_scp", "by_old_scp"]
    if shutil.which("rsync"):
        call("rsync", "-e", wrapper, place.path("source"), f"localhost:{place.path('by_rsync')}")
        names.append("by_rsync")
    if shutil.which("git"):
        call("git", "init", "-q", place.path("repository"))
        call("git", "-C", place.path("repository"), "-c", "user.name=n", "-c", "user.email=e", "commit", "-q", "--allow-empty", "-m", "first")
        call("git", "clone", "-q", f"ssh://localhost:{PORT}{place.path('repository')}", place.path("cloned"), GIT_SSH=wrapper)
        want(os.path.isdir(place.path("cloned/.git")), True, "git clone")
    for name in names:
        want(place.read(name), "some bytes\n", name)


def in_the_background(place):
    other, local = Answering(echo), free_port()
    ran = subprocess.run([*place.words(PORT, "-f", "-L", f"{local}:127.0.0.1:{other.port}"), "localhost", "sleep 3"], env=place.environment, stdin=subprocess.DEVNULL,
                         stdout=subprocess.DEVNULL, stderr=subprocess.DEVNULL, timeout=60)
    want(ran.returncode, 0, "the process that was started ends at once")
    want(said_back(socket.create_connection(("127.0.0.1", local), 20), b"still there"), b"still there", "the one in the background goes on")


def keepalives_and_timed_keys(place):
    got = place.run(PORT, "-o", "ServerAliveInterval=1", "-o", "RekeyLimit=default 2s", command="sleep 5; echo there")
    want(got[:2], (0, b"there\n"), "keepalives each second, new keys each two")


if __name__ == "__main__":
    TESTS = [a_command, ciphers_and_new_keys, key_files, certificates, the_keys_of_an_agent, local_and_remote_forwards, sockets_of_unix, socks, jumps, configuration,
             a_new_host_is_learned, environment_and_names, other_programs, in_the_background, keepalives_and_timed_keys]
    with Place(sys.argv[1]) as place:
        PORT = place.sshd()
        place.known(PORT, "ed25519", "ecdsa", "rsa")
        sys.exit(run_all([it for it in TESTS if len(sys.argv) < 3 or it.__name__ in sys.argv[2:]], place, "uses"))
