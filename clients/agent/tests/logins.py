#!/usr/bin/env python3
"""Logins by ssh and git with the agent's keys, at a server of Debian's on a high port of the loopback, as the user who runs
this: no user is made, and the machine's own server and its files aren't touched. Passed over where this user may not log in.

    logins.py AGENT"""
import os
import pwd
import socket
import subprocess
import sys

from scratch import KINDS, PLAIN, tests_of, until, want

SERVER = """
Port {port}
ListenAddress 127.0.0.1
HostKey {folder}/host
PidFile none
AuthorizedKeysFile {folder}/authorized_keys
TrustedUserCAKeys {folder}/authority.pub
PermitRootLogin prohibit-password
PasswordAuthentication no
KbdInteractiveAuthentication no
StrictModes no
UsePAM {pam}
"""


class Server:
    """A server in the test's folder."""

    def __init__(self, scratch, pam):
        self.scratch = scratch
        with socket.socket() as probe:
            probe.bind(("127.0.0.1", 0))
            self.port = probe.getsockname()[1]
        scratch.key("ed25519", "host")
        scratch.key("ed25519", "authority")
        scratch.write("authorized_keys", "".join(scratch.public(scratch.key(kind).rsplit("/", 1)[1]) + "\n" for kind in KINDS))
        scratch.write("known_hosts", f"[127.0.0.1]:{self.port} {scratch.public('host')}\n")
        scratch.write("config", SERVER.format(port=self.port, folder=scratch.folder, pam=pam))
        if os.geteuid() == 0:
            os.makedirs("/run/sshd", exist_ok=True)  # the server wants this folder
        self.process = subprocess.Popen(["/usr/sbin/sshd", "-D", "-f", scratch.at("config"), "-E", scratch.at("log")], env=PLAIN)
        until(self.answers, "the server")

    def answers(self):
        try:
            socket.create_connection(("127.0.0.1", self.port), 1).close()
            return True
        except OSError:
            return False

    def words(self, *options):
        at = self.scratch.folder
        fixed = ["-F", "none", "-o", "BatchMode=yes", "-o", f"UserKnownHostsFile={at}/known_hosts", "-o", "IdentitiesOnly=no", "-o", "PreferredAuthentications=publickey"]
        return ["ssh", *fixed, "-p", str(self.port), *options, f"{pwd.getpwuid(os.geteuid()).pw_name}@127.0.0.1"]

    def end(self):
        self.process.terminate()
        self.process.wait()


def with_server(scratch, test):
    """Runs a test with a server that lets this user in."""
    if not os.path.exists("/usr/sbin/sshd"):
        return "passed over: no sshd"
    agent = scratch.start()
    for pam in ("no", "yes") if os.geteuid() == 0 else ("no",):
        server = Server(scratch, pam)
        agent.add(scratch.at("ed25519"))
        status, _, said = agent.run(*server.words(), "true")
        agent.run("ssh-add", "-q", "-D")
        if status == 0:
            break
        server.end()
    else:
        if os.geteuid() != 0:
            return "passed over: this user can't log in"
        sys.exit(f"no login: {said}\n{scratch.read('log')}")
    try:
        said = test(scratch, agent, server)
    finally:
        server.end()
    agent.end()
    return said


def with_each_kind(scratch, agent, server):
    for kind in KINDS:
        agent.add(scratch.at(kind))
        want(agent.run(*server.words(), "echo in")[:2], (0, "in"), f"a login by {kind}")
        agent.run("ssh-add", "-q", "-D")
    for name in ("rsa-sha2-256", "rsa-sha2-512"):
        agent.add(scratch.at("rsa"))
        want(agent.run(*server.words("-o", f"PubkeyAcceptedAlgorithms={name}"), "echo in")[:2], (0, "in"), f"a login by {name}")
    agent.run("ssh-add", "-q", "-D")
    want(agent.run(*server.words(), "echo in")[0], 255, "a login without keys")
    want(agent.passphrase("-x", "word"), 0, "ssh-add -x")
    want(agent.run(*server.words(), "echo in")[0], 255, "a login by a locked agent")


def login_by_each_kind(scratch):
    return with_server(scratch, with_each_kind)


def forwarded(scratch, agent, server):
    """ssh -A: ssh-add and a further login on the other side are by this agent."""
    for kind in ("rsa", "ed25519", "ecdsa384"):
        agent.add(scratch.at(kind))
    status, said, errors = agent.run(*server.words("-A"), "ssh-add -L")
    want((status, said.splitlines()), (0, agent.listing()), f"ssh-add -L through a forwarded agent: {errors}")
    further = " ".join(f"'{word}'" for word in [*server.words("-A"), "ssh-add -l | wc -l"])
    want(agent.run(*server.words("-A"), further)[:2], (0, "3"), "a login through a login, by a forwarded agent")
    sign = f"cd {scratch.folder}; echo far > far; ssh-keygen -Y sign -n file -f {scratch.at('rsa.pub')} far 2>/dev/null; ssh-keygen -Y check-novalidate -n file -s far.sig < far"
    os.rename(scratch.at("rsa"), scratch.at("hidden"))
    status, said, errors = agent.run(*server.words("-A"), sign)
    want((status, "Good" in said), (0, True), f"ssh-keygen -Y sign through a forwarded agent: {errors}")


def login_forwards_the_agent(scratch):
    return with_server(scratch, forwarded)


def certified(scratch, agent, server):
    """A login by a certificate, whose key the agent has."""
    user = pwd.getpwuid(os.geteuid()).pw_name
    for kind in ("ed25519", "rsa"):
        scratch.key(kind, f"my-{kind}")
        subprocess.run(["ssh-keygen", "-q", "-s", scratch.at("authority"), "-I", "id", "-n", user, scratch.at(f"my-{kind}.pub")], check=True)
        os.rename(scratch.at(f"my-{kind}-cert.pub"), scratch.at(f"{kind}-cert.pub"))
        agent.add(scratch.at(f"my-{kind}"))
        want(agent.run(*server.words(), "echo in")[0], 255, "a login by the key alone, which isn't let in")
        want(agent.run(*server.words("-o", f"CertificateFile={scratch.at(kind)}-cert.pub"), "echo in")[:2], (0, "in"), f"a login by a certificate of {kind}")


def login_by_certificate(scratch):
    return with_server(scratch, certified)


def by_git(scratch, agent, server):
    """git over ssh, and commits that the agent's key signs."""
    agent.add(scratch.at("ed25519"))
    ssh = " ".join(server.words()[:-1])
    user = pwd.getpwuid(os.geteuid()).pw_name
    scratch.write("allowed", "me " + " ".join(scratch.public("ed25519").split()[:2]) + "\n")
    env = {"GIT_SSH_COMMAND": ssh, "GIT_CONFIG_GLOBAL": "/dev/null", "GIT_CONFIG_SYSTEM": "/dev/null", "HOME": scratch.folder}
    signing = f"-c gpg.format=ssh -c user.signingkey='key::{scratch.public('ed25519')}' -c gpg.ssh.allowedSignersFile={scratch.at('allowed')} -c user.name=me -c user.email=me"
    script = f"""set -e; git init -q --bare far.git; git clone -q ssh://{user}@127.0.0.1:{server.port}{scratch.folder}/far.git near 2> /dev/null; cd near
        echo text > file; git add file; git {signing} commit -q -S -m first; git push -q origin HEAD; git {signing} verify-commit HEAD; git -C ../far.git log --all --format=%s"""
    status, said, errors = agent.run("sh", "-c", script, env=env)
    want((status, said, "Good" in errors), (0, "first", True), f"git: {said} {errors}")


def login_by_git(scratch):
    if subprocess.run(["which", "git"], capture_output=True).returncode != 0:
        return "passed over: no git"
    return with_server(scratch, by_git)


if __name__ == "__main__":
    tests_of([login_by_each_kind, login_forwards_the_agent, login_by_certificate, login_by_git])
