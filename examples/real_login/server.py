"""Starts Debian's sshd on the loopback for the example, with keys, a user and a configuration of its own, and stops it.

It has to run as root: sshd checks passwords only for root, and the user is made by useradd and taken away again.
"""
import os
import secrets
import socket
import subprocess
import sys
import tempfile
import time

USER = "sshc-example"

SSHD = "/usr/sbin/sshd"

CONFIG = """
Port {port}
ListenAddress 127.0.0.1
HostKey {folder}/host_key
PidFile {folder}/pid
AuthorizedKeysFile {folder}/authorized_keys
StrictModes no
UsePAM yes
PasswordAuthentication yes
KbdInteractiveAuthentication yes
PermitRootLogin no
Subsystem sftp internal-sftp
"""


def free_port():
    with socket.socket() as probe:
        probe.bind(("127.0.0.1", 0))
        return probe.getsockname()[1]


class Server:
    def __enter__(self):
        if not os.path.exists(SSHD):
            sys.exit(f"there is no {SSHD}: apt-get install openssh-server")
        self.folder, self.process, self.is_made = tempfile.mkdtemp(prefix="sshc-real-login-"), None, False
        try:
            self._start()
        except BaseException:
            self._remove()
            raise
        return self

    def __exit__(self, *_):
        self._remove()

    def _start(self):
        os.chmod(self.folder, 0o755)
        self.port, self.password = free_port(), secrets.token_hex(8)
        subprocess.run(["useradd", "--create-home", "--shell", "/bin/sh", USER], check=True)
        self.is_made = True
        subprocess.run(["chpasswd"], input=f"{USER}:{self.password}\n", text=True, check=True)
        self._make_key("host_key")
        self._make_key("user_key")
        self._write("authorized_keys", self._read("user_key.pub"))
        self._write("config", CONFIG.format(port=self.port, folder=self.folder))
        name, key = self._read("host_key.pub").split()[:2]
        self.known_hosts = self._write("known_hosts", f"[localhost]:{self.port} {name} {key}\n")
        os.makedirs("/run/sshd", exist_ok=True)
        log = open(f"{self.folder}/log", "w")
        self.process = subprocess.Popen([SSHD, "-D", "-e", "-f", f"{self.folder}/config"], stderr=log)
        self._wait_until_it_listens()

    def _remove(self):
        if self.process:
            self.process.terminate()
            self.process.wait()
        # A user that was there before stays: useradd then fails.
        if self.is_made:
            subprocess.run(["pkill", "-u", USER], check=False, capture_output=True)
            subprocess.run(["userdel", "--remove", USER], check=False, capture_output=True)
        subprocess.run(["rm", "-r", self.folder], check=True)

    def _make_key(self, name):
        words = ["ssh-keygen", "-q", "-t", "ed25519", "-N", "", "-C", "", "-f", f"{self.folder}/{name}"]
        subprocess.run(words, check=True)

    def _read(self, name):
        with open(f"{self.folder}/{name}") as file:
            return file.read()

    def _write(self, name, text):
        path = f"{self.folder}/{name}"
        with open(path, "w") as file:
            file.write(text)
        return path

    def _wait_until_it_listens(self):
        for _ in range(100):
            try:
                socket.create_connection(("127.0.0.1", self.port)).close()
                return
            except OSError:
                time.sleep(0.05)
        raise TimeoutError("sshd doesn't listen")
