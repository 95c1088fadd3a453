"""The core's own calls from Python: threads, an event that is too long, the end; and the declarations of both libraries against
their headers."""
import ctypes
import pathlib
import re
import threading
import unittest

import sazhonthil
from sazhonthil import native
from sazhonthil.errors import Code, Status
from sazhonthil.events import Authenticate, Channel, Data, ExchangeDone, Password, PeerKexinit, PlainHostKey

from .servers import needs_library

INCLUDE = pathlib.Path(__file__).resolve().parents[2] / "include"
KEY = bytes.fromhex("0000000b7373682d65643235353139000000209743ef2dda2eae39e325817702d66e2794d5e6f3f7f72eeff4045e7f4e21e649")
KNOWN = b"[localhost]:13265 ssh-ed25519 AAAAC3NzaC1lZDI1NTE5AAAAIJdD7y3aLq454yWBdwLWbieU1ebz9/cu7/QEXn9OIeZJ\n"
NAMES = {"kex": "curve25519-sha256", "key": "", "cipher": "", "client_mac": "", "server_mac": ""}


def exchanged(session):
    session.step(PeerKexinit())
    session.step(ExchangeDone(host_key=PlainHostKey(KEY), hash=b"id", signature=b"", secret=None, **NAMES, strict=False))


@needs_library
class Sessions(unittest.TestCase):
    def test_a_login(self):
        with sazhonthil.Session(b"localhost", 13265, KNOWN) as session:
            exchanged(session)
            self.assertEqual(len(session.step(Authenticate(1, "alice", Password("pw")))), 1)
            self.assertIs(session.status, Status.OK)
        self.assertEqual(sazhonthil.check_host(b"localhost", 13265, KNOWN, KEY), (Status.OK, 0))

    def test_known_hosts_as_openssh_reads_them(self):
        blob = KNOWN.split()[2]
        for text, wanted in ((b"*.EXAMPLE\tssh-ed25519  " + blob, (Status.OK, 0)), (b"*,!box.example ssh-ed25519 " + blob, (Status.UNKNOWN, 0)),
                             (b"# \xff\n@revoked  *.example ssh-ed25519 " + blob, (Status.REVOKED, 2))):
            self.assertEqual(sazhonthil.check_known_hosts_openssh(b"box.example", 22, text, KEY), wanted, text)
        self.assertIs(sazhonthil.check_known_hosts_openssh(b"\xff", 22, b"", KEY)[0], Status.NOT_TEXT)

    def test_two_threads(self):
        """Two threads hand in events at once: none is lost, and the session isn't broken."""
        with sazhonthil.Session(b"localhost", 13265, KNOWN) as session:
            exchanged(session)
            failed = []

            def use():
                try:
                    for _ in range(3000):
                        if session.event(0, 0x2B, bytes(4) + b"\0\0\0\1x" + bytes(4)) != []:
                            raise AssertionError("a record")
                        if session.status is not Status.OK:
                            raise AssertionError(session.status)
                except BaseException as why:
                    failed.append(why)

            users = [threading.Thread(target=use) for _ in range(2)]
            for one in users:
                one.start()
            for one in users:
                one.join()
            self.assertEqual(failed, [])
            self.assertEqual(len(session.step(Authenticate(1, "alice", Password("pw")))), 1)

    def test_an_event_of_300_kb(self):
        """It is refused before it is handed in, and the session goes on."""
        with sazhonthil.Session(b"localhost", 13265, KNOWN) as session:
            exchanged(session)
            with self.assertRaises(ValueError):
                session.step(Channel(0, Data(bytes(300000))))
            with self.assertRaises(sazhonthil.Misuse):
                session.event(0, 0x21, bytes(300000))
            self.assertEqual(len(session.step(Authenticate(1, "alice", Password("pw")))), 1)

    def test_the_end(self):
        """Closed twice, used after it, and made wrongly."""
        for made in (sazhonthil.Session(b"localhost", 13265, KNOWN), sazhonthil.Agent()):
            made.close()
            made.close()
            with self.assertRaises(sazhonthil.Closed):
                made.event(0, 1) if isinstance(made, sazhonthil.Session) else made.forget(1)
        with self.assertRaises(TypeError):
            sazhonthil.Session()
        with self.assertRaises(sazhonthil.Refused) as caught:
            sazhonthil.Session(b"\xff", 22, b"")
        self.assertIs(caught.exception.status, Status.NOT_TEXT)

    def test_settings_have_the_librarys_size(self):
        settings = native.Settings()
        native.load().sazh_settings_default(ctypes.byref(settings))
        self.assertEqual(settings.size, ctypes.sizeof(settings))


@unittest.skipUnless(INCLUDE.is_dir(), "the headers aren't beside the package")
class Headers(unittest.TestCase):
    """What is declared here is what the headers declare."""

    def setUp(self):
        self.core = re.sub(r"/\*.*?\*/", "", (INCLUDE / "sazhonthil.h").read_text(), flags=re.S)
        self.ssh = re.sub(r"/\*.*?\*/", "", (INCLUDE / "sazhonthil_ssh.h").read_text(), flags=re.S)

    def test_codes(self):
        names = re.findall(r"SAZH_(\w+)", re.search(r"typedef enum sazh_code \{(.*?)\}", self.ssh, re.S)[1])
        self.assertEqual(names, [it.name for it in Code])
        self.assertEqual([it.value for it in Code], list(range(len(names))))

    def test_statuses(self):
        body = re.search(r"typedef uint32_t sshc_status;\s*enum \{(.*?)\}", self.core, re.S)[1]
        self.assertEqual([(name, int(at)) for name, at in re.findall(r"SSHC_(\w+) = (\d+)", body)], [(it.name, it.value) for it in Status])

    def test_calls(self):
        declared = dict(re.findall(r"^[\w *]*?\b(sazh_\w+)\(([^;{]*)\);", self.ssh, re.M))
        self.assertEqual(set(declared), set(native.CALLS))
        for name, given in declared.items():
            count = 0 if given == "void" else given.count(",") + 1
            self.assertEqual(len(native.CALLS[name]) - 1, count, name)

    def test_structs(self):
        pairs = {"settings": native.Settings, "error": native.LastError, "host_key": native.HostKey, "names": native.Names,
                 "exit": native.Exit, "end": native.End, "prompt": native.Prompt, "mode": native.Mode}
        for name, struct in pairs.items():
            body = re.search(rf"typedef struct sazh_{name} \{{(.*?)\n\}}", self.ssh, re.S)[1]
            fields = re.findall(r"\(\*(\w+)\)|(\w+)(?=\s*[;,])(?![^(]*\))", body)
            self.assertEqual([a or b for a, b in fields], [it[0] for it in struct._fields_], name)

    def test_abi(self):
        self.assertEqual(int(re.search(r"#define SAZH_ABI (0x\w+)u", self.ssh)[1], 16), native.ABI)


if __name__ == "__main__":
    unittest.main()
