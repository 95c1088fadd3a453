"""The face for asyncio, against Debian's sshd."""
import asyncio
import os
import threading
import unittest

import sazhonthil
from sazhonthil import Accept, aio

from .servers import Listening, Place, echo, free_port, needs_library, said_back

MB = 1 << 20


@needs_library
class Connections(unittest.IsolatedAsyncioTestCase):
    @classmethod
    def setUpClass(cls):
        cls.place = Place()
        try:
            cls.server = cls.place.sshd()
        except unittest.SkipTest:
            cls.place.close()
            raise

    @classmethod
    def tearDownClass(cls):
        cls.place.close()

    def connect(self, **other):
        return aio.connect("localhost", self.server.port, **self.server.options(**other))

    async def test_commands(self):
        """commands, and 10 MB each way; no thread is made"""
        before, data = threading.active_count(), os.urandom(10 * MB)
        async with self.connect() as c:
            got = await c.run("echo one; echo two >&2; exit 3")
            self.assertEqual((got.stdout, got.stderr, got.exit_status), ("one\n", "two\n", 3))
            self.assertTrue((await c.run("cat", input=data, encoding=None)).stdout == data)
            self.assertEqual((await c.run("kill -TERM $$")).exit_signal, "TERM")
            self.assertLessEqual(threading.active_count(), before + 1)  # the loop's own, for names
        c = await self.connect()
        await c.close()
        await c.close()

    async def test_many_at_once(self):
        """50 commands at once on one connection"""
        async with self.connect() as c:
            got = await asyncio.gather(*[c.run(f"echo {n}") for n in range(50)])
            self.assertEqual([it.stdout for it in got], [f"{n}\n" for n in range(50)])

    async def test_channels(self):
        """a channel, read and written at once, line by line"""
        data = os.urandom(5 * MB)
        async with self.connect() as c:
            async with await c.open("cat") as channel:

                async def send():
                    await channel.write(data)
                    await channel.send_eof()

                sending = asyncio.ensure_future(send())
                self.assertTrue(await channel.read() == data)
                await sending
                self.assertEqual((await channel.wait()).status, 0)
            async with await c.open("printf 'a\\nb\\nc'") as channel:
                self.assertEqual([line async for line in channel.stdout], [b"a\n", b"b\n", b"c"])
            with self.assertRaises(sazhonthil.Closed):
                await channel.write(b"x")

    async def test_giving_up(self):
        """timeouts, and calls that are cancelled; the connection goes on"""
        async with self.connect() as c:
            with self.assertRaises(sazhonthil.TimedOut) as caught:
                await c.run("echo begun; sleep 30", timeout=0.3)
            self.assertEqual(caught.exception.stdout, "begun\n")
            with self.assertRaises(asyncio.TimeoutError):
                await asyncio.wait_for(c.run("sleep 30"), 0.2)
            async with await c.open("sleep 0.5; echo late") as channel:
                with self.assertRaises(asyncio.TimeoutError):
                    await asyncio.wait_for(channel.stdout.read_some(), 0.1)
                self.assertEqual(await channel.read(), b"late\n")

    async def test_host_keys(self):
        """unknown, decided by a function and by a coroutine, changed, revoked"""
        with self.assertRaises(sazhonthil.HostKeyUnknown):
            await self.connect(known_hosts=())

        async def later(key):
            await asyncio.sleep(0)
            return Accept.ONCE

        for decide in (later, lambda key: Accept.ONCE):
            async with self.connect(known_hosts=(), new_host=decide):
                pass
        other = self.place.read("other_ed25519.pub").strip()
        with self.assertRaises(sazhonthil.HostKeyChanged) as caught:
            await self.connect(known_hosts=self.place.write("changed", f"{self.server.host} {other}\n"))
        self.assertEqual(caught.exception.line, 1)
        line = f"@revoked {self.server.host} {self.server.host_key()}\n"
        with self.assertRaises(sazhonthil.HostKeyRevoked):
            await self.connect(known_hosts=self.place.write("revoked", line))

    async def test_nobody_there(self):
        """no listener, no address, a listener that says nothing, a wrong key"""
        with self.assertRaises(sazhonthil.CannotConnect):
            await aio.connect("127.0.0.1", free_port(), known_hosts=())
        for name in ("no-such-host.invalid", "a,b"):
            with self.assertRaises(sazhonthil.NoAddress):
                await aio.connect(name, known_hosts=())
        with Listening(lambda line: line.recv(1) and line.recv(1000) and line.recv(1000)) as silent, self.assertRaises(sazhonthil.TimedOut):
            await aio.connect("127.0.0.1", silent.port, known_hosts=(), timeout=0.3)
        with self.assertRaises(sazhonthil.AuthenticationFailed):
            await self.connect(key=self.place.path("other_ed25519"))

    async def test_forwards(self):
        """forwards, while the loop does other things"""
        data, loop = os.urandom(MB), asyncio.get_running_loop()
        with Listening(echo) as target:
            async with self.connect() as c:
                async with await c.forward_local(("localhost", 0), ("127.0.0.1", target.port)) as forward:
                    self.assertTrue(await loop.run_in_executor(None, said_back, forward.port, data) == data)
                async with await c.forward_remote(("localhost", 0), ("127.0.0.1", target.port)) as forward:
                    self.assertTrue(await loop.run_in_executor(None, said_back, forward.port, data) == data)
                async with await c.forward_socks(("localhost", 0)) as forward:
                    self.assertGreater(forward.port, 0)

    async def test_files(self):
        """files by SFTP, several calls at once"""
        data, there = os.urandom(3 * MB), self.place.path("aio")
        with open(self.place.path("here"), "wb") as file:
            file.write(data)
        os.mkdir(there)
        async with self.connect() as c, await c.sftp() as files:
            await files.put(self.place.path("here"), f"{there}/a")
            await asyncio.gather(*[files.get(f"{there}/a", self.place.path(f"back{n}")) for n in range(3)])
            with open(self.place.path("back2"), "rb") as file:
                self.assertTrue(file.read() == data)
            async with await files.open(f"{there}/b", "wb") as file:
                await file.write(data)
            async with await files.open(f"{there}/b") as file:
                file.seek(100)
                self.assertTrue(await file.read(100000) == data[100:100100])
                self.assertTrue(await file.read() == data[100100:])
            self.assertEqual(sorted(await files.listdir(there)), ["a", "b"])
            with self.assertRaises(sazhonthil.NoSuchFile):
                await files.stat(f"{there}/c")
            with open(f"{there}/big", "wb") as file:
                file.truncate(200 * MB)
            getting = asyncio.ensure_future(files.get(f"{there}/big", self.place.path("big")))
            for _ in range(5):
                await asyncio.sleep(0.01)
            self.assertFalse(getting.done())  # it lets the loop go on
            getting.cancel()
            with self.assertRaises(asyncio.CancelledError):
                await getting
            self.assertEqual((await files.stat(f"{there}/a")).size, len(data))
            self.assertTrue(await files.get(f"{there}/a", self.place.path("back")) == len(data))

    async def test_rekeys(self):
        """new keys after each 256 kB"""
        data = os.urandom(5 * MB)
        async with self.connect(rekey_bytes=256 * 1024) as c:
            self.assertTrue((await c.run("cat", input=data, encoding=None)).stdout == data)

    async def test_lost(self):
        """the server is killed while a call waits"""
        from .test_connect import kill_all

        lost = self.place.sshd()
        async with aio.connect("localhost", lost.port, **lost.options()) as c:
            waiting = asyncio.ensure_future(c.run("sleep 30"))
            await asyncio.sleep(0.2)
            kill_all(lost)
            with self.assertRaises(sazhonthil.ConnectionLost):
                await waiting
            self.assertTrue(c.is_over)

    async def test_closed_while_waiting(self):
        """closed while others wait, and used after the end"""
        c = await self.connect()
        waiting = asyncio.ensure_future(c.run("sleep 30"))
        await asyncio.sleep(0.2)
        await c.close()
        with self.assertRaises(sazhonthil.Closed):
            await waiting
        with self.assertRaises(sazhonthil.Closed):
            await c.run("echo")

    async def test_jump(self):
        """through a jump host"""
        inner = self.place.sshd("rsa")
        data = os.urandom(2 * MB)
        async with self.connect() as jump:
            async with aio.connect("localhost", inner.port, **inner.options(jump=jump)) as c:
                self.assertTrue((await c.run("cat", input=data, encoding=None)).stdout == data)
                self.assertEqual((await jump.run("echo outer")).stdout, "outer\n")


if __name__ == "__main__":
    unittest.main()
