"""The code of the READMEs, against a server in place of example.org."""
import contextlib
import io
import pathlib
import re
import unittest
from unittest import mock

import sazhonthil

from .servers import Place, needs_library

TOP = pathlib.Path(__file__).resolve().parents[3]
READMES = ("README.md", "bindings/README.md", "bindings/python/README.md")


@needs_library
class Readmes(unittest.TestCase):
    def test_blocks_run(self):
        place = Place()
        self.addCleanup(place.close)
        server, ran, real = place.sshd(), 0, sazhonthil.connect

        def connect(host, user):
            self.assertEqual((host, user), ("example.org", "me"))
            return real("localhost", server.port, **server.options())

        for name in READMES:
            path = TOP / name
            if not path.is_file():
                continue
            for block in re.findall(r"^```python\n((?:(?!```).*\n)*)```", path.read_text(), re.M):
                if "sazhonthil.connect(" not in block:
                    continue
                said = io.StringIO()
                with self.subTest(name), mock.patch.object(sazhonthil, "connect", connect), contextlib.redirect_stdout(said):
                    exec(compile(block, name, "exec"), {"sazhonthil": sazhonthil})
                self.assertIn("Linux", said.getvalue())
                ran += 1
        self.assertGreater(ran, 0)


if __name__ == "__main__":
    unittest.main()
