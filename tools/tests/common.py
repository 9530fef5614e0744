"""What tests share: where things are, with the tools on the path and no byte code left; and a test with a folder of its own."""

import os
import sys
import tempfile
import unittest

sys.dont_write_bytecode = True
TESTS = os.path.dirname(os.path.realpath(__file__))
sys.path.insert(0, os.path.dirname(TESTS))

from lib.paths import TOOLS, TOP, built, read_bytes, read_text  # noqa: E402, F401


class RoomTest(unittest.TestCase):
    def setUp(self):
        room = tempfile.TemporaryDirectory()
        self.addCleanup(room.cleanup)
        self.room = room.name
        self.maxDiff = None

    def put(self, name, contents):
        """Writes a file of the room; where it is."""
        path = f"{self.room}/{name}"
        with open(path, "wb") as file:
            file.write(contents if isinstance(contents, bytes) else contents.encode())
        return path
