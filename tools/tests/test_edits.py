"""The wrong bodies of crates: each of their texts stands once in its file, so that the edit can be made."""

import glob
import os
import re
import unittest

from common import TOP

PAIR = re.compile(r"^file: (\S+)\nold: ?(.*)\nnew: ?(.*)$", re.MULTILINE)


class Edits(unittest.TestCase):
    def test_each_edit_can_be_made(self):
        edits = glob.glob(f"{TOP}/crates/*/must-fail/*.edit") + glob.glob(f"{TOP}/crates/*/more-edits/*.edit")
        self.assertTrue(edits)
        for edit in edits:
            crate, texts = os.path.dirname(os.path.dirname(edit)), {}
            with open(edit, encoding="utf-8") as file:
                pairs = PAIR.findall(file.read())
            with self.subTest(edit=edit):
                self.assertTrue(pairs)
                for path, old, new in pairs:
                    if path not in texts:
                        with open(f"{crate}/{path}", encoding="utf-8") as file:
                            texts[path] = file.read()
                    self.assertEqual(texts[path].count(old), 1)
                    self.assertNotEqual(old, new)
                    texts[path] = texts[path].replace(old, new)


if __name__ == "__main__":
    unittest.main()
