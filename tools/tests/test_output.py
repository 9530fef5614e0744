"""Tools whose output can't be written: status 5, and one line on standard error."""

from __future__ import annotations

import os
import subprocess
import sys
import unittest

from common import TOOLS, TOP

EXAMPLES = f"{TOP}/examples"
CALLS = (
    ("explain", "E8"),
    ("explain", "--help"),
    ("compare", f"{EXAMPLES}/conveyor/report.txt", f"{EXAMPLES}/blink/report.txt"),
    ("scenario", "--list", f"{EXAMPLES}/l5x"),
    ("scenario", "--help"),
    ("xref", "--help"),
)
TOO_MANY = "import os, sys\nfrom lib import output\nsys.exit(output.ended('x', lambda _: [os.open('/dev/null', 0) for _ in range(2_000)], []))"
BYTES = "import sys\nfrom lib import output\ndef main(words):\n    print('é', *words)\n    return 3\nsys.exit(output.ended('x', main, ['a', 'b']))"
TWICE = "import sys\nfrom lib import output\ndef main(_):\n    print('a', flush=True)\n    print('b')\n    return 0\nsys.exit(output.ended('x', main, []))"


class Outputs(unittest.TestCase):
    def ended(self, words: tuple[str, ...], closed: str = "", **more) -> tuple[int, str]:
        command = ["/bin/sh", "-c", f'exec "$@" {closed}', "sh", sys.executable, "-B", f"{TOOLS}/{words[0]}", *words[1:]]
        ran = subprocess.run(command, stdin=subprocess.DEVNULL, stderr=subprocess.PIPE, text=True, timeout=60, check=False, **more)
        return ran.returncode, ran.stderr

    def said(self, name: str, why: str) -> tuple[int, str]:
        return 5, f"{name}: standard output couldn't be written: {why}\n"

    def test_a_full_device(self) -> None:
        for words in CALLS:
            with open("/dev/full", "wb") as full:
                self.assertEqual(self.ended(words, stdout=full), self.said(words[0], "No space left on device"), words)

    def test_a_reader_that_has_gone(self) -> None:
        for words in CALLS:
            reads, writes = os.pipe()
            os.close(reads)
            self.assertEqual(self.ended(words, stdout=writes), self.said(words[0], "Broken pipe"), words)
            os.close(writes)

    def test_no_output(self) -> None:
        for words in CALLS:
            self.assertEqual(self.ended(words, ">&-"), self.said(words[0], "Bad file descriptor"), words)

    def test_nothing_to_write(self) -> None:
        report = f"{EXAMPLES}/blink/report.txt"
        self.assertEqual(self.ended(("compare", report, report), ">&-"), (0, ""))

    def test_neither_output_nor_standard_error(self) -> None:
        self.assertEqual(self.ended(CALLS[0], ">&- 2>&-"), (5, ""))

    def run_text(self, text: str, **more) -> tuple[int, bytes, bytes]:
        words = [sys.executable, "-B", "-c", text]
        ran = subprocess.run(words, cwd=TOOLS, env={**os.environ, "PYTHONIOENCODING": "utf-8"}, timeout=60, check=False, stderr=subprocess.PIPE, **more)
        return ran.returncode, ran.stdout, ran.stderr

    def test_what_is_written_is_as_it_was(self) -> None:
        self.assertEqual(self.run_text(BYTES, stdout=subprocess.PIPE), (3, "é a b\n".encode(), b""))

    def test_a_failed_output_is_told_once(self) -> None:
        with open("/dev/full", "wb") as full:
            self.assertEqual(self.run_text(TWICE, stdout=full)[::2], (5, b"x: standard output couldn't be written: No space left on device\n"))

    def test_too_many_files_are_no_fault_of_the_output(self) -> None:
        text = "import resource\nresource.setrlimit(resource.RLIMIT_NOFILE, (64, 64))\n" + TOO_MANY
        status, _, said = self.run_text(text, stdout=subprocess.PIPE)
        self.assertEqual((status, said), (70, b"x: Too many open files: /dev/null\n"))


if __name__ == "__main__":
    unittest.main()
