"""tools/online on the built programs: walks of random commands, places reached from before and from behind, and how it ends.

The gate runs this after `rt ci`. A walk of 1,000 commands takes a minute; here each example has as many as there is time for.
"""

import os
import signal
import subprocess
import unittest
from unittest import mock

from online_files import CONVEYOR, Page, Walk, built_programs
from common import TOP
from plain_programs import PROJECTS
from lib.online import player

COMMANDS = 8  # of each example's walk


class Walks(unittest.TestCase):
    def test_each_example(self):
        with mock.patch.object(player, "MOST_BEATS", 200):
            for seed, path in enumerate(PROJECTS):
                Walk(self, built_programs(), path, seed).take(COMMANDS)


class Places(unittest.TestCase):
    def page(self):
        page = Page(built_programs())
        self.addCleanup(page.session.rest)
        page.act("mode run")
        page.act("in In1 1 3", 0)
        page.do("stop", kind="=", place="Motor", value=1)
        page.do("until", steps=20)
        page.do("cpu", count=1)
        return page

    def test_examples_name_what_the_controller_takes(self):
        # Each place of each rung is one that the controller takes as a watch.
        for path in PROJECTS:
            with Page(built_programs(), path) as page:
                self.assertEqual((page.session.lost, page.session.left_out), (None, set()), path)

    def test_from_before_and_from_behind_it_is_the_same(self):
        page = self.page()
        keys = ("values", "mode", "tick", "step", "versions", "faults", "lines", "view")
        for at in range(0, page.session.journal.length, 29):
            shown = []
            for begin in (0, page.session.journal.length):
                page.do("go", to=begin)
                page.do("go", to=at)
                shown.append({key: page.shown.snapshot()[key] for key in keys})
            self.assertEqual(*shown)

    def test_back_to_the_last_change_of_each(self):
        page, changed = self.page(), 0
        for name in page.session.watched:
            page.do("last")
            value = page.values()[name]
            page.do("back", place=name)
            if page.session.at == page.session.journal.length:
                continue
            changed += 1
            self.assertEqual(page.values()[name], value)
            page.do("go", to=page.session.at - 1)
            self.assertNotEqual(page.values()[name], value)
        self.assertGreater(changed, 5)


class Words(unittest.TestCase):
    def start(self, *words):
        process = subprocess.Popen([f"{TOP}/tools/online", *words], stdout=subprocess.PIPE, stderr=subprocess.PIPE)
        self.addCleanup(process.stderr.close)
        self.addCleanup(process.stdout.close)
        self.addCleanup(process.kill)
        return process

    def left(self, process):
        """The processes and folders that it has."""
        children = subprocess.run(["ps", "--ppid", str(process.pid), "-o", "pid="], stdout=subprocess.PIPE, check=False).stdout.split()
        return [int(child) for child in children]

    def test_each_signal_ends_it_and_nothing_is_left(self):
        for number in (signal.SIGINT, signal.SIGTERM, signal.SIGHUP):
            before = set(os.listdir("/tmp"))
            process = self.start(CONVEYOR, f"{TOP}/examples/conveyor/journal.txt")
            self.assertRegex(process.stdout.readline(), rb"^http://127\.0\.0\.1:\d+/[\w-]{32}/\n$")
            children = self.left(process)
            self.assertEqual(len(children), 1)
            process.send_signal(number)
            self.assertEqual(process.wait(20), 0)
            self.assertFalse(os.path.exists(f"/proc/{children[0]}"))
            self.assertEqual({name for name in set(os.listdir("/tmp")) - before if name.startswith("online-")}, set())

    def test_what_is_refused(self):
        for words, status, told in ((("/nothing",), 4, b"No such file"), ((__file__,), 2, b"project P1"), ((CONVEYOR, __file__), 3, b"journal J1 line 1"), ((), 1, b"usage"), (("-x",), 1, b"usage")):
            process = self.start(*words)
            out, err = process.communicate(timeout=20)
            self.assertEqual((process.returncode, out), (status, b""), words)
            self.assertIn(told, err)


if __name__ == "__main__":
    unittest.main()
