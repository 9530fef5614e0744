"""The gate and tools/prove on a small repository with an `rt` that plays its part: what is told on the way; all else is rt's own."""

from __future__ import annotations

import os
import shutil
import stat
import subprocess
import tempfile
import unittest

from common import TOP

PROGRAMS = ("logix", "logix_live", "logix_timeline", "logix_wave")

# The first crate is kept, the second is proved, the third is begun, and of three planted bugs one is tried, twice, and one is being
# tried; before them the crate is checked as it stands.
RT = """#!/usr/bin/env bash
[ "$*" = ci ] || exit 9
echo 'rt: low is kept: an earlier run on this machine proved the same files over the same libraries'
printf '== mid\\nfn mid::f: proved\\nrt: mid proved\\n'
mkdir -p crates/high/out/rlib
echo 'rt: mid: trying its must-fail edits (3)'
room=${TMPDIR:-/tmp}
try() {
    mkdir "$room/rt-edit-$$-$1" && cp -R crates/mid/src "$room/rt-edit-$$-$1/" && printf '%s' "$2" >>"$room/rt-edit-$$-$1/src/main.rt" || exit 9
    sleep "${RT_SECONDS:-$3}"
    rm -r "$room/rt-edit-$$-$1"
}
try seed '' 2
try first a 2
try again a 2
try second b 4
for name in logix logix_live logix_timeline logix_wave; do
    mkdir -p "crates/$name/out" && printf '#!/bin/sh\\n' >"crates/$name/out/$name"
done
chmod +x crates/*/out/logix*
echo '7 passed, 0 failed'
exit "${RT_STATUS:-0}"
"""
OUTPUT = """\
rt: low is kept: an earlier run on this machine proved the same files over the same libraries
== mid
fn mid::f: proved
rt: mid proved
rt: mid: trying its must-fail edits (3)
7 passed, 0 failed
"""


class Progress(unittest.TestCase):
    def setUp(self) -> None:
        room = tempfile.TemporaryDirectory()
        self.addCleanup(room.cleanup)
        self.room = room.name
        for folder in (".ci", "tools/tests", "bin", "tmp", "crates/mid/must-fail"):
            os.makedirs(f"{self.room}/{folder}")
        for path in (".ci/run", "tools/programs.sh", "tools/progress.sh", "tools/prove"):
            shutil.copy(f"{TOP}/{path}", f"{self.room}/{path}")
        self.put("bin/rt", RT)
        self.put("tools/tests/test_nothing.py", "")
        self.put("tools/tests/hammer_run.py", "")
        self.put("tools/tests/browser.sh", "#!/bin/sh\n")
        self.put("HANDLES", "\n")
        for bug in "abc":
            self.put(f"crates/mid/must-fail/{bug}.edit", "")
        crates = ("low", "mid", "high", *PROGRAMS)
        for crate in crates:
            self.put(f"crates/{crate}/src/main.rt", crate)
        self.put("crates.txt", "# all\nlow:\nmid may_wait=1: low\nhigh: mid\n" + "".join(f"{name}: high\n" for name in PROGRAMS))

    def put(self, name: str, text: str) -> None:
        path = f"{self.room}/{name}"
        os.makedirs(os.path.dirname(path), exist_ok=True)
        with open(path, "w", encoding="utf-8") as file:
            file.write(text)
        os.chmod(path, stat.S_IRWXU)

    def call(self, *words: str, **more: str) -> subprocess.CompletedProcess:
        path = f"{self.room}/bin:{os.environ['PATH']}"
        env = {**os.environ, "PATH": path, "TMPDIR": f"{self.room}/tmp", "PROGRESS_SECONDS": "8", **more}
        return subprocess.run(words, env=env, cwd=self.room, capture_output=True, text=True, timeout=60, check=False)

    def told(self, name: str, text: str) -> list[str]:
        return [line for line in text.splitlines() if line.startswith(f"{name}: ") and " min: " in line]

    def test_the_gate_tells_how_far_it_is(self) -> None:
        ran = self.call(".ci/run")
        self.assertEqual(ran.returncode, 0, ran.stderr)
        self.assertEqual(ran.stdout, OUTPUT)
        told = "gate: 0 min: 2 of 7 crates proved, 1 of 3 planted bugs tried; under way: high"
        self.assertEqual(self.told("gate", ran.stderr)[:1], [told])
        self.assertEqual(os.listdir(f"{self.room}/tmp"), [])
        self.assertTrue(os.path.isfile(f"{self.room}/crates/logix/out/logix.sum"))

    def test_the_gate_ends_with_the_status_of_rt(self) -> None:
        ran = self.call(".ci/run", RT_STATUS="3", RT_SECONDS="0")
        self.assertEqual((ran.returncode, ran.stdout.splitlines()[-1]), (3, "7 passed, 0 failed"))
        self.assertFalse(os.path.exists(f"{self.room}/crates/logix/out/logix.sum"))

    def test_prove_counts_what_is_kept(self) -> None:
        ran = self.call("tools/prove", "logix")
        self.assertEqual((ran.returncode, ran.stdout), (0, ""), ran.stderr)
        self.assertEqual(self.told("prove", ran.stderr)[:1], ["prove: 0 min: 2 of 4 crates proved; under way: high"])
        self.assertTrue(ran.stderr.endswith("prove: proved and built: logix\n"))

    def test_without_the_kit(self) -> None:
        ran = self.call("tools/prove", PATH="/usr/bin:/bin")
        self.assertEqual(ran.returncode, 70)
        self.assertIn("install a package that tools/package made", ran.stderr)


if __name__ == "__main__":
    unittest.main()
