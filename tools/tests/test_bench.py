"""The input files of tools/bench are the same bytes on every machine, so that figures of two machines can be compared."""

import hashlib
import os
import subprocess
import tempfile
import unittest

from common import TOP

SUMS = {
    "a.json": "96532c30fd029d77a9cf9af42bdb359bffc14516cbc5bf5acb1dbb4c23a7d118",
    "a.txt": "195bab05bbed550e9c6b5a30e4d95b214df2bed31f14a3f94f7275d786f4aedb",
    "c.json": "e3dc4f64c9a7d75b7c82ca4444bcc06217287bfa73879a83557c6d53be1fb79a",
    "c.txt": "5b339208f23207d185d2a3f4e3795b42d3d58971b78dae6dc23f2cfdf3693505",
    "d.txt": "fb3ffd28e2ea8086ba1d755e8278f6aa9dc0c260c0faa0c912041386e21a2698",
    "e.json": "e6fcaae589d618df92dc9b66684671d5320bc80abcaee57b31b781067a7d1367",
    "line.json": "86a38af289f01ff85bca862bcc4b28d57a81028f087896bdce161c5ac429caf7",
    "line.never.txt": "ff5f3d1a847b09080ee4d7f7bd013ebd8d20e3c4d91d884bfe464b0363360703",
    "line.txt": "74c54a34b190a202f73d7b040a99b746863d01a4d25e8d767790975eae7754c3",
    "run.txt": "8ab263d1c72014c7b1b7f908cffd886ef03c9afed8f55019c91b06da8b53ad48",
}


class Inputs(unittest.TestCase):
    def test_the_files_are_as_ever(self):
        with tempfile.TemporaryDirectory() as folder:
            subprocess.run([f"{TOP}/tools/bench", "--inputs", folder], check=True)
            sums = {}
            for name in sorted(os.listdir(folder)):
                with open(f"{folder}/{name}", "rb") as file:
                    sums[name] = hashlib.sha256(file.read()).hexdigest()
        self.assertEqual(sums, SUMS)

    def test_a_program_that_is_not_there(self):
        ran = subprocess.run([f"{TOP}/tools/bench", "--program", "/nonexistent"], capture_output=True, check=False)
        self.assertEqual((ran.returncode, ran.stdout), (1, b""))
        self.assertEqual(ran.stderr, b"bench: there is no program /nonexistent: tools/prove builds it\n")


if __name__ == "__main__":
    unittest.main()
