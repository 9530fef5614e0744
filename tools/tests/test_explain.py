"""What ./logix says on a terminal of a call, whose output and status stay as they are; and tools/explain of codes and pasted lines."""

from __future__ import annotations

import os
import stat
import subprocess
import sys
import unittest

from common import TOOLS, RoomTest
from refused_projects import LINE
from terminal import on_terminal

# How many codes there are of each letter, from 1 on; there is no E4.
CODES = {"T": 5, "C": 17, "G": 10, "Y": 6, "P": 11, "J": 5, "K": 2, "V": 5, "U": 1, "L": 3, "Q": 4, "E": 12, "N": 3, "F": 3, "M": 3}
FAULTS = ("4/4", "4/20", "4/31", "4/34", "4/84", "6/1", "6/2", "6/3")

# A program that is given the status to end with, and the text to write.
PROGRAM = '#!/bin/sh\nprintf "%s\\n" "$2"\nexit "$1"\n'
# A program that writes much, and ends with 0 only if all was written.
MUCH = "#!/bin/sh\nhead -c 1000000 /dev/zero || exit 5\n"


def explain(*words: str, cwd: str | None = None) -> tuple[int, str]:
    called = [sys.executable, f"{TOOLS}/explain", *words]
    ran = subprocess.run(called, stdout=subprocess.PIPE, stderr=subprocess.STDOUT, text=True, timeout=20, cwd=cwd, check=False)
    return ran.returncode, ran.stdout


class Room(RoomTest):
    def put(self, name: str, text: str) -> str:
        path = super().put(name, text)
        os.chmod(path, stat.S_IRWXU)
        return path

    def runner(self, name: str, text: str = PROGRAM) -> list[str]:
        return [f"{TOOLS}/run_explained", self.put(name, text)]


class Ended(Room):
    def ended(self, *words: str, **more) -> tuple[int, str, str]:
        status, out, said = on_terminal([*self.runner("logix"), *words], cwd=self.room, **more)
        return status, out.decode(), said

    def test_a_refusal_without_its_file(self) -> None:
        line = "project P10 programs.0.routines.0.rungs.0 T4 12"
        status, out, said = self.ended("2", line)
        self.assertEqual((status, out), (2, line + "\n"))
        first, *codes = said.splitlines()
        self.assertEqual(first, "logix: status 2: the project is refused")
        self.assertEqual([code.split()[0] for code in codes], ["P10:", "T4:"])

    def test_each_status_is_explained(self) -> None:
        for status in (1, 2, 3, 4, 5, 6, 7, 8, 70):
            ended, _, said = self.ended(str(status), "no L1 4")
            self.assertEqual(ended, status)
            self.assertRegex(said, rf"^logix: status {status}: .*")
            self.assertIn("To do: ", said)

    def test_status_0_says_nothing(self) -> None:
        self.assertEqual(self.ended("0", "ok"), (0, "ok\n", ""))

    def test_no_terminal_is_told_nothing(self) -> None:
        for status in (0, 2, 4):
            ran = subprocess.run([*self.runner("logix"), str(status), "x P1"], capture_output=True, text=True, timeout=20, check=False)
            self.assertEqual((ran.returncode, ran.stdout, ran.stderr), (status, "x P1\n", ""))

    def test_an_output_that_fails_ends_with_5(self) -> None:
        with open("/dev/full", "wb") as full:
            status, _, said = self.ended("0", "ok", stdout=full)
        self.assertEqual((status, said[:17]), (5, "logix: status 5: "))

    def test_a_reader_that_goes_away(self) -> None:
        script = f"{' '.join(self.runner('logix', MUCH))} | head -c 10 >/dev/null; exit ${{PIPESTATUS[0]}}"
        self.assertEqual(on_terminal(["bash", "-c", script])[0], 5)

    def test_a_signal(self) -> None:
        self.assertEqual(on_terminal(self.runner("logix", "#!/bin/sh\nkill -TERM $$\n"))[0], 128 + 15)

    def test_bytes_go_through_as_they_are(self) -> None:
        data = bytes(range(256)) * 1000
        with open(f"{self.room}/data", "wb") as file:
            file.write(data)
        words = [*self.runner("logix", '#!/bin/sh\ncat "$2"\n'), "replay", f"{self.room}/data"]
        self.assertEqual(on_terminal(words), (0, data, ""))


    def test_what_is_told_never_stops_the_program(self) -> None:
        words = [*self.runner("logix", "#!/bin/sh\necho end 0 0 run lost many; echo more\n"), "replay", "p", "j"]
        status, out, said = on_terminal(words)
        self.assertEqual((status, out), (0, b"end 0 0 run lost many\nmore\n"))
        self.assertRegex(said, "^logix: this couldn't be explained, by a fault of tools/lib/places: ValueError")


class Output(Room):
    """A call that has ended, whose output is a file: of sources that were run without proof."""

    def test_a_report_with_a_refused_command(self) -> None:
        self.put("line.json", LINE)
        self.put("line.txt", "mode run\n@0 in Inn1 0 1\nend\n")
        self.put("out", "0 0 reply 31 ok\n0 0 reply 0 refused N1\nend 0 0 run lost 0\n")
        words = [f"{TOOLS}/explain", "--ended", "logix", "0", "out", "replay", "line.json", "line.txt"]
        status, out, said = on_terminal(words, cwd=self.room)
        self.assertEqual((status, out), (0, b""))
        told = "logix: 1 command is refused; it is line 2 of line.txt: there is no connection 'Inn1'; is In1 meant?"
        self.assertEqual(said.splitlines()[0], told)


class Words(Room):
    """Wrong words, and files that aren't there: which."""

    def said(self, status: int, *words: str) -> str:
        with_status = f"#!/bin/sh\nexit {status}\n"
        told = on_terminal([*self.runner("logix", with_status), *words], cwd=self.room)[2]
        return told.removeprefix(f"logix: status {status}: ").partition(" To do: ")[0]

    def test_wrong_words(self) -> None:
        self.assertEqual(self.said(1), "a command must follow.")
        self.assertEqual(self.said(1, "chek", "p"), "there is no command 'chek'; is check meant?")
        self.assertEqual(self.said(1, "replay", "p"), "the command is 'replay P J': 2 words after it, not 1.")

    def test_which_file(self) -> None:
        self.put("line.json", "{}")
        self.put("line.txt", "end\n")
        self.assertEqual(self.said(4, "check", "lime.json"), "'lime.json', the project, isn't there; is line.json meant?")
        self.assertEqual(self.said(4, "replay", "line.json", ""), "the word for the journal is empty.")
        self.assertEqual(self.said(4, "run", "line.json", "."), "'.', the script, is a folder.")
        told = "'nowhere/x.json', the project, isn't there; nor is its folder 'nowhere'."
        self.assertEqual(self.said(4, "check", "nowhere/x.json"), told)

    def test_a_file_that_is_too_long(self) -> None:
        with open(f"{self.room}/long.txt", "wb") as file:
            file.truncate(16_777_217)
        self.put("line.json", "{}")
        self.assertEqual(self.said(7, "replay", "line.json", "long.txt"), "the journal long.txt has more than 16,777,216 bytes.")


class Pictures(Room):
    """A refusal isn't written into the picture."""

    def test_it_goes_to_the_terminal(self) -> None:
        for name in ("logix_timeline", "logix_wave"):
            status, out, said = on_terminal([*self.runner(name), "2", "report V1 line 1"])
            self.assertEqual((status, out), (2, b""))
            refused, first, code = said.splitlines()
            self.assertEqual((refused, first), ("report V1 line 1", f"{name}: status 2: of a picture, the report is refused"))
            self.assertRegex(code, r"^V1: .*To do: was it a refusal, or the output of `run`\?")

    def test_it_goes_to_standard_error(self) -> None:
        ran = subprocess.run([*self.runner("logix_timeline"), "2", "report V1 line 1"], capture_output=True, timeout=20, check=False)
        self.assertEqual((ran.returncode, ran.stdout, ran.stderr), (2, b"", b"report V1 line 1\n"))

    def test_a_picture_goes_to_standard_output(self) -> None:
        ran = subprocess.run([*self.runner("logix_timeline"), "0", "<svg/>"], capture_output=True, timeout=20, check=False)
        self.assertEqual((ran.returncode, ran.stdout, ran.stderr), (0, b"<svg/>\n", b""))

    def test_an_output_that_fails_ends_with_5(self) -> None:
        with open("/dev/full", "wb") as full:
            self.assertEqual(on_terminal([*self.runner("logix_wave"), "0", "x"], stdout=full)[0], 5)


class Codes(Room):
    def test_every_code_is_explained(self) -> None:
        codes = [f"{letter}{n}" for letter, count in CODES.items() for n in range(1, count + 1) if (letter, n) != ("E", 4)]
        status, text = explain(*codes, *FAULTS, "held")
        self.assertEqual(status, 0)
        for line in text.splitlines():
            self.assertRegex(line, r"^\S+: \S.*\. To do: \S.*[.?]$")

    def codes(self, *words: str) -> list[str]:
        status, text = explain(*words)
        self.assertEqual(status, 0, text)
        return list(dict.fromkeys(line.partition(":")[0] for line in text.splitlines()))

    def test_pasted_lines(self) -> None:
        self.assertEqual(self.codes("journal", "J1", "line", "3"), ["J1"])
        self.assertEqual(self.codes("project P9 tags.3 Y1"), ["P9", "Y1"])
        self.assertEqual(self.codes("fault major 4/34"), ["4/34"])
        self.assertEqual(self.codes("10 24 fault minor 6/2 T1 P1"), ["6/2"])
        self.assertEqual(self.codes("line J1 4"), ["J1"])
        self.assertEqual(self.codes("0 2 reply 0 refused E8 C4 3 1"), ["E8", "C4"])
        self.assertEqual(self.codes("4", "P10"), ["4", "P10"])
        self.assertEqual(self.codes("logix: status 4: a file couldn't be read"), ["4"])

    def test_no_code(self) -> None:
        self.assertEqual(explain("T9", "nonsense"), (1, "T9: no such code.\n"))
        self.assertEqual(explain("nonsense"), (1, "there is no code in this\n"))
        self.assertEqual(explain()[0], 1)


class Places(Room):
    """`--project` and `--journal`."""

    def test_of_a_project(self) -> None:
        self.put("line.json", LINE.replace("OTE(Motor1);", "OTE(Motr1);"))
        self.assertEqual(explain("--project", "line.json", "project P10 programs.0.routines.0 C4 2 1", cwd=self.room), (0, """\
line.json, line 24: program Line, routine Main, rung 2: there is no tag 'Motr1'; is Motor1 meant?
    XIC(Stagger.DN)OTE(Motr1);
                       ^
C4: neither the program nor the controller declares the tag. To do: declare it, or correct the spelling.
"""))

    def test_of_a_file_that_has_changed(self) -> None:
        self.put("line.json", LINE)
        status, text = explain("--project", "line.json", "project P8 tasks.1", cwd=self.room)
        told = "line.json: the file isn't refused so: it has changed since, or is another"
        self.assertEqual((status, text.partition("\n")[0]), (0, told))

    def test_of_a_script(self) -> None:
        self.put("shift.txt", "# late shift\nrun 100 10 2\n@0 5 mode run\n@2 6 clear\nend\n")
        self.assertEqual(explain("--journal", "shift.txt", "script", "J2", "line", "4", cwd=self.room), (0, """\
shift.txt, line 4: no lane 2: lanes of this script are below 2
    @2 6 clear
    ^
J2: in a script, a lane that isn't below LANES. To do: choose another, or have more.
"""))

    def test_of_a_trace(self) -> None:
        self.put("line.json", LINE)
        self.put("trace.txt", "act 31 run - ok 0\nbegan 0 2 0\nend\n")
        self.assertEqual(explain("--project", "line.json", "--journal", "trace.txt", "trace K2 line 2", cwd=self.room), (0, """\
trace.txt, line 2: there is no program 2: they are 0 to 1
    began 0 2 0
            ^
K2: a task, program or bit of a mask that the project doesn't have. To do: is the trace of this project?
"""))
        status, text = explain("--project", "line.json", "--journal", "trace.txt", "no L1 1", cwd=self.room)
        self.assertEqual((status, text.splitlines()[1]), (0, "    began 0 2 0"))

    def test_of_a_link_script(self) -> None:
        self.put("line.json", LINE)
        self.put("link.txt", "link Out2 In2\nend\n")
        words = ["--project", "line.json", "--project", "line.json", "--journal", "link.txt", "link U1 line 1"]
        self.assertEqual(explain(*words, cwd=self.room), (0, """\
link.txt, line 1: the second project has no input 'In2'; is In1 meant?
    link Out2 In2
              ^
U1: OUT is no output of A, or IN no input of B. To do: correct the first line.
"""))
        self.put("link.txt", "link Out2 In1\nend\n")
        self.assertEqual(explain(*words, cwd=self.room)[1].splitlines()[0], "link.txt, line 1: they have 1 word and 2 words")

    def test_of_a_refused_command(self) -> None:
        self.put("line.json", LINE)
        self.put("line.txt", "mode run\ncpu 2\n@0 test Line\n@1 test Lime\nend\n")
        self.assertEqual(explain("--project", "line.json", "--journal", "line.txt", "0 2 reply 1 refused E1", cwd=self.room), (0, """\
line.txt, line 4: there is no program 'Lime'; is Line meant?
    @1 test Lime
            ^
E1: there is no such program. To do: correct the name.
"""))

    def test_of_a_file_that_is_not_there(self) -> None:
        status, text = explain("--project", "nothing.json", "project P1", cwd=self.room)
        self.assertEqual((status, text), (1, "explain: No such file or directory: nothing.json\n"))


if __name__ == "__main__":
    unittest.main()
