"""The man page, the help and the completion: all name the commands of the usage line, the page each program, and it has no warning."""

import re
import shutil
import subprocess
import unittest

from common import TOP, read_text

PAGE = f"{TOP}/docs/logix.1"
COMPLETION = f"{TOP}/tools/logix.bash-completion"


def usage_words():
    """The commands of the program, as the documents have its usage line (which the gate compares with what it prints)."""
    usage = re.search(r"`usage: logix (.*?)`", read_text(f"{TOP}/docs/FORMATS.md")).group(1)
    return [command.split()[0] for command in usage.split(", ")]


def programs():
    """The programs that a user runs, as the tools have them, and the tools that a package has beside them."""
    listed = re.search(r"^programs=\((.*)\)$", read_text(f"{TOP}/tools/programs.sh"), re.MULTILINE).group(1)
    tools = "from_l5x ladder online xref explain scenario compare".split()
    return [*listed.split(), *(f"logix_{tool}" for tool in tools)]


class Manual(unittest.TestCase):
    def warnings(self, *words):
        if not shutil.which(words[0]):
            self.skipTest(f"{words[0]} isn't there")
        ran = subprocess.run([*words, PAGE], stdout=subprocess.PIPE, stderr=subprocess.PIPE, text=True, timeout=30, check=False)
        return ran.stdout if words[0] == "mandoc" else ran.stderr

    def test_man_has_no_warning(self):
        self.assertEqual(self.warnings("man", "--warnings", "-l"), "")

    def test_mandoc_has_no_complaint(self):
        self.assertEqual(self.warnings("mandoc", "-Tlint"), "")

    def test_the_page_has_each_command(self):
        for form in (r"^\.B logix (\w+)$", r'^\.BI (\w+) "'):
            self.assertEqual(sorted(re.findall(form, read_text(PAGE), re.MULTILINE)), sorted(usage_words()))

    def test_the_page_has_each_program(self):
        names, _, _ = read_text(PAGE).partition(".SH NAME\n")[2].replace("\n", " ").partition(" \\- ")
        synopsis, _, _ = read_text(PAGE).partition(".SH SYNOPSIS\n")[2].partition(".SH ")
        self.assertEqual(names.split(", "), programs())
        self.assertEqual(list(dict.fromkeys(re.findall(r"^\.B (logix\w*)", synopsis, re.MULTILINE))), programs())

    def test_help_has_each_command(self):
        ran = subprocess.run([f"{TOP}/logix", "--help"], stdout=subprocess.PIPE, text=True, timeout=20, check=True)
        self.assertEqual(sorted(re.findall(r"^  logix (\w+)", ran.stdout, re.MULTILINE)), sorted(usage_words()))

    def test_completion_has_each_command(self):
        script = f"source {COMPLETION}; COMP_WORDS=(logix ''); COMP_CWORD=1; _logix; printf '%s\\n' \"${{COMPREPLY[@]}}\""
        ran = subprocess.run(["bash", "-c", script], stdout=subprocess.PIPE, text=True, timeout=20, check=True)
        self.assertEqual(sorted(ran.stdout.split()), sorted(usage_words()))

    def test_completion_goes_on_with_files(self):
        script = f"source {COMPLETION}; COMP_WORDS=(logix check READ); COMP_CWORD=2; _logix; printf '%s\\n' \"${{COMPREPLY[@]}}\""
        ran = subprocess.run(["bash", "-c", script], cwd=TOP, stdout=subprocess.PIPE, text=True, timeout=20, check=True)
        self.assertEqual(ran.stdout, "README.md\n")


if __name__ == "__main__":
    unittest.main()
