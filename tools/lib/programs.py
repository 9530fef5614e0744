"""The programs of this repository, or of the package, as tools run them."""

import os
import signal
import subprocess
from dataclasses import dataclass

from .paths import PACKAGED, TOOLS, TOP, built

IS_PACKAGED = os.path.isdir(PACKAGED)


@dataclass(frozen=True)
class Program:
    """How a program is called, and whether it was proved and built from the sources as they are."""

    words: tuple
    proved: bool


class Ended(Exception):
    """A program has ended otherwise than it should: its status (below 0: a signal), and what it wrote last."""

    def __init__(self, status, text):
        super().__init__(status, text)
        self.status, self.text = status, text

    def told(self):
        return f"status {self.status} {self.text.strip()}"


class Astray(Ended):
    """A program that is to be ended from here, since it didn't say what it should; why."""

    def __init__(self, why):
        super().__init__(-signal.SIGKILL, why)

    def told(self):
        return self.text


class Late(Astray):
    """A program that didn't say in time what it should."""


def place(name):
    """The file where a program is if it is there: installed, or built."""
    return f"{PACKAGED}/{name}" if IS_PACKAGED else built(name)


def asking(name):
    """A process that ends with 0 if the program was proved and built from the sources as they are; it sums all of them."""
    words = ["bash", "-c", '. "$top/tools/programs.sh"; is_proved "$1"', "bash", name]
    return subprocess.Popen(words, env={**os.environ, "top": TOP}, stdin=subprocess.DEVNULL, stdout=subprocess.DEVNULL)


def find(*names):
    """The programs of these names."""
    asked = [None if IS_PACKAGED else asking(name) for name in names]  # (all at once)
    proved = [each is None or each.wait() == 0 for each in asked]
    return [Program((place(name),) if is_proved else (f"{TOOLS}/unproved", name), is_proved) for name, is_proved in zip(names, proved)]


def run(program, *words):
    """What a program writes that ends with 0."""
    done = subprocess.run([*program.words, *words], stdout=subprocess.PIPE, stdin=subprocess.DEVNULL, check=False)
    if done.returncode:
        raise Ended(done.returncode, done.stdout.decode(errors="replace"))
    return done.stdout.decode()
