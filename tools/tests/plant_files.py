"""The plant of examples/plant on a program, and what is stored of its talk with the controller."""

import os
import shlex
import stat
import subprocess
import sys
import tempfile

from common import TOP, read_bytes

PLANT = f"{TOP}/examples/plant"
PARTS = ("table", "session", "answer")

# A program that keeps what goes in and out.
RECORDER = """#!/bin/sh
tee {room}/session | {program} "$1" | tee {room}/answer
"""


def stored():
    """What the plant prints, what it tells the controller, and what it is answered."""
    return tuple(read_bytes(f"{PLANT}/{part}.txt") for part in PARTS)


def plant(*words):
    """The plant, run with these words, to its end."""
    called = [sys.executable, f"{PLANT}/plant.py", *words]
    return subprocess.run(called, stdout=subprocess.PIPE, stderr=subprocess.PIPE, timeout=120, check=False)


def talk(program):
    """The same of a plant that is run on this program."""
    with tempfile.TemporaryDirectory() as room:
        recorder = f"{room}/recorder"
        with open(recorder, "w", encoding="utf-8") as file:
            file.write(RECORDER.format(room=shlex.quote(room), program=shlex.quote(program)))
        os.chmod(recorder, stat.S_IRWXU)
        return plant(recorder).stdout, read_bytes(f"{room}/session"), read_bytes(f"{room}/answer")
