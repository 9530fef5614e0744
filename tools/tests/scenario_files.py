"""Scenarios for tests: a folder with a project and a scenario, played on the plain interpreter or on the built programs."""

from __future__ import annotations

import io
import json
import os
import shlex
import stat
import sys
from contextlib import redirect_stderr, redirect_stdout

from common import TESTS, RoomTest, built
from lib.scenario.main import main

PLAIN = {"logix_live": "plain_live.py", "logix": "plain_logix.py", "logix_cover": "plain_cover.py"}
BUILT = ("logix_live", "logix", "logix_timeline", "logix_wave", "logix_cover")

# One rung in a continuous task: a lamp follows a button of an input word.
LAMP = {
    "schema": 2, "controller": "Lamp",
    "tags": [
        {"name": "Local:1:I", "type": "DINT"}, {"name": "Button", "alias": "Local:1:I.0"}, {"name": "Other", "alias": "Local:1:I.5"},
        {"name": "Lamp", "type": "BOOL"}, {"name": "Speed", "type": "INT"}, {"name": "n", "type": "DINT"},
    ],
    "programs": [
        {"name": "Main", "main": "Go", "tags": [{"name": "Own", "type": "SINT"}],
         "routines": [{"name": "Go", "rungs": ["XIC(Button)OTE(Lamp);"]}]},
    ],
    "tasks": [{"name": "Cont", "kind": "continuous", "programs": ["Main"]}],
    "connections": [{"name": "In1", "tag": "Local:1:I", "direction": "in"}],
}  # fmt: skip


def programs(folder: str, is_built: bool) -> str:
    """A folder of programs: links to those that are built here, or starters of the plain ones."""
    os.makedirs(folder, exist_ok=True)
    for name in BUILT if is_built else PLAIN:
        if is_built:
            os.symlink(built(name), f"{folder}/{name}")
            continue
        with open(f"{folder}/{name}", "w", encoding="utf-8") as file:
            file.write(f'#!/bin/sh\nexec {shlex.quote(sys.executable)} -B {shlex.quote(f"{TESTS}/{PLAIN[name]}")} "$@"\n')
        os.chmod(f"{folder}/{name}", stat.S_IRWXU)
    return folder


class Called:
    """What a call of tools/scenario writes, and its status."""

    def __init__(self, words: list[str]) -> None:
        out, err = io.StringIO(), io.StringIO()
        with redirect_stdout(out), redirect_stderr(err):
            self.status = main(words)
        self.out, self.err = out.getvalue(), err.getvalue()


class ScenarioTest(RoomTest):
    built = True

    def setUp(self) -> None:
        super().setUp()
        self.programs = programs(f"{self.room}/programs", self.built)
        self.put("lamp.json", json.dumps(LAMP))

    def put(self, name: str, text: str) -> str:
        os.makedirs(os.path.dirname(f"{self.room}/{name}"), exist_ok=True)
        return super().put(name, text)

    def project(self, **more) -> str:
        """The lamp's project with other fields; its first rung is `rung` if that is given."""
        made = json.loads(json.dumps(LAMP))
        rungs = more.pop("rungs", None)
        if rungs is not None:
            made["programs"][0]["routines"][0]["rungs"] = rungs
        return self.put("lamp.json", json.dumps({**made, **more}))

    def text(self, name: str) -> str:
        with open(f"{self.room}/{name}", encoding="utf-8") as file:
            return file.read()

    def scenario(self, *lines: str, name: str = "day.scenario", project: str = "lamp.json") -> str:
        return self.put(name, "\n".join([f"project {project}", *lines, ""]))

    def call(self, *words: str) -> Called:
        return Called([*words, "--programs", self.programs])

    def play(self, *lines: str) -> Called:
        return self.call(self.scenario(*lines))
