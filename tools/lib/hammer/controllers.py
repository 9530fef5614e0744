"""Controllers that go wrong, under tools/scenario and tools/online: bad_live.py in place of `logix_live`.

tools/scenario ends with a status that it documents and says why; no verdict is told of a run that broke off. In tools/online each command
is answered, and with a sound controller again it is where a new process is that is told the journal.
"""

import contextlib
import json
import os
import shlex
import shutil
import signal
import subprocess
import sys

from .cases import file_text
from .laws import Broken, law
from .outside import HERE, TOOLS, patience
from .pages import Wanted, parts
from .program import Hung

BAD = f"{HERE}/bad_live.py"
PROJECT = {
    "schema": 2, "controller": "Blink",
    "tags": [{"name": "Local:1:I", "type": "DINT"}, {"name": "Button", "alias": "Local:1:I.0"}, {"name": "Lamp", "type": "BOOL"}],
    "programs": [{"name": "Main", "main": "Go", "routines": [{"name": "Go", "rungs": ["XIC(Button)OTE(Lamp);"]}]}],
    "tasks": [{"name": "Cont", "kind": "continuous", "programs": ["Main"]}],
    "connections": [{"name": "In1", "tag": "Local:1:I", "direction": "in"}], "watch": ["Lamp"],
}
SCENARIO = "project p.json\nat 50: Button = 1 for 30\nrun 100 ms\nrequire\nat 50: Lamp = 1\nend: Lamp = 0\n"
COMMANDS = (
    ("act", {"lane": 31, "text": "mode run"}), ("act", {"lane": 31, "text": "in In1 0 1"}), ("cpu", {"count": 40}), ("tick", {"count": 3}),
    ("act", {"lane": 0, "text": "accept Main Go i 0 NOP();"}), ("go", {"to": 3}), ("last", {}), ("snap", {}), ("whole", {}),
)
ENDS, ANSWERS = ("ends 0", "ends 3", "ends 6", "signal", "half ends"), ("rubbish", "double")
# A controller that says nothing more, for ever: these are ended in time.
SILENT = ("hangs", "half", "lines", "other", "closes", "deaf")
# The first turns are one of each.
COUNTS = (1, 0, 2, 5, 9)
TURNS = [(tool, how, count) for count in COUNTS for how in (*ENDS, *ANSWERS, *SILENT) for tool in ("scenario", "online")]
SECONDS, OF_A_COMMAND, PATIENCE = 30, 20, 1
TOLD = (0, 1, 2, 3, 4, 5, 6, 7, 70)


@law
def of_turn(program, contents):
    tool, how, count = (one.decode() for one in contents)
    (of_scenario if tool == "scenario" else of_online)(program, how, count)
    return None


def words_of(program, how, count):
    return [sys.executable, "-B", BAD, how, count, program.beside("logix_live")]


def of_scenario(program, how, count):
    folder = f"{program.room}/bad-{program.runs}"
    program.runs += 1
    os.makedirs(f"{folder}/programs")
    for name, text in (("p.json", file_text(PROJECT)), ("day.scenario", SCENARIO.encode()),
                       ("programs/logix_live", f'#!/bin/sh\nexec {shlex.join(words_of(program, how, count))} "$@"\n'.encode())):
        with open(f"{folder}/{name}", "wb") as file:
            file.write(text)
    os.chmod(f"{folder}/programs/logix_live", 0o700)
    os.symlink(program.path, f"{folder}/programs/logix")
    try:
        ran = subprocess.run([sys.executable, "-B", f"{TOOLS}/scenario", f"{folder}/day.scenario", "--seconds", "1" if how in SILENT else "20", "--programs", f"{folder}/programs"],
                             capture_output=True, text=True, timeout=SECONDS, check=False)
    except subprocess.TimeoutExpired:
        raise Broken(f"scenario, {how} after {count} lines: it hangs") from None
    finally:
        shutil.rmtree(folder)
    program.tally("scenario, bad controller", f"{how}: status {ran.returncode}")
    wrong = judged(how, ran)
    if wrong:
        raise Broken(f"scenario, {how} after {count} lines: {wrong}; {ran.stderr[-300:]!r}")


def judged(how, ran):
    if ran.returncode not in TOLD:
        return f"status {ran.returncode}"
    if "Traceback" in ran.stderr:
        return "a traceback"
    if ran.returncode > 1 and (ran.stdout or not ran.stderr.startswith("scenario: ")):
        return "it doesn't say why, or tells verdicts"
    if how in SILENT and ran.returncode == 1 and not (ran.stdout or ran.stderr.startswith("scenario: the controller was ended by --seconds: ")):
        return "it doesn't say that it was ended"
    if how in ANSWERS and (ran.returncode != 1 or ran.stdout or not ran.stderr.startswith("scenario: the controller was ended: it answered ")):
        return f"status {ran.returncode}, and not told what was answered"
    if how in ENDS and how != "ends 0" and ran.returncode < 2:
        return f"status {ran.returncode} of a run that broke off"
    return None


@contextlib.contextmanager
def bounded(what):
    """Raises what hangs; the signal's handler is the program's."""
    signal.setitimer(signal.ITIMER_REAL, OF_A_COMMAND)
    try:
        yield
    except Hung:
        raise Broken(f"{what} hangs") from None
    finally:
        signal.setitimer(signal.ITIMER_REAL, 0)


def of_online(program, how, count):
    files, known = parts()
    logix = known((program.path,), True)
    good = files.Programs(logix, known((program.beside("logix_live"),), True))
    bad = files.Programs(logix, known(tuple(words_of(program, how, count)), True))
    with bounded(f"online, {how} after {count} lines: the begin"):
        walk = files.Walk(Wanted, good, program.put("bad.json", json.dumps(PROJECT).encode()), 1)
        walk.page.session.rest()
        walk.page = files.Page(bad, source=PROJECT)
    walk.session = session = walk.page.session
    try:
        with patience(PATIENCE if how in SILENT else OF_A_COMMAND):
            for command, fields in COMMANDS:
                with bounded(f"online, {how} after {count} lines: {command} {fields}"):
                    walk.page.do(command, **fields)
        lost = session.lost is not None
        program.tally("online, bad controller", f"{how}: {'told' if lost else 'went on'}")
        session.programs = good
        with bounded(f"online, {how} after {count} lines: the return"):
            walk.page.do("again")
            walk.compare(f"online, {how} after {count} lines")
    finally:
        session.rest()


def bad_controllers(_, program, number):
    return of_turn, [str(one).encode() for one in TURNS[number % len(TURNS)]]
