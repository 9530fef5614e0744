"""Calls of the program on a small, a middle and a long example, and whether an answer is a right one or the beginning of one."""

import random
from typing import NamedTuple

from lib.paths import EXAMPLES, read_bytes

from . import lanes
from .cases import file_text, journal_text
from .laws import Broken
from .made import Maker
from .plain.journal import Script
from .sound import shown

FIRST, CONVEYOR, AUDIT, SHIFT, NEVER = (f"{EXAMPLES}/{name}" for name in ("first", "conveyor", "audit", "two_engineers", "never"))
STATIONS = f"{EXAMPLES}/two_stations"
WATCHED, STEPS_OF_LONG = 200, 130
MIDDLE_SCRIPT = journal_text([
    "run 120 10 4", "@0 0 in In1 0 0", "@0 0 in In1 1 3", "@1 1 accept Conveyor Main r 3 XIC(HornT.DN)XIO(Local:1:I.Fault.0)OTE(Motor);",
    "@1 2 test Conveyor", "@1 6 assemble Conveyor", "@2 3 force Out1 0 1 1", "@2 4 force enable", "@3 5 out Out1 0", "@3 7 in In1 1 6", "end",
])
EXPLORED = journal_text(["run 24 8 2", "@0 1 in Panel 0 1", "@1 2 in Starter 0 1", "end"])
TAKER = b"""{"schema": 2, "controller": "Taker", "tags": [{"name": "w", "type": "DINT"}, {"name": "seen", "type": "DINT", "dim": 4}],
 "programs": [{"name": "P", "main": "M", "routines": [{"name": "M", "rungs": ["MOV(w,seen[1]);", "[XIC(w.0),XIC(w.1)]OTL(seen[0].3);"]}]}],
 "tasks": [{"name": "T", "kind": "continuous", "programs": ["P"]}],
 "connections": [{"name": "In", "tag": "w", "direction": "in"}], "watch": ["w", "seen[0]", "seen[1]"]}"""
LINK_SCRIPT = journal_text([
    "link Out1 In", "a mode run", "b mode run", "a in In1 0 0", "a in In1 1 3", "a cpu 22", "send", "a tick 10", "a cpu 9", "send", "deliver 1",
    "b cpu 5", "deliver 0", "b tick 3", "b cpu 6", "end",
])


def long_report(steps):
    """A project that watches one tag many times, and a journal: a scan of four steps or so writes some four thousand bytes."""
    maker = Maker(random.Random("a long report"), 0.0)
    project = maker.project()
    project["tasks"] = [{"name": "T", "kind": "continuous", "programs": maker.names}]
    for connection in project["connections"]:
        connection.pop("trigger", None)
    for program in project["programs"]:
        program["routines"] = [{"name": "M", "rungs": ["ADD(Local:2:O,1,Local:2:O);"]}]
    project["watch"], project["initial"] = ["Local:2:O"] * WATCHED, []
    return file_text(project), journal_text(["mode run", f"cpu {steps}", "end"])


class Call(NamedTuple):
    """A call by its name: a command and an example. `script` is the script of a `run`."""

    name: str
    words: list
    given: bytes = b""
    path: object = None
    script: bytes = b""

    def run(self, program, **more):
        return program.run(self.words, given=self.given, path=self.path, **more)

    def same(self, program, out, whole):
        """Raises what differs from the whole answer, which threads may change within the rules."""
        if self.script:
            lanes.judge_answer(program, read_bytes(self.words[1]), Script(self.script), out)
        elif fixed(self, out) != fixed(self, whole):
            raise Broken(f"{shown(out)}, and not {shown(whole)}")

    def begins(self, out, whole):
        """Raises what shows that the output isn't a beginning of an answer."""
        if not fixed(self, whole).startswith(b"mode run\n"[:len(out)] if self.script else fixed(self, out)):
            raise Broken(f"{shown(out)} doesn't begin {shown(whole)}")


def fixed(call, out):
    """What doesn't depend on threads: all but what a station gave first."""
    if call.words[0] != "stations":
        return out
    lines = out.splitlines(keepends=True)
    first = [at for at, line in enumerate(lines) if line.startswith(b"station ")][::2]
    return b"".join(b" ".join(line.split(b" ")[:2]) if at in first else line for at, line in enumerate(lines))


def calls_of(program):
    """Each command that the program has, on a small and a middle example; one with an output that takes several writes."""
    made = []
    for example, folder in (("first", FIRST), ("conveyor", CONVEYOR)):
        project, journal = f"{folder}/project.json", f"{folder}/journal.txt"
        made += [Call(f"{verb} {example}", [verb, project]) for verb in ("check", "text", "migrate", "xref")]
        made += [Call(f"{verb} {example}", [verb, project, journal]) for verb in ("replay", "trace")]
        made.append(Call(f"stations {example}", ["stations", project, journal, "2" if example == "first" else "5"]))
        if program.beside("logix_live"):
            made.append(Call(f"live {example}", [project], read_bytes(journal), program.beside("logix_live")))
        if program.beside("logix_cover"):
            made.append(Call(f"cover {example}", [project, journal], path=program.beside("logix_cover")))
    if program.beside("logix_explore"):
        script = program.put("turn-explored", EXPLORED)
        for name in ("never Fwd = 1 and Rev = 1", "never Fwd = 1"):
            files = [f"{NEVER}/interlock.json", script, program.put(f"turn-{name.replace(' ', '')}", journal_text([name, "end"]))]
            made.append(Call(f"explore, {name}", files, path=program.beside("logix_explore")))
    files = [program.put(f"turn-long{at}", text) for at, text in enumerate(long_report(STEPS_OF_LONG))]
    made.append(Call("replay long", ["replay", *files]))
    trace = program.put("turn-trace", program.run(["trace", f"{FIRST}/project.json", f"{FIRST}/journal.txt"]).out)
    made += [Call("audit first", ["audit", f"{FIRST}/project.json", trace])]
    made += [Call(f"audit {name}", ["audit", f"{AUDIT}/project.json", f"{AUDIT}/{name}.txt"]) for name in ("trace", "doctored")]
    if program.beside("logix_laws"):
        made += [Call("laws first", [f"{FIRST}/project.json", trace], path=program.beside("logix_laws")),
                 Call("laws doctored", [f"{AUDIT}/project.json", f"{AUDIT}/doctored.txt"], path=program.beside("logix_laws"))]
    script, middle = f"{SHIFT}/shift.txt", program.put("turn-script", MIDDLE_SCRIPT)
    made.append(Call("run two_engineers", ["run", f"{SHIFT}/project.json", script], script=read_bytes(script)))
    made.append(Call("run conveyor", ["run", f"{CONVEYOR}/project.json", middle], script=MIDDLE_SCRIPT))
    made.append(Call("link two_stations", ["link", f"{STATIONS}/a.json", f"{STATIONS}/b.json", f"{STATIONS}/link.txt"]))
    taker, linked = program.put("turn-taker", TAKER), program.put("turn-link", LINK_SCRIPT)
    made.append(Call("link conveyor", ["link", f"{CONVEYOR}/project.json", taker, linked]))
    made.append(Call("gen 1", ["gen", "1"]))
    for name in ("logix_timeline", "logix_wave"):
        if program.beside(name):
            made += [Call(f"{name} {example}", ["tick"], read_bytes(f"{folder}/report.txt"), program.beside(name))
                     for example, folder in (("first", FIRST), ("conveyor", CONVEYOR))]
    return [call for call in made if call.path or call.words[0] in program.commands]
