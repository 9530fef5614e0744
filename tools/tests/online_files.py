"""A session of tools/online in this process, and what a new process of the controller says of the same journal."""

import json
import random
import subprocess
import tempfile

from common import TOP, built, read_text
from plain_programs import LIVE, LOGIX
from lib.online.commands import Commands
from lib.online.guards import Refused
from lib.online.main import explainer
from lib.online.player import Player
from lib.online.processes import Programs
from lib.online.session import Session
from lib.online.shown import Shown
from lib.online.uses import Uses

PLAIN = Programs(LOGIX, LIVE)
CONVEYOR = f"{TOP}/examples/conveyor/project.json"
SAID = explainer()


class Page:
    """A session with its commands, as the server has it, and what was told to the pages."""

    def __init__(self, programs=PLAIN, path=CONVEYOR, source=None):
        self.source = source or json.loads(read_text(path))
        self.session = Session(programs, self.source, SAID)
        self.player = Player(self.session, lambda fresh: self.shown.frame(fresh))
        self.shown = Shown(self.session, self.player, {"title": "test"})
        self.session.on_snap = self.shown.snapshot
        self.commands = Commands(self.session, self.player, self.shown, Uses(self.session), lambda: None)
        self.heard = []
        self.session.listener = lambda kind, data: self.heard.append((kind, data))

    def __enter__(self):
        return self

    def __exit__(self, *_):
        self.player.pause()
        self.session.rest()

    def do(self, command, **fields):
        return self.commands.do(command, fields)

    def act(self, words, lane=31):
        return self.do("act", lane=lane, text=words)["answer"]

    def notes(self):
        return [data["text"] for kind, data in self.heard if kind == "note"]

    def values(self):
        return dict(self.shown.snapshot()["values"])


def anew(programs, source, watch, lines):
    """What a new process says that is told these lines: all answers, and what they come to, folded line by line."""
    with tempfile.TemporaryDirectory() as room:
        project, end = f"{room}/project.json", f"{room}/end.txt"
        for path, text in ((project, json.dumps({**source, "watch": watch})), (end, "end\n")):
            with open(path, "w", encoding="utf-8") as file:
                file.write(text)
        told = subprocess.run([*programs.live.words, project], input=lines.encode(), stdout=subprocess.PIPE, check=True).stdout.decode()
        opening = subprocess.run([*programs.logix.words, "stations", project, end, "1"], stdout=subprocess.PIPE, check=True).stdout.decode()
    values, versions, faults, replies = dict(zip(watch, map(int, opening.splitlines()[-1].split()[3:]))), {}, 0, []
    *answers, last = told.splitlines()
    for line in answers:
        verb, *rest = line.split(" ")[2:]
        if verb == "set":
            values[rest[0]] = int(rest[1])
        elif verb == "begin":
            versions[rest[1]] = int(rest[2])
        elif verb == "fault":
            faults += 1
        else:
            replies.append(" ".join(rest[1:]))
    _, tick, step, mode, _, _ = last.split()
    return {"values": values, "versions": versions, "faults": faults, "replies": replies, "mode": mode, "tick": int(tick), "step": int(step),
            "lines": [line for line in answers if line.split(" ")[2] != "begin"]}


class Walk:
    """Random commands; after each, what is shown is what a new process says."""

    def __init__(self, test, programs, path, seed):
        self.test, self.programs, self.draw = test, programs, random.Random(seed)
        self.source = json.loads(read_text(path))
        self.page = Page(programs, source=self.source)
        self.session = self.page.session

    def take(self, count):
        with self.page as page:
            page.act("mode run")
            for _ in range(count):
                command, fields = self.draw.choice(WAYS)(self)
                try:
                    page.do(command, **fields)
                except Refused:
                    pass
                page.heard.clear()
                self.compare(f"{command} {fields}")
            told = page.do("check")
            self.test.assertTrue(told["same"] or "lost" in told["text"], told)

    def compare(self, what):
        session, shown = self.session, self.page.shown.snapshot()
        lines = "".join(session.journal.front(session.at).text())
        told = anew(self.programs, self.source, session.watched, lines)
        ours = {"values": dict(shown["values"]), "versions": dict(shown["versions"]), "faults": min(told["faults"], len(session.seen.faults)), "mode": shown["mode"],
                "tick": shown["tick"], "step": shown["step"], "lines": [line for _, line in shown["lines"]]}
        told["lines"] = told["lines"][-len(ours["lines"]):] if ours["lines"] else []
        theirs = {name: told[name] for name in ours}
        theirs["faults"] = min(told["faults"], 64)
        self.test.assertEqual(ours, theirs, what)
        self.test.assertEqual(session.seen.replies, len(told["replies"]), what)

    # Ways on and back

    def cpu(self):
        return "cpu", {"count": self.draw.choice((1, 3, 40, 500))}

    def tick(self):
        return "tick", {"count": self.draw.choice((1, 5, 60))}

    def scan(self):
        return "scan", {"program": self.draw.choice(self.source["programs"])["name"], "steps": self.draw.choice((1, 7, 30))}

    def go(self):
        return "go", {"to": self.draw.randrange(self.session.journal.length + 1)}

    def last(self):
        return "last", {}

    def back(self):
        return "back", {"place": self.draw.choice(self.session.watched or ["nothing"])}

    def restore(self):
        return "restore", {}

    def view(self):
        program = self.draw.choice(self.source["programs"])
        return "view", {"program": program["name"], "routine": self.draw.choice(program["routines"])["name"]}

    def watch(self):
        return "watch", {"place": self.draw.choice(self.session.watched or ["nothing"]), "on": self.draw.random() < 0.6}

    def trend(self):
        return "trend", {"place": self.draw.choice(self.session.watched or ["nothing"]), "on": True}

    def act(self):
        return "act", {"lane": self.draw.choice((31, 0, 1)), "text": self.words()}

    def words(self):
        draw, connections = self.draw, self.source.get("connections") or [{"name": "None"}]
        name, program = draw.choice(connections)["name"], draw.choice(self.source["programs"])
        if draw.random() < 0.5:
            return f"in {name} {draw.randrange(2)} {draw.getrandbits(8)}"
        return draw.choice([f"out {name} 0", "force enable", "force remove", f"force {name} 0 {draw.getrandbits(4)} {draw.getrandbits(4)}", "mode run", "mode program",
                            "clear", f"test {program['name']}", f"untest {program['name']}", f"assemble {program['name']}", f"cancel {program['name']}", self.accept(program),
                            self.accept(program)])

    def accept(self, program):
        """Edits of one routine: rungs of the project, put in, in place, and out."""
        draw, routine, edits = self.draw, self.draw.choice(program["routines"]), []
        for _ in range(draw.randrange(1, 4)):
            kind, index = draw.choice("rid"), draw.randrange(len(routine["rungs"]) + 2)
            text = draw.choice([rung for one in program["routines"] for rung in one["rungs"]] or ["NOP();"])
            edits.append(f"{kind} {index}" + (f" {text}" if kind != "d" else ""))
        return f"accept {program['name']} {routine['name']} {' | '.join(edits)}"


WAYS = [Walk.cpu, Walk.cpu, Walk.tick, Walk.scan, Walk.go, Walk.go, Walk.last, Walk.back, Walk.restore, Walk.view, Walk.watch, Walk.trend, Walk.act, Walk.act, Walk.act,
        Walk.act]


def built_programs():
    """The built programs, as after the gate."""
    return Programs(*(type(LOGIX)((built(name),), True) for name in ("logix", "logix_live")))
