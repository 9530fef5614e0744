"""What a page shows of a session: all of it, or what has changed."""

from functools import lru_cache
from itertools import islice

from lib.ladder import drawing
from lib.neutral import NoRung, canonical, elements
from lib.programs import Astray

from .journal import Act
from .watch import ROWS

LINES = 200
LINES_OF_A_FRAME = 24
TREND_OF_A_FRAME = 64
FAULTS = 8
MARKS = 300  # actions beside the slider


class Shown:
    def __init__(self, session, player, names):
        """`names` are those of the programs' files that the page tells of: title and such."""
        self.session, self.player, self.names = session, player, names
        self.drawn = lru_cache(4_096)(self.draw_one)

    def now(self):
        """What changes with each event but for values."""
        session, seen = self.session, self.session.seen
        tick, step = session.journal.counts(session.at)
        return {"at": session.at, "length": session.journal.length, "tick": tick, "step": step, "mode": seen.mode,
                "cut": bool(session.cut), "playing": self.player.playing, "reached": round(self.player.reached, 2),
                "versions": list(seen.versions.items()), "forces": [[*key, *value] for key, value in seen.forces.items()], "enabled": seen.enabled,
                "sent": [[*key, value] for key, value in seen.sent.items()],
                "faults": [[" ".join(words), session.explain(words[1])] for words in list(seen.faults)[-FAULTS:]]}

    def frame(self, fresh):
        """A change as the pages are told of it: last values, and the last lines."""
        session = self.session
        if not session.here:
            return session.snap()
        lines = session.seen.last_lines[-LINES_OF_A_FRAME:] if fresh else []
        session.emit("frame", {**self.now(), "values": list(fresh.items()), "lines": lines,
                               "trend": [[name, list(islice(reversed(trend), TREND_OF_A_FRAME))[::-1]] for name, trend in session.seen.trends.items() if name in fresh]})

    def snapshot(self):
        """All that a page shows."""
        session = self.session
        seen, watch = session.seen, session.watch
        program, routine = watch.view
        held = seen.book.programs[program]
        rows = held.rows(routine)
        if watch.first_row >= len(rows):
            watch.first_row = 0
        view = {"program": program, "routine": routine, "testing": held.testing, "owner": held.owner, "edits": len(held.edits),
                "first": watch.first_row, "count": len(rows), "rows": rows[watch.first_row:watch.first_row + ROWS]}
        return {**self.now(), "serial": session.serial, "view": view, "values": list(seen.values.items()), "lines": list(seen.lines)[-LINES:],
                "trends": [[name, list(trend)] for name, trend in seen.trends.items()],
                "table": [[name, session.plan.kind_of_watch(name)] for name in watch.table], "watched": len(session.watched),
                "edited": [name for name, each in seen.book.programs.items() if each.edits], "marks": self.marks(),
                "stops": [[stop.kind, stop.place, stop.value, str(stop)] for stop in watch.stops], "lost": self.lost(),
                "steps": self.player.steps, "speed": self.player.speed}

    def marks(self):
        """Where the last actions stand in the journal."""
        journal, found = self.session.journal, []
        for entry, start in zip(reversed(journal.entries), reversed(journal.starts)):
            if isinstance(entry, Act):
                found.append((start + 1, entry.line[:100]))
                if len(found) == MARKS:
                    break
        return found

    def lost(self):
        """How the process ended, in words."""
        ended = self.session.lost
        if not ended:
            return None
        if isinstance(ended, Astray):
            return {"text": f"It was ended from here: {ended.text}.", "said": []}
        if ended.status < 0:
            return {"text": f"It was ended from outside, by signal {-ended.status}.", "said": []}
        text = f"{ended.status} {ended.text.strip()}".strip()
        return {"text": f"It ended with status {text}.", "said": self.session.explain(text)}

    def layout(self):
        """What doesn't change: tasks, programs, connections."""
        plan = self.session.plan
        source = plan.source
        connections = [{**each, "words": [{"place": place, "names": list(plan.bit_names(place).items())} for place in plan.words(each)]}
                       for each in plan.connections]
        return {**self.names, "proved": self.session.programs.live.proved, "controller": source["controller"], "tasks": source["tasks"],
                "programs": [{"name": each["name"], "main": each["main"], "routines": [routine["name"] for routine in each["routines"]]}
                             for each in source["programs"]], "connections": connections}

    def draw(self, program, texts, width):
        """The drawings of rungs, also of what an engineer is writing."""
        return [self.drawn(program, text, width) for text in texts]

    def draw_one(self, program, text, width):
        try:
            found = elements(text)
        except NoRung as fault:
            return {"fault": fault.at}
        plan = self.session.plan
        shape, _ = drawing.rung(found, width=width, live_of=lambda instruction: plan.live(program, instruction)[0])
        return {"shape": shape.listed(), "text": canonical(found)}
