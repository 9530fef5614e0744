"""What a page may ask for: each method takes the command's fields, checks them, and answers what the page is told at once."""

import inspect

from . import taking
from .guards import Refused, name, text, truth, whole
from .journal import OPERATOR, Run
from .stops import COMPARED, FAULTS, MOST, Stop, first
from .watch import ROWS

MOST_STEPS = 1_000_000  # of a tick
MOST_EVENTS = 4_000_000  # of one command
MOST_TEXTS = 128
LONGEST_RUNG = 4_096


def explained(session, said):
    """What the codes of a refusal mean."""
    return [] if said.startswith("ok") else session.explain(said)


class Commands:
    LOOKING = frozenset(("draw", "usage", "snap", "whole"))  # what needs no controls

    def __init__(self, session, player, shown, uses, end):
        self.session, self.player, self.shown, self.uses, self.end = session, player, shown, uses, end

    def do(self, command, fields):
        method = getattr(self, f"do_{command}", None)
        if method is None:
            raise Refused(400, "no such command")
        try:
            inspect.signature(method).bind(**fields)
        except TypeError as fault:
            raise Refused(400, "wrong fields") from fault
        if command in ("pause", "draw", "whole", "end"):
            return method(**fields) or {}
        with self.player.first():
            return method(**fields) or {}

    # On

    def event(self, entry):
        self.player.pause()
        self.shown.frame(self.session.add(entry)[1])

    def do_cpu(self, count):
        self.event(Run("cpu", whole(count, 1, MOST_EVENTS)))

    def do_tick(self, count):
        self.event(Run("tick", whole(count, 1, MOST_EVENTS)))

    def do_play(self, speed, steps):
        if isinstance(speed, bool) or not isinstance(speed, (int, float)) or not 0.001 <= speed <= 10_000:
            raise Refused(400, "a speed from 0.001 to 10,000")
        if not self.session.programs.live.proved:
            raise Refused(409, "a controller that isn't proved can't play in real time: run tools/prove")
        self.player.play(float(speed), whole(steps, 1, MOST_STEPS))

    def do_pause(self):
        self.player.halt.set()
        with self.session.lock:
            self.player.pause()

    def do_scan(self, program, steps):
        self.player.pause()
        self.player.steps = whole(steps, 1, MOST_STEPS)
        self.player.scan(name(program))

    def do_until(self, steps):
        self.player.pause()
        self.player.steps = whole(steps, 1, MOST_STEPS)
        if not self.session.watch.stops:
            raise Refused(400, "no stop is set")
        self.player.until(self.session.watch.stops, " or ".join(map(str, self.session.watch.stops)))

    def do_stop(self, kind, place="", value=0):
        """One stop more."""
        watch = self.session.watch
        if _text(kind) not in COMPARED and kind not in FAULTS or len(watch.stops) >= MOST:
            raise Refused(400, f"no stop, or more than {MOST}")
        made = Stop(kind, name(place) if kind in COMPARED else "", whole(value, -2**31, 2**31 - 1) if kind in COMPARED else 0)
        watch.stops = [stop for stop in watch.stops if stop != made] + [made]
        self.shown_anew()
        spelled = next((each for each in self.session.watched if each.lower() == made.place.lower()), made.place)
        watch.stops = [Stop(stop.kind, spelled, stop.value) if stop == made else stop for stop in watch.stops]
        if made.place and spelled not in self.session.watched:
            watch.stops = [stop for stop in watch.stops if stop.place != made.place]
            raise Refused(400, f"{made.place} can't be watched")
        self.session.snap()

    def do_unstop(self, index):
        stops = self.session.watch.stops
        if stops:
            del stops[whole(index, 0, len(stops) - 1)]
        self.session.snap()

    def do_act(self, lane, text):
        session, player = self.session, self.player
        if player.playing:
            player.catch_up()
        before, changes = dict(session.seen.values), session.seen.book_changes
        said, answer, fresh = session.act(whole(lane, 0, OPERATOR), _text(text))
        if changes != session.seen.book_changes:
            self.shown_anew()
        else:
            self.shown.frame(fresh)
            self.stop_or_go_on(first(session.watch.stops, answer, before, session.seen.replies - 1)[1])
        return {"answer": said, "said": explained(session, said)}

    def stop_or_go_on(self, stop):
        """After an action: it may have met a stop; else what is due by now is told at once."""
        if self.player.playing and stop:
            self.player.pause()
            self.session.note(f"stopped: {stop}")
        elif self.player.playing:
            self.player.catch_up()

    def shown_anew(self):
        """What is to be watched may have changed."""
        was = self.player.playing
        self.session.rewatch()
        if was and self.session.here and not self.player.playing:
            self.player.play(self.player.speed, self.player.steps)

    # Back

    def go(self, to):
        self.player.pause()
        self.session.go(to)

    def do_go(self, to):
        self.go(whole(to, 0, 1_000_000_000))

    def do_last(self):
        self.go(self.session.journal.length)

    def do_back(self, place=None, program=None):
        session = self.session
        if place is None:
            scanned, task = self.task_of(name(program))
            mark, began = f" begin {task} {scanned} ", f"{scanned} has just begun a scan"
        else:
            spelled = next((each for each in session.watched if each.lower() == name(place).lower()), None)
            if spelled is None:
                raise Refused(400, f"{place} isn't watched")
            mark, began = f" set {spelled} ", None
        self.player.pause()
        found = session.find(mark.encode(), session.at)
        if found is None:
            return session.note(f"{spelled} never changed before" if place else f"{scanned} began no scan before")
        session.go(found)
        if began:
            return session.note(began)
        text, rungs = self.uses.told(spelled)
        session.note(f"{spelled} has just changed {text}".strip(), "", written={"name": spelled, "text": text, "uses": rungs})

    def task_of(self, program):
        source = self.session.plan.source
        for task in source["tasks"]:
            for each in task["programs"]:
                if each.lower() == program.lower():
                    return next(one["name"] for one in source["programs"] if one["name"].lower() == program.lower()), task["name"]
        raise Refused(400, "no such program")

    def do_restore(self):
        self.player.pause()
        self.session.restore()

    def do_again(self):
        self.session.go(self.session.at, renew=True)

    # What is shown

    def do_view(self, program, routine, rung=0):
        book, watch = self.session.seen.book.programs, self.session.watch
        held = book.get(name(program))
        if not held or name(routine) not in held.base:
            raise Refused(400, "no such routine")
        watch.view, watch.first_row = (program, routine), whole(rung, 0, 100_000) // ROWS * ROWS
        self.shown_anew()

    def do_watch(self, place, on):
        self.session.left_out.discard(name(place).lower())
        self.session.watch.put(place, truth(on))
        self.shown_anew()

    def do_trend(self, place, on):
        self.session.watch.put_trend(name(place), truth(on))
        self.shown_anew()

    def do_draw(self, program, texts, width):
        if not isinstance(texts, list) or len(texts) > MOST_TEXTS:
            raise Refused(400, "no texts, or too many")
        return {"drawn": self.shown.draw(name(program), [_text(each, LONGEST_RUNG) for each in texts], whole(width, 100, 10_000))}

    def do_usage(self, place):
        return {"uses": self.uses.of(name(place))}

    def do_whole(self):
        with self.session.lock:
            trend = taking.WholeTrend(self.session)
        return trend.told()

    def do_snap(self):
        return self.shown.snapshot()

    # Taken away

    def do_check(self):
        self.player.pause()
        return taking.check(self.session)

    def do_verify(self, lane, text):
        said = taking.verify(self.session, whole(lane, 0, OPERATOR), _text(text))
        return {"answer": said, "said": explained(self.session, said)}

    def do_end(self):
        self.end()


_text = text  # (a field of the same name hides it)
