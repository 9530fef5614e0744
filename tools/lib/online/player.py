"""Playing in real time, and running up to something: beats, each a tick and then some steps, told by the clock or by batches."""

import threading
import time
from contextlib import contextmanager

from .journal import MOST_EVENTS, Beat
from .stops import Stop, first

FRAME = 0.03  # s
LONG = 0.06  # s: where the beats of a frame take more, the next has fewer
MOST_OF_A_FRAME = 400_000  # events
FIRST_BATCH = 64  # beats, of a run up to something
LAST_BATCH = 65_536
MOST_BEATS = 500_000  # of a run up to something


class Player:
    def __init__(self, session, frame):
        """`frame` is called with what was set, after each change."""
        self.session, self.frame = session, frame
        self.playing, self.speed, self.steps, self.reached = False, 1.0, 20, 0.0
        self.plays = 0  # how often playing began: of each its thread
        self.halt = threading.Event()  # asks a run up to something to end
        self.asking, self.counting = 0, threading.Lock()  # commands that wait for their turn: they come first
        self.most = MOST_OF_A_FRAME  # events of the next frame
        self.began = self.rate_at = 0.0
        self.beats = self.rate_beats = 0

    @contextmanager
    def first(self):
        """The turn of a command."""
        with self.counting:
            self.asking += 1
        try:
            with self.session.lock:
                yield
        finally:
            with self.counting:
                self.asking -= 1

    # By the clock

    def play(self, speed, steps):
        with self.session.lock:
            self.speed, self.steps, self.playing, self.reached = speed, steps, True, 0.0
            self.began = self.rate_at = time.monotonic()
            self.beats = self.rate_beats = 0
            self.plays += 1
            threading.Thread(target=self.keep_playing, args=(self.plays,), daemon=True).start()
            self.frame({})

    def pause(self):
        if self.playing:
            self.playing = False
            self.frame({})

    def keep_playing(self, play):
        while True:
            with self.session.lock:
                if not self.playing or self.plays != play:
                    return
                start = time.monotonic()
                self.catch_up()
                took = time.monotonic() - start
            time.sleep(max(FRAME - took, 0.002))
            while self.asking:
                time.sleep(0.001)

    def due(self):
        """The beats that are due by the clock. Where the controller can't keep up the clock waits."""
        now = time.monotonic()
        due = int((now - self.began) * 1000 * self.speed) - self.beats
        most = max(int(self.most) // (1 + self.steps), 1)
        if due > most:
            self.began += (due - most) / (1000 * self.speed)
            due = most
        if now - self.rate_at >= 1:
            self.reached = (self.beats - self.rate_beats) / (now - self.rate_at) / 1000
            self.rate_at, self.rate_beats = now, self.beats
        return max(due, 0)

    def catch_up(self):
        session, due = self.session, self.due()
        if not due:
            return
        began = time.monotonic()
        room = (MOST_EVENTS - session.at) // (1 + self.steps)
        self.beats += due
        fresh = self.told(Beat(self.steps, min(due, room)), session.watch.stops) if room else session.add(Beat(self.steps, 1))[1]
        self.most = max(due * (1 + self.steps) / 2, 1) if time.monotonic() - began > LONG else min(self.most * 1.5, MOST_OF_A_FRAME)
        self.playing = self.playing and bool(session.here) and room > 0
        if session.here:
            self.frame(fresh)
        else:
            session.snap()

    def told(self, entry, stops):
        """An entry, to its end or to a stop. Answers what was set."""
        session, before = self.session, dict(self.session.seen.values)
        answer, fresh = session.add(entry)
        at, stop = first(stops, answer, before, session.seen.replies)
        if at is None:
            return fresh
        self.playing = False
        if at < session.at:
            session.keep(at)
            session.go(at)
        self.frame(fresh)
        session.note(f"stopped: {stop}")
        return {}

    # Up to something

    def until(self, stops, what):
        """Beats up to the first stop, by batches; what was told beyond it is taken back by another process. Without one it is as before."""
        session = self.session
        start, cut, old, told, batch = session.at, session.cut, session.journal, 0, FIRST_BATCH
        in_past = start < old.length
        self.halt.clear()
        while told < MOST_BEATS and session.here and not self.halt.is_set():
            batch = min(batch, (MOST_EVENTS - session.at) // (1 + self.steps))
            place, before = session.at, dict(session.seen.values)
            answer, _ = session.add(Beat(self.steps, max(batch, 1)))
            at, stop = first(stops, answer, before, session.seen.replies)
            if at is not None:
                session.keep(at)
                session.go(at)
                return session.note(f"stopped: {stop}")
            if session.at == place:
                break
            told, batch = told + batch, min(batch * 4, LAST_BATCH)
        session.journal, session.cut = old if in_past else session.journal.front(start), cut
        session.drop_waiting()
        session.go(start)
        session.note(f"not within {told:,} ticks: {what}")

    def scan(self, program):
        self.until([Stop("begin", program)], f"{program} begins a scan")
