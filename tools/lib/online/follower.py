"""A process that follows the journal, with all that it has answered; and one that waits further back, for the way there."""

import re
import threading
import time

from lib.programs import Astray, Ended
from lib.talk import talk

from .journal import Act, texts
from .seen import TOO_MANY

ROUND = 2_000_000  # bytes of answers that are gone over at once
REFUSED = re.compile(rb"^line (\S+) (\d+)\n", re.M)
BEHIND = 1_000_000  # events that the waiting process is behind
WORTH = 2_000_000  # so many, and it waits
# How long answers are waited for, in seconds: at least, and for each event more. The proved controller takes millions of events a second.
PATIENCE, OF_AN_EVENT = 20, 200e-6


def until(events):
    """The time up to which the answers to so many events are waited for."""
    return time.monotonic() + PATIENCE + events * OF_AN_EVENT


class Follower:
    def __init__(self, program, project, seen):
        self.talk, self.seen, self.at = talk(program, project), seen, 0
        self.refused = None  # the last line of an answer that refused one
        self.asked = 0  # actions that were told

    def tell(self, entries, acts, to):
        """Tells entries, up to the place `to`; answers what was answered and what was set, the last of each."""
        answers, rounds, size, fresh = [], [], 0, {}
        self.refused, self.talk.until = None, until(to - self.at)
        for answer in self.talk.tell(texts(self.counted(entries))):
            if answer.startswith(b"line ") or b"\nline " in answer:
                self.refused = REFUSED.search(answer)[0].decode().strip()
                answer = REFUSED.sub(b"", answer)
            rounds.append(answer)
            size += len(answer)
            if size >= ROUND:
                fresh.update(self.seen.take(b"".join(rounds), acts))
                answers, rounds, size = rounds, [], 0
        if rounds:
            answers = rounds
            fresh.update(self.seen.take(b"".join(rounds), acts))
        if self.seen.replies > self.asked:
            raise Astray(TOO_MANY)
        if not self.refused:
            self.at = to
        return b"".join(answers), fresh

    def counted(self, entries):
        for entry in entries:
            self.asked += isinstance(entry, Act)
            yield entry

    def last(self, mark, entries, events):
        """The place right after the last event whose answer has this; None if there is none. It is told from the beginning, so many events,
        and no more is taken of its answers."""
        found, replies = None, 0
        self.talk.until = until(events)
        for answer in self.talk.tell(texts(entries)):
            end = answer.rfind(mark)
            if end >= 0:
                tick, step = answer[answer.rfind(b"\n", 0, end) + 1:end].split()[:2]
                found = int(tick) + int(step) + replies + answer.count(b" reply ", 0, end)
            replies += answer.count(b" reply ")
        return found

    def close(self):
        self.talk.close()


class Waiting:
    """A follower that is told, in the background, all but the last events: a way back of fewer begins there."""

    def __init__(self):
        self.follower, self.thread, self.target, self.closed = None, None, 0, False

    def wants(self, at):
        """Whether it is worth while to tell it more, now that the controller is at this place."""
        return at - self.target >= WORTH and not (self.thread and self.thread.is_alive())

    def advance(self, make, journal, at):
        """Tells it the events up to some before `at`; `make` makes a new follower."""
        entries, self.target = list(journal.part(self.target, at - BEHIND)), at - BEHIND
        self.thread = threading.Thread(target=self.tell, args=(make, entries, list(journal.acts), self.target), daemon=True)
        self.thread.start()

    def tell(self, make, entries, acts, to):
        try:
            self.follower = self.follower or make()
            if self.closed:
                self.follower.close()
            self.follower.tell(entries, acts, to)
        except (Ended, OSError):
            self.closed = True

    def take(self, to):
        """The follower, once it is at its place, if that isn't beyond this one. Whoever takes it makes another Waiting."""
        if not self.target or self.target > to:
            return None
        self.thread.join()
        return None if self.closed else self.follower

    def close(self):
        self.closed = True
        if self.follower:
            self.follower.close()
