"""What an engineer takes away: the journal, the project with its watch or with the rungs as they are now; whether `./logix replay` gives
the same report; what an accept would be answered; and the trend over the whole past."""

import hashlib
import os
import re
import subprocess

from lib.programs import Astray, Ended

from .edits import Book
from .follower import Follower, until
from .journal import Act, action, texts
from .seen import Seen
from lib.talk import talk

BUCKETS = 600  # of the whole trend
MOST_EVENTS = 50_000_000  # of a journal whose whole trend is told


def journal(session):
    return "".join(session.journal.text())


def watched(session):
    return session.plan.copy(session.watched)


def assembled(session):
    """The project with the base rungs as they are now."""
    book = session.seen.book.programs
    return session.plan.copy(session.watch.table, lambda program, routine: book[program].base[routine])


def check(session):
    """Whether `./logix replay` of this journal gives byte for byte what was answered here."""
    part = session.journal.front(session.at)
    path, project = session.write("journal.txt", "".join(part.text())), session.write("replayed.json", watched(session))
    done = subprocess.run([*session.programs.logix.words, "replay", project, path], stdout=subprocess.PIPE, stdin=subprocess.DEVNULL, check=False)
    if done.returncode:
        text = f"{done.returncode} {done.stdout.decode().strip()}"
        return {"same": False, "text": f"replay can't: status {text}", "said": session.explain(text)}
    ours, (ticks, steps) = session.seen.sum.copy(), session.journal.counts(session.at)
    ours.update(f"end {ticks} {steps} {session.seen.mode} lost 0\n".encode())
    lost = done.stdout[done.stdout.rfind(b" lost ") + 6:-1].decode()
    if lost != "0":
        return {"same": False, "text": f"replay's report has room for 100,000 lines, and lost {lost}", "said": []}
    same = hashlib.sha256(done.stdout).digest() == ours.digest()
    return {"same": same, "text": f"{'the same' if same else 'NOT the same'} {len(done.stdout):,} bytes", "said": []}


def verify(session, lane, words):
    """What an action would be answered here: by a process that is told all, and ended."""
    line = action(lane, words)
    if line is None or not session.here:
        return "no action"
    values = {name: session.opening[name] for name in session.watched}
    follower = Follower(session.programs.live, os.path.join(session.folder, "watched.json"), Seen(values, Book(session.listing), []))
    try:
        follower.tell(session.journal.part(0, session.at), session.journal.acts, session.at)
        answer, _ = follower.tell([Act(line)], [*session.journal.acts[:follower.seen.replies], line], session.at + 1)
        told = re.search(rb" reply \d+ ([^\n]*)\n", answer)
        return told[1].decode() if told else follower.refused or "no answer"
    except Ended as ended:
        return ended.told()
    finally:
        follower.close()


class WholeTrend:
    """The trend of some tags over the whole past, from a process of its own that watches no others."""

    def __init__(self, session):
        """Takes what it needs of the session, whose lock it doesn't hold then."""
        self.names = [name for name in session.watch.trends if name in session.watched]
        self.entries, self.at = list(session.journal.part(0, session.at)), session.at
        self.ticks = session.journal.counts(session.at)[0]
        self.points = {name: [[0, session.opening[name], session.opening[name], session.opening[name]]] for name in self.names}
        self.program, self.project = session.programs.live, session.write("trend.json", session.plan.copy(self.names))

    def told(self):
        """Of each tag points, each a tick, the least and the greatest value up to it since the point before, and the last."""
        if self.at > MOST_EVENTS or not self.names:
            return {"text": f"the trend of more than {MOST_EVENTS:,} events isn't told"} if self.names else {}
        process, form = talk(self.program, self.project), re.compile(rb"^(\d+) \d+ set (\S+) (-?\d+)$", re.M)
        wide, points = max(self.ticks // BUCKETS, 1), {name.encode(): some for name, some in self.points.items()}
        process.until = until(self.at)
        try:
            for answer in process.tell(texts(self.entries)):
                for tick, name, value in form.findall(answer):
                    if name not in points:
                        raise Astray("it answered what it wasn't asked")
                    self.put(points[name], int(tick), int(value), wide)
        except Ended as ended:
            return {"text": ended.told()}
        finally:
            process.close()
        return {"tick": self.ticks, "points": list(self.points.items())}

    @staticmethod
    def put(points, tick, value, wide):
        last = points[-1]
        if tick // wide == last[0] // wide:
            last[1], last[2], last[3], last[0] = min(last[1], value), max(last[2], value), value, tick
        else:
            points.append([tick, min(value, last[3]), max(value, last[3]), value])
