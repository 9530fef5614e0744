"""What a controller's answers say: values, replies, edits, forces, faults, trends, and the last lines.

Answers may be hundreds of megabytes, of which the last value of each place is wanted: so they are gone over from their end, as far as
is needed.
"""

import collections
import hashlib
import re

from lib.programs import Astray

from .journal import OPERATOR

LINES_KEPT = 2_000
LINES_OF_AN_ANSWER = 200
TREND_KEPT = 4_000
LEAST, MOST = 4_096, 65_536  # bytes that are gone over at a time, from the end: more each time
FEW = 8  # so few names are looked for one by one
TOO_MANY = "it answered more than it was asked"

# Each begins at a line's feed, before the line, which makes them fast.
SETS = re.compile(rb"\n\d+ \d+ set (\S+) (-?\d+)(?=\n)")
BEGINS = re.compile(rb"\n\d+ \d+ begin \S+ (\S+) (\d+)(?=\n)")
TOLD = re.compile(rb"\n(\d+ \d+ (?:set|reply|fault) [^\n]*)")
ANSWERS = re.compile(rb"\n\d+ \d+ (reply|fault) ([^\n]*)")


def windows(answer):
    """Parts of an answer from its end, each whole lines from a feed to a feed."""
    end, size = len(answer) - 1, LEAST
    while end > 0:
        start = max(answer.rfind(b"\n", 0, max(end - size, 1)), 0)
        yield start, end + 1
        end, size = start, min(size * 4, MOST)


def last_of(form, names, answer, mark=None):
    """The last number that lines of this form give each name. Where few names are left they are looked for one by one, if what stands
    before a name in its line is a `mark`."""
    found, missing = {}, set(names)
    for start, end in windows(answer):
        if mark and len(missing) <= FEW:
            for name in missing:
                at = answer.rfind(mark + name + b" ", 0, end)
                if at >= 0:
                    at += len(mark) + len(name) + 1
                    found[name] = int(answer[at:answer.index(b"\n", at)])
            break
        some = dict(form.findall(answer, start, end))
        found.update({name: int(some[name]) for name in missing & some.keys()})
        missing -= some.keys()
        if not missing:
            break
    return found


def last_lines(answer, count):
    """The last lines that are told, without those of scans that begin."""
    found = []
    for start, end in windows(answer):
        found = TOLD.findall(answer, start, end) + found
        if len(found) >= count:
            break
    return found[-count:]


class Seen:
    """What a process has answered since it began."""

    def __init__(self, values, book, trends):
        self.names = {name.encode(): name for name in values}
        self.values, self.book = values, book
        self.programs = {name.encode(): name for name in book.programs}
        self.mode, self.replies, self.book_changes = "program", 0, 0
        self.versions = {}
        self.lines, self.last_lines = collections.deque(maxlen=LINES_KEPT), []
        self.faults = collections.deque(maxlen=64)
        self.trends = {name: collections.deque([(0, values[name])], TREND_KEPT) for name in trends if name in values}
        self.forces, self.enabled, self.sent = {}, False, {}
        self.sum, self.bytes = hashlib.sha256(), 0

    def take(self, answer, acts):
        """An answer, as whole lines; `acts` are the journal's actions, which the replies are to in order. Answers the last values."""
        self.sum.update(answer)
        self.bytes += len(answer)
        answer = b"\n" + answer
        fresh = {self.names[name]: value for name, value in last_of(SETS, self.names, answer, b" set ").items()}
        self.values.update(fresh)
        for name in self.trends.keys() & fresh.keys():
            self.trend(name, answer)
        if b" begin " in answer:
            self.versions.update({self.programs[name]: value for name, value in last_of(BEGINS, self.programs, answer).items()})
        if b" reply " in answer or b" fault " in answer:
            for verb, rest in ANSWERS.findall(answer):
                self.told(verb, rest.decode().split(" "), acts)
        self.last_lines = self.placed(last_lines(answer, LINES_OF_AN_ANSWER))
        self.lines.extend(self.last_lines)
        return fresh

    def trend(self, name, answer):
        """The last changes of a tag; as many as are kept."""
        mark, points, end = b" set " + name.encode() + b" ", [], len(answer)
        while len(points) < TREND_KEPT:
            at = answer.rfind(mark, 0, end)
            if at < 0:
                break
            end = answer.rfind(b"\n", 0, at)
            points.append((int(answer[end + 1:answer.index(b" ", end)]), int(answer[at + len(mark):answer.index(b"\n", at)])))
        self.trends[name].extend(reversed(points))

    def placed(self, lines):
        """The last lines of what was answered, each with the place right after its event."""
        found, replies = [], self.replies
        for line in reversed(lines):
            tick, step, verb, _ = line.split(None, 3)
            found.append((int(tick) + int(step) + replies, line.decode()))
            replies -= verb == b"reply"
        return found[::-1]

    def told(self, verb, words, acts):
        if verb == b"fault":
            self.faults.append(words)
            self.mode = "faulted" if words[0] == "major" else self.mode
            return
        if self.replies >= len(acts):
            raise Astray(TOO_MANY)
        line = acts[self.replies]
        self.replies += 1
        if words[1] == "ok":
            lane, line = (line[1:].split(None, 1)) if line.startswith("@") else (OPERATOR, line)
            self.done(int(lane), line)

    def done(self, lane, line):
        """An action was done."""
        verb, *rest = line.split()
        if verb == "mode":
            self.mode = rest[0]
        elif verb == "clear":
            self.mode = "program"
        elif verb == "in":
            self.sent[rest[0].lower(), int(rest[1])] = int(rest[2])
        elif verb == "force":
            self.force(rest)
        elif verb != "out":
            self.book.done(lane, line)
            self.book_changes += 1

    def force(self, words):
        if len(words) == 4:
            self.forces[words[0].lower(), int(words[1])] = (int(words[2]), int(words[3]))
        elif words[0] == "remove":
            self.forces, self.enabled = {}, False
        else:
            self.enabled = words[0] == "enable"
