"""Two controllers, and packets from an output connection of A to an input connection of B, as a link script says."""

from .journal import Action, Bad, Reader, count_of, each_line, name_of, need, words_of

MOST_SENDS, MOST_DELIVERS = 10_000, 100_000


class LinkScript:
    """Its steps: ('a', event), ('b', event), ('send',) or ('deliver', number)."""

    def __init__(self, contents, a, b):
        self.projects, self.head, self.steps = (a, b), None, []
        self.readers = {"a": Reader(), "b": Reader()}
        self.sends = self.delivers = 0
        each_line(contents, self.take)

    def take(self, line):
        if self.head is None:
            self.first(words_of(line or ""))
        elif line is not None:
            self.step(words_of(line), line.lstrip(" "))

    def first(self, words):
        need(words, 3)
        if words[0] != "link":
            raise Bad("J1")
        names = name_of(words[1]), name_of(words[2])
        known = [[one for one in project.connections if one[0] == name.lower() and one[1] == goes_out]
                 for project, name, goes_out in zip(self.projects, names, (True, False))]
        if not all(known) or known[0][0][3] != known[1][0][3]:
            raise Bad("U1")
        self.head, self.words = names, known[0][0][3]

    def step(self, words, line):
        if words and words[0] in ("a", "b") and len(words) > 1:
            reader = self.readers[words[0]]
            reader.take(line[1:].lstrip(" "))
            self.steps.append((words[0], reader.events[-1]))
        elif words == ["send"]:
            self.sends += 1
            if self.sends > MOST_SENDS:
                raise Bad("J4")
            self.steps.append(("send",))
        elif words and words[0] == "deliver":
            need(words, 2)
            number = count_of(words[1])
            self.delivers += 1
            if self.delivers > MOST_DELIVERS:
                raise Bad("J4")
            self.steps.append(("deliver", number))
        else:
            raise Bad("J1")


class Link:
    """The run of a link script over two reporters."""

    def __init__(self, a, b, script):
        self.sides, self.script = {"a": a, "b": b}, script
        self.packets, self.last, self.lines = [], None, []
        self.seen = {"a": 0, "b": 0}

    def events(self, side, verb, count, lane=None, action=None):
        for _ in range(count):
            said = self.sides[side].event(verb, lane, action)
        lines = self.sides[side].lines
        self.lines += [f"{side} {line}" for line in lines[self.seen[side]:]]
        self.seen[side] = len(lines)
        return said

    def is_held(self, side):
        return self.sides[side].machine.is_syncing()

    def run(self):
        for step in self.script.steps:
            if step[0] in self.sides:
                self.events(step[0], step[1].verb, step[1].count, step[1].lane, step[1].action)
            elif step[0] == "send":
                self.lines.append(self.send())
            else:
                self.lines.append(f"deliver {step[1]} {self.deliver(step[1])}")
        self.lines += [f"{side} {self.sides[side].end()}" for side in ("a", "b")]
        return "".join(line + "\n" for line in self.lines)

    def send(self):
        if self.is_held("a"):
            return "send held"
        out = self.script.head[0]
        replies = [self.events("a", "act", 1, 31, Action("out", (out,), (word,))).reply for word in range(self.script.words)]
        self.packets.append([int(reply[3:]) for reply in replies])
        return f"send {len(self.packets) - 1}"

    def deliver(self, number):
        if number >= len(self.packets):
            return "none"
        if self.is_held("b"):
            return "held"
        if self.last is not None and number <= self.last:
            return "stale"
        self.last = number
        for word, value in enumerate(self.packets[number]):
            self.events("b", "act", 1, 31, Action("in", (self.script.head[1],), (word, value)))
        return "new"
