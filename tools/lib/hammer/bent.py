"""Mutations of texts: cuts, flips, doubled and swapped lines, numbers at limits and one past, deep brackets, long names."""

import json
import re

NUMBERS = (
    "0", "-0", "-1", "1", "2", "3", "15", "16", "17", "30", "31", "32", "33", "40", "64", "65", "100", "128", "129", "500",
    "4096", "65535", "65536", "65537", "262144", "1000000", "1000001", "2000000", "2000001", "4000000", "4000001",
    "2147483647", "2147483648", "-2147483648", "-2147483649", "4294967295", "4294967296", "9223372036854775808",
    "-9223372036854775808", "-9223372036854775809", "18446744073709551615", "18446744073709551616", "0000000007",
    "00000000007", "1.0", "1e2", "1E400", "-1e-5", "01", "1_0", "16#F", "+1",
)
PIECES = (
    "[", "]", "(", ")", ",", ";", "|", "@", "#", ".", ":", "-", "_", "?", " ", "\t", "\r", "\n", "\r\n", '"', "\\", "/",
    "{", "}", "end", "end\n", "cpu 1\n", "tick 1\n", "mode run\n", "null", "true", "XIC(a)", "[", "[[", "]]", "Program:",
    "Program:P.", "S:FS", "S:V", "\x00", "\x7f", "\xff", "\\u0041", "\\ud800", "\\n", "NOP()", ";;", "TND()", "0", "9", "a",
    "Z",
)
NAMES = (
    "a" * 40, "a" * 41, "A", "_a", "a_", "a__b", "1a", "", "é", "S", "s", "Program", "Local:1:I", "a:b:c:d", "a:b:c:d:e",
    "BOOL", "bool", "Timer", "x" * 80, "P", "p", "M", "T0", "In1", "in1", "Program:P.n", "Program:4.n", "Program:P:Q.n",
    "Program:P(0.n", "Program:.n", "a b", "a.b",
)
VALUES = (
    None, True, False, 0, 1, -1, 2, 3, "", "x", [], {}, [[]], [1], {"name": "x"}, "a", "DINT", "in", "out", "continuous",
    "event", 65_536, 65_537, 1.5,
)
TRACE_WORDS = (
    "0", "1", "2", "3", "7", "31", "32", "-", "up", "down", "trigger:0", "trigger:1", "copy", "copyend", "sync", "syncend",
    "minor", "major", "ended", "on", "ok", "no", "ok:1", "ok:0", "00", "4294967296", "idle", "", "test", "program", "other",
)
TRACE_LINES = (
    "idle", "began 0 0 0", "began 1 1 0", "began 0 0 1", "step 0 0 - -", "step 1 1 - -", "step 0 0 up -", "step 0 0 sync -",
    "step 1 1 down -", "step 0 0 trigger:1 -", "step 0 0 - major", "left 0 0 ended", "left 1 1 ended", "left 0 0 on",
    "tick 0 0 -", "tick 1 0 -", "tick 3 0 -", "tick 0 0 0", "act 31 run - ok 1", "act 31 program - ok 0",
    "act 0 accept 0 ok:1 0", "act 0 test 0 ok 0", "act 1 other - ok 2", "end",
)
WHOLE = [int(one) for one in NUMBERS if one.lstrip("-").isdigit()]
NUMBER = re.compile(r"-?[0-9]+")


class Bender:
    """Draws mutations."""

    def __init__(self, draw):
        self.draw = draw

    def pick(self, items):
        return items[int(self.draw.random() * len(items))]

    def at(self, length):
        return int(self.draw.random() * (length + 1))

    def text(self, contents):
        """One or a few mutations of bytes."""
        text = contents.decode("latin-1")
        ways = (
            self.cut, self.flip, self.insert, self.delete, self.number, self.number, self.lines, self.lines, self.deep, self.long,
        )
        for _ in range(self.pick((1, 1, 1, 1, 2, 3))):
            text = self.pick(ways)(text)
        return text.encode("latin-1")

    def cut(self, text):
        return text[:self.at(len(text))] if self.draw.random() < 0.7 else text[self.at(len(text)):]

    def flip(self, text):
        if not text:
            return text
        at = self.at(len(text) - 1)
        return text[:at] + chr(ord(text[at]) ^ (1 << self.at(7))) + text[at + 1:]

    def insert(self, text):
        at = self.at(len(text))
        return text[:at] + self.pick(PIECES) + text[at:]

    def delete(self, text):
        at = self.at(len(text))
        return text[:at] + text[at + 1 + self.at(4):]

    def number(self, text):
        found = list(NUMBER.finditer(text))
        if not found:
            return self.insert(text)
        one = self.pick(found)
        return text[:one.start()] + self.pick(NUMBERS) + text[one.end():]

    def lines(self, text):
        """Doubles, drops or swaps lines, or changes their ends."""
        lines = text.split("\n")
        at, other = self.at(len(lines) - 1), self.at(len(lines) - 1)
        what = self.at(6)
        if what <= 1:
            lines.insert(at, lines[other])
        elif what == 2:
            del lines[at]
        elif what == 3:
            lines[at], lines[other] = lines[other], lines[at]
        elif what == 4:
            lines[at] += self.pick(("\r", " ", "\t", " \r", "\r\r"))
        elif what == 5:
            lines[at] = self.pick((" ", "", "#", "# a comment", "\t")) + lines[at]
        else:
            lines[at] = lines[at].replace(" ", self.pick(("  ", "\t", "")), 1)
        return "\n".join(lines)

    def deep(self, text):
        at, count = self.at(len(text)), self.pick((1, 2, 15, 16, 17, 126, 127, 128))
        opened, closed = self.pick((("[", "]"), ("{", "}"), ("(", ")"), ('{"a":', "}")))
        return text[:at] + opened * count + self.pick(("", "0")) + closed * count + text[at:]

    def long(self, text):
        """A word becomes a long one."""
        found = list(re.finditer(r"[A-Za-z_]+", text))
        if not found:
            return text
        one = self.pick(found)
        return text[:one.start()] + self.pick(NAMES).encode("utf-8").decode("latin-1") + text[one.end():]

    # ---- traces

    def trace(self, contents):
        """One change of a trace's lines, mostly to another trace."""
        lines = contents.decode("latin-1").split("\n")
        at, other = self.at(len(lines) - 1), self.at(len(lines) - 1)
        what = self.at(5)
        if what == 0:
            del lines[at]
        elif what == 1:
            lines.insert(at, lines[other])
        elif what == 2:
            lines[at], lines[other] = lines[other], lines[at]
        elif what == 3:
            lines.insert(at, self.pick(TRACE_LINES))
        else:
            words = lines[at].split(" ")
            words[self.at(len(words) - 1)] = self.pick(TRACE_WORDS)
            lines[at] = " ".join(words)
        return "\n".join(lines).encode("latin-1")

    # ---- values of JSON

    def value(self, project):
        """The project with one or a few values changed, as a text."""
        made = json.loads(json.dumps(project))
        for _ in range(self.pick((1, 1, 1, 2, 3))):
            self.change(made)
        text = json.dumps(made, ensure_ascii=self.draw.random() < 0.5)
        return text.encode("utf-8")

    def change(self, made):
        spots = list(spots_of(made))
        if not spots:
            return
        holder, key = self.pick(spots)
        old = holder[key]
        what = self.at(9)
        if what <= 1:
            del holder[key]
        elif what <= 3 and isinstance(holder, list):
            holder.insert(self.at(len(holder)), json.loads(json.dumps(old)))
        elif what == 4 and isinstance(holder, dict):
            keys = ("x", "type", "dim", "alias", "priority", "period", "inhibited", "trigger", "kind", "name")
            holder[self.pick((key.upper(), *keys))] = old
        elif what == 5:
            other, place = self.pick(spots)
            other[place] = json.loads(json.dumps(old))
        else:
            holder[key] = self.other(old)

    def other(self, old):
        if isinstance(old, str) and self.draw.random() < 0.8:
            return self.pick(NAMES) if self.draw.random() < 0.5 else self.text(old.encode("utf-8")).decode("utf-8", "replace")
        if isinstance(old, int) and self.draw.random() < 0.7:
            return old + self.pick((1, -1)) if self.draw.random() < 0.3 else self.pick(WHOLE)
        if isinstance(old, list) and self.draw.random() < 0.5:
            return old * self.pick((2, 33, 65, 101))
        return json.loads(json.dumps(self.pick(VALUES)))


def spots_of(value):
    """Every place of a value: what holds it, and its key or number."""
    for key in list(value) if isinstance(value, dict) else range(len(value)):
        yield value, key
        if isinstance(value[key], (dict, list)):
            yield from spots_of(value[key])
