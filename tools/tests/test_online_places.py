"""The parts of tools/online that know no process: places and kinds of a project, journals."""

import random
import unittest

import common  # noqa: F401 (where the tools are)
from lib.online.journal import LONGEST_ACTION, Act, Beat, Journal, Run, action, read
from lib.online.plan import Plan, number_of

KINDS = {
    "controller": "C", "types": [{"name": "Cell", "members": [{"name": "Ok", "type": "BOOL"}, {"name": "Counts", "type": "INT", "dim": 3}, {"name": "Dwell", "type": "TIMER"}]}],
    "tags": [{"name": "Local:1:I", "type": "DINT"}, {"name": "n", "type": "DINT"}, {"name": "arr", "type": "DINT", "dim": 4}, {"name": "bits", "type": "BOOL", "dim": 32},
             {"name": "cells", "type": "Cell", "dim": 2}, {"name": "One", "alias": "cells[1]"}, {"name": "Count1", "alias": "One.Counts[2]"},
             {"name": "constructor", "alias": "Local:1:I.0"}, {"name": "toString", "alias": "constructor"}, {"name": "c", "type": "COUNTER"}],
    "programs": [{"name": "P", "main": "M", "tags": [{"name": "n", "type": "SINT"}, {"name": "i", "type": "INT"}, {"name": "Mine", "alias": "n"}], "routines": []}, {"name": "Q", "main": "M", "routines": []}],
    "tasks": [], "connections": [{"name": "In1", "tag": "Local:1:I", "direction": "in"}],
}
PLACES = {  # by program and operand: the name and the kind, or None
    ("P", "n"): ("Program:P.n", "SINT"), ("Q", "n"): ("n", "DINT"), ("P", "N.3"): ("Program:P.N.3", "BOOL"), ("P", "Mine"): ("Program:P.Mine", "SINT"), ("Q", "Mine"): None,
    ("Q", "Count1"): ("Count1", "INT"), ("Q", "Count1.7"): ("Count1.7", "BOOL"), ("Q", "One.Ok"): ("One.Ok", "BOOL"), ("Q", "One.Dwell.ACC"): ("One.Dwell.ACC", "DINT"),
    ("Q", "cells[0].Dwell.tt"): ("cells[0].Dwell.tt", "BOOL"), ("Q", "toString"): ("toString", "BOOL"), ("Q", "bits[9]"): ("bits[9]", "BOOL"), ("Q", "Local:1:I.31"): ("Local:1:I.31", "BOOL"),
    ("Q", "arr"): None, ("Q", "cells"): None, ("Q", "One"): None, ("Q", "One.Dwell"): None, ("Q", "5"): None, ("Q", "16#F"): None, ("Q", "-1"): None, ("Q", "S:FS"): None, ("Q", "?"): None,
    ("Q", "n.x"): None, ("Q", "n[0]"): None, ("Q", "One.Nix"): None, ("Q", "arr[0].3"): ("arr[0].3", "BOOL"), ("Q", "c.OV"): ("c.OV", "BOOL"), ("Q", "hasOwnProperty"): None,
}


class Places(unittest.TestCase):
    plan = Plan(KINDS)

    def test_names_and_kinds(self):
        for (program, text), wanted in PLACES.items():
            place = self.plan.place(program, text)
            self.assertEqual(place and (place.name, place.kind), wanted, (program, text))

    def test_variable_subscripts(self):
        place = self.plan.place("P", "arr[i].3")
        self.assertEqual((place.name, place.kind, place.pieces), (None, "BOOL", ["arr", "[", {"p": "Program:P.i"}, "]", ".3"]))
        self.assertEqual(place.watched(), ["arr[0].3", "arr[1].3", "arr[2].3", "arr[3].3", "Program:P.i"])
        self.assertEqual(self.plan.place("P", "cells[1].Counts[n]").watched(), ["cells[1].Counts[0]", "cells[1].Counts[1]", "cells[1].Counts[2]", "Program:P.n"])
        self.assertEqual(self.plan.place("Q", "cells[n].Counts[n]").watched(), ["n", "n"])  # two at a time are not spread
        inside = self.plan.place("Q", "bits[cells[0].Counts[1]]")
        self.assertEqual((inside.kind, inside.pieces), ("BOOL", ["bits", "[", {"p": "cells[0].Counts[1]"}, "]"]))

    def test_timers_and_counters(self):
        self.assertEqual({name: place.name for name, place in self.plan.timed("Q", "cells[0].Dwell").items()},
                         {name: f"cells[0].Dwell.{name}" for name in ("PRE", "ACC", "EN", "TT", "DN")})
        self.assertEqual(set(self.plan.timed("Q", "c")), {"PRE", "ACC", "CU", "CD", "DN", "OV", "UN"})
        self.assertEqual([self.plan.timed("Q", text) for text in ("n", "cells", "?", "5")], [{}] * 4)

    def test_words_and_their_bits(self):
        self.assertEqual(self.plan.words(KINDS["connections"][0]), ["Local:1:I"])
        self.assertEqual(self.plan.bit_names("Local:1:I"), {0: "constructor"})
        module = Plan({**KINDS, "types": [{"name": "M", "members": [{"name": "Fault", "type": "DINT"}, {"name": "b", "type": "BOOL"}, {"name": "Data", "type": "DINT", "dim": 2}]}],
                       "tags": [{"name": "m", "type": "M"}, {"name": "d", "type": "DINT", "dim": 2}]})
        self.assertEqual(module.words({"tag": "M"}), ["m.Fault", None, "m.Data[0]", "m.Data[1]"])
        self.assertEqual(module.words({"tag": "d"}), ["d[0]", "d[1]"])

    def test_numbers(self):
        self.assertEqual([number_of(text) for text in ("7", "-1_000", "16#FFFF_FFFF", "2#1010", "8#17", "x", "S:V")], [7, -1000, -1, 10, 15, None, None])


class Journals(unittest.TestCase):
    def events(self, journal):
        """Each event by itself."""
        for line in "".join(journal.text()).splitlines():
            words = line.split()
            if words[0] in ("cpu", "tick"):
                yield from [words[0]] * int(words[1])
            elif line != "end":
                yield line

    def made(self, draw):
        ways = (lambda: Run("cpu", draw.randrange(1, 5)), lambda: Run("tick", draw.randrange(1, 5)), lambda: Beat(draw.randrange(1, 4), draw.randrange(1, 4)),
                lambda: Act(f"in A 0 {draw.randrange(9)}"))
        return Journal(draw.choice(ways)() for _ in range(draw.randrange(1, 12)))

    def test_any_cut_in_two_parts_is_the_whole(self):
        draw = random.Random(1)
        for _ in range(200):
            made = self.made(draw)
            whole = list(self.events(made))
            self.assertEqual((made.length, made.acts), (len(whole), [event for event in whole if " " in event]))
            for at in range(made.length + 1):
                front, rest = made.front(at), Journal(made.part(at, made.length))
                self.assertEqual((list(self.events(front)), list(self.events(rest))), (whole[:at], whole[at:]))
                self.assertEqual(made.counts(at), (whole[:at].count("tick"), whole[:at].count("cpu")))

    def test_its_text_is_read_back(self):
        draw = random.Random(2)
        for _ in range(100):
            made = self.made(draw)
            self.assertEqual(list(self.events(read("".join(made.text())))), list(self.events(made)))

    def test_an_hour_is_a_handful(self):
        made = Journal([Act("mode run"), *[Beat(20, 33)] * 100_000, Run("cpu", 9_000_000)])
        self.assertEqual((len(made.entries), made.length), (3, 1 + 21 * 3_300_000 + 9_000_000))
        self.assertEqual(list(made.entries[2].text()), ["cpu 4000000\n", "cpu 4000000\n", "cpu 1000000\n"])

    def test_comments_blanks_and_the_end(self):
        self.assertEqual("".join(read("# x\n\n  mode run \r\n@3 in A 0 1\ncpu 2\ncpu 3\nend\ncpu 7\n").text()), "mode run\n@3 in A 0 1\ncpu 5\nend\n")

    def test_nothing_but_actions_of_one_line_comes_through(self):
        for words in ("end", " end", "cpu 1", "tick 1", "# x", "", "mode run\nend", "mode run\rend", "in A 0 \0", "@3 mode run", "\tend", "?", "accept " + "x" * LONGEST_ACTION):
            self.assertIsNone(action(31, words), words)
        self.assertEqual([action(31, " mode run "), action(3, "in A 0 1"), action(32, "clear"), action(-1, "clear")], ["mode run", "@3 in A 0 1", None, None])


if __name__ == "__main__":
    unittest.main()
