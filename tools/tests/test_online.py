"""The parts of tools/online: talk with a process, edits, the fold of answers, stops, commands, the whole past."""

import json
import os
import random
import re
import signal
import sys
import threading
import time
import unittest
from unittest import mock

from online_files import CONVEYOR, PLAIN, Page, Walk, anew
from plain_programs import LIVE, PROJECTS
from lib.programs import Ended, Program
from lib.online import follower, player, taking
from lib.online.edits import Program as Edited
from lib.online.guards import Refused
from lib.online.journal import Act
from lib.online.seen import Seen
from lib.online.stops import Stop, first
from lib.talk import Talk, TalkAnew

# Programs that answer as a controller might, and end as it might.
ECHO = "import sys\nfor at, line in enumerate(sys.stdin.buffer, 1):\n    sys.stdout.buffer.write(b'line J1 %d\\n' % at if line == b'?\\n' else line); sys.stdout.buffer.flush()\n"
ENDS = "import sys, os\nsys.stdin.readline(); sys.stdout.write({text!r}); sys.stdout.flush(); {end}\n"


def program(text):
    return Program((sys.executable, "-c", text), True)


class Talks(unittest.TestCase):
    def talk(self, text):
        made = Talk(program(text), "P")
        self.addCleanup(made.close)
        return made

    def test_answers_and_texts_larger_than_a_pipe(self):
        made = self.talk(ECHO)
        for size in (1, 1_000, 3_000_000):
            line = "x" * 99 + "\n"
            self.assertEqual(b"".join(made.tell([line] * (size // 100 + 1))), line.encode() * (size // 100 + 1))
        self.assertEqual(list(made.tell([])), [])

    def test_a_large_answer_to_a_small_text(self):
        made = self.talk("import sys\nfor at, line in enumerate(sys.stdin, 1):\n    sys.stdout.write(f'line J1 {at}\\n' if line == '?\\n' else 'y' * 99 + '\\n' * 1 + 'z\\n' * 2_000_000); sys.stdout.flush()")
        self.assertEqual(sum(map(len, made.tell(["go\n"]))), 100 + 4_000_000)

    def test_a_refused_line_is_not_the_mark(self):
        made = self.talk("import sys\nfor at, line in enumerate(sys.stdin, 1):\n    sys.stdout.write(f'line J1 {at}\\n'); sys.stdout.flush()")
        self.assertEqual(b"".join(made.tell(["bad\n", "worse\n"])), b"line J1 1\nline J1 2\n")
        self.assertEqual(b"".join(made.tell(["bad\n"] * 20_000)).count(b"\n"), 20_000)

    def test_a_process_that_ends(self):
        for text, end, told in (("", "sys.exit(4)", ""), ("0 1 set a 1\n", "sys.exit(5)", ""), ("0 1 se", "sys.exit(6)", "0 1 se"), ("", "os.kill(os.getpid(), 9)", "")):
            made = self.talk(ENDS.format(text=text, end=end))
            with self.assertRaises(Ended) as ended:
                list(made.tell(["cpu 1\n"]))
            self.assertEqual((ended.exception.status, ended.exception.text), (int(end.strip(")").split("(")[-1]) if "exit" in end else -9, told))
            with self.assertRaises(Ended):
                list(made.tell(["cpu 1\n"] * 100_000))

    def test_closed_in_the_middle(self):
        made = self.talk("import time\ntime.sleep(60)")
        threading.Timer(0.3, made.close).start()
        with self.assertRaises(Ended):
            list(made.tell(["cpu 1\n"] * 100_000))

    def test_a_controller(self):
        path = next(path for path in PROJECTS if "/blink/" in path)
        for kind in (Talk, TalkAnew):
            made = kind(LIVE, path)
            self.addCleanup(made.close)
            told = [b"".join(made.tell([text])) for text in ("mode run\n", "cpu 2\n", "nonsense\ncpu 1\n", "cpu 1\n")]
            self.assertEqual(told, [b"0 0 reply 31 ok\n", b"0 1 begin Cont Main 0\n", b"line J1 %d\n0 3 set Lamp 1\n" % (5 if kind is Talk else 3), b""])


class Edits(unittest.TestCase):
    def test_rows_and_merged(self):
        made = Edited()
        made.base = {"M": ["A;", "B;", "C;"]}
        made.edits = [("M", "i", 0, "X;"), ("M", "r", 1, "Y;"), ("M", "i", 0, "Z;"), ("M", "d", 2, None), ("M", "i", 3, "W;"), ("S", "d", 0, None)]
        self.assertEqual(made.rows("M"), [("I", None, "X;"), ("I", None, "Z;"), ("", 0, "A;"), ("I", None, "Y;"), ("R", 1, "B;"), ("D", 2, "C;"), ("I", None, "W;")])
        self.assertEqual((made.merged("M"), made.running("M")), (["X;", "Z;", "A;", "Y;", "W;"], ["A;", "B;", "C;"]))

    def test_what_is_shown_as_merged_is_what_runs(self):
        # Random lists of edits, tested, and a project whose rungs are those that are shown as merged: both set the same at the same steps.
        draw, rung = random.Random(3), "ADD(n{0},1,n{0});"
        source = {"schema": 1, "controller": "C", "tags": [{"name": f"n{at}", "type": "DINT"} for at in range(12)],
                  "programs": [{"name": "P", "main": "M", "routines": [{"name": "M", "rungs": [rung.format(at) for at in range(4)]}]}],
                  "tasks": [{"name": "T", "kind": "continuous", "programs": ["P"]}], "watch": [f"n{at}" for at in range(12)]}
        for _ in range(6):
            edits = " | ".join(f"{draw.choice('iird')} {draw.randrange(5)} {rung.format(draw.randrange(4, 12))}" for _ in range(draw.randrange(1, 5)))
            edits = re.sub(r"d (\d) \S+", r"d \1", edits)
            with Page(source=source) as page:
                if not page.act(f"accept P M {edits}").startswith("ok"):
                    continue
                page.act("test P")
                if draw.random() < 0.5:
                    page.act("assemble P")
                shown = page.session.seen.book.programs["P"].running("M")
                page.act("mode run")
                page.do("cpu", count=60)
                merged = json.loads(json.dumps(source))
                merged["programs"][0]["routines"][0]["rungs"] = shown
                told = anew(PLAIN, merged, page.session.watched, "mode run\ncpu 60\n")
                self.assertEqual({name: page.values()[name] for name in source["watch"]}, {name: told["values"][name] for name in source["watch"]}, edits)
                self.assertEqual([line for _, line in page.session.seen.lines if " set " in line], [line for line in told["lines"] if " set " in line])


class Folds(unittest.TestCase):
    def plain(self, values, answer):
        for line in answer.decode().splitlines():
            words = line.split(" ")
            if words[2] == "set":
                values[words[3]] = int(words[4])
        return values

    def test_the_last_value_of_each(self):
        draw, names = random.Random(4), [f"T{at}" for at in range(40)]
        for busy in (40, 12, 3):
            seen, wanted = Seen(dict.fromkeys(names, 0), mock.Mock(programs={}), names[:3]), dict.fromkeys(names, 0)
            for _ in range(8):
                count = draw.choice((0, 1, 30, 9_000))
                answer = b"".join(b"%d %d set %s %d\n" % (at, at * 3, draw.choice(names[:busy]).encode(), draw.randrange(-99, 99)) for at in range(count))
                fresh = seen.take(answer, [])
                self.assertEqual(fresh, self.plain({}, answer))
                self.assertEqual(seen.values, self.plain(wanted, answer))

    def test_a_name_that_ends_like_another(self):
        seen = Seen({"n": 0, "Program:P.n": 0, "xn": 0}, mock.Mock(programs={}), ["n"])
        seen.take(b"0 1 set Program:P.n 5\n0 2 set xn 6\n", [])
        self.assertEqual((seen.values, list(seen.trends["n"])), ({"n": 0, "Program:P.n": 5, "xn": 6}, [(0, 0)]))


class Stops(unittest.TestCase):
    ANSWER = b"1 4 set a 1\n1 5 set n 5\n1 6 fault minor 6/2 T -\n2 7 set n 8\n2 8 begin T P 0\n2 9 set a 0\n3 9 set a 1\n3 10 fault major 6/1 T -\n"

    def met(self, *stops, **values):
        at, stop = first(list(stops), self.ANSWER, {"a": 0, "n": 0, **values}, 2)
        return at, str(stop)

    def test_which_is_met_first(self):
        for stop, at in ((Stop("=", "a", 1), 7), (Stop("=", "a", 0), 13), (Stop("=", "n", 6), None), (Stop(">=", "n", 6), 11), (Stop(">=", "n", 5), 8), (Stop("<=", "a", 0), 13),
                         (Stop("changes", "n"), 8), (Stop("fault"), 9), (Stop("overlap"), 9), (Stop("begin", "P"), 12), (Stop("changes", "x"), None)):
            self.assertEqual(self.met(stop)[0], at, stop)
        self.assertEqual(self.met(Stop("=", "a", 0), Stop("overlap"), Stop(">=", "n", 8)), (9, "an overlap"))

    def test_a_value_that_is_reached_already_is_not_met_again(self):
        self.assertEqual(self.met(Stop(">=", "n", 5), n=6)[0], None)

    def page(self):
        page = Page()
        self.addCleanup(page.session.rest)
        page.act("mode run")
        page.act("in In1 1 3", 0)
        return page

    def test_run_to_it_in_a_batch(self):
        page = self.page()
        page.do("stop", kind="=", place="hornt.acc", value=5)
        page.do("until", steps=20)
        at, line = page.session.seen.lines[-1]
        self.assertEqual((line.split(" ", 2)[2], at, page.session.journal.length), ("set HornT.ACC 5", page.session.at, page.session.at))
        page.do("unstop", index=0)
        page.do("stop", kind="changes", place="HornT.ACC")
        page.do("until", steps=20)
        self.assertEqual(page.values()["HornT.ACC"], 6)

    def test_not_found_and_nothing_has_changed(self):
        page = self.page()
        page.do("cpu", count=30)
        page.do("go", to=12)
        page.do("stop", kind="=", place="Total", value=77)
        with mock.patch.object(player, "MOST_BEATS", 300):
            page.do("until", steps=20)
        self.assertEqual((page.session.at, page.session.journal.length, page.session.cut), (12, 32, None))
        self.assertIn("not within", page.notes()[-1])
        page.do("last")
        with mock.patch.object(player, "MOST_BEATS", 300):
            page.do("until", steps=20)
        self.assertEqual((page.session.at, page.session.journal.length, page.session.cut), (32, 32, None))

    def test_at_a_batch_s_first_and_last_event(self):
        for steps, batch in ((1, 1), (2, 3)):
            page = self.page()
            page.do("stop", kind="=", place="HornT.TT", value=1)
            with mock.patch.object(player, "FIRST_BATCH", batch), mock.patch.object(player, "LAST_BATCH", batch):
                page.do("until", steps=steps)
            self.assertEqual((page.values()["HornT.TT"], page.session.at), (1, page.session.journal.length))

    def test_by_an_input_while_it_plays(self):
        page = self.page()
        page.do("stop", kind="=", place="StartPB", value=0)
        page.do("play", speed=0.01, steps=1)
        page.act("in In1 1 2", 0)
        self.assertFalse(page.player.playing)
        self.assertIn("stopped: StartPB = 0", page.notes())

    def test_while_it_plays(self):
        page = self.page()
        page.do("stop", kind=">=", place="HornT.ACC", value=3)
        page.do("play", speed=0.05, steps=20)
        end = time.monotonic() + 20
        while page.player.playing and time.monotonic() < end:
            time.sleep(0.02)
        with page.session.lock:
            self.assertEqual(page.values()["HornT.ACC"], 3)
            self.assertEqual(page.session.journal.length, page.session.at)

    def test_a_place_that_cannot_be_watched(self):
        page = self.page()
        with self.assertRaises(Refused):
            page.do("stop", kind="=", place="Nothing", value=1)
        self.assertEqual(page.session.watch.stops, [])


class Past(unittest.TestCase):
    def test_what_is_ahead_is_dropped_and_put_back(self):
        with Page() as page:
            page.act("mode run")
            page.do("cpu", count=50)
            page.do("go", to=10)
            page.do("cpu", count=1)
            self.assertEqual((page.session.at, page.session.journal.length), (11, 11))
            page.do("cpu", count=1)
            page.do("restore")
            self.assertEqual((page.session.at, page.session.journal.length), (10, 51))
            page.do("restore")
            self.assertEqual((page.session.at, page.session.journal.length), (12, 12))

    def test_who_wrote_it(self):
        with Page() as page:
            page.act("mode run")
            page.act("in In1 1 3", 0)
            page.do("cpu", count=80)
            for name, text, uses in (("Run", "", [["write", "Conveyor", "Main", "0", "3", "OTE"]]), ("StartPB", "by @0 in In1 1 3", [])):
                page.do("back", place=name)
                written = next(data["written"] for kind, data in reversed(page.heard) if "written" in data)
                self.assertEqual((written["name"], written["text"], written["uses"]), (name, text, uses))

    def test_who_wrote_it_of_two_programs(self):
        source = {"schema": 1, "controller": "C", "tags": [{"name": "n", "type": "DINT"}],
                  "programs": [{"name": name, "main": "M", "routines": [{"name": "M", "rungs": ["NOP()" * 3 + "ADD(n,1,n);"]}]} for name in "PQ"],
                  "tasks": [{"name": "T", "kind": "continuous", "programs": ["P"]}, {"name": "F", "kind": "periodic", "priority": 1, "period": 1, "programs": ["Q"]}], "watch": ["n"]}
        with Page(source=source) as page:
            page.act("mode run")
            page.do("cpu", count=3)
            page.do("tick", count=1)
            page.do("cpu", count=20)
            page.do("back", place="n")
            page.do("back", place="n")  # by P, whose scan Q has interrupted: the last that began isn't the one that wrote
            told = [data["written"] for kind, data in page.heard if "written" in data]
            self.assertEqual([each["text"] for each in told][-1], "while P was scanning")
            page.do("back", place="n")
            self.assertEqual([each["uses"] for kind, data in page.heard for each in [data.get("written")] if each][-1], [["write", "Q", "M", "0", "3", "ADD"]])

    def test_the_process_that_waits_further_back(self):
        with mock.patch.object(follower, "BEHIND", 40), mock.patch.object(follower, "WORTH", 100), Page() as page:
            page.act("mode run")
            page.act("in In1 1 3", 0)
            page.player.steps = 20
            for _ in range(12):
                page.do("cpu", count=20)
                page.do("tick", count=1)
            self.assertGreater(page.session.waiting.target, 0)
            page.session.waiting.thread.join()
            waiting, values = page.session.waiting.follower, page.values()
            page.do("go", to=page.session.at - 1)
            self.assertIs(page.session.here, waiting)
            page.do("last")
            self.assertEqual(page.values(), values)
            self.assertTrue(page.do("check")["same"])
            page.do("go", to=3)  # before where it waits
            page.do("cpu", count=1)
            self.assertTrue(page.do("check")["same"])

    def test_the_whole_trend(self):
        with Page() as page:
            page.act("mode run")
            page.act("in In1 1 3", 0)
            page.do("trend", place="HornT.ACC", on=True)
            page.do("stop", kind="=", place="Motor", value=1)
            page.do("until", steps=20)
            with mock.patch.object(taking, "BUCKETS", 4):
                told = dict(page.do("whole")["points"])["HornT.ACC"]
            self.assertEqual((told[0][1], told[-1][2:]), (0, [20, 20]))
            for (_, _, _, before), (_, low, high, last) in zip(told, told[1:]):
                self.assertTrue(low <= before and last <= high)

    def test_edits_that_it_does_not_watch_are_seen_by_going_on(self):
        with Page() as page, mock.patch("lib.online.watch.MOST", 20):
            page.act("accept Rates Main r 0 ADD(Last,1,Last);")
            page.do("view", program="Rates", routine="Main")
            page.do("go", to=0)
            page.do("go", to=1)
            self.assertIn("Last", page.session.watched)


class Taken(unittest.TestCase):
    def test_the_project_as_assembled(self):
        with Page() as page:
            page.act("accept Conveyor Main r 0 XIC( StopPB ) OTE(Run);")
            self.assertNotIn('"XIC(StopPB)OTE(Run);"', taking.assembled(page.session))
            page.act("assemble Conveyor")
            self.assertIn('"XIC(StopPB)OTE(Run);"', taking.assembled(page.session))

    def test_verify_changes_nothing(self):
        with Page() as page:
            page.act("mode run")
            for words, wanted in (("accept Conveyor Main r 0 XIC(StopPB)OTE(Run);", "ok 1"), ("accept Conveyor Main r 0 XIC(StopPB)OTE(Nix);", "refused E8 C4 0 1"), ("end", "no action")):
                self.assertEqual(page.do("verify", lane=1, text=words)["answer"], wanted)
            self.assertEqual((page.session.journal.acts, page.session.seen.book_changes), (["mode run"], 0))

    def test_a_doctored_answer_is_no_replay(self):
        with Page() as page:
            page.act("mode run")
            page.do("cpu", count=9)
            self.assertTrue(page.do("check")["same"])
            page.session.seen.sum.update(b"x")
            self.assertFalse(page.do("check")["same"])


class Refusals(unittest.TestCase):
    def test_a_line_that_the_controller_refuses_changes_nothing(self):
        with Page() as page:
            page.act("mode run")
            page.session.add(Act("cpu 0"))
            self.assertEqual((page.session.at, page.session.journal.length, page.session.journal.acts), (1, 1, ["mode run"]))
            self.assertRegex(page.notes()[-1], r"^line J4 \d+$")
            page.do("cpu", count=5)
            page.do("go", to=1)
            self.assertTrue(page.do("check")["same"])

    def test_no_more_events_than_a_session_has(self):
        with Page() as page, mock.patch("lib.online.session.MOST_EVENTS", 40), mock.patch.object(player, "MOST_EVENTS", 40):
            page.act("mode run")
            page.do("cpu", count=30)
            page.do("cpu", count=10)
            self.assertEqual((page.session.at, page.notes()[-1]), (31, "a session has at most 40 events: J4"))
            page.do("play", speed=100, steps=2)
            end = time.monotonic() + 20
            while page.player.playing and time.monotonic() < end:
                time.sleep(0.02)
            with page.session.lock:
                self.assertEqual((page.player.playing, page.session.at), (False, 40))
            page.do("go", to=5)
            self.assertTrue(page.do("check")["same"])


class Ends(unittest.TestCase):
    def test_a_process_that_is_gone_is_started_again(self):
        with Page() as page:
            page.act("mode run")
            page.do("cpu", count=9)
            values = page.values()
            page.session.here.talk.process.send_signal(signal.SIGKILL)
            page.do("cpu", count=1)
            self.assertEqual(page.shown.snapshot()["lost"]["text"], "It was ended from outside, by signal 9.")
            page.do("again")
            self.assertEqual((page.shown.snapshot()["lost"], page.values(), page.session.at), (None, values, 10))

    def test_each_status_is_said_in_words(self):
        for status in (5, 70):
            with Page() as page:
                page.session.programs = mock.Mock(live=program(ENDS.format(text="", end=f"sys.exit({status})")), logix=PLAIN.logix)
                page.do("go", to=0)
                page.session.go(0, renew=True)
                page.act("mode run")
                lost = page.shown.snapshot()["lost"]
                self.assertEqual((lost["text"], lost["said"][0][0]), (f"It ended with status {status}.", str(status)))
                self.assertIn("To do:", lost["said"][0][1])

    def gone_wrong(self, text):
        """A page whose controller is this text, after a change to Run; and what it is told of how that ended."""
        page = Page()
        self.addCleanup(page.session.rest)
        page.session.programs = mock.Mock(live=program(text), logix=PLAIN.logix)
        page.session.go(0, renew=True)
        page.act("mode run")
        return page, page.shown.snapshot()["lost"]

    def test_one_that_says_nothing_more_is_ended(self):
        silent = "import time\nprint('0 0 reply 31', end='', flush=True)\ntime.sleep(600)"
        for text in (silent, f"import os, time\nos.close(1)\ntime.sleep(600)", "while True:\n    print('0 0 set nothing 1', flush=True)"):
            with mock.patch.object(follower, "PATIENCE", 0.5):
                page, lost = self.gone_wrong(text)
                self.assertRegex(lost["text"], r"^It was ended from here: it (didn't answer|closed its output, and didn't end) in time\.$")
                self.assertEqual((page.session.here, page.do("verify", lane=31, text="mode run")["answer"]), (None, "no action"))
            page.session.programs = PLAIN
            page.do("again")
            self.assertEqual((page.shown.snapshot()["lost"], page.act("in In1 0 1")), (None, "ok"))

    def test_a_trend_of_what_is_not_asked_for(self):
        with Page() as page:
            page.do("trend", place="Motor", on=True)
            page.act("mode run")
            page.session.programs = mock.Mock(live=program(ECHO.replace("else line)", "else b'0 0 set nothing 1\\n')")), logix=PLAIN.logix)
            self.assertEqual(page.do("whole"), {"text": "it answered what it wasn't asked"})

    def test_one_that_answers_too_much_is_ended(self):
        for text in (ECHO.replace("else line)", "else b'0 0 reply 31 ok\\n' * 2)"), ECHO.replace("else line)", "else b'0 0 reply 31 ok\\n' * 30)")):
            page, lost = self.gone_wrong(text)
            self.assertEqual(lost["text"], "It was ended from here: it answered more than it was asked.")

    def test_the_lock_is_had_from_a_command_that_waits(self):
        with Page() as page:
            page.session.programs = mock.Mock(live=program("import time\ntime.sleep(600)"), logix=PLAIN.logix)
            waiting = threading.Thread(target=page.do, args=("again",), daemon=True)
            waiting.start()
            time.sleep(0.3)
            began = time.monotonic()
            with page.session.taken():
                self.assertLess(time.monotonic() - began, 10)
            waiting.join()
            self.assertEqual(page.shown.snapshot()["lost"]["text"], "It was ended from outside, by signal 9.")

    def test_no_process_and_no_folder_is_left(self):
        page = Page()
        process, folder = page.session.here.talk.process, page.session.folder
        self.assertTrue(os.path.isdir(folder))
        page.do("play", speed=1, steps=5)
        page.player.pause()
        page.session.rest()
        self.assertEqual((process.poll() is None, os.path.isdir(folder)), (False, False))
        page.do("again")
        self.assertTrue(page.do("check")["same"])
        page.session.rest()

    def test_a_project_that_is_refused_leaves_no_folder(self):
        before = set(os.listdir("/tmp"))
        with self.assertRaises(Ended):
            Page(source={"schema": 1, "controller": "C", "programs": [{"name": "P", "main": "M", "routines": [{"name": "M", "rungs": ["X;"]}]}], "tasks": []})
        self.assertEqual({name for name in set(os.listdir("/tmp")) - before if name.startswith("online-")}, set())

    def test_a_place_that_cannot_be_watched_is_left_out_and_said(self):
        with Page() as page:
            page.do("watch", place="Nothing", on=True)
            self.assertTrue(any(note.startswith("Nothing can't be watched: project P9") for note in page.notes()))
            self.assertNotIn("Nothing", page.session.watch.table)

    def test_unproved_it_does_not_play_but_steps(self):
        with Page() as page:
            live = Program(PLAIN.live.words, False)
            page.session.programs = mock.Mock(live=live, logix=PLAIN.logix)
            page.session.go(0, renew=True)
            page.act("mode run")
            page.do("cpu", count=1)
            page.do("go", to=1)
            self.assertEqual(page.shown.layout()["proved"], False)
            with self.assertRaises(Refused):
                page.do("play", speed=1, steps=5)


class Walks(unittest.TestCase):
    def test_a_few(self):
        with mock.patch.object(player, "MOST_BEATS", 100):
            Walk(self, PLAIN, CONVEYOR, 1).take(4)


if __name__ == "__main__":
    unittest.main()
