"""logix_laws as a process: what it writes and how it ends, with a yes and a no of each law. The gate runs this after `rt ci`.

The answers are worked out by hand: Cont is continuous, Fast comes every second tick and may be up for three, Eye is an event task.
Lanes 0 and 1 are engineers, lane 3 a module.
"""

from __future__ import annotations

import json
import os
import subprocess
import unittest

import stored_runs
from common import TOP, RoomTest, built, read_text
from lib.paths import TOOLS

NAME = "logix_laws"
DATA = f"{TOP}/crates/{NAME}/data"
PROJECT, TRACE = (f"{DATA}/{name}" for name in ("project.json", "trace.txt"))
USAGE = b"usage: logix_laws P T\n"
RUN, COMES, OWNED = ["act 31 run - ok 1"], ["tick 0 0 -", "tick 2 0 -"], ["act 0 accept 0 ok:1 0"]
is_built = unittest.skipUnless(os.access(built(NAME), os.X_OK), f"{NAME} isn't built")


@is_built
class Laws(stored_runs.StoredRun):
    def call(self, words, wanted: bytes, status: int, **more) -> None:
        self.runs(words, wanted, status, name=NAME, **more)

    def says(self, lines: list[str], broken: str = "", **changed) -> None:
        """A trace after the change to Run: its last event is the one that breaks a law, or none does. `changed`: of the task Fast or Eye."""
        project = json.loads(read_text(PROJECT))
        for name, change in changed.items():
            next(task for task in project["tasks"] if task["name"] == name).update(change)
        words = [self.put("project.json", json.dumps(project)), self.put("trace.txt", "\n".join([*RUN, *lines, "end", ""]))]
        said = f"no {broken} {len(lines)}\n" if broken else f"yes {len(lines) + 1}\n"
        self.call(words, said.encode(), 8 if broken else 0)

    def test_a_region_is_stepped_into(self) -> None:
        self.call([PROJECT, TRACE], b"no regions 5\n", 8)
        self.says(["began 0 0 0", "step 0 0 up -", *COMES, "step 0 0 down -", "began 1 1 0", "step 1 1 - -", "left 1 1 ended"])
        for step in ("began 1 1 0", "step 1 1 - -", "left 1 1 on"):
            self.says(["began 0 0 0", "step 0 0 up -", step], "regions")

    def test_a_cps_is_stepped_into(self) -> None:
        self.says(["began 0 0 0", "step 0 0 sync -", *COMES, "began 1 1 0"], "regions")
        self.says(["began 0 0 0", "step 0 0 sync -", *COMES, "step 0 0 syncend -", "began 1 1 0"])

    def test_a_region_ends_with_its_program(self) -> None:
        self.says(["began 0 0 0", "step 0 0 up -", "left 0 0 ended", *COMES, "began 1 1 0"])

    def test_a_watchdog_is_told_in_its_tick(self) -> None:
        self.says([*COMES, "tick 0 0 -", "tick 0 2 -", "tick 0 0 1"])
        self.says([*COMES, "tick 0 0 -", "tick 0 2 -", "tick 0 0 -"], "watchdogs")
        self.says([*COMES, "tick 0 0 -", "tick 0 0 1"], "watchdogs")
        self.says([*COMES, "tick 0 0 -", "tick 0 2 -", "tick 0 0 0"], "watchdogs")

    def test_a_watchdog_counts_from_the_release(self) -> None:
        ended = ["began 1 1 0", "left 1 1 ended"]
        self.says([*COMES, *ended, "tick 0 0 -", "tick 2 0 -", "tick 0 0 -", "tick 0 2 -", "tick 0 0 1"])
        self.says([*COMES, *ended, "tick 0 0 -", "tick 2 0 -", "tick 0 0 1"], "watchdogs")

    def test_the_first_task_is_told(self) -> None:
        self.says(["act 3 other - ok 4", *COMES, "tick 0 0 -", "tick 0 0 1"], Fast={"watchdog": 2}, Eye={"watchdog": 4})
        self.says(["act 3 other - ok 4", *COMES, "tick 0 0 -", "tick 0 0 2"], "watchdogs", Fast={"watchdog": 2}, Eye={"watchdog": 4})

    def test_who_is_due_is_released(self) -> None:
        self.says([*COMES, "tick 0 0 -", "tick 0 2 -"])
        self.says(["tick 0 0 -", "tick 0 0 -"], "releases")
        self.says(["tick 2 0 -"], "releases")
        self.says(["tick 0 0 -", "tick 6 0 -"], "releases")
        self.says(["tick 0 0 -", "tick 0 2 -"], "releases")
        self.says([*COMES, "tick 0 0 -", "tick 0 0 -"], "releases")
        self.says([*COMES, "tick 0 0 -", "tick 2 0 -"], "releases")

    def test_an_inhibited_task_is_not_due(self) -> None:
        self.says(["tick 0 0 -", "tick 0 0 -"], Fast={"inhibited": True})
        self.says(COMES, "releases", Fast={"inhibited": True})

    def test_nobody_is_due_outside_run(self) -> None:
        for out in (["act 31 program - ok 0"], ["began 0 0 0", "step 0 0 - major"]):
            self.says([*out, "tick 0 0 -", "tick 0 0 -"])
            self.says([*out, *COMES], "releases")

    def test_ticks_count_from_the_change_to_run(self) -> None:
        again = ["tick 0 0 -", "act 31 program - ok 0", "tick 0 0 -", "act 31 run - ok 1"]
        self.says([*again, *COMES])
        self.says([*again, "tick 2 0 -"], "releases")
        self.says(["tick 0 0 -", "act 31 run - no 0", "tick 2 0 -"])

    def test_a_watchdogs_tick_releases_nobody(self) -> None:
        self.says([*COMES, "tick 0 0 -", "tick 0 0 1"], Fast={"watchdog": 2})
        self.says([*COMES, "tick 0 0 -", "tick 0 2 1"], "releases", Fast={"watchdog": 2})
        self.says([*COMES, "tick 0 0 -", "tick 2 0 1"], "releases", Fast={"watchdog": 2})

    def test_a_trigger_overlaps_where_its_task_is_up(self) -> None:
        triggered = ["began 0 0 0", "step 0 0 trigger:2 -"]
        self.says([*triggered, "step 0 0 trigger:2 minor"])
        self.says([*triggered, "step 0 0 trigger:2 -"], "triggers")
        self.says([*triggered[:1], "step 0 0 trigger:2 minor"], "triggers")
        self.says([*triggered[:1], "step 0 0 trigger:2 major"], "triggers")

    def test_an_inhibited_task_does_not_overlap(self) -> None:
        triggered = ["began 0 0 0", "step 0 0 trigger:2 -"]
        self.says([*triggered, "step 0 0 trigger:2 -"], Eye={"inhibited": True})
        self.says([*triggered, "step 0 0 trigger:2 minor"], "triggers", Eye={"inhibited": True})

    def test_a_scan_is_of_the_program_that_was_begun(self) -> None:
        self.says(["began 0 0 0", "step 0 0 - -", "left 0 0 on", "step 0 0 - -", "left 0 0 ended", "began 0 0 0"])
        self.says(["step 0 0 - -"], "scans")
        self.says(["left 0 0 on"], "scans")
        self.says(["began 0 0 0", "step 0 1 - -"], "scans")
        self.says(["began 0 0 0", "left 0 2 ended"], "scans")
        self.says(["began 0 0 0", "left 0 0 ended", "step 0 0 - -"], "scans")

    def test_a_begin_is_of_the_next_program(self) -> None:
        self.says(["began 0 1 0"], "scans")
        self.says(["began 0 0 0", "began 0 0 0"], "scans")
        self.says(["began 0 0 0", *COMES, "began 1 1 0", "step 0 0 - -"])

    def test_a_copy_goes_on_to_its_end(self) -> None:
        begun = ["began 0 0 0", "step 0 0 copy -"]
        self.says([*begun, "step 0 0 - -", "step 0 0 copyend -", "step 0 0 - -", "left 0 0 ended"])
        for event in ("step 0 0 up -", "step 0 0 copy -", "step 0 0 sync -", "step 0 0 syncend -", "step 0 0 trigger:2 -", "step 0 0 - minor",
                      "step 0 0 - major", "step 0 0 copyend minor", "left 0 0 on", "left 0 0 ended", "began 0 0 0"):  # fmt: skip
            self.says([*begun, event], "copies")

    def test_a_copy_ends_as_it_was_started(self) -> None:
        self.says(["began 0 0 0", "step 0 0 sync -", "step 0 0 - -", "step 0 0 syncend -"])
        self.says(["began 0 0 0", "step 0 0 sync -", "step 0 0 copyend -"], "copies")
        for event in ("step 0 0 copyend -", "step 0 0 syncend -", "step 0 0 copy minor", "step 0 0 sync major"):
            self.says(["began 0 0 0", event], "copies")

    def test_a_copy_waits_and_goes_down_with_its_task(self) -> None:
        begun = ["began 0 0 0", "step 0 0 copy -"]
        self.says([*begun, *COMES, "began 1 1 0", "step 1 1 - -", "left 1 1 ended", "step 0 0 copyend -"])
        self.says([*begun, "act 31 program - ok 0", "act 31 run - ok 1", "began 0 0 0"])

    def test_who_comes_up_by_an_action(self) -> None:
        self.says(["act 3 other - ok 4"])
        self.says(["act 31 program - ok 0", "act 31 run - ok 1"])
        for event in ("act 3 other - ok 2", "act 3 other - ok 1", "act 3 other - ok 6", "act 3 other - no 4", "act 0 accept 0 ok:1 4", "act 31 program - ok 1"):
            self.says([event], "starts")
        self.says(["act 31 program - ok 0", "act 31 run - ok 0"], "starts")
        self.says(["act 31 program - ok 0", "act 31 run - ok 5"], "starts")

    def test_an_input_starts_nobody_that_it_may_not(self) -> None:
        self.says(["act 3 other - ok 4", "act 3 other - ok 0"])
        self.says(["act 3 other - ok 4", "act 3 other - ok 4"], "starts")
        self.says(["act 3 other - ok 4"], "starts", Eye={"inhibited": True})
        self.says(["act 31 program - ok 0", "act 3 other - ok 4"], "starts")
        self.says(["began 0 0 0", "step 0 0 sync -", "act 3 other - ok 4"], "starts")

    def test_modes_are_answered(self) -> None:
        major = ["began 0 0 0", "step 0 0 - major"]
        self.says(["act 31 run - no 0", "act 31 clear - no 0", "act 31 program - ok 0", "act 31 program - no 0", "act 31 clear - no 0", "act 31 run - ok 1"])
        self.says([*major, "act 31 run - no 0", "act 31 program - no 0", "act 31 clear - ok 0", "act 31 clear - no 0", "act 31 run - ok 1"])
        self.says([*COMES, "tick 0 0 -", "tick 0 2 -", "tick 0 0 1", "act 31 program - no 0", "act 31 clear - ok 0"])
        for event in ("act 31 run - ok 0", "act 31 clear - ok 0", "act 31 program - no 0"):
            self.says([event], "modes")
        for event in ("act 31 run - no 0", "act 31 program - ok 0", "act 31 clear - ok 0"):
            self.says(["act 31 program - ok 0", event], "modes")
        for event in ("act 31 run - ok 1", "act 31 program - ok 0", "act 31 clear - no 0"):
            self.says([*major, event], "modes")

    def test_a_cps_holds_the_modes(self) -> None:
        self.says(["began 0 0 0", "step 0 0 sync -", "act 31 program - no 0", "step 0 0 syncend -", "act 31 program - ok 0"])
        self.says(["began 0 0 0", "step 0 0 sync -", "act 31 program - ok 0"], "modes")
        self.says(["began 0 0 0", "step 0 0 copy -", "act 31 program - no 0"], "modes")

    def test_the_owner_edits(self) -> None:
        tested = [*OWNED, "act 0 test 0 ok 0"]
        self.says([*tested, "act 0 untest 0 ok 0", "act 0 test 0 ok 0", "act 0 assemble 0 ok 0", "act 1 accept 0 ok:2 0", "act 1 cancel 0 ok 0"])
        self.says([*OWNED, "act 0 accept 0 no 0", "act 0 accept 0 ok:2 0", "act 0 untest 0 no 0", "act 0 assemble 0 ok 0", "act 0 test 0 no 0"])
        for event in ("act 0 test 0 ok 0", "act 0 untest 0 no 0", "act 0 assemble 0 no 0", "act 0 cancel 0 no 0"):
            self.says([*tested, event], "edits")
        self.says([*tested, "act 0 untest 0 ok 0", "act 0 test 0 no 0"], "edits")
        self.says([*OWNED, "act 0 untest 0 ok 0"], "edits")

    def test_an_accept_may_have_no_edits(self) -> None:
        self.says([*OWNED, "act 0 test 0 no 0", "act 0 assemble 0 no 0", "act 1 accept 0 no 0"])

    def test_nobody_else_edits(self) -> None:
        for verb in ("test 0 ok", "assemble 0 ok", "cancel 0 ok", "accept 0 ok:2"):
            self.says([*OWNED, f"act 1 {verb} 0"], "edits")
        for verb in ("test", "untest", "assemble", "cancel"):
            self.says([f"act 0 {verb} 0 no 0", f"act 0 {verb} - no 0"])
            self.says([f"act 0 {verb} 0 ok 0"], "edits")
            self.says([f"act 0 {verb} - ok 0"], "edits")
        self.says([*OWNED, "act 1 test 0 no 0", "act 1 accept 1 ok:1 0", "act 0 accept 1 no 0"])
        self.says(["act 0 accept - ok:1 0"], "edits")

    def test_accepts_are_numbered(self) -> None:
        self.says(["act 0 accept 0 no 0", *OWNED, "act 0 accept 0 ok:2 0", "act 1 accept 1 ok:1 0", "act 0 cancel 0 ok 0", "act 2 accept 0 ok:3 0"])
        for event in ("act 0 accept 0 ok:1 0", "act 0 accept 0 ok:3 0", "act 1 accept 1 ok:2 0"):
            self.says([*OWNED, event], "numbers")
        self.says([*OWNED, "act 0 cancel 0 ok 0", "act 0 accept 0 ok:1 0"], "numbers")

    def test_an_earlier_event_is_told_and_of_one_event_the_first_law(self) -> None:
        self.says(["began 0 0 0", "step 0 0 up -", "step 1 1 - -"], "regions")
        self.says(["tick 2 0 1"], "watchdogs")
        self.says(["step 0 0 trigger:2 minor"], "triggers")

    def test_traces_of_the_controller_keep_them(self) -> None:
        for example in ("audit", "conveyor", "first"):
            folder = f"{TOP}/examples/{example}"
            traced = subprocess.run([built("logix"), "trace", f"{folder}/project.json", f"{folder}/journal.txt"], capture_output=True, timeout=60, check=True).stdout
            self.call([f"{folder}/project.json", self.put("trace.txt", traced)], b"yes %d\n" % (traced.count(b"\n") - 1), 0)

    def test_other_words(self) -> None:
        for words in ([], [PROJECT], [PROJECT, TRACE, "x"], [b"\xff", b"\xfe"]):
            self.call(words, USAGE, 1)

    def test_refusals_in_the_order_of_reading(self) -> None:
        bad = self.put("bad.txt", "x\n")
        for words, said, status in (
            ([bad, bad], "project P1", 2), ([bad, "nothing"], "project P1", 2), ([PROJECT, bad], "trace K1 line 1", 3),
            ([PROJECT, self.put("short.txt", "idle\n")], "trace K1 line 2", 3), ([PROJECT, self.put("far.txt", "idle\nleft 3 0 on\nend\n")], "trace K2 line 2", 3),
        ):  # fmt: skip
            self.call(words, f"{said}\n".encode(), status)

    def test_an_empty_trace(self) -> None:
        self.call([PROJECT, self.put("empty.txt", "end\n")], b"yes 0\n", 0)

    def test_files_that_do_not_come(self) -> None:
        self.call(["nothing", TRACE], b"", 4)
        self.call([PROJECT, "nothing"], b"", 4)
        long = self.put("long.json", b"")
        os.truncate(long, stored_runs.MOST_BYTES + 1)
        self.call([long, TRACE], b"", 7)
        self.call([PROJECT, long], b"", 7)

    def test_a_full_device_ends_with_5(self) -> None:
        with open("/dev/full", "wb") as full:
            self.call([PROJECT, TRACE], b"", 5, out=full)

    def test_want_of_memory_ends_with_6(self) -> None:
        self.put("long.json", b" " * stored_runs.MOST_BYTES)
        self.call(["long.json", TRACE], b"", 6, most_memory=24_000_000)


@is_built
class Enough(RoomTest):
    """The stack that FORMATS.md says is enough."""

    ENOUGH, ends_well = stored_runs.Stack.ENOUGH, stored_runs.Stack.ends_well

    def test_it_is_enough(self) -> None:
        self.put("trace.txt", "\n".join([*RUN, "began 0 0 0", "end", ""]))
        self.ends_well(NAME, [PROJECT, f"{self.room}/trace.txt"])


@is_built
class Tool(RoomTest):
    def test_it_is_the_program(self) -> None:
        ran = subprocess.run([f"{TOOLS}/laws", PROJECT, TRACE], capture_output=True, text=True, timeout=60, check=False)
        self.assertEqual((ran.returncode, ran.stdout, ran.stderr), (8, "no regions 5\n", ""))


if __name__ == "__main__":
    unittest.main()
