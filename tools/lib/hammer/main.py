"""The command: draws cases of each kind from a seed, counts them, and stores what differs, made smaller."""

import argparse
import gc
import os
import random
import resource
import sys
import time

from lib.paths import built

from . import begins, cases, corpus, covers, faults, lanes, laws, limits, marks, more, pieces, texts, turns
from . import coverage as met
from .coverage import Coverage, stored, watching
from .draw import Draw
from .plain.judge import answer
from .program import PAGE, Program
from .shrink import Shrinker

# Each kind: what draws a case, how often beside the others, and a command that the program must have for it.
KINDS = {
    "whole": (cases.whole, 80, "replay"), "long runs": (cases.long_runs, 0.5, "replay"),
    "edit runs": (cases.edit_runs, 0.1, "replay"), "projects": (cases.projects, 60, "check"),
    "journals": (cases.journals, 60, "replay"), "texts": (texts.texts, 0.5, "replay"), "cuts": (cases.cuts, 30, "check"), "traces": (cases.traces, 12, "audit"),
    "walks": (cases.walks, 24, "audit"),
    "links": (cases.links, 8, "link"), "link laws": (laws.link_laws, 1, "link"), "project laws": (laws.project_laws, 1, "migrate"),
    "journal laws": (laws.journal_laws, 1, "audit"), "stations": (laws.stations, 2, "stations"), "scripts": (lanes.scripts, 4, "run"),
    "lanes": (lanes.many_lanes, 0.5, "run"), "threads": (lanes.threads, 3, "run"), "closed pipes": (faults.closed_pipes, 2, "replay"),
    "failed allocations": (turns.failed_allocations, 0.1, "trace"), "failed in threads": (turns.failed_in_threads, 2, "run"),
    "failed calls": (turns.failed_calls, 2, "trace"),
    "full devices": (faults.full_devices, 0.5, "check"), "little memory": (faults.little_memory, 1, "check"),
    "lost files": (faults.lost_files, 0.3, "check"), "live": (laws.live_laws, 4, None),
    "limits": (limits.limits, 0.05, "run"), "numbers": (laws.numbers, 0.005, "gen"), **more.KINDS,
}

# Those whose cases are counted, and come in turn: how many there are.
IN_TURN = {
    "limits": lambda _: limits.number_of_limits(), "closed pipes": lambda _: PAGE + 1,
    "full devices": lambda program: len(faults.named_calls(program)), "lost files": lambda program: len(faults.turns_of_lost_files(program)),
    "failed allocations": lambda program: len(turns.turns_of(program).alone),
    "failed in threads": lambda program: len(turns.turns_of(program).threaded),
    "failed calls": lambda program: len(turns.turns_of(program).system), **more.IN_TURN,
}
# Those whose cases may run, some in a row, on one made project: what makes it. Making and reading a project is most of such a case.
ON_ONE = {
    "whole": cases.whole_project, "marks": marks.project, "begins": begins.project, "journals": cases.journals_project, "traces": cases.traced,
    "laws": cases.traced, "links": cases.links_projects, "link laws": cases.links_projects, "journal laws": laws.sound_project, "live": laws.live_project,
    "stations": laws.stations_project, "scripts": lanes.scripts_project, "lanes": lanes.lanes_project, "threads": lanes.lanes_project, "cover": covers.project,
}
RUNS = cases.EVERY * len(cases.OF_PROJECT)  # cases on such a project
SHOWN = 8  # of so many cases one tells what showed of each instruction
WHOLE_ANYWAY = (*IN_TURN, "little memory")
FEW = 1_000  # cases: what was met by fewer is told as rare


class Hammer:
    def __init__(self, program, seed, found, coverage=None, runs=1):
        self.program, self.seed, self.found, self.coverage, self.runs = program, seed, found, coverage, runs
        self.projects = {}
        self.counts, self.took = dict.fromkeys(KINDS, 0), dict.fromkeys(KINDS, 0.0)
        self.differences = []

    def known_kinds(self, wanted):
        """The kinds that are wanted and that the program has the commands for."""
        kinds = [kind for kind in KINDS if not wanted or kind in wanted]
        kinds = [kind for kind in kinds if self.has(KINDS[kind][2] or "logix_live")]
        return [kind for kind in kinds if kind not in IN_TURN or IN_TURN[kind](self.program)]

    def has(self, command):
        """Whether the program has a command, or there is a program of this name."""
        return self.program.beside(command) if command.startswith("logix_") else command in self.program.commands

    def case(self, kind, number):
        """The judge and the files of a case, by its number alone."""
        draw = Draw(f"{self.seed} {kind} {number}")
        make = KINDS[kind][0]
        if kind in ON_ONE and self.runs > 1:
            made, is_refused = self.project(kind, number // self.runs)
            if is_refused and number % self.runs:
                return make(draw, self.program)  # (a project that is refused is so each time: one case is enough)
            return make(draw, self.program, made, number % self.runs)
        return make(draw, self.program, number) if kind in IN_TURN else make(draw, self.program)

    def project(self, kind, number):
        """A kind's project of this number, and whether it is refused; the last one is kept."""
        if kind not in self.projects or self.projects[kind][0] != number:
            made = ON_ONE[kind](Draw(f"{self.seed} {kind} project {number}"))
            self.projects[kind] = number, (made, any(answer(["check"], [text])[0] for text in cases.projects_of(made)))
        return self.projects[kind][1]

    def try_case(self, kind, number):
        began = self.spent()
        judge, contents = self.case(kind, number)
        self.counts[kind] += 1
        wrong = judge(self.program, contents)
        self.took[kind] += self.spent() - began
        if self.coverage:
            self.coverage.case()
        if wrong:
            self.store(kind, number, judge, contents, wrong)

    def store(self, kind, number, judge, contents, wrong):
        """Writes the case and a smaller one that differs too, with how to draw it again."""
        smaller = contents
        if kind not in WHOLE_ANYWAY:
            smaller = Shrinker(lambda files: judge(self.program, files)).shrink(contents)
        folder = f"{self.found}/{kind.replace(' ', '_')}-{number}"
        os.makedirs(folder, exist_ok=True)
        for name, files in (("drawn", contents), ("smaller", smaller)):
            for at, text in enumerate(files):
                with open(f"{folder}/{name}{at}", "wb") as file:
                    file.write(text)
        note = f"{kind}, case {number} of seed {self.seed}: {wrong}\n"
        note += f"smaller: {judge(self.program, smaller)}\n"
        with open(f"{folder}/note.txt", "w", encoding="utf-8") as file:
            file.write(note + f"again: tools/hammer --seed {self.seed} --runs {self.runs} --again '{kind}:{number}'\n")
        self.differences.append(note)
        print(f"differs: {folder}\n{note}", flush=True)

    def first(self, kind):
        """The number of a kind's first case: those that come in turn begin at a place of the seed's, so that short runs meet all of them."""
        return Draw(f"{self.seed} {kind}").randrange(1 << 20) if kind in IN_TURN else 0

    def run(self, seconds, kinds):
        """Rounds of all kinds, each as often as it is to be; a rare one in some rounds."""
        until = time.monotonic() + seconds
        due = dict.fromkeys(kinds, 0.0)
        while kinds and time.monotonic() < until:
            for kind in kinds:
                due[kind] += KINDS[kind][1]
                batch = self.runs if kind in ON_ONE else 1  # (all cases on one project in a row, so that it is read once)
                while due[kind] >= batch and time.monotonic() < until:
                    due[kind] -= batch
                    for _ in range(batch):
                        self.try_case(kind, self.first(kind) + self.counts[kind])

    def run_cases(self, kinds, first, count):
        """So many cases of each kind, from the first; of one that comes in turn, all at most."""
        for kind in kinds:
            most = IN_TURN[kind](self.program) if kind in IN_TURN else first + count
            for number in range(first, min(first + count, most)):
                self.try_case(kind, number)

    def tell(self):
        if self.coverage:
            print("\n".join(met.told(self.coverage.counts, FEW)))
        for fault, told in sorted(self.program.told.items()):
            print(f"{fault}: " + ", ".join(f"{count} {what}" for what, count in sorted(told.items())))
        for kind, count in self.counts.items():
            if count:
                print(f"{kind}: {count} cases, {self.took[kind]:.1f} s")
        spent = self.spent()
        print(f"slowest run {self.program.slowest:.1f} s, most memory {self.program.largest // 1_000_000} MB")
        print(f"seed {self.seed}: {sum(self.counts.values())} cases, {self.program.runs} runs of the program,"
              f" {spent:.0f} s of processor time, {len(self.differences)} differences")

    @staticmethod
    def spent():
        """Seconds of processor time, of this process and of all that it ran."""
        used = [resource.getrusage(who) for who in (resource.RUSAGE_SELF, resource.RUSAGE_CHILDREN)]
        return sum(one.ru_utime + one.ru_stime for one in used)

    def store_counts(self, path):
        cases_of = {kind: count for kind, count in self.counts.items() if count}
        took = {kind: self.took[kind] for kind in cases_of}
        stored(self.coverage, path, cases=cases_of, took=took, differences=len(self.differences), runs=self.program.runs, spent=self.spent(), told=self.program.told)


def words_of_command(arguments):
    parser = argparse.ArgumentParser(prog="tools/hammer", description=__doc__)
    parser.add_argument("seconds", nargs="?", type=float, default=600, help="how long (600)")
    parser.add_argument("--seed", default=None, help="what all cases are drawn from (a new one)")
    parser.add_argument("--program", default=built("logix"), help="the built program")
    parser.add_argument("--kinds", default="", help=f"some of: {', '.join(KINDS)} (all)")
    parser.add_argument("--cases", type=int, default=None, metavar="N", help="N cases of each kind, or all where there are fewer, however long")
    parser.add_argument("--in-turn", action="store_true", help=f"all cases of {', '.join(IN_TURN)}")
    parser.add_argument("--runs", type=int, default=RUNS, metavar="N", help=f"journals on each made project, of {', '.join(ON_ONE)} ({RUNS})")
    parser.add_argument("--first", type=int, default=0, metavar="N", help="with --cases: the first one's number (0)")
    parser.add_argument("--again", default=None, metavar="KIND:NUMBER", help="one case of the seed again")
    parser.add_argument("--found", default=None, help="where differences are stored (hammer-SEED in the folder for temporary files)")
    parser.add_argument("--coverage", action="store_true", help="tell at the end how many cases met each instruction, cause, status and effect")
    parser.add_argument("--counts", default=None, metavar="FILE", help="with --coverage, --in-all or --table: write the counts there too")
    parser.add_argument("--find", type=float, default=None, metavar="SECONDS",
                        help="look so long for cases that meet what few do, by the plain interpreter, and keep them (kept.txt)")
    parser.add_argument("--in-all", type=int, default=None, metavar="N", help="so many cases in pieces of SECONDS, each a process; goes on where it ended before")
    parser.add_argument("--processors", type=int, default=1, metavar="P", help="with --in-all: so many pieces at a time (1)")
    parser.add_argument("--folder", default=None, help="with --in-all: for pieces.jsonl, a line for each piece, and what they found"
                        " (hammer-pieces-SEED in the folder for temporary files)")
    parser.add_argument("--table", nargs="+", default=None, metavar="FILE", help="only tell the table of such lines; with --counts, write their sum as one line")
    words = parser.parse_args(arguments)
    words.kinds = list(IN_TURN) if words.in_turn else [kind.strip() for kind in words.kinds.split(",") if kind]
    unknown = [kind for kind in words.kinds if kind not in KINDS]
    if unknown:
        parser.error(f"no such kind: {', '.join(unknown)}")
    return words


def main(arguments=None):
    """Status 0: nothing differs; 1: something does; 2: there is no program."""
    sys.setrecursionlimit(20_000)
    gc.set_threshold(200_000, 20, 20)  # (a case makes many objects, and hardly a circle of them)
    words = words_of_command(arguments)
    if words.table:
        return pieces.tell([line for path in words.table for line in pieces.lines_of(path)], FEW, words.counts)
    if words.find is not None:
        return corpus.main(words.find, words.seed or "find")
    if not os.access(words.program, os.X_OK):
        print(f"hammer: {words.program} isn't built; tools/prove builds it", file=sys.stderr)
        return 2
    seed = words.seed or str(random.SystemRandom().randrange(1 << 32))
    if words.in_all:
        return pieces.main(words, seed, FEW)
    program = Program(words.program)
    coverage = Coverage(every=SHOWN) if words.coverage or words.counts else None
    hammer = Hammer(program, seed, words.found or f"{os.environ.get('TMPDIR', '/tmp')}/hammer-{seed}", coverage, words.runs)
    print(f"seed {seed}", flush=True)
    kinds = hammer.known_kinds(words.kinds)
    try:
        with watching(coverage, program):
            tried(hammer, kinds, words)
    finally:
        program.close()
        hammer.tell()
        if words.counts:
            hammer.store_counts(words.counts)
    return 1 if hammer.differences else 0


def tried(hammer, kinds, words):
    """What the words ask for: one case again, so many of each kind, or rounds for some seconds."""
    if words.again:
        kind, number = words.again.rsplit(":", 1)
        hammer.try_case(kind, int(number))
    elif words.in_turn or words.cases:
        hammer.run_cases(kinds, words.first, words.cases or sys.maxsize)
    else:
        hammer.run(words.seconds, kinds)
