"""A named number of cases, in pieces that end by themselves: each piece is a process of its own, with a seed of its own, for some seconds.

A file has a line for each piece: its seed, which programs it hammered, how many cases of each kind, and by how many cases each thing was met.
The same call goes on where the last one ended, on as many processors as it is given, and tells the table of all lines once enough cases were
tried. Lines may come from several sessions, and the sum of some is a line too. What a piece found different stands beside the file.
"""

import collections
import json
import os
import subprocess
import sys
import time
from concurrent.futures import FIRST_COMPLETED, ThreadPoolExecutor, wait
from hashlib import sha256

from . import coverage
from .outside import PROGRAMS, TOOLS

GRACE, MOST_BROKEN = 900, 3  # s beyond a piece's own; pieces in a row that broke off
LINES = "pieces.jsonl"
COUNTS, NUMBERS = ("cases", "took", "met", "told", "builds"), ("seconds", "spent", "runs", "differences", "pieces")


def build_of(program):
    """A sum of all programs that are there: the program's own, and those beside it."""
    crates, whole = os.path.dirname(os.path.dirname(os.path.dirname(os.path.abspath(program)))), sha256()
    for path in [program, *(f"{crates}/{name}/out/{name}" for name in PROGRAMS[1:])]:
        if os.path.exists(path):
            with open(path, "rb") as file:
                whole.update(sha256(file.read()).digest())
    return whole.hexdigest()[:16]


def lines_of(path):
    """The lines of a file; of one that isn't there none."""
    if not os.path.exists(path):
        return []
    with open(path, encoding="utf-8") as file:
        return [json.loads(line) for line in file]


def added(lines):
    """The sum of lines, which is one."""
    counts = {name: collections.Counter() for name in COUNTS}
    for one in lines:
        for name in COUNTS:
            counts[name].update(one[name])
    return {
        "seeds": [seed for one in lines for seed in one["seeds"]], **{name: dict(sorted(counts[name].items())) for name in COUNTS},
        **{name: sum(one[name] for one in lines) for name in NUMBERS},
    }


class Pieces:
    def __init__(self, folder, seed, seconds, program, more):
        self.folder, self.seed, self.seconds, self.program, self.more = folder, seed, seconds, program, more
        os.makedirs(folder, exist_ok=True)
        self.made = lines_of(f"{folder}/{LINES}")
        numbers = [one.rsplit("-", 1) for line in self.made for one in line["seeds"]]
        self.number = max((int(number) + 1 for seed, number in numbers if seed == self.seed), default=0)

    def cases(self):
        return sum(sum(one["cases"].values()) for one in self.made)

    def run(self, wanted, processors=1):
        """Pieces, so many at a time, until there are so many cases; whether there are."""
        broken, running = 0, set()
        with ThreadPoolExecutor(processors) as pool:
            while running or (self.cases() < wanted and broken < MOST_BROKEN):
                while len(running) < processors and self.cases() < wanted and broken < MOST_BROKEN:
                    running.add(pool.submit(self.piece, self.next()))
                done, running = wait(running, return_when=FIRST_COMPLETED)
                for one in done:
                    broken = 0 if one.result() else broken + 1
                    self.keep(one.result(), wanted)
        return self.cases() >= wanted

    def next(self):
        self.number += 1
        return self.number - 1

    def keep(self, piece, wanted):
        if piece:
            self.made.append(piece)
            with open(f"{self.folder}/{LINES}", "a", encoding="utf-8") as file:
                file.write(json.dumps(piece) + "\n")
            seed, = piece["seeds"]
            print(f"piece {seed}: {sum(piece['cases'].values())} cases, {piece['differences']} differences; {self.cases()} of {wanted}", flush=True)

    def piece(self, number):
        """One more piece; None if it broke off, or if the programs were built anew meanwhile."""
        name, seed, build = f"{self.folder}/piece-{number:05}", f"{self.seed}-{number}", build_of(self.program)
        words = [sys.executable, "-B", f"{TOOLS}/hammer", str(self.seconds), "--seed", seed, "--program", self.program, "--coverage",
                 "--counts", f"{name}.part", "--found", f"{name}.found", *self.more]
        began = time.monotonic()
        with open(f"{name}.txt", "wb") as log:
            try:
                status = subprocess.run(words, stdout=log, stderr=log, timeout=self.seconds + GRACE, check=False).returncode
            except subprocess.TimeoutExpired:
                status = None
        if status not in (0, 1) or not os.path.exists(f"{name}.part") or build_of(self.program) != build:
            print(f"piece {seed} broke off: status {status}, {name}.txt", flush=True)
            return None
        with open(f"{name}.part", encoding="utf-8") as file:
            part = json.load(file)
        os.remove(f"{name}.part")
        told = {f"{fault}: {came}": count for fault, came in part["told"].items() for came, count in came.items()}
        counts = {**part, "told": told, "builds": {build: sum(part["cases"].values())}, "seconds": round(time.monotonic() - began), "pieces": 1}
        return {"seeds": [seed], **counts}


def told(lines, least):
    """The table of all lines: what was met, how many cases of each kind, what came of faults, and all in all."""
    whole = added(lines)
    cases, builds = sum(whole["cases"].values()), whole["builds"]
    made = [*coverage.told(whole["met"], least), *(f"{kind}: {count} cases, {whole['took'].get(kind, 0):.0f} s" for kind, count in whole["cases"].items())]
    made += [f"{what}, {count}" for what, count in whole["told"].items()]
    if len(builds) > 1:
        made.append("not all of the same programs: " + ", ".join(f"{count} cases of {build}" for build, count in builds.items()))
    return [*made, f"seeds {', '.join(shortened(whole['seeds']))}: {cases} cases in {whole['pieces']} pieces, {whole['runs']} runs of the programs,"
                   f" {whole['spent']:.0f} s of processor time, {whole['differences']} differences"]


def shortened(seeds):
    """Seeds with a number after each: those of one name together."""
    numbers = {}
    for seed in seeds:
        name, _, number = seed.rpartition("-")
        numbers.setdefault(name, []).append(int(number))
    for name, known in numbers.items():
        least, most = min(known), max(known)
        missing = sorted(set(range(least, most + 1)) - set(known))
        yield f"{name}-{least} to {name}-{most}" + (f" but {', '.join(map(str, missing))}" if missing else "")


def tell(lines, least, counts=None):
    """Prints the table, and writes the sum as a line of its own where it is asked for. Status 1: something differs."""
    print("\n".join(told(lines, least)))
    if counts:
        with open(counts, "w", encoding="utf-8") as file:
            file.write(json.dumps(added(lines)) + "\n")
    return 1 if added(lines)["differences"] else 0


def main(words, seed, least):
    """Status 0: all cases were tried and none differs; 1: some do; 3: pieces broke off, and there are fewer."""
    more = ["--runs", str(words.runs)] + (["--kinds", ",".join(words.kinds)] if words.kinds else [])
    folder = words.folder or f"{os.environ.get('TMPDIR', '/tmp')}/hammer-pieces-{seed}"
    pieces = Pieces(folder, seed, words.seconds, words.program, more)
    enough = pieces.run(words.in_all, words.processors)
    status = tell(pieces.made, least, words.counts)
    return status if enough else 3
