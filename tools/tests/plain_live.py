#!/usr/bin/env python3
"""Answers the lines of a journal one by one, as `logix_live P` does, by the plain interpreter of the hammer."""

import sys

from common import read_bytes
from lib.hammer.plain.journal import Bad, Reader, lines_of
from lib.hammer.plain.judge import Reporter, run
from lib.hammer.plain.project import Project
from lib.hammer.plain.reader import Fault


def put(lines):
    sys.stdout.write("".join(line + "\n" for line in lines))
    sys.stdout.flush()


def answer(reporter, number, line):
    """The lines that answer this line: those of its events, or its cause."""
    reader, seen = Reader(), len(reporter.lines)
    try:
        reader.take(line)
    except Bad as bad:
        return [f"line {bad.code} {number}"]
    run(reporter, reader.events)
    return reporter.lines[seen:]


def main(path):
    try:
        reporter = Reporter(Project(read_bytes(path)))
    except Fault as fault:
        put([fault.line()])
        sys.exit(2)
    for number, given in enumerate(sys.stdin.buffer, 1):
        for _, line in lines_of(given)[1]:
            if line.strip(" ") == "end":
                put([reporter.end()])
                return
            put(answer(reporter, number, line))
    put([reporter.end()])


if __name__ == "__main__":
    main(sys.argv[1])
