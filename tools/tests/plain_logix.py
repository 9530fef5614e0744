#!/usr/bin/env python3
"""Answers `logix` check, text, xref, replay and stations by the plain interpreter of the hammer: a stand-in before the programs are built."""

import sys

from common import read_bytes
from lib.hammer.plain.journal import read_journal
from lib.hammer.plain.judge import answer, story
from lib.hammer.plain.project import Project


def stations(project, journal, count):
    """The report, and of each station its first read, here of the opening values, and its last."""
    status, text = answer(["replay"], [project, journal])
    if status == 0:
        seen = story(Project(project), read_journal(journal))
        for at in range(count):
            text += "".join(f"station {at} {' '.join(map(str, snapshot))}\n" for snapshot in (seen[0], seen[-1]))
    return status, text


def main(word, *words):
    if word == "stations":
        status, text = stations(read_bytes(words[0]), read_bytes(words[1]), int(words[2]))
    else:
        status, text = answer([word], [read_bytes(path) for path in words])
    sys.stdout.write(text)
    return status


if __name__ == "__main__":
    sys.exit(main(*sys.argv[1:]))
