#!/usr/bin/env python3
"""Answers `logix_cover P J` by the plain interpreter of the hammer: a stand-in before the program is built."""

import os
import sys

from common import read_bytes
from lib.hammer.plain.judge import answer

USAGE = "usage: logix_cover P J\n"
WRONG_WORDS, NOT_READ = 1, 4


def answered(words):
    """The status and the text; the project is judged before the journal is read."""
    if len(words) != 2:
        return WRONG_WORDS, USAGE
    if not os.path.isfile(words[0]):
        return NOT_READ, ""
    project = read_bytes(words[0])
    status, text = answer(["check"], [project])
    if status:
        return status, text
    return answer(["cover"], [project, read_bytes(words[1])]) if os.path.isfile(words[1]) else (NOT_READ, "")


def main(*words):
    status, text = answered(words)
    sys.stdout.write(text)
    return status


if __name__ == "__main__":
    sys.exit(main(*sys.argv[1:]))
