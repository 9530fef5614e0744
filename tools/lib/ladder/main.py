"""The words of tools/ladder."""

import sys

from lib.neutral import routines
from lib.programs import Ended, find, run

from .drawing import Part, sheet

USAGE = "usage: ladder P [PROGRAM [ROUTINE]]"


def chosen(listing, names):
    """The routines that these names, of a program and perhaps a routine, choose; all if there are none."""
    wanted = [name.lower() for name in names]
    return [Part(f"{program} / {routine}", rungs) for program, routine, rungs in routines(listing)
            if [program.lower(), routine.lower()][:len(wanted)] == wanted]


def main(words):
    if not 1 <= len(words) <= 3 or words[0].startswith("-"):
        print(USAGE, file=sys.stderr)
        return 1
    try:
        parts = chosen(run(*find("logix"), "text", words[0]), words[1:])
    except Ended as ended:
        sys.stderr.write(ended.text)
        return ended.status if ended.status > 0 else 70
    if not parts:
        print(f"ladder: the project has no {'routine' if len(words) > 2 else 'program'} {'/'.join(words[1:])}", file=sys.stderr)
        return 1
    sys.stdout.write(sheet(parts))
    return 0
