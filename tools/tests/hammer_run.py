"""A short run of the hammer over the program that the gate has built: fixed cases of each kind, every limit, and each fault in turn.

It takes a minute or so of one processor. What differs is printed, and the status is 1 then.
"""

import sys
import tempfile

from common import built
from lib.hammer.limits import LIMITS
from lib.hammer.main import Hammer
from lib.hammer.more import GATE
from lib.hammer.program import Program

ALL = sys.maxsize
COUNTS = {
    "whole": 1500, "long runs": 20, "edit runs": 3, "projects": 800, "journals": 500, "texts": 40, "cuts": 400, "traces": 200, "walks": 300, "links": 200, "link laws": 40,
    "project laws": 40, "journal laws": 40, "stations": 60, "scripts": 150, "lanes": 20, "threads": 150, "closed pipes": ALL,
    "failed allocations": ALL, "failed in threads": ALL, "failed calls": ALL, "full devices": ALL, "little memory": 60, "lost files": ALL,
    "live": 60,
    "limits": len(LIMITS), "numbers": 1, **GATE,
}


def main():
    sys.setrecursionlimit(20_000)
    program = Program(built("logix"))
    with tempfile.TemporaryDirectory() as found:
        hammer = Hammer(program, "gate", found)
        try:
            for kind in hammer.known_kinds([]):
                hammer.run_cases([kind], 0, COUNTS[kind])
        finally:
            program.close()
    return 1 if hammer.differences else 0


if __name__ == "__main__":
    sys.exit(main())
