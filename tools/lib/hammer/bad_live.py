#!/usr/bin/env python3
"""A controller that goes wrong: answers as `logix_live P` does up to a number of lines of its answers, and then does what its first word says.

bad_live.py HOW COUNT LIVE P: LIVE is the real program. `ends N`, `signal`, `hangs`, `half` (a line without its end, and then nothing more),
`half ends`, `rubbish` (bytes that are no lines), `lines` (lines that are no answers, for ever), `other` (another mark's number), `closes`
(its output, and goes on reading), `deaf` (doesn't read any more), `double` (each line twice).
"""

import os
import signal
import subprocess
import sys
import time

LONG = 3_600


def goes_wrong(how, line):
    """What comes in place of this line; does not come back where nothing more is answered."""
    out = sys.stdout.buffer
    if how.startswith("ends"):
        os._exit(int(how.split()[1]))
    if how == "signal":
        os.kill(os.getpid(), signal.SIGKILL)
    if how in ("half", "half ends"):
        out.write(line[:len(line) // 2])
        out.flush()
        if how == "half ends":
            os._exit(0)
    if how == "closes":
        os.close(1)
    if how == "lines":
        while True:
            out.write(b"0 0 set nothing 1\n")
            out.flush()
            time.sleep(0.001)
    if how == "rubbish":
        out.write(bytes(range(256)) + b"\n\n\xff\xfe\n" + line)
    elif how == "double":
        out.write(line + line)
    elif how == "other":
        out.write(line.replace(b"line J1 ", b"line J1 9"))
    else:
        time.sleep(LONG)
    out.flush()


def main(how, count, live, project):
    given = subprocess.PIPE if how == "deaf" else sys.stdin.buffer
    real = subprocess.Popen([live, project], stdin=given, stdout=subprocess.PIPE, stderr=subprocess.DEVNULL)
    for number, line in enumerate(real.stdout):
        if number < int(count):
            sys.stdout.buffer.write(line)
            sys.stdout.buffer.flush()
        else:
            goes_wrong(how, line)
    sys.exit(real.wait())


if __name__ == "__main__":
    try:
        main(*sys.argv[1:])
    except (BrokenPipeError, KeyboardInterrupt):
        os._exit(1)
