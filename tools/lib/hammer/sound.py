"""What must hold of every answer: a known status, its one line, nothing on standard error, no crash and no hang."""

import re

LINES = {
    1: re.compile(rb"usage: logix .*\n"),
    2: re.compile(rb"(?:[ab] )?project P[0-9]+( [A-Za-z0-9_.]+)?( (?:[YG][0-9]+|T[0-9] [0-9]+|C[0-9]+ [0-9]+ [0-9]+))?\n"),
    3: re.compile(rb"(?:journal|script) J[1-5] line [0-9]+\n|trace K[12] line [0-9]+\n|link (?:J[124]|U1) line [0-9]+\n|question Q[1-4] line [0-9]+\n"),
    4: re.compile(rb""), 7: re.compile(rb""), 8: re.compile(rb"no L[1-3] [0-9]+\n|# line [0-9]+ after step [0-9]+, tick [0-9]+\nmode run\n(?:.+\n)*end\n"),
    9: re.compile(rb"unknown [0-9]+\n"),
}


def shown(text):
    """A beginning of a text."""
    return repr(bytes(text[:200]))


def unsound(ran, statuses):
    """What is wrong with an answer that may have one of these statuses; None if nothing is."""
    if ran.status is None:
        return "it hung"
    if ran.status not in statuses:
        return f"status {ran.status} with {shown(ran.out)}"
    if ran.err:
        return f"standard error: {shown(ran.err)}"
    if ran.status in LINES and not LINES[ran.status].fullmatch(ran.out):
        return f"status {ran.status} with {shown(ran.out)}"
    if ran.status == 0 and ran.out and not ran.out.endswith(b"\n"):
        return f"no line feed at the end of {shown(ran.out[-200:])}"
    return None
