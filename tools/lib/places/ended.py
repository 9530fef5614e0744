"""What is said on a terminal when a call of a program has ended: its status, which file or word it was, and the place of a refusal."""

from __future__ import annotations

from lib.texts import sentence

from .codes import Row, sentences, table
from .files import File, files_of, wrong_words
from .questions import answered
from .report import Report
from .telling import parts, place, readable

WRONG_WORDS, CANT_BE_READ, TOO_LONG = "1", "4", "7"
REFUSED = ("2", "3", "8")
# What rows of the statuses are about that are for some programs alone.
ABOUT = {"logix_timeline": "picture", "logix_wave": "picture", "logix_explore": "exploration", "logix_laws": "leaves out"}
ANSWERS = (0, 8, 9)


def ended(program: str, words: list[str], status: int, first: str, report: Report | None) -> list[str]:
    """The lines; `first` is the first line that the program wrote."""
    files = files_of(program, words)
    if program == "logix_explore" and status in ANSWERS:
        return answered(status, first, files, row_of(program, str(status)).sentence())
    if status == 0:
        return said_of_report(files, report)
    head = [f"status {status}: {what(program, words, str(status), files, first)}"]
    if str(status) not in REFUSED:
        return head
    kind, rest = parts(first)
    told = place(kind, rest, first, files) if kind else []
    return head + (told or [line for code in first.split()[1:] if not code.isdigit() for line in sentences(code)])


def what(program: str, words: list[str], status: str, files: list[File], first: str) -> str:
    """What the status means, and which file or word it is about."""
    if status not in table():
        return "it ended so"
    row = row_of(program, status)
    if status == CANT_BE_READ:
        faults = [fault for fault in (file.fault() for file in files) if fault]
        if faults:
            return f"{sentence(faults[0])} To do: {sentence(row.advice)}"
    if status == TOO_LONG:
        long = [file for file in files if file.is_long()]
        if long:
            return f"the {long[0].kind} {long[0].name} has more than 16,777,216 bytes. To do: {sentence(row.advice)}"
    if status == WRONG_WORDS:
        return f"{sentence(wrong_words(program, words))} To do: {sentence(row.advice)}"
    return row.meaning if len(first.split()) > 1 and status in REFUSED else row.sentence()


def row_of(program: str, status: str) -> Row:
    """The row of a status that is about this program, or about all."""
    rows, about = table()[status], ABOUT.get(program, "")
    own = [row for row in rows if about and about in row.meaning]
    return (own or [row for row in rows if not any(one in row.meaning for one in ABOUT.values())] or rows)[0]


def said_of_report(files: list[File], report: Report | None) -> list[str]:
    """Of refused commands and lost lines, once."""
    if report is None or not (report.refused or report.lost):
        return []
    if not files:
        return report.said("", None, [])
    contents = files[0].contents()
    project = readable(contents)
    if report.is_run:
        return report.said("", project, report.journal)
    journal = files[-1].contents()
    lines = journal.decode("utf-8", "replace").split("\n") if journal is not None else []
    return report.said(files[-1].name, project, [line.removesuffix("\r") for line in lines])
