"""A line of a question that was refused, and the answers of `logix_explore` in plain words."""

from __future__ import annotations

import re

from lib.texts import Said, counted, marked, meant, quoted

from .files import File
from .lines import DIGITS, VALUE, Word, Wrong, judge_bytes, judge_number, lines_of, words_of
from .refused import Refused

SIGNS = ("=", "<>", "<", "<=", ">", ">=")
FORM = "never TAG OP VALUE"
HOLDS = re.compile(r"# line (\d+) after step (\d+), tick (\d+)")
NEVER, SHOWN = 0, 8
FRAME = "no complete journal of the script shows a line of the question: none with these actions and values, at this pace"


def told(code: str, number: int, lines: list[str], project: Refused | None) -> Said:
    """What is said of the refusal `question CODE line NUMBER` of a file of these lines."""
    if code == "Q1" and number == len(lines) + 1:
        return Said("the line 'end' is missing: here the text ends", [], [], "no line")
    if not 1 <= number <= len(lines):
        return Said("there is no such line: the file has changed since, or is another")
    line = lines[number - 1]
    try:
        judge(code, line, project)
    except Wrong as wrong:
        return Said(wrong.why, marked(line.expandtabs(1), wrong.at), [], wrong.applies)
    return Said("this line", marked(line.expandtabs(1), len(line) - len(line.lstrip(" "))))


def judge(code: str, line: str, project: Refused | None) -> None:
    """Raises what is wrong with the line, as far as its code says that."""
    words = words_of(line)
    if code == "Q1":
        judge_bytes(line)
        judge_form(words, line)
    elif code == "Q2" and project:
        watched = [one for one in project.at(["watch"]) or []]
        for word in names_of(words):
            judge_known(word, watched, "watched place")
    elif code == "Q3" and project:
        judge_known(words[-1], project.names("programs"), "program")
    elif code == "Q4":
        judge_count(words)


def judge_form(words: list[Word], line: str) -> None:
    if not words:
        raise Wrong("the line has nothing but spaces; an empty line is passed over", 0)
    if words[0].text == "within":
        if len(words) != 2:
            raise Wrong("the line must be 'within T'", words[0].at)
        judge_number(words[1], "T, the ticks,", DIGITS)
    elif words[0].text == "never":
        judge_tests(words[1:], line)
    else:
        raise Wrong(f"no line begins with {quoted(words[0].text)}; it is within, never or end", words[0].at)


def judge_tests(words: list[Word], line: str) -> None:
    rest = words[:-2] if len(words) % 4 == 1 and len(words) > 2 and words[-2].text == "at" else words
    for at, word in enumerate(rest):
        if at % 4 == 1 and word.text not in SIGNS:
            raise Wrong(f"{quoted(word.text)} is none of {' '.join(SIGNS)}; each has a space on both sides", word.at)
        if at % 4 == 2 and word.text[0] in "-0123456789":
            judge_number(word, "a VALUE", VALUE)
        if at % 4 == 3 and word.text != "and":
            raise Wrong(f"'and' or 'at PROGRAM' must stand here, not {quoted(word.text)}", word.at)
    if len(rest) % 4 != 3:
        raise Wrong(f"a line must be '{FORM}', with 'and TAG OP VALUE' for more, and 'at PROGRAM'", len(line))


def names_of(words: list[Word]) -> list[Word]:
    """The words that must be watched places."""
    rest = words[1:-2] if len(words) > 2 and len(words) % 4 == 2 and words[-2].text == "at" else words[1:]
    return [word for at, word in enumerate(rest) if at % 4 == 0 or (at % 4 == 2 and word.text[0] not in "-0123456789")]


def judge_known(word: Word, names: list[str], what: str) -> None:
    if word.text.lower() not in (name.lower() for name in names):
        raise Wrong(f"there is no {what} {quoted(word.text)}{meant(word.text, names)}", word.at)


def judge_count(words: list[Word]) -> None:
    first = words[0]
    if first.text == "within":
        raise Wrong("'within' may stand once, and first", first.at, "within")
    if first.text == "end":
        raise Wrong("there is no 'never' line before", first.at, "no `never`")
    raise Wrong("a question has at most 64 'never' lines, a line at most 16 tests", first.at, "over 64")


# ---- answers


def answered(status: int, first: str, files: list[File], said: str) -> list[str]:
    """What an answer of `logix_explore` says; `said`: what its status means and what to do."""
    if status == NEVER:
        return [FRAME]
    found = HOLDS.match(first)
    if status != SHOWN or not found:
        return [f"status {status}: {said}"]
    number, step, tick = (int(one) for one in found.groups())
    lines = asked(files[-1].contents() if files else None)
    which = [f"    {lines[number - 1]}"] if number <= len(lines) else []
    return [f"status {status}: line {number} of the question holds after {counted(step, 'step')}, at tick {tick}, and after none with fewer steps", *which, said]


def asked(contents: bytes | None) -> list[str]:
    """The question's lines."""
    every = lines_of(contents) if contents is not None else []
    return [" ".join(word.text for word in words_of(line)) for line in every if line.lstrip(" ").startswith("never ")]
