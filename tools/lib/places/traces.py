"""A line of a trace that was refused, or that breaks a law: the line, a mark under the word at fault, and the names of its numbers."""

from __future__ import annotations

import re

from lib.texts import Said, listed, marked, near, quoted

from .lines import Wrong, words_of

NUMBER = r"0|[1-9]\d{0,9}"
MARKS = rf"up|down|copy|copyend|sync|syncend|-|trigger:(?:{NUMBER})"
VERBS = "accept|test|untest|assemble|cancel|clear|program|run|other"
# What each word after the first is.
FORMS = {
    "idle": (), "began": ("T", "G", "V"), "step": ("T", "G", "MARK", "FAULT"), "left": ("T", "G", "ended or on"), "tick": ("R", "O", "W"),
    "act": ("LANE", "VERB", "G", "ANSWER", "R"), "end": (),
}  # fmt: skip
SLOTS = {
    "T": NUMBER, "V": NUMBER, "R": NUMBER, "O": NUMBER, "LANE": NUMBER, "G": rf"-|{NUMBER}", "W": rf"-|{NUMBER}", "MARK": MARKS,
    "FAULT": "minor|major|-", "ended or on": "ended|on", "VERB": VERBS, "ANSWER": rf"ok:(?:{NUMBER})|ok|no",
}  # fmt: skip


def told(code: str, number: int, contents: bytes, tasks: list[str], programs: list[str]) -> Said:
    """What is said of `trace CODE line NUMBER`."""
    *lines, rest = contents.decode("utf-8", "replace").split("\n")
    if rest and number == len(lines) + 1:
        return Said("the line has no LF at its end", marked(rest.expandtabs(1), len(rest)), [], "malformed")
    if code == "K1" and number == len(lines) + 1:
        return Said("the line 'end' is missing: here the text ends", applies="no line")
    if not 1 <= number <= len(lines):
        return Said("there is no such line: the file has changed since, or is another")
    line = lines[number - 1]
    try:
        (judge_form if code == "K1" else judge_numbers)(line, len(tasks), len(programs))
    except Wrong as wrong:
        return Said(wrong.why, marked(line.expandtabs(1), wrong.at), [], wrong.applies)
    return Said("this line", marked(line.expandtabs(1), 0))


def judge_form(line: str, *_: int) -> None:
    words = words_of(line)
    if line.endswith("\r"):
        raise Wrong("a CR stands at its end", len(line) - 1)
    if not words or line != " ".join(word.text for word in words):
        raise Wrong("one space must stand between words, and none at the ends", 0)
    verb, rest = words[0], words[1:]
    if verb.text not in FORMS:
        like = near(verb.text, FORMS)
        raise Wrong(f"no line begins with {quoted(verb.text)}; it is {like[0] if like else listed(FORMS)}", verb.at)
    form = FORMS[verb.text]
    if len(rest) != len(form):
        raise Wrong(f"the line must be '{' '.join([verb.text, *form])}'", len(line) if len(rest) < len(form) else rest[len(form)].at)
    for word, what in zip(rest, form):
        if not re.fullmatch(SLOTS[what], word.text):
            raise Wrong(f"{quoted(word.text)} is no {what} of '{' '.join([verb.text, *form])}'", word.at)
        if any(int(digits) >= 1 << 32 for digits in re.findall(r"\d+", word.text)):
            raise Wrong(f"{quoted(word.text)} has more than 32 bits", word.at)


def judge_numbers(line: str, tasks: int, programs: int) -> None:
    """K2: a number that the project doesn't have."""
    words = words_of(line)
    for word, what in zip(words[1:], FORMS[words[0].text]):
        digits = word.text.rpartition(":")[2]
        if not digits.isdigit():
            continue
        number = int(digits)
        if what in ("R", "O") and number >= 1 << tasks:
            raise Wrong(f"bit {number.bit_length() - 1} of {number} is no task: they are 0 to {tasks - 1}", word.at, "a task")
        if what in ("T", "W", "MARK") and number >= tasks:
            raise Wrong(f"there is no task {number}: they are 0 to {tasks - 1}", word.at, "a task")
        if what == "G" and number >= programs:
            raise Wrong(f"there is no program {number}: they are 0 to {programs - 1}", word.at, "a task")
        if what == "LANE" and number > 31:
            raise Wrong(f"there is no lane {number}: they are 0 to 31", word.at, "a lane")


def breach(event: int, lines: list[str], tasks: list[str], programs: list[str]) -> Said:
    """What is said of `no LAW EVENT`: event N stands on line N + 1."""
    if event >= len(lines):
        return Said("there is no such line: the file has changed since, or is another")
    words = lines[event].split()
    named = []
    if words[:1] and words[0] in ("began", "step", "left") and len(words) > 2:
        for what, names, digits in (("task", tasks, words[1]), ("program", programs, words[2])):
            if digits.isdigit() and int(digits) < len(names):
                named.append(f"{what} {digits} is {names[int(digits)]}")
    return Said(listed(named) or "this event", marked(lines[event], 0))
