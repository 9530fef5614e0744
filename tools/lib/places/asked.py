"""What tools/explain answers: the sentences of codes, and of a pasted line its place in the files that are named."""

from __future__ import annotations

import re

from .codes import CODE, sentences
from .files import File
from .project import codes_said
from .refused import Refused
from .replies import Follower, action_in
from .report import last_of
from .telling import parts, place, readable

PLACES = re.compile(r"\d+")
REPLY = re.compile(r"(\d+) (\d+) reply (\d+) refused (.+)")
FAULT = re.compile(r"fault (?:minor|major) (\d/\d+)")
STATUS = re.compile(r"status:? (\d+)")
EDITS = ("accept", "assemble", "cancel")


def answer(projects: list[str], journal: str | None, text: str) -> tuple[list[str], bool]:
    """The lines, and whether all codes are known."""
    kind, words = parts(text)
    files = [File("project", name) for name in projects] + ([File("journal", journal)] if journal else [])
    for file in files:
        open(file.name, "rb").close()
    if kind:
        found = place(kind, words, text, files)
        if found:
            return found, True
    reply = REPLY.search(text)
    if reply and projects and journal:
        found = of_reply(reply, File("project", projects[0]), File("journal", journal))
        if found:
            return found, True
    return of_codes(codes_in(text))


def of_codes(codes: list[str]) -> tuple[list[str], bool]:
    lines = [line for code in codes for line in sentences(code) or [f"{code}: no such code."]]
    return lines or ["there is no code in this"], bool(codes) and all(map(sentences, codes))


def codes_in(text: str) -> list[str]:
    """The codes of a line, without the numbers that say where, or of words that are codes."""
    for form in (FAULT, STATUS):
        found = form.search(text)
        if found:
            rest = [word for word in words_in(text[found.end() :]) if CODE.fullmatch(word) and not PLACES.fullmatch(word)]
            return [found.group(1), *(rest if form is STATUS else [])]
    reply = REPLY.search(text)
    words = words_in(reply.group(4) if reply else text)
    are_codes = all(map(CODE.fullmatch, words))
    places = {at for at, word in enumerate(words) if PLACES.fullmatch(word) and is_place(words[:at], are_codes)}
    return [word for at, word in enumerate(words) if CODE.fullmatch(word) and at not in places]


def words_in(text: str) -> list[str]:
    return [word.strip(".,:;") for word in text.split()]


def is_place(before: list[str], are_codes: bool) -> bool:
    """Whether a number says where a refusal is: after a code, or among words that are none."""
    return not are_codes or any(word[0].isalpha() for word in before)


def of_reply(reply: re.Match[str], project: File, journal: File) -> list[str]:
    """Of a command that was refused: the line of the journal with its tick, step and lane."""
    about, contents = readable(project.contents()), journal.contents()
    if about is None or contents is None:
        return []
    lines = [line.removesuffix("\r") for line in contents.decode("utf-8", "replace").split("\n")]
    found = commands_at(lines, *(int(number) for number in reply.groups()[:3]))
    if len(found) != 1:
        at = f"lines {', '.join(map(str, found))} may be meant" if found else "no command stands there"
        return [f"{journal.name}: {at}", *codes_said(last_of(reply.group(4).split()))]
    return of_command(about, lines, found[0], journal.name, reply.group(4).split())


def commands_at(lines: list[str], tick: int, steps: int, lane: int) -> list[int]:
    """The numbers of the lines of a lane's commands at this tick and step."""
    found, now = [], {"tick": 0, "cpu": 0}
    for number, line in enumerate(lines, 1):
        words = line.split()
        if words[:1] == ["end"]:
            break
        if words and words[0] in now and len(words) == 2 and words[1].isdigit():
            now[words[0]] += int(words[1])
        elif action_in(line) is not None and (now["tick"], now["cpu"]) == (tick, steps):
            if lane == (int(words[0][1:]) if words[0].startswith("@") else 31):
                found.append(number)
    return found


def of_command(about: Refused, lines: list[str], number: int, name: str, cause: list[str]) -> list[str]:
    """The place, unless edits before it, whose answers aren't known, may have changed the rungs."""
    before = [action_in(line) for line in lines[: number - 1]]
    if cause[0] in ("E5", "E8") and any(action and action.split()[0] in EDITS for action in before):
        return [f"{name}, line {number}: {lines[number - 1]}", *codes_said(last_of(cause))]
    said = Follower(about).refused(lines[number - 1], cause)
    return [f"{name}, line {number}: {said.why}", *said.lines()[1:], *codes_said(last_of(cause), said.applies)]
