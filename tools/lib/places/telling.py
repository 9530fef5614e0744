"""What is said of a refusal in the words of the program that wrote it: `project P10 ..`, `journal J1 line 3`, `no L1 4`, `no scans 4`."""

from __future__ import annotations

import re

from lib.texts import Said, counted, marked, meant, quoted

from . import lines, project, questions, traces
from .codes import sentences
from .files import File
from .json_text import NoJson
from .refused import Refused, refused_of

KINDS = ("journal", "script", "question", "link", "trace", "line")


def project_names(contents: bytes | None, key: str) -> list[str]:
    """The names of a project's tasks or programs; none of one that can't be read."""
    found = readable(contents)
    return found.names(key) if found else []


def readable(contents: bytes | None) -> Refused | None:
    """A project that isn't refused."""
    try:
        found = refused_of(contents, [], []) if contents is not None else None
    except NoJson:
        return None
    return found if found and not found.judged else None


def of_line(kind: str, code: str, number: int, file: File, projects: list[bytes | None]) -> list[str]:
    """Of `KIND CODE line NUMBER`."""
    contents = file.contents()
    every = lines.lines_of(contents)
    if kind == "trace":
        said = traces.told(code, number, contents, project_names(projects[0], "tasks"), project_names(projects[0], "programs"))
    elif kind == "question":
        said = questions.told(code, number, every, readable(projects[0]))
    elif code == "U1" and number <= len(every):
        said = of_link_head(every[number - 1], *(readable(one) for one in (*projects, None, None)[:2]))
    else:
        said = lines.told("journal" if kind == "line" else kind, code, number, every)
    return [f"{file.name}, line {number}: {said.why}", *said.lines()[1:], *sentences(code, said.applies)]


def of_link_head(line: str, a: Refused | None, b: Refused | None) -> Said:
    """U1: of `link OUT IN`."""
    sizes = []
    for project, word, direction in zip((a, b), lines.words_of(line)[1:], ("out", "in")):
        if project is None:
            return Said("this line", marked(line, 0))
        both = zip(project.at(["connections"]) or [], project.half.connections)
        every = {one["name"]: half[3] for one, half in both if one["direction"] == direction}
        found = [size for name, size in every.items() if name.lower() == word.text.lower()]
        if not found:
            which = "first" if direction == "out" else "second"
            why = f"the {which} project has no {direction}put {quoted(word.text)}{meant(word.text, every)}"
            return Said(why, marked(line, word.at), [], "no output")
        sizes += found
    return Said(f"they have {counted(sizes[0], 'word')} and {counted(sizes[1], 'word')}", marked(line, 0), [], "differ")


def of_breach(words: list[str], name: str, contents: bytes, about: bytes | None) -> list[str]:
    """Of `no LAW EVENT`."""
    event = int(words[1])
    said = traces.breach(event, lines.lines_of(contents), project_names(about, "tasks"), project_names(about, "programs"))
    return [f"{name}, line {event + 1}: {said.why}", *said.lines()[1:], *sentences(words[0])]


def parts(text: str) -> tuple[str, list[str]]:
    """The kind of a line of refusal, and the words that say what and where; `a` or `b` before it is passed over."""
    words = [word.strip(".,:;") for word in text.split()]
    for at, word in enumerate(words):
        rest = words[at + 1 :]
        if word == "project" and rest and re.fullmatch(r"P\d+", rest[0]):
            return word, rest
        if word in KINDS and len(rest) > 1 and re.fullmatch(r"[A-Z]\d", rest[0]):
            return word, [rest[0], rest[2] if rest[1] == "line" and len(rest) > 2 else rest[1]]
        if word == "no" and len(rest) > 1 and re.fullmatch(r"L\d|[a-z]+", rest[0]) and rest[1].isdigit():
            return word, rest
    return "", words


def place(kind: str, rest: list[str], first: str, files: list[File]) -> list[str]:
    """Where the refusal is, by the files of the call."""
    projects = [file for file in files if file.kind == "project"]
    if kind == "project":
        file = projects[-1 if first.startswith("b ") else 0] if projects else None
        contents = file.contents() if file else None
        return project.told(file.name, contents, rest) if contents is not None else []
    file = next((one for one in files if one.kind.startswith(kind)), files[-1] if files else None)
    contents = file.contents() if file else None
    about = [one.contents() for one in projects]
    if contents is None or file.kind == "project":
        return []
    if kind == "no":
        return of_breach(rest, file.name, contents, about[0] if about else None)
    return of_line(kind, rest[0], int(rest[1]), file, about or [None])
