"""A line of a journal, script, link script or trace that was refused: the line itself, a mark under the word at fault, and why."""

from __future__ import annotations

import re
from typing import NamedTuple

from lib.hammer.plain.journal import LONGEST, MOST_ACTIONS, MOST_COUNT, MOST_EDITS
from lib.hammer.plain.words import is_name
from lib.texts import Said, marked, meant, near, quoted


MARK = "\ufeff"
DIGITS = re.compile(r"[0-9]{1,10}")
VALUE = re.compile(r"-?[0-9]{1,10}")
# What follows each verb. A word in small letters is itself.
FORMS = {
    "cpu": ("N",), "tick": ("N",), "in": ("CONN", "WORD", "VALUE"), "out": ("CONN", "WORD"), "accept": ("PROGRAM", "ROUTINE", "EDITS"),
    "test": ("PROGRAM",), "untest": ("PROGRAM",), "assemble": ("PROGRAM",), "cancel": ("PROGRAM",), "mode": ("run or program",),
    "clear": (), "force": ("enable, disable or remove",), "end": (),
}  # fmt: skip
FORCE = ("CONN", "WORD", "MASK", "VALUE")
CHOICES = {"mode": ("run", "program"), "force": ("enable", "disable", "remove")}
COUNTS, VALUES, NAMES = ("N", "WORD", "INDEX"), ("VALUE", "MASK"), ("CONN", "PROGRAM", "ROUTINE")
HEADS = {"script": ("run", "STEPS", "PACE", "LANES"), "link": ("link", "OUT", "IN")}


class Word(NamedTuple):
    text: str
    at: int


class Wrong(Exception):
    """What is wrong with a line, at which character, and words of the sentence that applies."""

    def __init__(self, why: str, at: int, applies: str = "malformed") -> None:
        super().__init__(why, at)
        self.why, self.at, self.applies = why, at, applies


def lines_of(contents: bytes) -> list[str]:
    pieces = contents.decode("utf-8", "replace").split("\n")
    last = pieces.pop()
    return [piece.removesuffix("\r") for piece in pieces] + ([last] if last else [])


def words_of(text: str, start: int = 0) -> list[Word]:
    return [Word(found.group(), start + found.start()) for found in re.finditer(r"[^ ]+", text[start:])]


def told(kind: str, code: str, number: int, lines: list[str]) -> Said:
    """What is said of the refusal `KIND CODE line NUMBER` of a file of these lines."""
    if code == "J1" and number == len(lines) + 1:
        return Said("the line 'end' is missing: here the text ends", [], [], "no line")
    if not 1 <= number <= len(lines):
        return Said("there is no such line: the file has changed since, or is another")
    line = lines[number - 1]
    try:
        judge(kind, code, number, lines)
    except Wrong as wrong:
        return Said(wrong.why, marked(line.expandtabs(1), wrong.at), [], wrong.applies)
    return Said("this line", marked(line.expandtabs(1), len(line) - len(line.lstrip(" "))))


def judge(kind: str, code: str, number: int, lines: list[str]) -> None:
    """Raises what is wrong with the line, as far as its code says that."""
    line = lines[number - 1]
    if code == "J1":
        judge_bytes(line)
        judge_form(kind, line, is_first(number, lines))
    elif code == "J2":
        lane = next(word for word in words_of(line) if word.text.startswith("@"))
        head = words_of(next(one for one in lines if one and not one.startswith("#")))
        most = f"of this script are below {head[3].text}" if kind == "script" else "are 0 to 30; the operator, 31, has no @"
        raise Wrong(f"no lane {lane.text[1:]}: lanes {most}", lane.at, "script" if kind == "script" else "above")
    elif code == "J4":
        judge_count(kind, line, is_first(number, lines))
    elif code in ("J3", "J5"):
        judge_tick(code, number, lines)


def is_first(number: int, lines: list[str]) -> bool:
    """Whether it is the first line that isn't passed over."""
    return all(not line or line.startswith("#") for line in lines[: number - 1])


def judge_bytes(line: str) -> None:
    if line.startswith(MARK):
        raise Wrong("the file begins with a byte order mark: save it without", 0)
    if len(line.encode("utf-8")) > LONGEST:
        raise Wrong(f"the line has more than {LONGEST:,} bytes", 0)
    if "\t" in line and not re.match(r" *(@\S+ +)?accept ", line):
        raise Wrong("a tab stands between words; write a space", line.index("\t"))
    if line.endswith("\r"):
        raise Wrong("the line ends with a second CR", len(line) - 1)


def judge_form(kind: str, line: str, first: bool) -> None:
    words = words_of(line)
    if not words:
        raise Wrong("the line has nothing but spaces; an empty line is passed over", 0)
    if kind in HEADS and first:
        judge_head(kind, words, line)
        return
    if kind == "link" and words[0].text in ("a", "b", "send", "deliver"):
        judge_link(words, line)
        return
    if kind == "link":
        raise Wrong(f"no line begins with {quoted(words[0].text)}; it is a, b, send or deliver", words[0].at)
    if kind == "script":
        words = judge_script(words, line)
    elif words[0].text.startswith("@"):
        judge_number(Word(words[0].text[1:], words[0].at + 1), "the lane", DIGITS)
        words = words[1:]
        if not words:
            raise Wrong("an action must follow the lane", len(line))
        if words[0].text in ("cpu", "tick", "end"):
            raise Wrong(f"{words[0].text} has no lane: leave out the @", words[0].at)
    judge_action(words, line, kind == "script")


def judge_head(kind: str, words: list[Word], line: str) -> None:
    form = HEADS[kind]
    if words[0].text != form[0] or len(words) != len(form):
        raise Wrong(f"the first line must be '{' '.join(form)}'", words[0].at)
    for word, what in zip(words[1:], form[1:]):
        if kind == "link":
            judge_name(word)
        else:
            judge_number(word, what, DIGITS)


def judge_script(words: list[Word], line: str) -> list[Word]:
    if not words[0].text.startswith("@") or len(words) < 3:
        raise Wrong("every line but the first must be '@LANE AT ACTION'", words[0].at)
    judge_number(Word(words[0].text[1:], words[0].at + 1), "the lane", DIGITS)
    judge_number(words[1], "AT, the tick,", DIGITS)
    return words[2:]


def judge_link(words: list[Word], line: str) -> None:
    verb, rest = words[0].text, words[1:]
    if verb in ("a", "b"):
        if not rest:
            raise Wrong(f"a line of {verb}'s journal must follow", len(line))
        judge_form("journal", " " * rest[0].at + line[rest[0].at :], False)
    elif len(rest) != (verb == "deliver"):
        raise Wrong(f"the line must be '{'deliver K' if verb == 'deliver' else 'send'}'", words[0].at)
    elif rest:
        judge_number(rest[0], "K, the packet,", DIGITS)


def judge_action(words: list[Word], line: str, timed: bool) -> None:
    verb, rest = words[0], words[1:]
    known, what = [one for one in FORMS if not (timed and one in ("cpu", "tick", "end"))], "action" if timed else "line"
    if verb.text not in known:
        like = near(verb.text, known)
        more = f"; is {like[0]} meant?" if like else f"; it is {', '.join(known[:-1])} or {known[-1]}"
        raise Wrong(f"no {what} begins with {quoted(verb.text)}{more}", verb.at)
    if verb.text == "accept":
        judge_accept(rest, line, what)
        return
    form = FORCE if verb.text == "force" and len(rest) > 1 else FORMS[verb.text]
    if len(rest) != len(form):
        also = f" or 'force {' '.join(FORCE)}'" if form is FORMS["force"] else ""
        at = rest[len(form)].at if len(rest) > len(form) else len(line)
        raise Wrong(f"the {what} must be '{' '.join([verb.text, *form])}'{also}", at)
    for word, what in zip(rest, form):
        judge_word(verb.text, word, what)


def judge_word(verb: str, word: Word, what: str) -> None:
    if what in NAMES:
        judge_name(word)
    elif what in COUNTS:
        judge_number(word, what, DIGITS)
    elif what in VALUES:
        judge_number(word, what, VALUE)
    elif word.text not in CHOICES[verb]:
        raise Wrong(f"{verb} {quoted(word.text)} isn't there{meant(word.text, CHOICES[verb])}", word.at)


def judge_name(word: Word) -> None:
    if not is_name(word.text):
        raise Wrong(f"{quoted(word.text)} is no name: letters, digits and single underscores, no digit first", word.at, "no name")


def judge_number(word: Word, what: str, form: re.Pattern[str]) -> None:
    if "#" in word.text or word.text.lower().startswith("0x"):
        raise Wrong(f"{quoted(word.text)}: numbers of a journal are decimal", word.at, "32 bits")
    if not form.fullmatch(word.text):
        raise Wrong(f"{quoted(word.text)} is no number; {what} is one, with at most 10 digits", word.at, "32 bits")
    least, most = (0, (1 << 32) - 1) if form is DIGITS else (-(1 << 31), (1 << 31) - 1)
    if not least <= int(word.text) <= most:
        raise Wrong(f"{word.text} is out of range: {what} is {least:,} to {most:,}", word.at, "32 bits")


def judge_accept(rest: list[Word], line: str, what: str) -> None:
    if len(rest) < 3:
        raise Wrong(f"the {what} must be 'accept PROGRAM ROUTINE EDITS', an edit being r INDEX TEXT, i INDEX TEXT or d INDEX", len(line))
    judge_name(rest[0])
    judge_name(rest[1])
    at, parts = rest[2].at, line[rest[2].at :].split("|")
    if len(parts) > MOST_EDITS:
        raise Wrong(f"it has {len(parts)} edits; at most {MOST_EDITS}", at)
    for part in parts:
        judge_edit(part, at)
        at += len(part) + 1


def judge_edit(part: str, at: int) -> None:
    words = [Word(word.text, at + word.at) for word in words_of(part)]
    if not words:
        raise Wrong("an edit is empty", at)
    if words[0].text not in ("r", "i", "d"):
        raise Wrong(f"no edit begins with {quoted(words[0].text)}; it is r INDEX TEXT, i INDEX TEXT or d INDEX", words[0].at)
    if len(words) < 2:
        raise Wrong("the number of a rung must follow", at + len(part.rstrip()))
    judge_number(words[1], "INDEX", DIGITS)
    if words[0].text == "d" and len(words) > 2:
        raise Wrong("nothing follows d INDEX; edits have a | between them", words[2].at)


def judge_count(kind: str, line: str, first: bool) -> None:
    """J4."""
    words = words_of(line)
    if kind in ("a", "b"):
        words = words[1:]
    if kind == "script" and first:
        for word, what, least, most in zip(words[1:], ("STEPS", "PACE", "LANES"), (1, 1, 0), (1_000_000, 1_000_000, 31)):
            if not least <= int(word.text) <= most:
                raise Wrong(f"{what} can't be {word.text}; it is {least} to {most:,}", word.at, "first line")
        return
    counted = next((at for at, word in enumerate(words) if word.text in ("cpu", "tick")), None)
    if counted is None:
        raise Wrong(f"with this line there are more than {MOST_ACTIONS:,} actions", words[0].at, "pass")
    verb, count = words[counted : counted + 2]
    if int(count.text) == 0:
        raise Wrong(f"{verb.text} 0 does nothing", count.at, "count of 0")
    what = "steps" if verb.text == "cpu" else "ticks"
    raise Wrong(f"with this line there are more than {MOST_COUNT:,} {what}", count.at, "pass")


def judge_tick(code: str, number: int, lines: list[str]) -> None:
    """J3 and J5."""
    words = words_of(lines[number - 1])
    if code == "J3":
        head = words_of(next(one for one in lines if one and not one.startswith("#")))
        raise Wrong(f"the script's last tick is {int(head[1].text) // int(head[2].text)}", words[1].at)
    before = [at for at, line in enumerate(lines[: number - 1], 1) if (found := words_of(line)) and found[0].text == words[0].text]
    raise Wrong(f"line {before[-1]}, of the same lane, has {words_of(lines[before[-1] - 1])[1].text}", words[1].at)
