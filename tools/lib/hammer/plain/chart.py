"""A report read back, and its wave file (FORMATS.md, section 6): a second reading of both."""

import re

from .words import is_name

MOST_LINES, MOST_TASKS, MOST_WATCHES = 100_000, 32, 256
UNSIGNED, SIGNED, WORD = re.compile(r"[0-9]{1,10}"), re.compile(r"-?[0-9]{1,10}"), re.compile(r"[!-~]+")


class Refused(Exception):
    """A code and its line."""


def unsigned(word):
    return int(word) if UNSIGNED.fullmatch(word) and int(word) < 1 << 32 else None


def signed(word):
    return int(word) if SIGNED.fullmatch(word) and -(1 << 31) <= int(word) < 1 << 31 else None


def is_word(word):
    return WORD.fullmatch(word) is not None


class Line:
    """A line before the end line: its tick, its steps, what it is, and the rest of its words; None if it is no such line."""

    def __init__(self, tick, step, kind, words):
        self.tick, self.step, self.kind, self.words = tick, step, kind, words


def line_of(text):
    words = text.split(" ")
    if len(words) < 4 or unsigned(words[0]) is None or unsigned(words[1]) is None or words[2] not in FORMS or not FORMS[words[2]](words[3:]):
        return None
    return Line(unsigned(words[0]), unsigned(words[1]), words[2], words[3:])


def is_begin(words):
    return len(words) == 3 and is_name(words[0]) and is_name(words[1]) and unsigned(words[2]) is not None


def is_reply(words):
    return unsigned(words[0]) is not None and is_answer(words[1:])


def is_answer(words):
    if len(words) == 1:
        return words[0] in ("ok", "held")
    if len(words) == 2 and words[0] == "ok":
        return signed(words[1]) is not None or unsigned(words[1]) is not None
    return len(words) > 1 and words[0] == "refused" and all(is_word(word) for word in words[1:])


def is_fault(words):
    if len(words) != 4 or words[0] not in ("minor", "major"):
        return False
    numbers = words[1].split("/")
    return len(numbers) == 2 and all(unsigned(one) is not None for one in numbers) and is_name(words[2]) and (is_name(words[3]) or words[3] == "-")


def is_set(words):
    return len(words) == 2 and is_word(words[0]) and signed(words[1]) is not None


FORMS = {"begin": is_begin, "reply": is_reply, "fault": is_fault, "set": is_set}


def end_of(text):
    """Tick, steps, mode and lines lost of an end line; None of any other."""
    words = text.split(" ")
    if len(words) != 6 or words[0] != "end" or words[3] not in ("program", "run", "faulted") or words[4] != "lost":
        return None
    numbers = [unsigned(words[at]) for at in (1, 2, 5)]
    return None if None in numbers else (numbers[0], numbers[1], words[3], numbers[2])


def read(contents):
    """The lines and the end of a report; Refused with the first cause."""
    pieces = contents.decode("latin-1").split("\n")
    lines, tasks, watches, tick, step = [], set(), set(), 0, 0
    for number, text in enumerate(pieces, 1):
        if number == len(pieces):
            raise Refused("V4", number)
        end = end_of(text)
        if end:
            if end[0] < tick or end[1] < step:
                raise Refused("V2", number)
            if pieces[number:] != [""]:
                raise Refused("V5", number + 1)
            return lines, end
        line = line_of(text)
        if line is None:
            raise Refused("V1", number)
        if line.tick < tick or line.step < step:
            raise Refused("V2", number)
        lines.append(line)
        tick, step = line.tick, line.step
        (tasks if line.kind == "begin" else watches if line.kind == "set" else set()).add(line.words[0])
        if len(lines) > MOST_LINES or len(tasks) > MOST_TASKS or len(watches) > MOST_WATCHES:
            raise Refused("V3", number)
    return None


def wave(contents, by_tick):
    """The status and the text of a wave file, over ticks or steps."""
    try:
        lines, (tick, step, mode, lost) = read(contents)
    except Refused as refused:
        return 2, "report {} line {}\n".format(*refused.args)
    tasks = list(dict.fromkeys(line.words[0] for line in lines if line.kind == "begin"))
    watches = list(dict.fromkeys(line.words[0] for line in lines if line.kind == "set"))
    made = ["$version logix_wave $end", f"$comment ends in {mode}, lines lost: {lost} $end", f"$timescale 1 {'ms' if by_tick else 'ns'} $end"]
    made += ["$scope module tasks $end", *(f"$var string 1 t:{name} {name} $end" for name in tasks), "$upscope $end", "$scope module watches $end"]
    made += [f"$var integer 32 w:{name} {name if is_name(name) else chr(92) + name} $end" for name in watches]
    made += ["$upscope $end", "$var string 1 reply reply $end", "$var string 1 fault fault $end", "$enddefinitions $end"]
    now = None
    for line in lines:
        at = line.tick if by_tick else line.step
        if at != now:
            made.append(f"#{at}")
            now = at
        made.append(changed(line))
    end = tick if by_tick else step
    return 0, "".join(line + "\n" for line in [*made, *([f"#{end}"] if now != end else [])])


def changed(line):
    if line.kind == "begin":
        return f"s{line.words[1]}:{line.words[2]} t:{line.words[0]}"
    if line.kind == "set":
        return f"b{int(line.words[1]) & 0xFFFF_FFFF:032b} w:{line.words[0]}"
    return f"s{'_'.join(line.words)} {line.kind}"
