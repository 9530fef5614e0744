"""Texts for a person: what is quoted from a file, a mark under a place of it, and the names near one that isn't there."""

from __future__ import annotations

import difflib
from collections.abc import Iterable
from dataclasses import dataclass, field

WIDTH = 100
INDENT = "    "
CONTEXT = 60
FEW = 8
MOST_NEAR, LIKENESS = 3, 0.6
KEPT_OF_A_NAME = 60


def visible(text: str) -> str:
    """The text without what a terminal would obey or hide."""
    return "".join(one if one.isprintable() else one.encode("unicode_escape").decode("ascii") for one in text)


def quoted(text: str) -> str:
    shown = visible(text)
    return f"'{shown[:KEPT_OF_A_NAME]}..'" if len(shown) > KEPT_OF_A_NAME + 2 else f"'{shown}'"


def shown(text: str, most: int = 80) -> str:
    """The text on one line, cut where it is long."""
    plain = "".join(c if c.isprintable() else "?" for c in text)
    return plain if len(plain) <= most else plain[: most - 2] + ".."


def marked(text: str, at: int) -> list[str]:
    """The text on one line, as much of it as fits, and a mark under its character `at`."""
    before, after = visible(text[:at]), visible(text[at:])
    cut = max(0, len(before) - CONTEXT) if len(before) + len(after) > WIDTH else 0
    if cut:
        before = ".." + before[cut + 2 :]
    room = WIDTH - len(before)
    if len(after) > room:
        after = after[: room - 2] + ".."
    return [INDENT + before + after, INDENT + " " * len(before) + "^"]


def listed(names: Iterable[str]) -> str:
    """`a, b and c`."""
    every = list(names)
    return " and ".join(part for part in (", ".join(every[:-1]), *every[-1:]) if part)


def near(name: str, names: Iterable[str]) -> list[str]:
    """The names that may have been meant, the nearest first: those that go on from it, then those with many letters in common."""
    known, wanted = {one.lower(): one for one in sorted(names)}, name.lower()
    longer = [one for one in known if len(wanted) > 1 and one.startswith(wanted)]
    found = dict.fromkeys([*longer, *difflib.get_close_matches(wanted, known, n=MOST_NEAR, cutoff=LIKENESS)])
    return [known[one] for one in found][:MOST_NEAR]


def meant(name: str, names: Iterable[str]) -> str:
    """What follows the word that a name isn't there: the names that are near, or the few that there are."""
    every = list(names)
    found = near(name, every)
    if found:
        return f"; is {' or '.join(found)} meant?"
    if not every:
        return "; none is declared"
    return f"; there {'are' if len(every) > 1 else 'is'} {listed(every)}" if len(every) <= FEW else ""


def sentence(text: str) -> str:
    return text if text.endswith("?") else f"{text}."


def counted(number: int, what: str) -> str:
    return f"{number:,} {what}{'' if number == 1 else 's'}"


@dataclass
class Said:
    """What is said of a refusal's place: why, what is quoted with its mark, and words of the sentence of its code that applies."""

    why: str
    quote: list[str] = field(default_factory=list)
    more: list[str] = field(default_factory=list)
    applies: str = ""
    # The number of the line that is quoted, if it is another than that of the refused value.
    row: int = 0

    def lines(self) -> list[str]:
        return [self.why, *self.quote, *(f"  {line}" for line in self.more)]
