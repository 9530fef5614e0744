"""The list of what isn't taken, with where it stands and why."""

from __future__ import annotations

from collections.abc import Iterable
from dataclasses import dataclass, field


@dataclass
class _Line:
    text: str
    # None of a fault, of a spare line what it is about.
    of: str | None = None


@dataclass
class Findings:
    """Lines about what isn't taken; a spare one is a fault only if a rung, a task or a watched place names what it is about."""

    notes_made: list[str] = field(default_factory=list)
    _lines: list[_Line] = field(default_factory=list)
    # Why something isn't taken: what else isn't.
    _because: dict[str, set[str]] = field(default_factory=dict)
    _named: set[str] = field(default_factory=set)
    # The instructions that aren't taken, each with the places that have it.
    unknown: dict[str, list[str]] = field(default_factory=dict)

    def fault(self, where: str, why: str) -> None:
        self._lines.append(_Line(f"{where}: {why}"))

    def spare(self, of: str, where: str, why: str, because: Iterable[str] = ()) -> None:
        self._lines.append(_Line(f"{where}: {why}", of))
        self._because.setdefault(of, set()).update(because)

    def named(self, of: str) -> None:
        """Something that is to be taken names this; so it isn't spare, nor is what it isn't taken for."""
        rest = [of]
        while rest:
            name = rest.pop()
            if name not in self._named:
                self._named.add(name)
                rest += self._because.get(name, ())

    def note(self, text: str) -> None:
        self.notes_made.append(f"note: {text}")

    def unknown_at(self, place: str, name: str, why: str) -> None:
        """An instruction that isn't taken, as it is spelled where it is met first."""
        self.fault(place, why)
        self.count_unknown(place, name)

    def count_unknown(self, place: str, name: str) -> None:
        spelled = next((other for other in self.unknown if other.lower() == name.lower()), name)
        self.unknown.setdefault(spelled, []).append(place)

    @property
    def faults(self) -> list[str]:
        return [line.text for line in self._lines if line.of is None or line.of in self._named]

    @property
    def notes(self) -> list[str]:
        """What is to know of what is taken, and then what is passed over, since nothing names it."""
        spare = [line.text for line in self._lines if line.of is not None and line.of not in self._named]
        return self.notes_made + [f"note: passed over: {text}" for text in spare]
