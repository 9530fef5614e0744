"""Stops: a tag that takes a value, reaches one, changes; a fault; an overlap. When one is met first in an answer."""

import re
from dataclasses import dataclass

COMPARED = {"=": lambda old, new, value: new == value, ">=": lambda old, new, value: old < value <= new,
            "<=": lambda old, new, value: old > value >= new, "changes": lambda old, new, value: True}
FAULTS = {"fault": rb"(?:minor|major) \S+", "overlap": rb"minor 6/[23]"}
MOST = 8


@dataclass(frozen=True)
class Stop:
    kind: str  # of COMPARED or FAULTS, or "begin"
    place: str = ""
    value: int = 0

    def __str__(self):
        if self.kind == "begin":
            return f"{self.place} begins a scan"
        if self.kind in FAULTS:
            return "an overlap" if self.kind == "overlap" else "a fault"
        return f"{self.place} changes" if self.kind == "changes" else f"{self.place} {self.kind} {self.value}"

    def form(self):
        name = re.escape(self.place.encode())
        if self.kind == "begin":
            return re.compile(rb"^(\d+) (\d+) begin \S+ " + name + rb" \d+$", re.M)
        if self.kind in FAULTS:
            return re.compile(rb"^(\d+) (\d+) fault " + FAULTS[self.kind] + rb" [^\n]*$", re.M)
        value = str(self.value).encode() if self.kind == "=" else rb"-?\d+"
        return re.compile(rb"^(\d+) (\d+) set " + name + b" (" + value + rb")$", re.M)

    def met(self, answer, old):
        """Where it is first met, as a match; `old` is the tag's value before the answer."""
        test = COMPARED.get(self.kind)
        for found in self.form().finditer(answer):
            if not test:
                return found
            new = int(found[3])
            if test(old, new, self.value):
                return found
            old = new
        return None


def first(stops, answer, values, replies):
    """The first stop that is met, and the place right after its event; no action was told since the last of `replies`. `values` are
    those before the answer."""
    met = [(int(found[1]) + int(found[2]) + replies, stop) for stop in stops for found in [stop.met(answer, values.get(stop.place))] if found]
    return min(met, key=lambda each: each[0], default=(None, None))
