"""Makes a case that differs smaller, by halving: lines of a journal, lists and rungs of a project, else bytes."""

import json
import time

from .plain.rungs import TextFault, element_text, read_rung

MOST_SECONDS = 60
MOST_PIECES = 100_000


class Shrinker:
    """`differs` tells whether files still show a difference."""

    def __init__(self, differs):
        self.differs, self.until = differs, time.monotonic() + MOST_SECONDS

    def shrink(self, contents):
        """The smaller files."""
        contents = list(contents)
        before = None
        while before != contents and time.monotonic() < self.until:
            before = list(contents)
            for at in range(len(contents)):
                self.shrink_one(contents, at)
        return contents

    def shrink_one(self, contents, at):
        def holds(text):
            return self.differs([*contents[:at], text, *contents[at + 1:]])

        try:
            value = json.loads(contents[at])
            smaller = self.value(value, lambda: holds(json.dumps(value).encode("utf-8")))
        except (ValueError, RecursionError):
            smaller = False
        if smaller:
            contents[at] = json.dumps(value).encode("utf-8")
        elif isinstance(contents[at], bytes) and not contents[at].lstrip().startswith(b"{"):
            lines = contents[at].split(b"\n")
            self.halve(lines, lambda: holds(b"\n".join(lines)))
            contents[at] = b"\n".join(lines)
        else:
            piece = 1 + len(contents[at]) // MOST_PIECES
            text = [contents[at][place:place + piece] for place in range(0, len(contents[at]), piece)]
            self.halve(text, lambda: holds(b"".join(text)))
            contents[at] = b"".join(text)

    def halve(self, items, holds):
        """Drops what can go from a list, in pieces of half its length, a quarter, and so on; whether any did."""
        size, dropped = max(1, len(items) // 2), False
        while items and time.monotonic() < self.until:
            start = 0
            while start < len(items) and time.monotonic() < self.until:
                piece = items[start:start + size]
                del items[start:start + size]
                if holds():
                    dropped = True
                else:
                    items[start:start] = piece
                    start += size
            if size == 1:
                break
            size //= 2
        return dropped

    def value(self, value, holds):
        """Shrinks a JSON value in place; whether it still differs."""
        if not holds():
            return False
        rest = [value]
        while rest:
            one = rest.pop(0)
            if isinstance(one, list):
                self.halve(one, holds)
                self.rungs(one, holds)
                rest += [item for item in one if isinstance(item, (dict, list))]
            elif isinstance(one, dict):
                self.keys(one, holds)
                rest += [item for item in one.values() if isinstance(item, (dict, list))]
        return True

    @staticmethod
    def keys(one, holds):
        for key in list(one):
            kept = one.pop(key)
            if not holds():
                one[key] = kept

    def rungs(self, texts, holds):
        """Drops elements of the texts that are rungs."""
        for at, text in enumerate(texts):
            if not isinstance(text, str) or ";" not in text:
                continue
            try:
                elements = [element_text(element) for element in read_rung(text)]
            except TextFault:
                continue

            def still():
                texts[at] = "".join(elements) + ";"
                return holds()

            if still():
                self.halve(elements, still)
                still()
            else:
                texts[at] = text
