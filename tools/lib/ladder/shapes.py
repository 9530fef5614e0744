"""Shapes of a drawing: a tree of elements of SVG, as its text or as lists for a page; and how wide a text is."""

from dataclasses import dataclass, field
from xml.sax.saxutils import escape, quoteattr

FONT = "'DejaVu Sans',Verdana,Arial,sans-serif"
SIZE = 12
# Of DejaVu Sans, which is wider than other fonts of this kind: what a character takes, in hundredths of the size.
_WIDTHS = {27: "'", 28: "ijl", 29: "IJ", 32: " ,.", 34: "/:;\\|", 35: "f", 36: "-", 39: "()[]t", 40: "!", 41: "r", 46: '"', 50: "*_`", 52: "sz", 53: "?",
           55: "c", 56: "L", 58: "Fk", 59: "vxy", 60: "P", 61: "TYao", 62: "e", 63: "ESbdghnpqu", 66: "K", 68: "AV", 69: "BRXZ", 70: "C", 73: "U",
           75: "HN", 77: "DG", 78: "&", 79: "OQ", 82: "w", 84: "#+<=>^~", 86: "M", 95: "%", 97: "m", 99: "W", 100: "@…"}
_WIDTH = {byte: width for width, some in _WIDTHS.items() for byte in some}
_DIGIT = 64
LONGEST = 26


def wide(text):
    """How wide a text is."""
    return sum(_WIDTH.get(byte, _DIGIT) for byte in text) * SIZE / 100


def short(text):
    """A long name's two ends."""
    return text if len(text) <= LONGEST else f"{text[:12]}…{text[-13:]}"


@dataclass
class Shape:
    tag: str
    fields: dict
    inner: list = field(default_factory=list)
    text: str = ""
    # What a page needs to know to keep it up to date; it isn't written into a file.
    live: dict = field(default_factory=dict)

    def add(self, *shapes):
        self.inner += shapes
        return self

    def svg(self):
        fields = "".join(f" {name}={quoteattr(said(value))}" for name, value in self.fields.items())
        inner = escape(self.text) + "".join(shape.svg() for shape in self.inner)
        return f"<{self.tag}{fields}>{inner}</{self.tag}>" if inner else f"<{self.tag}{fields}/>"

    def listed(self):
        """As lists that JSON has: tag, fields, text, what is inside, what is live."""
        return [self.tag, {name: said(value) for name, value in self.fields.items()}, self.text, [shape.listed() for shape in self.inner], self.live]


def said(value):
    """A field's value: of a number at most one digit after the point."""
    return value if isinstance(value, str) else f"{value:.1f}".removesuffix(".0")


def text(content, x, y, kind="", anchor=""):
    return Shape("text", {"x": x, "y": y, **({"class": kind} if kind else {}), **({"text-anchor": anchor} if anchor else {})}, text=content)


def path(kind, *parts):
    """A path of commands and numbers."""
    return Shape("path", {"class": kind, "d": " ".join(map(said, parts))})


def wire(*points):
    """A line through points."""
    return path("wire", "M", *points[0], *(part for x, y in points[1:] for part in ("L", x, y)))


def box(kind, x, y, w, h, round_by=2):
    return Shape("rect", {"class": kind, "x": x, "y": y, "width": w, "height": h, "rx": round_by})
