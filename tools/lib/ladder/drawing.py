"""A rung, and a whole routine, as Studio 5000 draws them: Scalable Vector Graphics.

`routine` and `sheet` are for whoever wants a drawing in a file; `rung` for tools/online's page, which keeps what it draws up to date.
"""

from dataclasses import dataclass, field

from lib.neutral import elements, tree

from .layout import Maker
from .shapes import FONT, SIZE, Shape, said, text

LEFT, RIGHT = 50, 12  # from the edges to the rails
SPACE = 8  # above and below a rung
WIDTH = 900
HEADING = 26
STYLE = f"""
text{{font:{SIZE}px {FONT};fill:#1c2126}}
.number,.label{{fill:#5c656e}}
.title{{font-weight:700}}
.note{{fill:#2563b8}}
.heading{{font-weight:700;font-size:14px}}
.wire{{stroke:#4a525a;stroke-width:1;fill:none;shape-rendering:crispEdges}}
.symbol{{stroke:#4a525a;stroke-width:1.8;fill:none}}
.box{{fill:#fff}}
.glow{{fill:none}}
.rail{{stroke:#4a525a;stroke-width:2}}
.on>.glow{{fill:#c9edd3}}
.on>.symbol{{stroke:#08702a;stroke-width:2.6}}
.on>.note{{fill:#08702a;font-weight:700}}
.missed>.symbol{{stroke:#b3261e;stroke-width:2.6;stroke-dasharray:5 2}}
.missed>.note{{fill:#b3261e;font-weight:700}}
"""


def rung(spelled, number="", letters="", width=WIDTH, mark_of=lambda at: None, live_of=lambda instruction: None):
    """A rung as a shape, with its height: its elements, its number and edit letters at the left. `mark_of` tells the Mark of an instruction
    by its place in the text, `live_of` its Live."""
    series = Maker(mark_of, live_of).series(tree(spelled), width - LEFT - RIGHT)
    width = max(width, series.w + LEFT + RIGHT)  # (of one box that is wider than all the room)
    y, height = series.up + SPACE, series.up + series.down + 2 * SPACE
    made = Shape("svg", {"width": width, "height": height, "viewBox": f"0 0 {said(width)} {said(height)}"})
    for x in (LEFT, width - RIGHT):
        made.add(Shape("line", {"class": "rail", "x1": x, "x2": x, "y1": 0, "y2": height}))
    made.add(text(str(number), LEFT - 8, y + 4, "number", "end"), text(letters, 8, y + 4, "mark"))
    body = Shape("g", {"class": "body"})
    series.draw(LEFT, y, width - RIGHT, body)
    return made.add(body), height


@dataclass
class Part:
    """A routine on a sheet: its heading, its rungs' texts, and a Mark, by (rung, instruction), both from 0, for each instruction that has a
    note or a look of its own."""

    heading: str
    rungs: list
    marks: dict = field(default_factory=dict)


def sheet(parts, width=WIDTH):
    """The text of an SVG file with these routines below one another."""
    drawn, below = [], 0
    for part in parts:
        if part.heading:
            drawn.append(text(part.heading, SPACE, below + HEADING - 8, "heading"))
            below += HEADING
        for number, line in enumerate(part.rungs):
            shape, height = rung(elements(line), number, width=width, mark_of=lambda at, number=number: part.marks.get((number, at)))
            shape.fields["y"] = below
            drawn.append(shape)
            below += height
    width = max([width, *(shape.fields.get("width", 0) for shape in drawn)])
    made = Shape("svg", {"xmlns": "http://www.w3.org/2000/svg", "width": width, "height": below, "viewBox": f"0 0 {said(width)} {said(below)}"})
    made.add(Shape("style", {}, text=STYLE), Shape("rect", {"width": "100%", "height": "100%", "fill": "#fff"}))
    return made.add(*drawn).svg() + "\n"


def routine(rungs, marks=None, width=WIDTH, heading=""):
    """The text of an SVG file with the rungs, neutral texts, of one routine."""
    return sheet([Part(heading, rungs, marks or {})], width)
