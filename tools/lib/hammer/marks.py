"""Marks and hits as they show outside: a watched place beside written ones, written and written back, equal bytes, forces, subscripts.

The image is all 0 at first, and what is written is mostly 0, 1 or what stands there, so that many writes change nothing.
"""

from .cases import file_text, journal_text, judged
from .laws import of_live

TYPES = [
    {"name": "Cell", "members": [{"name": "Ok", "type": "BOOL"}, {"name": "N", "type": "INT"}, {"name": "D", "type": "SINT", "dim": 5}]},
    {"name": "Odd", "members": [{"name": "S", "type": "SINT"}, {"name": "T", "type": "TIMER"}, {"name": "B", "type": "BOOL", "dim": 32}]},
]
# Arrays that are written and watched: the bytes of an element, and what one element's numbers are called.
ARRAYS = {
    "a": ("SINT", 80, 1, ("",)), "h": ("INT", 40, 2, ("",)), "w": ("DINT", 40, 4, ("",)), "v": ("DINT", 20, 4, ("",)), "Local:1:I": ("DINT", 20, 4, ("",)),
    "t": ("TIMER", 5, 16, (".PRE", ".ACC")), "c": ("COUNTER", 6, 12, (".PRE", ".ACC")), "s": ("Cell", 7, 12, (".N", ".D[0]", ".D[4]")),
    "o": ("Odd", 4, 24, (".S", ".T.PRE", ".T.ACC")),
}
BITS = {"a": 8, "h": 16, "w": 32, "v": 32, "Local:1:I": 32}
NEAR = (1, 2, 3, 4, 5, 8, 15, 16, 17, 31, 32, 63, 64, 65)
NUMBERS = (0, 0, 0, 1, 1, -1, 2, 255, 256, 65_536, -2_147_483_648)
LEAST_SIZE, MOST_WATCHES = 4, 40


class Marks:
    """Draws one project and journal around some places that are written again and again."""

    def __init__(self, draw):
        self.draw = draw
        names = list(ARRAYS)
        draw.shuffle(names)
        self.arrays = names[:draw.randrange(3, len(names) + 1)]
        if "Local:1:I" not in self.arrays:
            self.arrays.append("Local:1:I")
        self.focus = [self.element(draw.choice(self.arrays)) for _ in range(draw.randrange(1, 4))]

    # ---- places

    def element(self, name):
        return name, self.draw.randrange(ARRAYS[name][1])

    def near(self):
        """An element some bytes away from one of those that are written most."""
        name, at = self.draw.choice(self.focus)
        _, length, size, _ = ARRAYS[name]
        by = self.draw.choice(NEAR) * self.draw.choice((-1, 1))
        return name, max(0, min(length - 1, at + by // size))

    def place(self):
        return self.draw.choice(self.focus) if self.draw.random() < 0.5 else self.near() if self.draw.random() < 0.7 else self.element(self.draw.choice(self.arrays))

    def number(self):
        """The text of an integer's place; its element now and then by a subscript."""
        name, at = self.place()
        subscript = self.draw.choice(("n", "m", "k")) if self.draw.random() < 0.25 else str(at)
        return f"{name}[{subscript}]{self.draw.choice(ARRAYS[name][3])}"

    def fixed(self):
        """The text of an integer's place that may be watched, or a bit of it."""
        name, at = self.place()
        text = f"{name}[{at}]{self.draw.choice(ARRAYS[name][3])}"
        if name in BITS and self.draw.random() < 0.3:
            return f"{text}.{self.draw.randrange(BITS[name])}"
        return f"{name}[{at}].{self.draw.choice(('DN', 'PRE'))}" if name in "tc" and self.draw.random() < 0.3 else text

    def bit(self):
        names = [name for name in self.arrays if name in BITS]
        name = self.draw.choice(names)
        at = next((at for known, at in self.focus if known == name), self.draw.randrange(ARRAYS[name][1]))
        subscript = "n" if self.draw.random() < 0.15 else str(at)
        return f"{name}[{subscript}].{self.draw.randrange(BITS[name])}"

    def value(self):
        return str(self.draw.choice(NUMBERS)) if self.draw.random() < 0.7 else self.number()

    # ---- rungs

    def statement(self):
        return self.draw.choice((
            self.stored, self.stored, self.and_back, self.computed, self.bits, self.copied, self.copied, self.filled, self.counted, self.indexed, self.called,
            self.region))()

    def stored(self):
        return f"MOV({self.value()},{self.number()})"

    def and_back(self):
        place = self.number()
        return f"MOV({self.draw.choice((1, 5, -1))},{place})MOV(0,{place})" if self.draw.random() < 0.7 else f"NOT({place},{place})NOT({place},{place})"

    def computed(self):
        place = self.number()
        return self.draw.choice((f"ADD({place},0,{place})", f"MUL({place},1,{place})", f"XOR({place},{place},{place})", f"CLR({place})", f"OR({place},1,{place})",
                                 f"ADD({place},1,{place})", f"MVM({self.value()},{self.draw.choice((0, 1, 255))},{place})", f"NEG({place},{place})"))

    def bits(self):
        bit = self.bit()
        return self.draw.choice((f"OTL({bit})", f"OTU({bit})", f"XIC({bit})OTE({bit})", f"XIO({bit})OTE({bit})", f"OTE({bit})", f"ONS({bit})OTU({bit})",
                                 f"OSR({bit},{self.bit()})", f"OSF({bit},{self.bit()})"))

    def block(self):
        name, at = self.place()
        return f"{name}[{'n' if self.draw.random() < 0.2 else at}]"

    def copied(self):
        """A copy; often onto itself, or of bytes that are equal."""
        source, target = self.block(), self.block()
        target = source if self.draw.random() < 0.3 else target
        return f"{self.draw.choice(('COP', 'COP', 'CPS'))}({source},{target},{self.draw.choice((1, 1, 2, 3, 4, 5, 16))})"

    def filled(self):
        names = [name for name in self.arrays if name in BITS]
        name = self.draw.choice(names)
        at = next((at for known, at in self.focus if known == name), self.draw.randrange(ARRAYS[name][1]))
        return f"FLL({self.draw.choice((0, 0, 1, -1))},{name}[{max(0, at - self.draw.choice((0, 1, 4)))}],{self.draw.choice((1, 2, 4, 5, 16, 17))})"

    def counted(self):
        if "c" in self.arrays and self.draw.random() < 0.5:
            place = f"c[{self.draw.randrange(6)}]"
            return self.draw.choice((f"CTU({place},?,?)", f"CTD({place},?,?)", f"RES({place})"))
        place = f"t[{self.draw.randrange(5)}]" if "t" in self.arrays else None
        return self.draw.choice((f"TON({place},?,?)", f"TOF({place},?,?)", f"RTO({place},?,?)", f"RES({place})")) if place else "NOP()"

    def indexed(self):
        return f"MOV({self.draw.choice((0, 0, 1, 1, 2, 3, 3, 4))},{self.draw.choice('nmk')})"

    def called(self):
        places = [self.number() for _ in range(self.draw.randrange(1, 3))]
        places = places if self.draw.random() < 0.5 else [places[0]] * 2
        return f"JSR(S,2,{self.value()},{self.value()},{','.join(places)})"

    def region(self):
        return self.draw.choice(("UID()", "UIE()", "NOP()"))

    def rung(self):
        return "".join(self.statement() for _ in range(self.draw.randrange(1, 4))) + ";"

    def sub(self):
        """A routine with parameters that gives back two values, perhaps to one place."""
        return [f"SBR({self.number()},{self.number()});", self.rung(), f"RET({self.value()},{self.value()});"]

    # ---- the files

    def project(self):
        tags = [{"name": name, "type": ARRAYS[name][0], "dim": ARRAYS[name][1]} for name in self.arrays]
        tags += [{"name": name, "type": kind} for name, kind in (("n", "DINT"), ("m", "SINT"), ("k", "INT"), ("Local:2:O", "DINT"))]
        tags.insert(0, {"name": "pad", "type": "SINT", "dim": self.draw.choice((1, 4, 8, 12, 16, 60, 64))})
        watch = [self.fixed() for _ in range(self.draw.randrange(1, MOST_WATCHES))] + (["n"] if self.draw.random() < 0.3 else [])
        routines = [{"name": "M", "rungs": [self.rung() for _ in range(self.draw.randrange(3, 12))]}, {"name": "S", "rungs": self.sub()}]
        programs = [{"name": "P", "main": "M", "routines": routines}, {"name": "Q", "main": "M", "routines": [
            {"name": "M", "rungs": [self.rung() for _ in range(3)]}, {"name": "S", "rungs": self.sub()}]}]
        return {
            "schema": 2, "controller": "Marks", "types": TYPES, "tags": tags, "programs": programs,
            "tasks": [{"name": "T", "kind": "continuous", "programs": ["P"]},
                      {"name": "F", "kind": self.draw.choice(("periodic", "event")), "priority": 3, "programs": ["Q"]}],
            "connections": [{"name": "In1", "tag": "Local:1:I", "direction": "in"}, {"name": "Out2", "tag": "Local:2:O", "direction": "out"}],
            "initial": [{"tag": f"{name}[{at}]{ARRAYS[name][3][0]}", "value": self.draw.choice((0, 1, 7))} for name, at in self.focus], "watch": watch,
        }

    def finished(self):
        made = self.project()
        task = made["tasks"][1]
        if task["kind"] == "periodic":
            task["period"] = self.draw.choice((1, 2, 5))
        elif self.draw.random() < 0.7:
            made["connections"][0]["trigger"] = "F"
        return made

    def line(self):
        chance, draw = self.draw.random(), self.draw
        if chance < 0.4:
            return [f"cpu {draw.randrange(1, 60)}"]
        if chance < 0.5:
            return [f"tick {draw.choice((1, 1, 2, 5))}"]
        if chance < 0.7:
            return [f"in In1 {draw.choice((0, 1, 3, 4, 15, 16, 19))} {draw.choice(NUMBERS)}"]
        if chance < 0.85:
            word, mask = draw.choice((0, 1, 4, 16)), draw.choice((0, 1, -1, 255))
            return [draw.choice((f"force In1 {word} {mask} {draw.choice(NUMBERS)}", "force enable", "force enable", "force disable", "force remove"))]
        if chance < 0.95:
            edit = f"{draw.choice('ri')} {draw.randrange(3)} {self.rung()}"
            return [f"accept P M {edit}", "test P", "cpu 20", draw.choice(("assemble P", "cancel P", "untest P", "clear"))]
        return [draw.choice(("mode program", "clear", "mode run", "out Out2 0"))]

    def journal(self):
        lines = ["mode run"]
        for _ in range(self.draw.randrange(4, 16)):
            lines += self.line()
        return [*lines, "end"]


def project(draw):
    """A made project: its maker, who makes its journals too, and its text."""
    made = Marks(draw)
    return made, file_text(made.finished())


def files(draw, made=None):
    maker, text = made or project(draw)
    maker.draw = draw
    return [text, journal_text(maker.journal())]


def marks(draw, program, made=None, _=None):
    return of_live if program.beside("logix_live") and draw.random() < 0.2 else judged("replay"), files(draw, made)
