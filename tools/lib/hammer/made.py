"""Made projects, journals and scripts: mostly sound, with a few faults, from a drawer of random numbers."""

from .plain.check import KINDS

BUILT_IN = ("BOOL", "SINT", "INT", "DINT", "TIMER", "COUNTER")
NUMBERS = (
    0, 1, -1, 2, 3, 4, 5, 7, 10, 31, 32, 100, 127, 128, 129, -127, -128, -129, 255, 256, 32_767, 32_768, -32_768, -32_769, 65_535, 65_536,
    2_147_483_647, -2_147_483_648, 2_147_483_646, -2_147_483_647, 1_000_000,
)
MEMBERS = {"TIMER": ("PRE", "ACC", "EN", "TT", "DN"), "COUNTER": ("PRE", "ACC", "CU", "CD", "DN", "OV", "UN")}
MEMBER_TYPES = {"PRE": "DINT", "ACC": "DINT"}
INTEGERS = {"SINT": 8, "INT": 16, "DINT": 32}
COMPARED = ["EQU", "NEQ", "LES", "LEQ", "GRT", "GEQ", "LIM", "MEQ"]
CONDITIONS = ["XIC", "XIO", "XIC", "XIO", *COMPARED, "ONS"]
RARE = ["TND", "AFI", "NOP", "MCR", "UID", "UIE"]
OUTPUTS = [op for op in KINDS if op not in ("XIC", "XIO", *COMPARED, *RARE, "LBL", "EVENT", "JMP")] * 3 + RARE
TAG_NAMES = ("a", "b", "c", "d", "e", "f", "g", "h", "k", "m", "n", "p", "q", "s", "t", "u", "w", "x", "y", "z")


class Maker:
    """Makes one case; `slips` is how often something unsound is drawn."""

    def __init__(self, draw, slips=0.0):
        self.draw, self.slips = draw, slips

    def maybe(self, chance):
        return self.draw.random() < chance

    def slip(self):
        return self.slips and self.draw.random() < self.slips

    def pick(self, items):
        return items[int(self.draw.random() * len(items))]

    def between(self, least, most):
        return least + int(self.draw.random() * (most - least + 1))

    # ---- the project

    def project(self):
        self.types = [self.structure(name) for name in ("Cell", "Box")[:self.pick((0, 0, 1, 1, 2))]]
        self.names = [program for program in ("P", "Q", "R")[:self.pick((1, 1, 2, 2, 3))]]
        tags = self.tags(self.between(3, 9)) + [{"name": "Local:1:I", "type": "DINT", "dim": 2}, {"name": "Local:2:O", "type": "DINT"}]
        tags += self.aliases(tags)
        own = {name: self.tags(self.between(0, 3)) for name in self.names}
        self.scopes = {name: own[name] + [tag for tag in tags if tag["name"] not in {one["name"] for one in own[name]}] for name in own}
        self.tasks = self.made_tasks()
        self.routines = {name: ["M", "S", "N"][:self.pick((1, 1, 2, 2, 3))] for name in self.names}
        self.pools = {name: self.pool(self.scopes[name]) for name in self.names}
        self.connections = self.made_connections()
        programs = [self.program(name, own[name]) for name in self.names]
        made = {"schema": 2, "controller": "Made", "types": self.types, "tags": tags, "programs": programs, "tasks": self.tasks,
                "connections": self.connections, "initial": self.initial(tags), "watch": self.watch(tags, own)}
        if not any("inhibited" in task for task in self.tasks) and self.maybe(0.3):
            made["schema"] = 1
        return made

    def structure(self, name):
        kinds = [*BUILT_IN, "DINT"] + (["Cell"] if name == "Box" else [])
        members = []
        for member in ("One", "Two", "Six", "Ten")[:self.between(1, 4)]:
            kind = self.pick(kinds)
            members.append({"name": member, "type": kind, **self.dim(kind, 0.25)})
        return {"name": name, "members": members}

    def dim(self, kind, chance):
        if not self.maybe(chance):
            return {}
        if kind == "BOOL":
            return {"dim": 33 if self.slip() else self.pick((32, 64))}
        return {"dim": 0 if self.slip() else self.pick((1, 2, 3, 4, 5))}

    def tags(self, count):
        kinds = [*BUILT_IN, "BOOL", "DINT", "DINT", "SINT"] + [one["name"] for one in self.types] * 2
        names = list(TAG_NAMES)
        made = []
        for _ in range(count):
            kind = self.pick(kinds)
            name = self.pick(TAG_NAMES) if self.slip() else names.pop(int(self.draw.random() * len(names)))
            made.append({"name": name, "type": self.pick(("REAL", "1x", kind)) if self.slip() else kind, **self.dim(kind, 0.4)})
        return made

    def aliases(self, tags):
        """Some aliases: of places, of whole tags, and of one another."""
        made = []
        for name in ("Al", "Bl", "Cl")[:self.pick((0, 1, 2, 3))]:
            target = self.walk(tags, 0.0)[0]
            if made and self.maybe(0.3):
                target = self.pick(made)["name"]
            made.append({"name": name, "alias": self.bent(target) if self.slip() else target})
        return made

    def made_tasks(self):
        programs = list(self.names)
        count = self.between(1, len(programs))
        lists = [[program] for program in programs[:count]]
        for program in programs[count:]:
            self.pick(lists).append(program)
        made = []
        for at, listed in enumerate(lists):
            kind = self.pick(("continuous", "periodic", "event", "periodic")) if at else self.pick(("continuous", "continuous", "periodic"))
            if kind == "continuous" and any(task["kind"] == kind for task in made) and not self.slip():
                kind = "periodic"
            task = {"name": f"T{at}", "kind": kind, "programs": listed}
            if kind != "continuous":
                task["priority"] = self.pick((1, 5, 5, 15))
            if kind == "periodic":
                task["period"] = self.pick((1, 2, 3, 5, 10))
            if self.maybe(0.4):
                task["watchdog"] = self.pick((1, 5, 10, 20, 40))
            if self.maybe(0.1):
                task["inhibited"] = self.maybe(0.7)
            made.append(task)
        return made

    def made_connections(self):
        made = []
        events = [task["name"] for task in self.tasks if task["kind"] == "event"]
        if self.maybe(0.8):
            made.append({"name": "In1", "tag": "Local:1:I", "direction": "in"})
            if events and self.maybe(0.8):
                made[0]["trigger"] = self.pick(events)
        if self.maybe(0.6):
            made.append({"name": "Out2", "tag": "Local:2:O", "direction": "out"})
        return made

    def initial(self, tags):
        made = []
        for _ in range(self.between(2, 12)):
            text, kind = self.walk(tags, 0.0)
            if kind in ("BOOL", *INTEGERS):
                bits = {"BOOL": 1, **INTEGERS}[kind]
                value = self.number()
                if not self.slip():
                    value = value & 1 if kind == "BOOL" else (value + (1 << (bits - 1))) % (1 << bits) - (1 << (bits - 1))
                made.append({"tag": text, "value": value})
        for tag in tags:
            if tag.get("type") in MEMBERS and "dim" not in tag:
                made.append({"tag": f"{tag['name']}.PRE", "value": self.pick((0, 1, 2, 3, 5, 5, 10, -1, 2_147_483_647))})
        return made

    def watch(self, tags, own):
        """Every place that a text can watch, up to a number."""
        texts = [place for tag in tags if "type" in tag for place in self.places(tag["name"], tag["type"], tag.get("dim", 0))]
        for name, declared in own.items():
            texts += [f"Program:{name}.{place}" for tag in declared for place in self.places(tag["name"], tag["type"], tag.get("dim", 0))]
        if self.slip():
            texts.append(self.bent(self.pick(texts or ["a"])))
        if self.maybe(0.1):
            texts.append(self.walk(tags, 0.0)[0])
        return texts[:60] if len(texts) < 60 or self.maybe(0.5) else [self.pick(texts) for _ in range(30)]

    def places(self, text, kind, dim):
        if dim:
            return [place for at in range(min(dim, 3)) for place in self.places(f"{text}[{at}]", kind, 0)]
        if kind in ("BOOL", *INTEGERS):
            return [text]
        if kind in MEMBERS:
            return [f"{text}.{member}" for member in MEMBERS[kind]]
        members = next((one["members"] for one in self.types if one["name"] == kind), [])
        return [place for one in members for place in self.places(f"{text}.{one['name']}", one["type"], one.get("dim", 0))]

    # ---- operands

    def walk(self, tags, by):
        """A text from a tag down to some place, and its type; `by` is how often a subscript is variable."""
        tag = self.pick(tags)
        if "alias" in tag:
            return tag["name"], "alias"
        text, kind, dim = tag["name"], tag["type"], tag.get("dim", 0)
        while True:
            if dim:
                if self.maybe(0.1):
                    return text, f"{kind} array"
                text, dim = f"{text}[{self.subscript(tags, dim, by)}]", 0
            elif kind in MEMBERS and self.maybe(0.7):
                member = self.pick(MEMBERS[kind])
                return f"{text}.{member}", MEMBER_TYPES.get(member, "BOOL")
            elif kind in INTEGERS:
                if self.maybe(0.2):
                    return f"{text}.{self.between(0, INTEGERS[kind] - 1 + (self.slip() or 0))}", "BOOL"
                return text, kind
            else:
                structure = next((one for one in self.types if one["name"] == kind), None)
                if not structure or self.maybe(0.15):
                    return text, kind
                member = self.pick(structure["members"])
                text, kind, dim = f"{text}.{member['name']}", member["type"], member.get("dim", 0)

    def subscript(self, tags, dim, by):
        if self.maybe(by):
            inner = [tag["name"] for tag in tags if tag.get("type") in INTEGERS and "dim" not in tag]
            if inner:
                return self.pick(inner)
        return self.between(0, dim - 1 + (1 if self.slip() else 0))

    def pool(self, tags):
        """Texts of the scope by what they name."""
        pool = {"bit": [], "integer": [], "TIMER": [], "COUNTER": [], "block": [], "integers": []}
        for _ in range(40):
            text, kind = self.walk(tags, 0.25)
            if kind == "BOOL":
                pool["bit"].append(text)
            elif kind in INTEGERS:
                pool["integer"].append(text)
                pool["integers"].append(text)
            elif kind in MEMBERS:
                pool[kind].append(text)
            elif kind.endswith("array") and kind.split()[0] in INTEGERS:
                pool["integers"].append(text)
            if kind not in ("BOOL", "BOOL array", "alias"):
                pool["block"].append(text)
        return pool

    def number(self):
        if self.maybe(0.5):
            return self.between(0, 9)
        return self.pick(NUMBERS) if self.maybe(0.8) else self.between(-(1 << 31), (1 << 31) - 1)

    def number_text(self):
        number = self.number()
        if self.maybe(0.85):
            return str(number)
        low = number & 0xFFFF_FFFF
        return self.pick((f"16#{low:X}", f"2#{low:b}", f"8#{low:o}", f"16#{low:08x}", f"{number:_}", "-0", "00", f"{low}"))

    def bent(self, text):
        """A text with something wrong."""
        return self.pick((
            text + "[0]", text + ".x", "zz", text + "[zz]", text + ".40", text + "_", "", "S:V", "5", text + ".PRE", text[:-1], text.upper(),
            "?", "S:x.y", text + ":9", "99999999999", text + "[1",
        ))

    def operand(self, kind, program):
        pool = self.pools[program]
        if self.slip():
            every = [text for texts in pool.values() for text in texts]
            return self.bent(self.pick(every or ["a"])) or "x"
        if kind == "q":
            return "?"
        if kind in "rle":
            return {"r": self.pick(self.routines[program]), "l": self.pick(("L1", "L2")), "e": self.pick(self.tasks)["name"]}[kind]
        if kind == "f" and self.maybe(0.15):
            return self.pick(("S:FS", "S:V", "S:Z", "S:N"))
        if kind == "v" and self.maybe(0.5):
            return self.number_text()
        wanted = {"b": "bit", "f": "bit", "i": "integer", "v": "integer", "T": "TIMER", "C": "COUNTER", "k": "block", "s": "block",
                  "F": "integers", "R": self.pick(("TIMER", "COUNTER"))}[kind]
        return self.pick(pool[wanted]) if pool[wanted] else None

    # ---- rungs

    def program(self, name, own):
        routines = [{"name": routine, "rungs": self.rungs(name, routine)} for routine in self.routines[name]]
        made = {"name": name, "main": "M", "routines": routines}
        if own or self.maybe(0.2):
            made["tags"] = own
        return made

    def rungs(self, program, routine):
        texts = [self.rung(program, routine) for _ in range(self.pick((0, 1, 1, 2, 2, 3, 4)))]
        if routine != "M" and self.maybe(0.5):
            texts.insert(0, f"SBR({','.join(self.operands('i' * self.between(0, 2), program) or [])});")
        if routine != "M" and self.maybe(0.5):
            texts.append(f"RET({','.join(self.operands('v' * self.between(0, 2), program) or [])});")
        for label in ("L1", "L2"):
            if any(f"JMP({label})" in text for text in texts) and not self.slip():
                texts.insert(self.between(0, len(texts)), f"LBL({label}){self.pick(('', 'NOP()', 'XIC(S:FS)'))};")
        if texts and "SBR" in "".join(texts) and not texts[0].startswith("SBR"):
            texts.sort(key=lambda text: not text.startswith("SBR"))
        return texts

    def operands(self, kinds, program):
        made = [self.operand(kind, program) for kind in kinds]
        return None if None in made else made

    def rung(self, program, routine="M", depth=0):
        return self.series(program, routine, depth) + ";"

    def series(self, program, routine, depth):
        pieces = [self.element(program, routine, depth, CONDITIONS) for _ in range(self.pick((0, 0, 0, 1, 1, 2)))]
        pieces += [self.element(program, routine, depth, OUTPUTS) for _ in range(self.pick((0, 1, 1, 2, 3)))]
        return "".join(pieces)

    def element(self, program, routine, depth, ops):
        if depth < 3 and self.maybe(0.12):
            legs = [self.series(program, routine, depth + 1) for _ in range(self.between(1, 3))]
            return f"[{','.join(legs)}]"
        if ops is OUTPUTS and self.maybe(0.12):
            return self.special(program, routine)
        op = self.pick(ops)
        kinds = KINDS[op]
        if self.slip():
            kinds = kinds[:-1] if self.maybe(0.5) else kinds + "v"
        operands = self.operands(kinds, program)
        if operands is None:
            return "NOP()"
        if op in ("COP", "CPS", "FLL") and self.maybe(0.7) and len(operands) == 3:
            operands[2] = str(self.between(0, 4))
        op = op.lower() if self.maybe(0.05) else op
        return f"{op}({','.join(operands)})" if self.maybe(0.95) else f" {op} ( {' , '.join(operands)} ) "

    def special(self, program, routine):
        """Calls, jumps, and events of tasks."""
        what = self.pick(("JSR", "JSR", "JSR", "JSR", "JMP", "EVENT", "EVENT", "RET"))
        if what == "EVENT":
            events = [task["name"] for task in self.tasks if task["kind"] == "event" or self.slip()]
            return f"EVENT({self.pick(events)})" if events else self.pick(("UID()", "UIE()", "UIE()"))
        if what == "JMP":
            return f"JMP({self.pick(('L1', 'L2'))})" if self.maybe(0.6) else "TND()"
        if what == "RET":
            return f"RET({','.join(self.operands('v' * self.between(0, 2), program) or [])})"
        called = self.pick(self.routines[program][1:] or ["M"]) if self.maybe(0.93) else self.pick(("M", "Zz"))
        if called == "M" and self.maybe(0.9):
            return "AFI()"
        inputs, returns = self.pick((0, 1, 2)), self.pick((0, 0, 1, 2))
        operands = self.operands("v" * inputs + "i" * returns, program)
        if operands is None or self.maybe(0.3):
            return f"JSR({called})" if self.maybe(0.5) else f"JSR({called},0)"
        count = self.pick((str(inputs), f"0{inputs}", "9", "1")) if self.slip() else str(inputs)
        return f"JSR({','.join([called, count, *operands])})"

    # ---- journals

    def journal(self, lines=None):
        made = ["mode run"] if self.maybe(0.9) else []
        for _ in range(lines or self.between(3, 20)):
            made += self.journal_lines()
        return made + ["end"]

    def journal_lines(self):
        """Steps, ticks, an action, or an edit of one lane with its test."""
        chance = self.draw.random()
        if chance < 0.45:
            return [f"cpu {self.between(1, 30)}"]
        if chance < 0.60:
            return [f"tick {self.pick((1, 1, 1, 2, 3, 5, 10, 21))}"]
        if chance < 0.70:
            return self.tested()
        action = self.action()
        return [action if self.maybe(0.3) else f"@{self.between(0, 2)} {action}"]

    def tested(self):
        program, lane = self.pick(self.names), self.between(0, 1)
        last = self.pick((f"assemble {program}", f"cancel {program}", "clear", f"untest {program}"))
        lines = [self.accept(program), f"test {program}", last]
        return [f"@{lane} {line}" for line in lines[:self.between(2, 3)]] + ["cpu 8"]

    def action(self):
        chance = self.draw.random()
        if chance < 0.35:
            return self.word()
        if chance < 0.75:
            return self.edit()
        if chance < 0.85:
            force = f"force {self.conn()} {self.between(0, 2)} {self.number()} {self.number()}"
            return self.pick(("force enable", "force disable", "force remove", force))
        return self.pick(("mode run", "mode run", "mode program", "clear", "clear"))

    def conn(self):
        return self.pick(("In1", "In1", "in1", "Out2", "Zz"))

    def word(self):
        if self.maybe(0.75):
            return f"in {self.conn()} {self.pick((0, 1, 1, 2))} {self.number()}"
        return f"out {self.pick(('Out2', 'Out2', 'In1'))} {self.pick((0, 0, 1))}"

    def edit(self):
        program = self.pick(self.names)
        if self.maybe(0.5):
            return f"{self.pick(('test', 'test', 'untest', 'assemble', 'cancel'))} {program}"
        return self.accept(program if self.maybe(0.97) else "Zz")

    def accept(self, program):
        known = program if program in self.routines else self.names[0]
        routine = self.pick(self.routines[known]) if self.maybe(0.95) else "Zz"
        parts = [self.edit_part(known, routine) for _ in range(self.pick((1, 1, 1, 2, 3)))]
        return f"accept {program} {routine} {' | '.join(parts)}"

    def edit_part(self, program, routine):
        index = self.pick((0, 0, 0, 0, 1, 1, 2, 3))
        what = self.pick(("r", "i", "i", "d"))
        if what == "d":
            return f"d {index}"
        return f"{what} {index} {self.rung(program, routine)}"

    # ---- scripts

    def script(self, lanes=None):
        """A script of some lanes, with ticks in order."""
        steps, pace = self.between(1, 400), self.pick((1, 3, 5, 10, 20, 50, 500))
        lanes = self.between(1, 4) if lanes is None else lanes
        lines = [f"run {steps} {pace} {lanes}"]
        for lane in range(lanes):
            ticks = sorted(self.between(0, steps // pace) for _ in range(self.between(0, 5)))
            lines += [f"@{lane} {tick} {self.action()}" for tick in ticks]
        return lines + ["end"]
