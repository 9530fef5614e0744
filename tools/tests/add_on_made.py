"""Made definitions of Add-On Instructions, and controllers that call them."""

from __future__ import annotations

import random
from dataclasses import dataclass, field

from add_on_files import add_on, local, parameter, with_add_ons
from add_on_plain import BITS, Declared, Definition
from l5x_files import routine, tag, value

INTEGERS = ("SINT", "INT", "DINT")
# What each program tag of a kind is called, and how many there are.
TAGS = [*(Declared(f"b{k}", "BOOL") for k in range(6)), *(Declared(f"{kind[0].lower()}{k}", kind) for kind in INTEGERS for k in range(3)),
        Declared("arr", "DINT", 4), Declared("more", "DINT", 4), Declared("ix", "SINT"), Declared("t0", "TIMER", None, {".PRE": 7}),
        Declared("t1", "TIMER", None, {".PRE": 3}), Declared("c0", "COUNTER", None, {".PRE": 2})]  # fmt: skip
INPUT = "Local:1:I"
MODULE = (
    '<Module Name="In" ParentModule="Local"><Ports><Port Address="1" Type="ICP" Upstream="true"/></Ports><Communications><Connections>'
    '<Connection InputSize="8"><InputTag/></Connection></Connections></Communications></Module>'
)


@dataclass
class Names:
    """What rungs may name, by what it is good for."""

    bits: list[str] = field(default_factory=list)
    coils: list[str] = field(default_factory=list)
    numbers: list[str] = field(default_factory=list)
    results: list[str] = field(default_factory=list)
    # Each timer with the one instruction that counts it.
    timers: list[tuple[str, str]] = field(default_factory=list)
    counters: list[str] = field(default_factory=list)
    arrays: list[str] = field(default_factory=list)
    # Bits that one-shots alone use, each once.
    storage: list[str] = field(default_factory=list)
    calls: list[tuple] = field(default_factory=list)


class Maker:
    """One case: definitions, tags and routines."""

    def __init__(self, seed: int) -> None:
        self.draw = random.Random(seed)
        self.definitions: list[Definition] = []
        # The definitions that have an element picked by a local tag.
        self.indexed: set[str] = set()
        for number in range(self.draw.randint(1, 3)):
            self.definitions.append(self.definition(f"Do{number}"))
        self.tags = [*TAGS, Declared(INPUT, "DINT", 2)]
        for definition in self.definitions:
            dim = self.draw.choice((None, 4))
            self.tags.append(Declared(f"{definition.name}_v", definition.name, dim))
        self.routines = self.program()

    # ---- definitions

    def definition(self, name: str) -> Definition:
        draw = self.draw
        parameters = []
        for k in range(draw.randint(1, 3)):
            kind = draw.choice(("BOOL", *INTEGERS))
            first = {} if draw.random() < 0.5 else {"": draw.randint(0, 1)}
            parameters.append(Declared(f"In{k}", kind, None, first, "Input", draw.random() < 0.8))
        for k in range(draw.randint(0, 2)):
            parameters.append(Declared(f"Out{k}", draw.choice(("BOOL", *INTEGERS)), None, {}, "Output", draw.random() < 0.8))
        for k in range(draw.randint(0, 2)):
            kind, dim = draw.choice((("BOOL", None), ("DINT", None), ("DINT", 4), ("TIMER", None), ("COUNTER", None)))
            parameters.append(Declared(f"Ref{k}", kind, dim, {}, "InOut"))
        draw.shuffle(parameters)
        local_tags = [Declared(f"S{k}", "BOOL") for k in range(2)] + [Declared("N", "DINT"), Declared("B", "BOOL")]
        if draw.random() < 0.6:
            local_tags.append(Declared("T", "TIMER", None, {".PRE": draw.randint(0, 20)}))
        if draw.random() < 0.4:
            local_tags += [Declared("Buf", "DINT", 4), Declared("Idx", "SINT")]
        if draw.random() < 0.3:
            local_tags.append(Declared("C", "COUNTER", None, {".PRE": draw.randint(0, 3)}))
        inner = [d for d in self.definitions if draw.random() < 0.5]
        local_tags += [Declared(f"I{d.name}", d.name) for d in inner]
        names = self.names([*parameters, *local_tags], ["EnableIn"], ["EnableOut"])
        if any(t.name == "Idx" for t in local_tags):
            self.indexed.add(name)
            names.numbers.append("Buf[Idx]")
            names.results.append("Buf[Idx]")
        for d in inner:
            if d.name in self.indexed:
                self.indexed.add(name)
            names.calls.append(self.call(d, f"I{d.name}", names, [*parameters, *local_tags]))
        front = [[("AND", draw.choice(names.numbers), "3", "Idx")]] if any(t.name == "Idx" for t in local_tags) else []
        return Definition(name, parameters, local_tags, front + self.rungs(names, draw.randint(1, 4)))

    def names(self, declared: list[Declared], more_bits: list[str], more_coils: list[str]) -> Names:
        draw, found = self.draw, Names(list(more_bits), list(more_coils))
        for d in declared:
            is_written = d.usage != "Input" or draw.random() < 0.2
            if d.kind == "DINT" and d.dim:
                found.arrays.append(d.name)
                found.numbers.append(f"{d.name}[{draw.randrange(4)}]")
                found.results.append(f"{d.name}[{draw.randrange(4)}]")
            elif d.name[0] == "S" and d.kind == "BOOL":
                found.storage.append(d.name)
            elif d.kind == "BOOL":
                found.bits.append(d.name)
                found.coils += [d.name] if is_written else []
            elif d.kind in BITS and d.name.lower() not in ("idx", "ix"):
                found.numbers.append(d.name)
                found.bits.append(f"{d.name}.{draw.randrange(8)}")
                found.results += [d.name] if is_written else []
            elif d.kind == "TIMER":
                found.timers.append((draw.choice(("TON", "TOF", "RTO")) if d.name == "T" else "TON", d.name))
                found.bits.append(f"{d.name}.DN")
                found.numbers.append(f"{d.name}.ACC")
            elif d.kind == "COUNTER":
                found.counters.append(d.name)
                found.bits.append(f"{d.name}.DN")
                found.numbers.append(f"{d.name}.ACC")
        return found

    def call(self, definition: Definition, instance: str, names: Names, declared: list[Declared]) -> tuple:
        """A call with an argument for each wanted parameter; outputs go to different places."""
        draw, operands, given = self.draw, [instance], set()
        kinds = {d.name: d.kind for d in declared if d.dim is None}
        for p in definition.wanted():
            if p.usage == "InOut":
                good = [d.name for d in declared if (d.kind, d.dim) == (p.kind, p.dim) and d.name[0] not in "ST"]
                operands.append(draw.choice(good or [""]))
            elif p.usage == "Input":
                operands.append(self.input(p, names, kinds))
            else:
                good = [n for n in names.coils if p.kind == "BOOL" and n != "EnableOut"] or []
                if p.kind != "BOOL":
                    good = [n for n in names.results if BITS.get(kinds.get(n, "DINT"), 0) >= BITS[p.kind] and "[Idx]" not in n]
                # Two references may be to one place, and which of two outputs it keeps isn't told.
                is_met = any(n.startswith("Ref") for n in given)
                good = [n for n in good if n not in given and not (is_met and n.startswith("Ref"))]
                operands.append(draw.choice(good or [""]))
                given.add(operands[-1])
        # Nothing fits somewhere.
        return ("NOP",) if "" in operands else (definition.name, *operands)

    def input(self, p: Declared, names: Names, kinds: dict[str, str]) -> str:
        if self.draw.random() < 0.2:
            return str(self.draw.randint(0, 1))
        if p.kind == "BOOL":
            return self.draw.choice(names.bits)
        good = [n for n in names.numbers if BITS.get(kinds.get(n, "DINT"), 99) <= BITS[p.kind]]
        return self.draw.choice(good or ["5"])

    # ---- rungs

    def rungs(self, names: Names, count: int) -> list[list[tuple]]:
        rungs = []
        for _ in range(count):
            front = [self.condition(names) for _ in range(self.draw.randint(0, 2))]
            rungs.append(front + [self.action(names) for _ in range(self.draw.randint(1, 2))])
        for call in names.calls:
            at = self.draw.randrange(len(rungs) + 1)
            rungs.insert(at, [self.condition(names), call, self.action(names)] if self.draw.random() < 0.7 else [call])
        if self.draw.random() < 0.15:
            rungs = [[self.condition(names), ("JMP", "On")], *rungs, [("LBL", "On"), ("NOP",)]]
        return rungs

    def condition(self, names: Names) -> tuple:
        draw = self.draw
        kind = draw.random()
        if kind < 0.5:
            return (draw.choice(("XIC", "XIO")), draw.choice([*names.bits, "S:FS"]))
        if kind < 0.75:
            return (draw.choice(("EQU", "NEQ", "LES", "LEQ", "GRT", "GEQ")), draw.choice(names.numbers), self.number(names))
        if kind < 0.85 and names.storage:
            return ("ONS", names.storage.pop())
        if kind < 0.9:
            return ("LIM", self.number(names), draw.choice(names.numbers), self.number(names))
        return ("branch", [self.condition(names)], [self.condition(names), self.action(names)], *([[]] if draw.random() < 0.2 else []))

    def number(self, names: Names) -> str:
        return str(self.draw.randint(-3, 9)) if self.draw.random() < 0.5 else self.draw.choice(names.numbers)

    def action(self, names: Names) -> tuple:
        draw = self.draw
        kind = draw.random()
        if kind < 0.4 or not names.results:
            return (draw.choice(("OTE", "OTL", "OTU")), draw.choice(names.coils))
        if kind < 0.55:
            return (draw.choice(("ADD", "SUB", "MUL", "DIV", "MOD", "AND", "OR", "XOR")), self.number(names), self.number(names),
                    draw.choice(names.results))  # fmt: skip
        if kind < 0.7:
            return (draw.choice(("MOV", "NEG", "ABS", "NOT")), self.number(names), draw.choice(names.results))
        if kind < 0.78 and names.timers:
            return (*draw.choice(names.timers), "?", "?")
        if kind < 0.84 and names.counters:
            return (draw.choice(("CTU", "CTD")), draw.choice(names.counters), "?", "?")
        if kind < 0.88 and names.storage:
            return (draw.choice(("OSR", "OSF")), names.storage.pop(), draw.choice(names.coils))
        if kind < 0.93 and len(names.arrays) > 1:
            one, other = draw.sample(names.arrays, 2)
            return ("COP", f"{one}[1]", f"{other}[0]", str(draw.randint(1, 3)))
        if kind < 0.95 and names.counters:
            return ("RES", draw.choice(names.counters))
        return ("branch", [("ADD", self.number(names), "100", draw.choice(names.results)), ("XIC", "S:V")], [("NOP",)])

    # ---- the program

    def program(self) -> dict[str, list[list[tuple]]]:
        draw = self.draw
        own = self.names(self.tags[: len(TAGS)], [f"{INPUT}[0].{k}" for k in range(6)] * 2, [])
        own.numbers += [f"{INPUT}[1]", f"{INPUT}[0]"]
        routines = {}
        for name in ("Sub", "Go"):
            names = Names(**{**vars(own), "calls": [], "storage": []})
            for _ in range(draw.randint(1, 3)):
                names.calls.append(self.program_call(names))
            routines[name] = self.rungs(names, draw.randint(1, 3))
        routines["Go"] = [[("AND", f"{INPUT}[1]", "3", "ix")], *routines["Go"]]
        routines["Go"].insert(draw.randint(1, len(routines["Go"]) - 1), [self.condition(own), ("JSR", "Sub", "0")])
        return routines

    def program_call(self, names: Names) -> tuple:
        definition = self.draw.choice(self.definitions)
        instance = next(t for t in self.tags if t.kind == definition.name)
        text = instance.name
        if instance.dim:
            any_of = [str(k) for k in range(4)] + (["ix"] if definition.name not in self.indexed else [])
            text += f"[{self.draw.choice(any_of)}]"
        call = self.call(definition, text, names, self.tags[: len(TAGS)])
        picked = [p.usage == "InOut" and p.kind == "DINT" and p.dim is None for p in definition.wanted()]
        return (*call[:2], *("arr[ix]" if is_one and self.draw.random() < 0.4 and not self.has_array(call) else text
                             for is_one, text in zip(picked, call[2:])))  # fmt: skip

    @staticmethod
    def has_array(call: tuple) -> bool:
        return any(text.startswith("arr") for text in call[2:])

    # ---- the file

    def file(self) -> str:
        definitions = "".join(self.definition_text(d) for d in self.definitions)
        tags = "".join(tag(t.name, t.kind, _data(t), f'Dimensions="{t.dim}"' if t.dim else "") for t in self.tags if t.name != INPUT)
        go = routine("Go", *map(rung_text, self.routines["Go"])) + routine("Sub", *map(rung_text, self.routines["Sub"]))
        return with_add_ons(definitions, "NOP();", tags, modules=MODULE).replace(routine("Go", "NOP();"), go)

    @staticmethod
    def definition_text(definition: Definition) -> str:
        parameters = "".join(
            parameter(p.name, p.kind, p.usage, p.dim, p.is_required, _data(p) if p.usage != "InOut" else "") for p in definition.parameters
        )
        local_tags = "".join(local(t.name, t.kind, t.dim, _data(t)) for t in definition.local_tags)
        return add_on(definition.name, parameters, list(map(rung_text, definition.rungs)), local_tags)


def _data(declared: Declared) -> str:
    if declared.kind in BITS and declared.dim is None:
        return value(declared.kind, str(declared.values.get("", 0)))
    members = "".join(f'<DataValueMember Name="{k[1:]}" DataType="DINT" Value="{v}"/>' for k, v in declared.values.items())
    return f'<Structure DataType="{declared.kind}">{members}</Structure>' if members else ""


def rung_text(elements: list[tuple]) -> str:
    return series_text(elements) + ";"


def series_text(elements: list[tuple]) -> str:
    return "".join(
        "[" + ",".join(map(series_text, operands)) + "]" if op == "branch" else f"{op}({','.join(operands)})" for op, *operands in elements
    )
