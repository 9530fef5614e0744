"""The explorations that `logix_explore` is measured with, all without a journal that shows a line: two mended machines of the examples, and a line of
200 rungs in three tasks with 20,000 steps and nine actions in three lanes."""

import json

from lib.paths import TOP

from .inputs import tag, wide, wide_rung, written

NEVER = f"{TOP}/examples/never"
STEPS, PACE = 20_000, 200
PAIR = "UID()MOV(Local:1:I,Speed)MUL(Speed,10,Length)UIE();"
CUT = ("MOV(Speed,UsedSpeed)MOV(Length,UsedLength);", "MUL(UsedSpeed,10,Wanted);", "NEQ(Wanted,UsedLength)OTE(Torn);")
ACTIONS = (
    "@0 5 in Hmi 0 7", "@0 40 in Hmi 0 9", "@0 80 in Hmi 0 7", "@1 6 in Eye 0 1", "@1 41 in Eye 0 2", "@1 81 in Eye 0 3",
    "@2 20 accept Main Go i 0 XIC(b0)OTE(b1);", "@2 21 test Main", "@2 60 untest Main",
)  # fmt: skip


def line():
    """The pair that is written in mid-scan is whole whenever the event task reads it, as the region around it has it."""
    made = json.loads(wide(0, ["Torn"]))
    made["tags"] += [tag(name, "DINT") for name in ("Local:1:I", "Local:2:I", "Speed", "Length", "UsedSpeed", "UsedLength", "Wanted", "beats")] + [tag("Torn", "BOOL")]
    rungs = [wide_rung(i) for i in range(199)]
    programs = {"Main": [*rungs[:120], PAIR, *rungs[120:]], "Cut": CUT, "Beat": ["ADD(beats,1,beats)AND(beats,15,beats);"]}
    made["programs"] = [{"name": name, "main": "Go", "routines": [{"name": "Go", "rungs": list(rungs)}]} for name, rungs in programs.items()]
    kinds = ({"kind": "continuous"}, {"kind": "event", "priority": 2}, {"kind": "periodic", "priority": 5, "period": 10})
    made["tasks"] = [{"name": f"On{name}", **kind, "programs": [name]} for name, kind in zip(programs, kinds)]
    made["connections"] = [
        {"name": "Hmi", "tag": "Local:1:I", "direction": "in"}, {"name": "Eye", "tag": "Local:2:I", "direction": "in", "trigger": "OnCut"},
    ]  # fmt: skip
    return json.dumps(made, separators=(",", ":"))


def write_all(folder):
    """The files of the line."""
    written(f"{folder}/line.json", line())
    written(f"{folder}/line.txt", "\n".join([f"run {STEPS} {PACE} 3", *ACTIONS, "end", ""]))
    written(f"{folder}/line.never.txt", "within 1\nnever Torn = 1\nend\n")


def rows_of(folder):
    """What each is, and its words."""
    return [
        ("the mended exchange", [f"{NEVER}/exchange.mended.json", f"{NEVER}/exchange.script.txt", f"{NEVER}/exchange.never.txt"]),
        ("the mended edit", [f"{NEVER}/edit.json", f"{NEVER}/edit.mended.script.txt", f"{NEVER}/edit.never.txt"]),
        ("200 rungs, 20,000 steps, nine actions within a tick", [f"{folder}/line.json", f"{folder}/line.txt", f"{folder}/line.never.txt"]),
    ]
