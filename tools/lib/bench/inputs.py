"""The input files that the program is measured with. Each file has the same bytes on every machine."""

import json

STEPS, TICKS = 2_000_000, 4_000
JOURNAL_BYTES = 16_777_216


def written(path, text):
    with open(path, "w", encoding="ascii", newline="\n") as file:
        file.write(text)


def tag(name, kind, dim=0):
    return {"name": name, "type": kind, **({"dim": dim} if dim else {})}


def project(tags, routines, initial=(), watch=()):
    """The text of a project with one continuous task of one program, whose main routine is the first."""
    return json.dumps(
        {
            "schema": 1,
            "controller": "Bench",
            "tags": tags,
            "programs": [
                {"name": "P", "main": "M", "routines": [{"name": name, "rungs": rungs} for name, rungs in routines]},
            ],
            "tasks": [{"name": "T", "kind": "continuous", "programs": ["P"]}],
            "initial": [{"tag": name, "value": value} for name, value in initial],
            "watch": list(watch),
        },
        separators=(",", ":"),
    )


# ---- one rung


def one_rung():
    return project([tag("a", "BOOL"), tag("b", "BOOL")], [("M", ["XIC(a)OTE(b);"])], [("a", 1)], ["b"])


def one_run(steps):
    return f"mode run\ncpu {steps}\nend\n"


# ---- many rungs


def wide_rung(i):
    """Ten forms in turn: branches, a timer, its counter, arithmetic, moves, subscripts."""
    bit, number, small, timed = i % 64, i % 32, i % 8, i % 16
    forms = (
        f"[XIC(b{bit}),XIO(b{(i + 7) % 64})]OTE(b{(i + 1) % 64});",
        f"XIO(t{timed}.DN)TON(t{timed},?,?);",
        f"XIC(t{timed}.DN)CTU(c{timed},?,?);",
        f"XIC(c{timed}.DN)RES(c{timed});",
        f"ADD(n{number},{i % 5},n{(i + 3) % 32})LIM(-100000,n{(i + 3) % 32},100000)OTE(b{bit});",
        f"GRT(n{number},100000)[MOV(0,n{number}),CLR(n{(i + 1) % 32})];",
        f"[XIC(b{bit})[XIC(b{(i + 1) % 64}),XIO(b{(i + 2) % 64})],XIC(b{(i + 3) % 64})]MOV(s{small},n{number});",
        f"MUL(s{small},3,n{number})AND(n{number},255,s{small});",
        f"ADD(i,1,i)AND(i,31,i)MOV(n{number},arr[i]);",
        f"EQU(arr[{number}],n{number})OTE(b{(i + 5) % 64});",
    )
    return forms[i % len(forms)]


def wide_watches():
    bits = [f"b{i}" for i in range(0, 16, 2)]
    return [*bits, *(f"n{i}" for i in range(4)), "t0.ACC", "c0.ACC", "arr[5]", "c3.DN"]


def wide(rungs, watch):
    tags = [tag(f"b{i}", "BOOL") for i in range(64)]
    tags += [tag(f"n{i}", "DINT") for i in range(32)]
    tags += [tag(f"s{i}", "INT") for i in range(8)]
    tags += [tag(f"t{i}", "TIMER") for i in range(16)]
    tags += [tag(f"c{i}", "COUNTER") for i in range(16)]
    tags += [tag("arr", "DINT", 32), tag("i", "DINT")]
    initial = [(f"t{i}.PRE", 5 + i) for i in range(16)]
    initial += [(f"c{i}.PRE", 3 + i) for i in range(16)]
    initial += [("b0", 1), ("b9", 1), ("b33", 1)]
    return project(tags, [("M", [wide_rung(i) for i in range(rungs)])], initial, watch)


def rounds_of(count, steps):
    """So many rounds of so many steps and a tick."""
    return "mode run\n" + f"cpu {steps}\ntick 1\n" * count + "end\n"


# ---- a journal of single events


def single_lines():
    """Steps and ticks one by one, as many as the largest journal has room for."""
    head, pair, tail = "mode run\n", "cpu 1\ntick 1\n", "end\n"
    return head + pair * ((JOURNAL_BYTES - len(head) - len(tail)) // len(pair)) + tail


# ---- a large project


def large_name(kind, i):
    return f"Tag_{(4 * i + kind) % 4000}"


def large_instruction(i):
    """Eight forms in turn, on 1,000 tags of each of four types; the third has two instructions."""
    return (
        f"XIC({large_name(0, i)})",
        f"XIO({large_name(1, i)}.{i % 32})",
        f"[XIC({large_name(0, i + 1)}),XIC({large_name(3, i)}.DN)]",
        f"ADD({large_name(1, i)},{i},{large_name(1, i + 1)})",
        f"MOV({large_name(2, i)},Arr[{large_name(1, i)}])",
        f"GRT({large_name(1, i)},Arr[{i % 100}])",
        f"TON({large_name(3, i)},?,?)",
        f"OTE({large_name(0, i + 3)})",
    )[i % 8]


def large_routine(instructions, rungs):
    """So many rungs with so many instructions in all, as evenly as can be; a rung is filled up by an NOP."""
    texts, made, i = [], 0, 0
    for rung in range(1, rungs + 1):
        room = instructions * rung // rungs - made
        made += room
        text = ""
        while room:
            size = 2 if i % 8 == 2 else 1
            text += large_instruction(i) if size <= room else "NOP()"
            room -= min(size, room)
            i += 1
        texts.append(text + ";")
    return texts


def large(instructions=131_072):
    """A project of so many instructions, half of them in each of two routines, of 13 in a rung at most or so."""
    kinds = ("BOOL", "DINT", "INT", "TIMER")
    tags = [tag(f"Tag_{i}", kinds[i % 4]) for i in range(4000)] + [tag("Arr", "DINT", 100)]
    routines = [(name, large_routine(instructions // 2, max(1, instructions * 5_000 // 131_072))) for name in ("M", "N")]
    return project(tags, routines)


# ---- a script


def lanes(count, steps=200_000, period=100, until=2_000):
    """So many lanes beside the processor, each with an action each 20 ticks, while ticks are below `until`."""
    lines = [f"run {steps} {period} {count}"]
    lines += [f"@{lane} {tick} test P" for tick in range(0, until, 20) for lane in range(count)]
    return "\n".join([*lines, "end", ""])


# ---- online edits


def edits(count):
    """So many edits one after another, each of the routine's first rung: accepted, tested and assembled."""
    one = "@0 accept P M r 0 XIC(b{})OTE(b{});\n@0 test P\n@0 assemble P\n"
    return "mode run\n" + "".join(one.format(i % 64, (i + 1) % 64) for i in range(count)) + "end\n"


def write_all(folder):
    """The files of the six calls."""
    written(f"{folder}/a.json", one_rung())
    written(f"{folder}/a.txt", one_run(4_000_000))
    written(f"{folder}/c.json", wide(200, wide_watches()))
    written(f"{folder}/c.txt", rounds_of(TICKS, STEPS // TICKS))
    written(f"{folder}/d.txt", single_lines())
    written(f"{folder}/e.json", large())
    written(f"{folder}/run.txt", lanes(3))
