"""Every limit of the documents, met exactly and passed by one, through the program: a table that names the limit.

A row is what the limit is, a command, a maker of files for a number, the limit's number, and what is answered beyond it.
"""

from typing import NamedTuple

from .cases import file_text, told

ROUTINE = {"name": "M", "rungs": []}
PROGRAM = {"name": "P", "main": "M", "routines": [ROUTINE]}
TASK = {"name": "T", "kind": "continuous", "programs": ["P"]}
PROJECT = {"schema": 2, "controller": "C", "programs": [PROGRAM], "tasks": [TASK]}
IN = {"name": "In", "tag": "w", "direction": "in"}


class Limit(NamedTuple):
    """At `most` the status is 0; one beyond, the answer is `status` and `text`. `least` is the other way: one below is refused."""

    what: str
    command: str
    make: object
    most: int
    status: int
    text: str
    by: int = 1


def project(**fields):
    return file_text({**PROJECT, **fields})


def of_program(**fields):
    return project(programs=[{**PROGRAM, **fields}])


def of_task(**fields):
    return project(tasks=[{**TASK, **fields}])


def rungs(texts):
    return of_program(routines=[{"name": "M", "rungs": texts}])


def numbered(count, make):
    return [make(at) for at in range(count)]


def structures(count):
    return [project(types=numbered(count, lambda at: {"name": f"S{at}", "members": [{"name": "x", "type": "DINT"}]}))]


def members(count):
    return [project(types=[{"name": "S", "members": numbered(count, lambda at: {"name": f"m{at}", "type": "SINT"})}])]


def structure_bytes(size):
    listed = [{"name": "x", "type": "DINT", "dim": 1_024}] + ([{"name": "y", "type": "SINT"}] if size > 4_096 else [])
    return [project(types=[{"name": "S", "members": listed}])]


def elements(count):
    return [project(tags=[{"name": "b", "type": "SINT", "dim": count}])]


def tags(count):
    return numbered(count, lambda at: {"name": f"t{at}", "type": "SINT"})


def image(size):
    """Tags of so many bytes."""
    more = [{"name": f"s{at}", "type": "SINT"} for at in range((size - 262_140) // 4)]
    return [project(tags=[{"name": "w", "type": "DINT", "dim": 65_535}, *more])]


def programs(count):
    made = numbered(count, lambda at: {**PROGRAM, "name": f"P{at}"})
    names = [one["name"] for one in made]
    return [project(programs=made, tasks=[{**TASK, "programs": names[:100]}])]


def listed_programs(count):
    """So many names in the list of one task; the programs themselves stay within their limit."""
    made = numbered(min(count, 100), lambda at: {**PROGRAM, "name": f"P{at}"})
    return [project(programs=made, tasks=[{**TASK, "programs": [f"P{at % 100}" for at in range(count)]}])]


def tasks(count):
    made = numbered(count, lambda at: {**PROGRAM, "name": f"P{at}"})
    listed = numbered(count, lambda at: {"name": f"T{at}", "kind": "event", "priority": 15, "programs": [f"P{at}"]})
    return [project(programs=made, tasks=listed)]


def instructions_of_routine(count):
    texts = ["NOP()" * 512 + ";"] * (count // 512) + (["NOP()" * (count % 512) + ";"] if count % 512 else [])
    return [rungs(texts)]


def instructions_in_all(count):
    each = [65_536, count - 65_536]
    texts = [["NOP()" * 512 + ";"] * (number // 512) + ["NOP();"] * (number % 512) for number in each]
    made = [{**PROGRAM, "name": f"P{at}", "routines": [{"name": "M", "rungs": one}]} for at, one in enumerate(texts)]
    names = ["P0", "P1"]
    if count > 131_072:
        made[1]["routines"][0]["rungs"].pop()
        made.append({**PROGRAM, "name": "P2", "routines": [{"name": "M", "rungs": ["NOP();"]}]})
        names.append("P2")
    return [project(programs=made, tasks=[{**TASK, "programs": names}])]


def connections(count):
    made = numbered(count, lambda at: {"name": f"C{at}", "tag": "w", "direction": "in"})
    return [project(tags=[{"name": "w", "type": "DINT"}], connections=made)]


def connection_words(count):
    return [project(tags=[{"name": "w", "type": "DINT", "dim": count}], connections=[IN])]


def initial_values(count):
    return [project(tags=[{"name": "w", "type": "DINT"}], initial=[{"tag": "w", "value": 1}] * count)]


def watches(count):
    return [project(tags=[{"name": "w", "type": "DINT"}], watch=["w"] * count)]


def subscripts(count):
    """Variable subscripts in one operand: a structure in a structure, four deep, and an array at the end."""
    deep = [{"name": "S0", "members": [{"name": "m", "type": "DINT", "dim": 2}]}]
    deep += [{"name": f"S{at}", "members": [{"name": "m", "type": f"S{at - 1}", "dim": 2}]} for at in range(1, 4)]
    text = f"w[n]{'.m[n]' * (count - 1)}{'.m[0]' * (5 - count)}"
    return [project(types=deep, tags=[{"name": "w", "type": "S3", "dim": 2}, {"name": "n", "type": "DINT"}],
                    programs=[{**PROGRAM, "routines": [{"name": "M", "rungs": [f"CLR({text});"]}]}])]


def branches(depth):
    return [rungs(["[" * depth + "]" * depth + ";"])]


def json_depth(depth):
    return [b'{"x":' + b"[" * (depth - 1) + b"]" * (depth - 1) + b"}"]


def journal(*lines):
    return ("\n".join([*lines, "end"]) + "\n").encode()


def steps(count):
    return [project(), journal(f"cpu {count}")]


def steps_in_two(count):
    return [project(), journal("cpu 1", f"cpu {count - 1}")]


def ticks(count):
    return [project(), journal(f"tick {count}")]


def actions(count):
    return [project(), journal(*["clear"] * count)]


def line_bytes(length):
    return [project(), journal("tick 1" + " " * (length - 6))]


def edits(count):
    return [project(), journal("accept P M " + "|".join(["i 0 NOP();"] * count))]


def lane(number):
    return [project(), journal(f"@{number} clear")]


def digits(count):
    return [project(), journal(f"cpu {'0' * (count - 1)}1")]


def script_steps(count):
    return [project(), journal(f"run {count} 1000 0")]


def script_pace(count):
    return [project(), journal(f"run 10 {count} 0")]


def script_lanes(count):
    return [project(), journal(f"run 1 1 {count}")]


def script_actions(count):
    return [project(), journal("run 1 1 1", *["@0 0 clear"] * count)]


def script_tick(at):
    return [project(), journal("run 100 10 1", f"@0 {at} clear")]


def file_bytes(size):
    text = project()
    return [text + b" " * (size - len(text))]


def name_bytes(length):
    return [project(controller="a" * length)]


def tag_name_bytes(length):
    return [project(tags=[{"name": "a" * 40 + ":" + "b" * (length - 41), "type": "DINT"}])]


def tag_parts(count):
    return [project(tags=[{"name": ":".join(["a"] * count), "type": "DINT"}])]


def call_inputs(count):
    return [rungs([f"JSR(M,{count}{',1' * count});"])]


def call_returns(count):
    routine = {"name": "M", "rungs": [f"JSR(M,0{',n' * count});"]}
    return [project(tags=[{"name": "n", "type": "DINT"}], programs=[{**PROGRAM, "routines": [routine]}])]


def taken(count):
    return [project(tags=[{"name": "n", "type": "DINT"}],
                    programs=[{**PROGRAM, "routines": [{"name": "M", "rungs": [f"SBR({','.join(['n'] * count)});"]}]}])]


def given_back(count):
    return [rungs([f"RET({','.join(['1'] * count)});"])]


def routines(count):
    return [of_program(routines=[{"name": "M" if not at else f"R{at}", "rungs": []} for at in range(count)])]


def nested(count):
    """A chain of calls: the main routine and so many others."""
    made = [{"name": "M" if not at else f"R{at}", "rungs": [f"JSR(R{at + 1});"]} for at in range(count - 1)]
    made.append({"name": f"R{count - 1}", "rungs": []})
    return [of_program(routines=made), journal("mode run", f"cpu {count}")]


def nested_report(count):
    return f"0 0 reply 31 ok\n0 1 begin T P 0\n0 {count} fault major 4/84 T P\nend 0 {count} faulted lost 0\n"


def forces(count):
    words = [{"name": f"C{at}", "tag": "w", "direction": "in"} for at in range(3)]
    lines = [f"force C{at // 128} {at % 128} 1 1" for at in range(count)]
    return [project(tags=[{"name": "w", "type": "DINT", "dim": 128}], connections=words), journal(*lines)]


def report_lines(count):
    return [project(), journal("mode run", f"cpu {2 * (count - 1)}")]


def long_report(count):
    lines = ["0 0 reply 31 ok"] + [f"0 {2 * at + 1} begin T P 0" for at in range(min(count, 100_000) - 1)]
    return "".join(line + "\n" for line in [*lines, f"end 0 {2 * (count - 1)} run lost {max(0, count - 100_000)}"])


def instructions_by_edits(count):
    """Two routines with so many instructions but one, and an edit of a third that adds one."""
    first = ["NOP()" * 512 + ";"] * 128
    second = ["NOP()" * 512 + ";"] * 127 + ["NOP()" * (count - 1 - 65_536 - 127 * 512) + ";"]
    made = [{"name": "M", "rungs": first}, {"name": "N", "rungs": second}, {"name": "Z", "rungs": []}]
    return [of_program(routines=made), journal("accept P Z i 0 NOP();")]


LIMITS = [
    Limit("bytes of a file", "check", file_bytes, 16_777_216, 7, ""),
    Limit("nesting of JSON", "check", json_depth, 127, 2, "project P1\n"),
    Limit("structures", "check", structures, 64, 2, "project P11 types\n"),
    Limit("members of a structure", "check", members, 128, 2, "project P11 types.0.members\n"),
    Limit("bytes of a structure", "check", structure_bytes, 4_096, 2, "project P9 types.0 Y5\n"),
    Limit("elements of an array", "check", elements, 65_536, 2, "project P5 tags.0.dim\n"),
    Limit("tags of the controller", "check", lambda n: [project(tags=tags(n))], 4_096, 2, "project P11 tags\n"),
    Limit("tags of a program", "check", lambda n: [of_program(tags=tags(n))], 4_096, 2, "project P11 programs.0.tags\n"),
    Limit("bytes of the image", "check", image, 262_144, 2, "project P9 tags.2 G8\n", 4),
    Limit("programs", "check", programs, 100, 2, "project P11 programs\n"),
    Limit("programs of a task", "check", listed_programs, 100, 2, "project P11 tasks.0.programs\n"),
    Limit("routines of a program", "check", routines, 64, 2, "project P11 programs.0.routines\n"),
    Limit("rungs of a routine", "check", lambda n: [rungs([";"] * n)], 10_000, 2, "project P11 programs.0.routines.0.rungs\n"),
    Limit("bytes of a rung", "check", lambda n: [rungs([" " * (n - 1) + ";"])], 4_096, 2, "project P5 programs.0.routines.0.rungs.0\n"),
    Limit("instructions of a routine", "check", instructions_of_routine, 65_536, 2, "project P10 programs.0.routines.0 C16 128 0\n"),
    Limit("instructions of a project", "check", instructions_in_all, 131_072, 2, "project P11 programs\n"),
    Limit("tasks", "check", tasks, 32, 2, "project P11 tasks\n"),
    Limit("priority", "check", lambda n: [of_task(kind="event", priority=n)], 15, 2, "project P5 tasks.0.priority\n"),
    Limit("least priority", "check", lambda n: [of_task(kind="event", priority=n)], 1, 2, "project P5 tasks.0.priority\n", -1),
    Limit("period", "check", lambda n: [of_task(kind="periodic", priority=1, period=n)], 2_000_000, 2, "project P5 tasks.0.period\n"),
    Limit("least period", "check", lambda n: [of_task(kind="periodic", priority=1, period=n)], 1, 2, "project P5 tasks.0.period\n", -1),
    Limit("watchdog", "check", lambda n: [of_task(watchdog=n)], 2_000_000, 2, "project P5 tasks.0.watchdog\n"),
    Limit("least watchdog", "check", lambda n: [of_task(watchdog=n)], 1, 2, "project P5 tasks.0.watchdog\n", -1),
    Limit("connections", "check", connections, 64, 2, "project P11 connections\n"),
    Limit("words of a connection", "check", connection_words, 128, 2, "project P5 connections.0.tag\n"),
    Limit("initial values", "check", initial_values, 10_000, 2, "project P11 initial\n"),
    Limit("watched places", "check", watches, 256, 2, "project P11 watch\n"),
    Limit("bytes of a name", "check", name_bytes, 40, 2, "project P5 controller\n"),
    Limit("bytes of a part of a tag name", "check", tag_name_bytes, 80, 2, "project P9 tags.0 G1\n", 2),
    Limit("parts of a tag name", "check", tag_parts, 4, 2, "project P9 tags.0 G1\n"),
    Limit("variable subscripts", "check", subscripts, 4, 2, "project P10 programs.0.routines.0 C8 0 0\n"),
    Limit("branches in one another", "check", branches, 16, 2, "project P10 programs.0.routines.0.rungs.0 T5 16\n"),
    Limit("inputs of a call", "check", call_inputs, 8, 2, "project P10 programs.0.routines.0 C2 0 0\n"),
    Limit("returns of a call", "check", call_returns, 8, 2, "project P10 programs.0.routines.0 C1 0 0\n"),
    Limit("operands of SBR", "check", taken, 8, 2, "project P10 programs.0.routines.0 C1 0 0\n"),
    Limit("operands of RET", "check", given_back, 8, 2, "project P10 programs.0.routines.0 C1 0 0\n"),
    Limit("frames", "replay", nested, 25, 0, nested_report(26)),
    Limit("forced words", "replay", forces, 256, 0, "0 0 reply 31 ok\n" * 256 + "0 0 reply 31 refused F2\nend 0 0 program lost 0\n"),
    Limit("lines of a report", "replay", report_lines, 100_000, 0, long_report(100_001)),
    Limit("instructions by edits", "replay", instructions_by_edits, 131_072, 0, "0 0 reply 31 refused E9\nend 0 0 program lost 0\n"),
    Limit("steps of a line", "replay", steps, 4_000_000, 3, "journal J4 line 1\n"),
    Limit("steps of a journal", "replay", steps_in_two, 4_000_000, 3, "journal J4 line 2\n"),
    Limit("ticks of a journal", "replay", ticks, 4_000_000, 3, "journal J4 line 1\n"),
    Limit("actions of a journal", "replay", actions, 100_000, 3, "journal J4 line 100001\n"),
    Limit("bytes of a line", "replay", line_bytes, 65_536, 3, "journal J1 line 1\n"),
    Limit("edits of an accept", "replay", edits, 16, 3, "journal J1 line 1\n"),
    Limit("lanes of a journal", "replay", lane, 30, 3, "journal J2 line 1\n"),
    Limit("digits of a count", "replay", digits, 10, 3, "journal J1 line 1\n"),
    Limit("steps of a script", "run", script_steps, 1_000_000, 3, "script J4 line 1\n"),
    Limit("pace of a script", "run", script_pace, 1_000_000, 3, "script J4 line 1\n"),
    Limit("lanes of a script", "run", script_lanes, 31, 3, "script J4 line 1\n"),
    Limit("actions of a script", "run", script_actions, 100_000, 3, "script J4 line 100002\n"),
    Limit("tick of an action", "run", script_tick, 10, 3, "script J3 line 2\n"),
]


def number_of_limits():
    return len(LIMITS)


def of_limit(program, contents):
    """The row of this number: met, and passed by one."""
    row = LIMITS[int(contents[0])]
    met = program.answer(row.command, *row.make(row.most))
    if row.what == "nesting of JSON":
        wrong = told(met, 2, b"project P3\n")
    else:
        refused = any(word in met.out for word in (b"refused", b"faulted")) or met.out.endswith(b"lost 1\n")
        refused = refused and b"clear" not in row.make(row.most)[-1]
        wrong = f"status {met.status} with {met.out[:200]!r}" if met.status or met.err or refused else None
    if wrong:
        return f"{row.what}, met at {row.most}: {wrong}"
    wrong = told(program.answer(row.command, *row.make(row.most + row.by)), row.status, row.text.encode())
    return f"{row.what}, passed at {row.most + row.by}: {wrong}" if wrong else None


def limits(_, __, number):
    return of_limit, [str(number % len(LIMITS)).encode()]
