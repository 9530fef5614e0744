"""How the cost grows: with steps, rungs, watches, and lanes."""

from . import inputs, measure

WIDTH = 40
STEPS = (10_000, 100_000, 1_000_000)
RUNGS = (1, 10, 100, 1_000, 10_000)
WATCHES = (0, 16, 256)
LANES = (1, 3, 7, 15, 31)
SIZES = (2, 128, 1_024, 8_192, 32_768, 131_072)
EDITED = (10, 100, 1_000, 10_000)
EDITS = 20


def print_all(program, rounds, folder):
    for title, series in (
        ("Steps of one rung", steps_of_one),
        ("Steps of 200 rungs", steps_of_many),
        ("Rungs, 200,000 steps", rungs),
        ("Watched tags, 200 rungs, 200,000 steps", watches),
        ("Lanes of `run`, 20,000 steps", lanes),
        ("Instructions of a project that is checked", sizes),
    ):
        points = [(label, measure.cost_of(program, words, rounds)) for label, words in series(folder)]
        print(f"\n{title}:\n\n{plot(points)}", flush=True)
    print("\nRungs of a routine with an online edit (accept, test, assemble), millions of instructions for an edit:\n")
    for count in EDITED:
        print(f"    {count:>9,} {measure.told(edit(program, folder, count)):>9}", flush=True)


def plot(points):
    """A line for each point: its label, what it costs, and a bar as long as that."""
    costs = [float(cost.instructions.replace(",", "")) if cost.instructions != "-" else cost.seconds for _, cost in points]
    most = max(costs)
    lines = []
    for (label, cost), size in zip(points, costs):
        bar = "#" * max(1, round(WIDTH * size / most))
        told = f"{cost.instructions} M" if cost.instructions != "-" else f"{cost.seconds:.2f} s"
        lines.append(f"    {label:>9} {told:>9} {bar}")
    return "\n".join(lines)


def replay(folder, project, journal):
    """The words of a replay of these texts."""
    inputs.written(f"{folder}/p.json", project)
    inputs.written(f"{folder}/j.txt", journal)
    return ["replay", f"{folder}/p.json", f"{folder}/j.txt"]


def steps_of_one(folder):
    for count in STEPS:
        yield f"{count:,}", replay(folder, inputs.one_rung(), inputs.one_run(count))


def steps_of_many(folder):
    for count in STEPS:
        yield f"{count:,}", replay(folder, inputs.wide(200, inputs.wide_watches()), inputs.rounds_of(count // 500, 500))


def rungs(folder):
    for count in RUNGS:
        yield f"{count:,}", replay(folder, inputs.wide(count, inputs.wide_watches()), inputs.rounds_of(400, 500))


def watches(folder):
    """Of 256 watched tags the last ones change least: they are elements of the array and timers' and counters' parts."""
    names = [*(f"b{i}" for i in range(64)), *(f"n{i}" for i in range(32)), *(f"arr[{i}]" for i in range(32))]
    names += [f"{kind}{i}.{part}" for kind in "tc" for i in range(16) for part in ("ACC", "DN", "PRE", "EN" if kind == "t" else "CU")]
    for count in WATCHES:
        yield f"{count:,}", replay(folder, inputs.wide(200, names[:count]), inputs.rounds_of(400, 500))


def sizes(folder):
    for count in SIZES:
        inputs.written(f"{folder}/p.json", inputs.large(count))
        yield f"{count:,}", ["check", f"{folder}/p.json"]


def edit(program, folder, rungs):
    """What one online edit costs, in millions of instructions: an accept of a rung, a test and an assemble."""
    project, calls = inputs.wide(rungs, ()), []
    for name, count in (("few", 1), ("many", 1 + EDITS)):
        inputs.written(f"{folder}/{name}.txt", inputs.edits(count))
        calls.append(["replay", f"{folder}/edit.json", f"{folder}/{name}.txt"])
    inputs.written(f"{folder}/edit.json", project)
    return measure.one_of(program, *calls, EDITS)


def lanes(folder):
    for count in LANES:
        inputs.written(f"{folder}/p.json", inputs.one_rung())
        inputs.written(f"{folder}/s.txt", inputs.lanes(count, steps=20_000, until=200))
        yield f"{count:,}", ["run", f"{folder}/p.json", f"{folder}/s.txt"]
