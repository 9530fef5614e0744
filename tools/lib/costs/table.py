"""The table of a run: a line for each crate, the most expensive first, and the whole."""

from collections import defaultdict

from lib.costs.work import Kind


def columns():
    return "".join(f"{kind.value:>9}" for kind in Kind)


def row(name, seconds, edits):
    kinds = "".join(f"{seconds[kind]:9.1f}" for kind in Kind)
    return f"{name:<18}{kinds}{edits:6}{sum(seconds.values()):10.1f}\n"


def table_of(run):
    """The text of a run's table."""
    crates, edits, known = defaultdict(lambda: defaultdict(float)), defaultdict(int), 0.0
    for process in run.processes:
        if process.work:
            crates[process.work.crate][process.work.kind] += process.seconds
            edits[process.work.crate] += process.work.kind in (Kind.EDIT, Kind.WHOLE)
            known += process.seconds
    total = defaultdict(float)
    lines = [f"{'crate':<18}{columns()}{'bugs':>6}{'all':>10}\n"]
    for name in sorted(crates, key=lambda it: (-sum(crates[it].values()), it)):
        lines.append(row(name, crates[name], edits[name]))
        for kind, seconds in crates[name].items():
            total[kind] += seconds
    lines.append(row("all crates", total, sum(edits.values())))
    used = run.user + run.system
    lines.append(f"the whole: {run.clock / 60:.1f} min by the clock, {used / 60:.1f} processor minutes ({run.user:.0f} s user, {run.system:.0f} s system)\n")
    lines.append(f"of them not the prover's: {max(0.0, used - known):.0f} s\n")
    return "".join(lines)
