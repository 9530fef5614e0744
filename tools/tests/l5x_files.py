"""What the tests of from_l5x share: its calls, and small L5X files."""

from __future__ import annotations

import contextlib
import io
import os
import tempfile
from dataclasses import dataclass

from common import TOP
from lib.l5x.main import main

SAMPLES = os.path.join(TOP, "examples", "l5x")


@dataclass
class Ended:
    """How a call ended, and what it wrote to standard output and standard error."""

    status: int
    project: str
    lines: list[str]


def call(words: list[str], logix: str = "/nonexistent") -> Ended:
    out, err = io.StringIO(), io.StringIO()
    with contextlib.redirect_stdout(out), contextlib.redirect_stderr(err):
        try:
            status = main(words, logix)
        except SystemExit as end:
            status = end.code
    lines = [line for line in err.getvalue().splitlines() if not line.startswith("check: no proved logix")]
    return Ended(status, out.getvalue(), lines)


def convert(data: str | bytes, *words: str, logix: str = "/nonexistent") -> Ended:
    """A call on a file with this content."""
    with tempfile.TemporaryDirectory() as folder:
        path = os.path.join(folder, "file.L5X")
        with open(path, "wb") as file:
            file.write(data.encode() if isinstance(data, str) else data)
        return call([path, *words], logix)


def tag(name: str, type_name: str, data: str = "", more: str = "") -> str:
    decorated = f'<Data Format="Decorated">{data}</Data>' if data else ""
    return f'<Tag Name="{name}" TagType="Base" DataType="{type_name}" {more}>{decorated}</Tag>'


def alias(name: str, target: str) -> str:
    return f'<Tag Name="{name}" TagType="Alias" AliasFor="{target}"/>'


def value(type_name: str, text: str) -> str:
    return f'<DataValue DataType="{type_name}" Value="{text}"/>'


def rungs(*texts: str) -> str:
    numbered = enumerate(texts)
    return "".join(f'<Rung Number="{k}" Type="N"><Text><![CDATA[{text}]]></Text></Rung>' for k, text in numbered)


def routine(name: str, *texts: str) -> str:
    return f'<Routine Name="{name}" Type="RLL"><RLLContent>{rungs(*texts)}</RLLContent></Routine>'


def program(name: str, routines: str, tags: str = "", more: str = "") -> str:
    return (
        f'<Program Name="{name}" MainRoutineName="Go" {more}><Tags>{tags}</Tags>'
        f"<Routines>{routines}</Routines></Program>"
    )


def task(name: str, programs: str, kind: str = 'Type="CONTINUOUS"', event: str = "") -> str:
    listed = "".join(f'<ScheduledProgram Name="{p}"/>' for p in programs.split())
    return f'<Task Name="{name}" {kind}>{event}<ScheduledPrograms>{listed}</ScheduledPrograms></Task>'


def content(controller: str, target: str = "Controller") -> str:
    return (
        f'<?xml version="1.0" encoding="UTF-8"?><RSLogix5000Content TargetType="{target}">'
        f'<Controller Name="C">{controller}</Controller></RSLogix5000Content>'
    )


def file(
    rung: str = "NOP();", tags: str = "", types: str = "", modules: str = "", programs: str = "", tasks: str = ""
) -> str:
    """A controller with the program P in a continuous task, and what else is given."""
    return content(
        f"<DataTypes>{types}</DataTypes><Modules>{modules}</Modules><Tags>{tags}</Tags>"
        f"<Programs>{program('P', routine('Go', rung))}{programs}</Programs>"
        f"<Tasks>{task('T', 'P')}{tasks}</Tasks>"
    )
