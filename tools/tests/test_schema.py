"""docs/project.schema.json, held against the rules of a project's shape: it takes every project of the right shape, and of others those
alone whose fault it can't see."""

from __future__ import annotations

import glob
import json
import re
import unittest
from collections.abc import Iterator

from common import TOP, read_bytes, read_text
from json_schema import Schema
from lib.hammer import corpus
from lib.hammer.bent import Bender, spots_of
from lib.hammer.cases import file_text, projects_of
from lib.hammer.draw import Draw
from lib.hammer.limits import LIMITS
from lib.hammer.made import Maker
from lib.hammer.plain.reader import MOST_RUNG, Fault, described
from project_rows import file_of, rows
from refused_projects import CASES, LINE

FILES = ("crates/*/data/**/*.json", "tools/tests/scenarios/*.json")
REFUSED_FILE = "/runs/refused_"  # projects that the program refuses, some of them for what a schema sees
MOST_BYTES = 230_000  # of a project; each limit of the shape is met by one as short

# Changes of a project that the schema refuses, and others that the reader alone refuses: where, and what stands there then.
REFUSED = (
    ("extra", 1), ("schema", 3), ("schema", True), ("controller", "Line 1"), ("controller", "a__b"), ("controller", "a_"), ("controller", "_"),
    ("types", None), ("tags.0.dim", 2.5), ("tags.0.dim", 65_537), ("tags.2.type", "BOOL"), ("programs.0.routines.0.rungs", "NOP();"), ("programs.0.routines.0.rungs.0", "x" * 4_097), ("tasks", []),
    ("tasks.0.kind", "event"), ("tasks.0.kind", "Periodic"), ("tasks.1.priority", 16), ("tasks.1.period", 10), ("tasks.0.inhibited", 1),
    ("tasks.1", {"name": "T", "kind": "event", "programs": ["Eye"]}), ("initial.0.value", 1 << 31), ("watch", ["LineRun"] * 257),
    ("initial", [{"tag": "LineRun", "value": 0}] * 10_001),
)  # fmt: skip
TAKEN = (
    ("tags.0.name", ""), ("tags.0.type", "REAL"), ("tasks.0.period", 10.0), ("tasks.1.programs.0", "Line"),
    ("programs.0.main", "None"), ("programs.0.routines.0.rungs.0", "é" * 4_096), ("watch.0", "Stagger"),
)  # fmt: skip


def changed(where: str, value: object) -> object:
    """The project with this value there."""
    made = json.loads(LINE)
    *path, last = (int(key) if key.isdigit() else key for key in where.split("."))
    at(made, path)[last] = value
    return made


def every_field() -> dict:
    """A project that has each field."""
    made = json.loads(LINE)
    made["programs"][1]["tags"] = made["tags"][:4]
    made["tasks"].append({"name": "Rest", "kind": "continuous", "programs": ["Line"]})
    for task in made["tasks"]:
        task |= {"watchdog": 500, "inhibited": False}
    return made


def at(project: object, path: list | tuple) -> object:
    for key in path:
        project = project[key]
    return project


def files() -> Iterator[str]:
    return (path for pattern in FILES for path in glob.glob(f"{TOP}/{pattern}", recursive=True))


def fault_of(contents: bytes) -> Fault | None:
    """What is wrong with a project's shape."""
    try:
        described(contents)
    except Fault as fault:
        return fault
    return None


def is_unseen(fault: Fault, project: object) -> bool:
    """Whether the schema can't see the fault: `inhibited` in schema 1, a whole number with a point or a minus before 0, a rung with
    more bytes than characters."""
    if fault.code == "P2":
        return False
    value = at(project, fault.path)
    if fault.code == "P3":
        return "inhibited" in value and project["schema"] == 1
    if fault.code == "P4":
        return value == 0 and value is not False or isinstance(value, float) and value.is_integer()
    return isinstance(value, str) and len(value) <= MOST_RUNG < len(value.encode())


class Projects(unittest.TestCase):
    def setUp(self) -> None:
        self.schema = Schema(json.loads(read_text(f"{TOP}/docs/project.schema.json")))
        self.taken, self.refused = 0, 0

    def compare(self, contents: bytes) -> None:
        """The schema takes the project if its shape is right, and else only if it can't see the fault."""
        fault = fault_of(contents) if len(contents) < MOST_BYTES else Fault("P1")
        if fault and fault.code == "P1":
            return
        project = json.loads(contents)
        found = self.schema.fault(project)
        if fault is None:
            self.assertEqual(found, "", contents[:1_000])
        elif not found:
            self.assertTrue(is_unseen(fault, project), f"{fault.line()}: {contents[:1_000]!r}")
        self.taken += fault is None
        self.refused += found != ""

    def test_files(self) -> None:
        for path in (path for path in files() if REFUSED_FILE not in path):
            self.compare(read_bytes(path))
        self.assertEqual((self.taken > 50, self.refused), (True, 0))

    def test_refused_files(self) -> None:
        for path in (path for path in files() if REFUSED_FILE in path):
            self.compare(read_bytes(path))
        self.assertGreater(self.taken + self.refused, 5)

    def test_documents(self) -> None:
        for name in ("README.md", "docs/CONTROLLER.md", "docs/FORMATS.md", "tools/tests/worked_runs.md"):
            for text in re.findall(r"^```project\n(.*?)^```", read_text(f"{TOP}/{name}"), re.DOTALL | re.MULTILINE):
                self.compare(text.encode())
        self.assertGreater(self.taken, 4)

    def test_rows(self) -> None:
        seen = set()
        for kind, given, _, texts in (row for crate in ("test_program", "test_live") for row in rows(crate)):
            seen |= {text.encode() for text in texts.values() if text.startswith("{")} | ({file_of(given, texts)} if kind == "check" else set())
        for contents in seen:
            self.compare(contents)
        self.assertGreater(min(self.taken, self.refused), 80)

    def test_made(self) -> None:
        """Made projects, and what becomes of each with a few changes."""
        for seed in range(200):
            draw = Draw(seed)
            project, bender = Maker(draw).project(), Bender(draw)
            self.compare(file_text(project))
            self.assertGreater(self.taken, seed)
            self.compare(bender.value(project) if seed % 4 else bender.text(file_text(project)))
        self.assertGreater(self.refused, 50)

    def test_each_place(self) -> None:
        """What stands at each place of a project is left out, or has another key, or is null."""
        made = every_field()
        self.compare(file_text(made))
        for holder, key in list(spots_of(made)):
            old = holder[key]
            holder[key] = None
            self.compare(file_text(made))
            if isinstance(holder, dict):
                kept = dict(holder)
                del holder[key]
                self.compare(file_text(made))
                holder.update({**kept, key: old, f"{key}s": old})
                self.compare(file_text(made))
                del holder[f"{key}s"]
            holder[key] = old
        self.assertGreater(self.refused, 150)

    def test_kept(self) -> None:
        for text in projects_of([one.files for one in corpus.read()]):
            self.compare(text)
        self.assertGreater(self.taken, 100)

    def test_limits(self) -> None:
        for row in LIMITS:
            for number in (row.most, row.most + row.by) if row.command == "check" else ():
                self.compare(row.make(number)[0])
        self.assertGreater(min(self.taken, self.refused), 15)

    def test_what_it_refuses(self) -> None:
        for where, value in REFUSED:
            self.assertNotEqual(self.schema.fault(changed(where, value)), "", (where, value))
        for case in CASES:
            self.compare(case.contents())

    def test_what_it_takes_more(self) -> None:
        for where, value in TAKEN:
            self.assertEqual(self.schema.fault(changed(where, value)), "", (where, value))


class Keywords(unittest.TestCase):
    def test_others_are_not_read(self) -> None:
        for form in ({"not": {}}, {"items": {"format": "date"}}, {"type": "null"}, {"additionalProperties": {}}, {"$ref": "#/$defs/none"}):
            self.assertRaises(ValueError, Schema, {"$defs": {}, "properties": {"a": form}})

    def test_they_are_as_the_standard_says(self) -> None:
        """For each what it takes, and what it refuses."""
        for form, taken, refused in (
            ({"type": "integer"}, [1, 1.0, -5], [True, 1.5, "1", None]), ({"enum": [1, "a"]}, [1, 1.0, "a"], [True, "A", 2, []]),
            ({"const": True}, [True], [1, "true"]), ({"minimum": 2, "maximum": 3}, [2, 3.0, "x", True], [1, 4, 1.9]),
            ({"minLength": 1, "maxLength": 2}, ["é", "éé", 7], ["", "abc"]), ({"pattern": "^a*$"}, ["", "aa", 1], ["a\n", "ab"]),
            ({"minItems": 1, "maxItems": 2}, [[1], "abc"], [[], [1, 2, 3]]), ({"required": ["a"]}, [{"a": None}, 1], [{}, {"A": 1}]),
            ({"properties": {"a": {"const": 1}}, "additionalProperties": False}, [{}, {"a": 1}, []], [{"a": 2}, {"b": 1}]),
            ({"oneOf": [{"type": "integer"}, {"minimum": 2}]}, [1, 2.5], [3, 0.5]), ({"items": {"const": 1}}, [[], [1, 1]], [[1, 2]]),
            ({"$defs": {"x": {"type": "array"}}, "$ref": "#/$defs/x"}, [[]], [{}]),
        ):  # fmt: skip
            schema = Schema(form)
            self.assertEqual([one for one in taken + refused if not schema.fault(one)], taken, form)


if __name__ == "__main__":
    unittest.main()
