"""A project as a newcomer writes it, 26 changes of it, and what is said of each on a terminal: written by hand, from the rules."""

from __future__ import annotations

from dataclasses import dataclass

LINE = """{
  "schema": 2,
  "controller": "Line",
  "types": [
    {"name": "Belt", "members": [{"name": "Speed", "type": "DINT"}, {"name": "Jam", "type": "TIMER"}]}
  ],
  "tags": [
    {"name": "Local:1:I", "type": "DINT", "dim": 2},
    {"name": "Local:2:O", "type": "DINT"},
    {"name": "StartPB", "alias": "Local:1:I[0].0"},
    {"name": "StopPB", "alias": "Local:1:I[0].1"},
    {"name": "Motor1", "alias": "Local:2:O.0"},
    {"name": "LineRun", "type": "BOOL"},
    {"name": "Stagger", "type": "TIMER"},
    {"name": "Parts", "type": "COUNTER"},
    {"name": "Belt1", "type": "Belt"},
    {"name": "Lots", "type": "DINT", "dim": 4}
  ],
  "programs": [
    {"name": "Line", "main": "Main", "routines": [
      {"name": "Main", "rungs": [
        "[XIC(StartPB),XIC(LineRun)]XIO(StopPB)OTE(LineRun);",
        "XIC(LineRun)TON(Stagger,?,?);",
        "XIC(Stagger.DN)OTE(Motor1);",
        "JSR(Count,0);"
      ]},
      {"name": "Count", "rungs": [
        "XIC(Motor1)CTU(Parts,?,?);",
        "EQU(Parts.ACC,10)RES(Parts);"
      ]}
    ]},
    {"name": "Eye", "main": "Main", "routines": [{"name": "Main", "rungs": ["ADD(Lots[0],1,Lots[0]);"]}]}
  ],
  "tasks": [
    {"name": "Every10ms", "kind": "periodic", "priority": 5, "period": 10, "programs": ["Line"]},
    {"name": "OnEye", "kind": "event", "priority": 2, "programs": ["Eye"]}
  ],
  "connections": [
    {"name": "In1", "tag": "Local:1:I", "direction": "in", "trigger": "OnEye"},
    {"name": "Out2", "tag": "Local:2:O", "direction": "out"}
  ],
  "initial": [
    {"tag": "Stagger.PRE", "value": 500},
    {"tag": "Parts.PRE", "value": 10}
  ],
  "watch": ["LineRun", "Motor1", "Parts.ACC"]
}
"""
IS_REFUSED = "logix: status 2: the project is refused\n"


@dataclass
class Case:
    """`old` becomes `new` in the project; `line` is what the program writes, and `said` what the terminal then shows."""

    name: str
    old: str
    new: str
    line: str
    said: str

    def contents(self) -> bytes:
        assert LINE.count(self.old) == 1 or not self.old, self.name
        changed = LINE.replace(self.old, self.new) if self.old else self.new + LINE
        return changed.encode("utf-8", "surrogateescape")


CASES = (
    Case("a comma is missing", '"type": "BOOL"},', '"type": "BOOL"}', "project P1", """\
line.json, line 14, column 5: a comma is missing before this
        {"name": "Stagger", "type": "TIMER"},
        ^
P1: the text isn't JSON. To do: correct it at the line and column that `./logix` shows.
"""),
    Case("a comma too many", '"dim": 4}\n', '"dim": 4},\n', "project P1", """\
line.json, line 18, column 3: a comma stands before this ]
      ],
      ^
P1: the text isn't JSON. To do: correct it at the line and column that `./logix` shows.
"""),
    Case("a comment", '  "tasks"', '  // all tasks\n  "tasks"', "project P1", """\
line.json, line 34, column 3: JSON has no comments
      // all tasks
      ^
P1: the text isn't JSON. To do: correct it at the line and column that `./logix` shows.
"""),
    Case("the mark of Notepad", "", "\ufeff", "project P1", """\
line.json, line 1, column 1: the file begins with a byte order mark (EF BB BF): an editor put it there
    \\ufeff{
    ^
P1: it isn't UTF-8, or has a byte order mark. To do: save it as UTF-8 without a mark.
"""),
    Case("a letter of Windows-1252", '"controller": "Line"', '"controller": "Stra\udcdfe"', "project P1", """\
line.json, line 3, column 22: the byte 0xdf isn't UTF-8
      "controller": "Stra\ufffde",
                         ^
P1: it isn't UTF-8, or has a byte order mark. To do: save it as UTF-8 without a mark.
"""),
    Case("a key misspelt", '"priority": 5', '"prority": 5', "project P3 tasks.0", """\
line.json, line 35: task Every10ms: no key 'prority' may stand here; is priority meant?
        {"name": "Every10ms", "kind": "periodic", "prority": 5, "period": 10, "programs": ["Line"]},
                                                  ^
  it may have name, kind, priority, period, watchdog, inhibited and programs
P3: a key that no such object has. To do: correct its spelling and case, or take it out.
"""),
    Case("the schema's name in the file", '  "schema": 2', '  "$schema": "project.schema.json",\n  "schema": 2', "project P3", """\
line.json, line 2: no key '$schema' may stand here; name the schema in your editor's settings, not in the file (docs/FORMATS.md, section 10)
      "$schema": "project.schema.json",
      ^
  it may have schema, controller, types, tags, programs, tasks, connections, initial and watch
P3: a key that no such object has. To do: correct its spelling and case, or take it out.
"""),
    Case("a tag's description", '"type": "BOOL"}', '"type": "BOOL", "description": "runs"}', "project P3 tags.5", """\
line.json, line 13: tag LineRun: no key 'description' may stand here; a project has no comments: keep them in a file beside it
        {"name": "LineRun", "type": "BOOL", "description": "runs"},
                                            ^
  it may have name, type and dim
P3: a key that no such object has. To do: correct its spelling and case, or take it out.
"""),
    Case("a period of an event task", '"priority": 2', '"priority": 2, "period": 10', "project P3 tasks.1", """\
line.json, line 36: task OnEye: no key 'period' may stand here
        {"name": "OnEye", "kind": "event", "priority": 2, "period": 10, "programs": ["Eye"]}
                                                          ^
  it may have name, kind, priority, watchdog, inhibited and programs
P3: a key that this one may not have: `priority` of a continuous task, `period` of one that isn't periodic, `type` of an alias, \
`inhibited` in schema 1. To do: take it out.
"""),
    Case("no period", '"period": 10, ', "", "project P2 tasks.0.period", """\
line.json, line 35: task Every10ms: the key 'period' is missing
        {"name": "Every10ms", "kind": "periodic", "priority": 5, "programs": ["Line"]},
        ^
P2: a field is missing; the path has its key. To do: add it.
"""),
    Case("a number as a text", '"value": 500', '"value": "500"', "project P4 initial.0.value", """\
line.json, line 43: initial value Stagger.PRE: 'value' is a text; a whole number must stand here
        {"tag": "Stagger.PRE", "value": "500"},
                                        ^
P4: the value is of another kind, as a text for a number. To do: write the right kind.
"""),
    Case("a number with a point", '"period": 10', '"period": 10.0', "project P4 tasks.0.period", """\
line.json, line 35: task Every10ms: 'period' is a number with a point or exponent; a whole number must stand here
        {"name": "Every10ms", "kind": "periodic", "priority": 5, "period": 10.0, "programs": ["Line"]},
                                                                           ^
P4: the number isn't whole. To do: write it without point and exponent.
"""),
    Case("priority 16", '"priority": 2', '"priority": 16', "project P5 tasks.1.priority", """\
line.json, line 36: task OnEye: 'priority' can't be 16; it is from 1 to 15
        {"name": "OnEye", "kind": "event", "priority": 16, "programs": ["Eye"]}
                                                       ^
P5: out of range: a number, an empty list, a rung of over 4,096 bytes. To do: stay inside.
"""),
    Case("a kind with a capital", '"periodic"', '"Periodic"', "project P5 tasks.0.kind", """\
line.json, line 35: task Every10ms: 'kind' can't be 'Periodic'; it is continuous or periodic or event
        {"name": "Every10ms", "kind": "Periodic", "priority": 5, "period": 10, "programs": ["Line"]},
                                      ^
P5: no name, or no word that is allowed here. To do: write one.
"""),
    Case("a blank in a name", '"name": "Eye"', '"name": "Eye 1"', "project P5 programs.1.name", """\
line.json, line 32: program Eye 1: 'Eye 1' is no name: it has ' ', and a name has letters, digits and underscores
        {"name": "Eye 1", "main": "Main", "routines": [{"name": "Main", "rungs": ["ADD(Lots[0],1,Lots[..
                 ^
P5: no name, or no word that is allowed here. To do: write one.
"""),
    Case("a program that isn't there", '"programs": ["Eye"]', '"programs": ["Eyes"]', "project P5 tasks.1.programs.0", """\
line.json, line 36: task OnEye: there is no program 'Eyes'; is Eye meant?
        {"name": "OnEye", "kind": "event", "priority": 2, "programs": ["Eyes"]}
                                                                       ^
P5: a name that nothing has. To do: correct it, or declare it.
"""),
    Case("a timer is watched", '"Motor1", "Parts.ACC"', '"Stagger", "Parts.ACC"', "project P5 watch.1", """\
line.json, line 46: 'Stagger' is a TIMER; a BOOL, a bit or an integer must stand here
      "watch": ["LineRun", "Stagger", "Parts.ACC"]
                           ^
P5: no place of the kind that is wanted; a trigger of an output. To do: name another.
"""),
    Case("a task's name twice", '"name": "OnEye"', '"name": "every10ms"', "project P6 tasks.1.name", """\
line.json, line 36: task every10ms: the name 'every10ms' is taken: line 35 has it
        {"name": "every10ms", "kind": "event", "priority": 2, "programs": ["Eye"]}
                 ^
P6: a name is the same as an earlier one, but for case. To do: rename one.
"""),
    Case("a program in two tasks", '"programs": ["Eye"]', '"programs": ["Line", "Eye"]', "project P7 programs.0", """\
line.json, line 20: program Line: it is listed 2 times, by Every10ms and OnEye
        {"name": "Line", "main": "Main", "routines": [
                 ^
P7: a program is listed twice. To do: leave it in one list.
"""),
    Case("a type that isn't there", '"type": "BOOL"', '"type": "BOOLEAN"', "project P9 tags.5 Y1", """\
line.json, line 13: tag LineRun: there is no type 'BOOLEAN'; is BOOL meant?
        {"name": "LineRun", "type": "BOOLEAN"},
                                    ^
Y1: there is no such type. To do: declare it, or correct the spelling.
"""),
    Case("an alias past the array", '"Local:1:I[0].1"', '"Local:1:I[2].1"', "project P9 tags.3 G5", """\
line.json, line 11: tag StopPB: 'Local:1:I' is an array of 2 DINTs: its elements are 0 to 1
        {"name": "StopPB", "alias": "Local:1:I[2].1"},
                                    ^
G5: a subscript or bit number is out of range. To do: stay inside.
"""),
    Case("a member that isn't there", '"Stagger.PRE"', '"Stagger.PST"', "project P9 initial.0.tag G4", """\
line.json, line 43: initial value Stagger.PST: 'Stagger' is a TIMER and has no member 'PST'; there are PRE, ACC, EN, TT and DN
        {"tag": "Stagger.PST", "value": 500},
                ^
G4: no such member. To do: name one that it has.
"""),
    Case("an instruction that isn't there", "EQU(Parts.ACC,10)", "EQ(Parts.ACC,10)", "project P10 programs.0.routines.1.rungs.1 T2 0", """\
line.json, line 29: program Line, routine Count, rung 1: 'EQ' is no instruction; is EQU or NEQ or MEQ meant?
    EQ(Parts.ACC,10)RES(Parts);
    ^
T2: letters that are no mnemonic, where an element may begin (also at the end). To do: write one of CONTROLLER.md, section 9.
"""),
    Case("no semicolon", "OTE(Motor1);", "OTE(Motor1)", "project P10 programs.0.routines.0.rungs.2 T4 26", """\
line.json, line 24: program Line, routine Main, rung 2: the rung has no ; at its end
    XIC(Stagger.DN)OTE(Motor1)
                              ^
T4: the text ends elsewhere, without `;`. To do: end the rung with `;`.
"""),
    Case("a tag misspelt", "XIC(LineRun)TON", "XIC(LineRunn)TON", "project P10 programs.0.routines.0 C4 1 0", """\
line.json, line 23: program Line, routine Main, rung 1: there is no tag 'LineRunn'; is LineRun meant?
    XIC(LineRunn)TON(Stagger,?,?);
        ^
C4: neither the program nor the controller declares the tag. To do: declare it, or correct the spelling.
"""),
    Case("a type in small letters", '"type": "TIMER"},\n', '"type": "timer"},\n', "", ""),
)
