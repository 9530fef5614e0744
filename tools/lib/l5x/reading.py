"""Reads the elements of an L5X file (1756-RM014) into an Export."""

from __future__ import annotations

from collections.abc import Callable
from xml.etree.ElementTree import Element

from lib.texts import shown

from .decorated import Decorated
from .model import AddOn, DataType, Export, Member, Module, Program, Routine, Rung, Tag, Task
from .profile import key
from .source import NoExport, events

_TARGETS = ("Controller", "Program", "Routine")
_NOTHING = ("", "0", None)
_DIRECTIONS = {"Produced": "out", "Consumed": "in"}
_EXECUTED = {"ExecutePrescan": "Prescan", "ExecutePostscan": "Postscan", "ExecuteEnableInFalse": "EnableInFalse"}
_BUSES_BY_NAME = ("ethernet", "controlnet", "devicenet")


def read(path: str) -> Export:
    """What the file has; NoExport if it is no L5X file of a controller, a program or a routine."""
    reader = _Reader()
    for kind, element in events(path):
        if kind == "start":
            reader.start(element)
        else:
            reader.end(element)
    return reader.export


def _is(text: str | None) -> bool:
    return text is not None and text.lower() == "true"


class _Reader:
    def __init__(self) -> None:
        self.export = Export()
        self._path: list[str] = []
        # How deep the elements are open that are passed over.
        self._passed = 0
        self._decorated: Decorated | None = None
        self._type = DataType("")
        self._module = Module("")
        self._tag: Tag | None = None
        self._tags: list[Tag] | None = None
        self._sizes: dict[str, str | None] = {"in": None, "out": None}
        self._suffixes = {"in": "I", "out": "O"}
        self._add_on = AddOn("")
        self._program = Program("")
        # Of the program or the Add-On Instruction that is open.
        self._routines: list[Routine] = []
        self._routine = Routine("", "")
        self._rung = Rung("")
        self._task = Task("", "")

    def start(self, element: Element) -> None:
        parent = self._path[-1] if self._path else ""
        self._path.append(element.tag)
        if self._passed:
            self._passed += 1
        elif self._decorated is not None:
            self._decorated.start(element)
        else:
            taken = _STARTS.get((parent, element.tag))
            if taken is not None:
                taken(self, element.attrib)

    def end(self, element: Element) -> None:
        self._path.pop()
        if self._passed:
            self._passed -= 1
        elif self._decorated is not None:
            self._decorated.end()
            if element.tag in ("Data", "DefaultData"):
                self._decorated = None
        elif element.tag == "Text" and self._path[-1:] == ["Rung"]:
            self._rung.text = element.text or ""
        elif element.tag == "Module":
            _name_tags(self._module)
        elif element.tag in ("Tag", "InputTag", "OutputTag", "Parameter", "LocalTag"):
            self._tag = None
        elif element.tag in ("Tags", "Parameters", "LocalTags"):
            self._tags = None

    # ---- the controller

    def _content(self, attributes: dict[str, str]) -> None:
        self.export.target = attributes.get("TargetType", "")
        if self.export.target not in _TARGETS:
            told = shown(self.export.target) or "none"
            raise NoExport(f"its TargetType is {told}; taken are Controller, Program and Routine")

    def _controller(self, attributes: dict[str, str]) -> None:
        self.export.controller = attributes.get("Name", "")

    def _data_type(self, attributes: dict[str, str]) -> None:
        is_string = attributes.get("Family", "") == "StringFamily"
        is_own = attributes.get("Class", "User") == "User"
        self._type = DataType(attributes.get("Name", ""), is_string=is_string, is_own=is_own)
        self.export.types.append(self._type)

    def _member(self, attributes: dict[str, str]) -> None:
        dimensions = attributes.get("Dimension")
        member = Member(attributes.get("Name", ""), attributes.get("DataType", ""))
        member.dimensions = None if dimensions in _NOTHING else dimensions
        member.is_hidden = _is(attributes.get("Hidden"))
        member.host = attributes.get("Target")
        self._type.members.append(member)

    def _note_passed(self, attributes: dict[str, str]) -> None:
        kind = self._path[-1]
        self.export.passed[kind] = self.export.passed.get(kind, 0) + 1
        self._passed = 1

    def _encoded(self, attributes: dict[str, str]) -> None:
        name, kind = attributes.get("Name", ""), attributes.get("EncodedType", "")
        self.export.encoded.append(f"{shown(kind) or 'part'} {shown(name)}".rstrip())
        self._passed = 1

    # ---- Add-On Instructions

    def _add_on_begun(self, attributes: dict[str, str]) -> None:
        self._add_on = add_on = AddOn(attributes.get("Name", ""))
        for name, routine in _EXECUTED.items():
            if _is(attributes.get(name)):
                add_on.faults.append(f"its {routine} routine is executed")
        if attributes.get("Class") == "Safety":
            add_on.faults.append("a safety instruction")
        self._routines = add_on.routines
        self.export.add_ons.append(add_on)
        self.export.add_on_of.setdefault(key(add_on.name), add_on)

    def _encoded_add_on(self, attributes: dict[str, str]) -> None:
        self._add_on_begun(attributes)
        self._encoded_part(attributes)

    def _encoded_part(self, attributes: dict[str, str]) -> None:
        self._add_on.faults.append("its content is encoded")
        self._passed = 1

    def _parameters(self, attributes: dict[str, str]) -> None:
        self._tags = self._add_on.parameters

    def _local_tags(self, attributes: dict[str, str]) -> None:
        self._tags = self._add_on.local_tags

    # ---- modules

    def _module_begun(self, attributes: dict[str, str]) -> None:
        self._module = Module(attributes.get("Name", ""), attributes.get("ParentModule", ""))
        self.export.modules.append(self._module)

    def _port(self, attributes: dict[str, str]) -> None:
        if _is(attributes.get("Upstream")):
            self._module.address = attributes.get("Address", "")
            self._module.port = attributes.get("Type", "")

    def _configuration(self, attributes: dict[str, str]) -> None:
        self._module.configuration = "C"

    def _connection(self, attributes: dict[str, str]) -> None:
        self._sizes = {"in": attributes.get("InputSize"), "out": attributes.get("OutputSize")}
        self._suffixes = {
            "in": attributes.get("InputTagSuffix", "I"),
            "out": attributes.get("OutputTagSuffix", "O"),
        }

    def _input(self, attributes: dict[str, str]) -> None:
        self._module_tag("in")

    def _output(self, attributes: dict[str, str]) -> None:
        self._module_tag("out")

    def _module_tag(self, direction: str) -> None:
        self._tag = tag = Tag(self._suffixes[direction], direction=direction, size=self._sizes[direction])
        tag.is_module = True
        self._module.tags.append(tag)

    def _rack(self, attributes: dict[str, str]) -> None:
        self._module.faults.append("a rack-optimized connection, whose words are those of its rack")
        self._passed = 1

    # ---- tags

    def _controller_tags(self, attributes: dict[str, str]) -> None:
        self._tags = self.export.tags

    def _program_tags(self, attributes: dict[str, str]) -> None:
        self._tags = self._program.tags

    def _tag_begun(self, attributes: dict[str, str]) -> None:
        dimensions = attributes.get("Dimensions")
        tag = Tag(attributes.get("Name", ""), attributes.get("DataType", ""))
        tag.dimensions = None if dimensions in _NOTHING else dimensions
        tag.kind = attributes.get("TagType", "Base")
        tag.usage = attributes.get("Usage", "")
        tag.is_required = _is(attributes.get("Required"))
        if tag.kind == "Alias" or "AliasFor" in attributes:
            tag.alias_for = attributes.get("AliasFor", "")
        else:
            tag.direction = _DIRECTIONS.get(tag.kind)
        self._tag = tag
        if self._tags is not None:
            self._tags.append(tag)

    def _data(self, attributes: dict[str, str]) -> None:
        if self._tag is None:
            return
        self._tag.has_data = True
        if attributes.get("Format") == "Decorated" and not self._tag.is_decorated:
            self._tag.is_decorated = True
            self._decorated = Decorated(self._tag, self.export)

    # ---- programs

    def _program_begun(self, attributes: dict[str, str]) -> None:
        self._program = program = Program(attributes.get("Name", ""))
        program.main = attributes.get("MainRoutineName", "")
        program.fault_routine = attributes.get("FaultRoutineName", "")
        program.is_target = attributes.get("Use") == "Target"
        program.is_folder = _is(attributes.get("UseAsFolder"))
        kind = attributes.get("Type", "Normal")
        if kind != "Normal":
            program.fault = f"a program of the type {shown(kind)}"
        elif attributes.get("Class") == "Safety":
            program.fault = "a safety program"
        elif _is(attributes.get("Disabled")):
            program.fault = "an inhibited program"
        self._routines = program.routines
        self.export.programs.append(program)

    def _routine_begun(self, attributes: dict[str, str]) -> None:
        self._routine = Routine(attributes.get("Name", ""), attributes.get("Type", ""))
        self._routine.is_target = attributes.get("Use") == "Target"
        self._routines.append(self._routine)

    def _ladder(self, attributes: dict[str, str]) -> None:
        self._routine.has_ladder = True

    def _encoded_routine(self, attributes: dict[str, str]) -> None:
        self._routine_begun(attributes)
        self._encoded_content(attributes)

    def _encoded_content(self, attributes: dict[str, str]) -> None:
        self._routine.is_encoded = True
        self._passed = 1

    def _rung_begun(self, attributes: dict[str, str]) -> None:
        number = attributes.get("Number", str(len(self._routine.rungs)))
        self._rung = Rung(number, attributes.get("Type", "N"))
        self._rung.is_disabled = _is(attributes.get("Disabled"))
        self._routine.rungs.append(self._rung)

    # ---- tasks

    def _task_begun(self, attributes: dict[str, str]) -> None:
        self._task = task = Task(attributes.get("Name", ""), attributes.get("Type", ""))
        task.rate = attributes.get("Rate")
        task.priority = attributes.get("Priority")
        task.watchdog = attributes.get("Watchdog")
        task.is_inhibited = _is(attributes.get("InhibitTask"))
        if attributes.get("Class") == "Safety":
            task.fault = "a safety task"
        self.export.tasks.append(task)

    def _event(self, attributes: dict[str, str]) -> None:
        self._task.trigger = attributes.get("EventTrigger", "")
        self._task.trigger_tag = attributes.get("EventTag", "")
        if _is(attributes.get("EnableTimeout")):
            self._task.fault = "an event task that a timeout releases too"

    def _scheduled(self, attributes: dict[str, str]) -> None:
        self._task.programs.append(attributes.get("Name", ""))


def _name_tags(module: Module) -> None:
    """A module's tags are named by the chassis and the slot, and on a network by the module itself."""
    by_slot = module.address.isdigit() and module.port.lower() not in _BUSES_BY_NAME
    module.front = (f"{module.parent}:{module.address}" if by_slot else module.name) + ":"
    for tag in module.tags:
        tag.name = module.front + tag.name
    if module.configuration is not None:
        module.configuration = module.front + module.configuration


_Start = Callable[[_Reader, dict[str, str]], None]

_STARTS: dict[tuple[str, str], _Start] = {
    ("", "RSLogix5000Content"): _Reader._content,
    ("RSLogix5000Content", "Controller"): _Reader._controller,
    ("DataTypes", "DataType"): _Reader._data_type,
    ("Members", "Member"): _Reader._member,
    ("AddOnInstructionDefinitions", "AddOnInstructionDefinition"): _Reader._add_on_begun,
    ("AddOnInstructionDefinitions", "EncodedData"): _Reader._encoded_add_on,
    ("AddOnInstructionDefinition", "EncodedData"): _Reader._encoded_part,
    ("AddOnInstructionDefinition", "Parameters"): _Reader._parameters,
    ("AddOnInstructionDefinition", "LocalTags"): _Reader._local_tags,
    ("Parameters", "Parameter"): _Reader._tag_begun,
    ("LocalTags", "LocalTag"): _Reader._tag_begun,
    ("Parameter", "DefaultData"): _Reader._data,
    ("LocalTag", "DefaultData"): _Reader._data,
    ("Modules", "Module"): _Reader._module_begun,
    ("Ports", "Port"): _Reader._port,
    ("Communications", "ConfigTag"): _Reader._configuration,
    ("Connections", "Connection"): _Reader._connection,
    ("Connections", "RackConnection"): _Reader._rack,
    ("Connection", "InputTag"): _Reader._input,
    ("Connection", "OutputTag"): _Reader._output,
    ("Connection", "InAliasTag"): _Reader._rack,
    ("Connection", "OutAliasTag"): _Reader._rack,
    ("RackConnection", "InAliasTag"): _Reader._rack,
    ("Controller", "Tags"): _Reader._controller_tags,
    ("Program", "Tags"): _Reader._program_tags,
    ("Tags", "Tag"): _Reader._tag_begun,
    ("Tag", "Data"): _Reader._data,
    ("InputTag", "Data"): _Reader._data,
    ("OutputTag", "Data"): _Reader._data,
    ("Programs", "Program"): _Reader._program_begun,
    ("Routines", "Routine"): _Reader._routine_begun,
    ("Routines", "EncodedData"): _Reader._encoded_routine,
    ("Routine", "EncodedData"): _Reader._encoded_content,
    ("Routine", "RLLContent"): _Reader._ladder,
    ("RLLContent", "Rung"): _Reader._rung_begun,
    ("Tasks", "Task"): _Reader._task_begun,
    ("Task", "EventInfo"): _Reader._event,
    ("ScheduledPrograms", "ScheduledProgram"): _Reader._scheduled,
    ("Programs", "EncodedData"): _Reader._encoded,
    ("Controller", "EncodedData"): _Reader._encoded,
    ("DataTypes", "EncodedData"): _Reader._encoded,
    ("Trends", "Trend"): _Reader._note_passed,
    ("AlarmConditions", "AlarmCondition"): _Reader._note_passed,
    ("AlarmDefinitions", "DatatypeAlarmDefinition"): _Reader._note_passed,
}
