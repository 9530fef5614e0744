"""What an L5X file has, as far as a project can have it."""

from __future__ import annotations

from dataclasses import dataclass, field


@dataclass
class Member:
    name: str
    type: str
    dimensions: str | None = None
    is_hidden: bool = False
    host: str | None = None
    # Why a project can't have it.
    fault: str | None = None


@dataclass
class DataType:
    name: str
    members: list[Member] = field(default_factory=list)
    is_string: bool = False
    # A user's own, and not one that came with a module or an Add-On Instruction.
    is_own: bool = True
    # The instances of an Add-On Instruction.
    is_add_on: bool = False
    # Known by the values of a module's tag alone, which don't tell where bits lie.
    is_shape: bool = False


@dataclass(slots=True)
class Value:
    """A value of a tag that isn't 0, with its place behind the tag's name."""

    place: str
    number: int


@dataclass
class Tag:
    name: str
    type: str = ""
    dimensions: str | None = None
    alias_for: str | None = None
    kind: str = "Base"
    usage: str = ""
    values: list[Value] = field(default_factory=list)
    fault: str | None = None
    has_data: bool = False
    is_decorated: bool = False
    # Of a tag with a connection its direction, and of a module's its size where the file tells it.
    direction: str | None = None
    is_module: bool = False
    size: str | None = None
    # Of a parameter: whether each call has an argument for it.
    is_required: bool = False


@dataclass
class Rung:
    number: str
    kind: str = "N"
    text: str | None = None
    is_disabled: bool = False


@dataclass
class Routine:
    name: str
    kind: str
    is_target: bool = False
    is_encoded: bool = False
    has_ladder: bool = False
    rungs: list[Rung] = field(default_factory=list)


@dataclass
class AddOn:
    """The definition of an Add-On Instruction."""

    name: str
    parameters: list[Tag] = field(default_factory=list)
    local_tags: list[Tag] = field(default_factory=list)
    routines: list[Routine] = field(default_factory=list)
    faults: list[str] = field(default_factory=list)
    # The members that the values of instances have, as compared.
    told: set[str] = field(default_factory=set)


@dataclass
class Program:
    name: str
    main: str = ""
    fault_routine: str = ""
    is_target: bool = False
    is_folder: bool = False
    fault: str | None = None
    tags: list[Tag] = field(default_factory=list)
    routines: list[Routine] = field(default_factory=list)


@dataclass
class Task:
    name: str
    kind: str
    rate: str | None = None
    priority: str | None = None
    watchdog: str | None = None
    is_inhibited: bool = False
    fault: str | None = None
    programs: list[str] = field(default_factory=list)
    trigger: str = ""
    trigger_tag: str = ""


@dataclass
class Module:
    name: str
    parent: str = ""
    address: str = ""
    port: str = ""
    # What the names of its tags begin with.
    front: str = ""
    tags: list[Tag] = field(default_factory=list)
    # The name of its configuration tag, which isn't taken.
    configuration: str | None = None
    faults: list[str] = field(default_factory=list)


@dataclass
class Export:
    target: str = ""
    controller: str = ""
    types: list[DataType] = field(default_factory=list)
    modules: list[Module] = field(default_factory=list)
    tags: list[Tag] = field(default_factory=list)
    programs: list[Program] = field(default_factory=list)
    tasks: list[Task] = field(default_factory=list)
    add_ons: list[AddOn] = field(default_factory=list)
    # The first of each name, as compared.
    add_on_of: dict[str, AddOn] = field(default_factory=dict)
    # What has no meaning for a run, by its kind and how often it was met.
    passed: dict[str, int] = field(default_factory=dict)
    # Structures of modules' tags, by their names as compared.
    shapes: dict[str, DataType] = field(default_factory=dict)
    # How many values aren't 0.
    values: int = 0
    # What can't be read, with where it stands.
    encoded: list[str] = field(default_factory=list)
