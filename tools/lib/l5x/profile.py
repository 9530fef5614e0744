"""What a project may have: limits, names, and the table of instructions (docs/FORMATS.md, docs/CONTROLLER.md).

The tests hold the limits and the table against the definitions under crates/.
"""

from __future__ import annotations

import re

MAX_NAME_BYTES = 40
MAX_TAG_NAME_BYTES = 80
MAX_TAG_NAME_PARTS = 4
MAX_SUBSCRIPTS = 4
MAX_PARAMETERS = 8
MAX_ROUTINE_INSTRUCTIONS = 65_536
MAX_PROJECT_INSTRUCTIONS = 131_072
MAX_IMAGE_BYTES = 262_144
MAX_STRUCTURE_BYTES = 4_096
MAX_ELEMENTS = 65_536
MAX_CONNECTION_BYTES = 512
MAX_FILE_BYTES = 16_777_216
MAX_TYPES = 64
MAX_MEMBERS = 128
MAX_TAGS = 4_096
MAX_PROGRAMS = 100
MAX_ROUTINES = 64
MAX_RUNGS = 10_000
MAX_RUNG_BYTES = 4_096
MAX_TASKS = 32
MAX_CONNECTIONS = 64
MAX_VALUES = 10_000
MAX_WATCHES = 256
MAX_TICKS = 2_000_000
DEFAULT_WATCHDOG_MS = "500"

INTEGER_BITS = {"SINT": 8, "INT": 16, "DINT": 32}

# The kinds of operands, as lgx_rung's OperandKind names them.
BIT, BIT_OR_FLAG, INTEGER, NUMBER = "BoolPlace", "BoolOrFlag", "IntegerPlace", "IntegerOrNumber"
TIMER, COUNTER, TIMER_OR_COUNTER = "WholeTimer", "WholeCounter", "TimerOrCounter"
SOURCE, TARGET, FILLED = "CopySource", "CopyTarget", "FillTarget"
BLANK, ROUTINE, COUNT = "QuestionMark", "RoutineName", "ParameterCount"
LABEL, OWN_LABEL, TASK = "JumpLabel", "OwnLabel", "EventTask"

# The operands that each instruction always has.
OPERANDS: dict[str, tuple[str, ...]] = {
    "XIC": (BIT_OR_FLAG,), "XIO": (BIT_OR_FLAG,),
    "OTE": (BIT,), "OTL": (BIT,), "OTU": (BIT,), "ONS": (BIT,),
    "OSR": (BIT, BIT), "OSF": (BIT, BIT),
    "TON": (TIMER, BLANK, BLANK), "RTO": (TIMER, BLANK, BLANK), "TOF": (TIMER, BLANK, BLANK),
    "CTU": (COUNTER, BLANK, BLANK), "CTD": (COUNTER, BLANK, BLANK), "RES": (TIMER_OR_COUNTER,),
    "EQU": (NUMBER, NUMBER), "NEQ": (NUMBER, NUMBER), "LES": (NUMBER, NUMBER),
    "LEQ": (NUMBER, NUMBER), "GRT": (NUMBER, NUMBER), "GEQ": (NUMBER, NUMBER),
    "LIM": (NUMBER, NUMBER, NUMBER), "MEQ": (NUMBER, NUMBER, NUMBER),
    "ADD": (NUMBER, NUMBER, INTEGER), "SUB": (NUMBER, NUMBER, INTEGER),
    "MUL": (NUMBER, NUMBER, INTEGER), "DIV": (NUMBER, NUMBER, INTEGER),
    "MOD": (NUMBER, NUMBER, INTEGER), "NEG": (NUMBER, INTEGER), "ABS": (NUMBER, INTEGER),
    "MOV": (NUMBER, INTEGER), "AND": (NUMBER, NUMBER, INTEGER), "OR": (NUMBER, NUMBER, INTEGER),
    "XOR": (NUMBER, NUMBER, INTEGER), "NOT": (NUMBER, INTEGER),
    "MVM": (NUMBER, NUMBER, INTEGER), "CLR": (INTEGER,),
    "COP": (SOURCE, TARGET, NUMBER), "CPS": (SOURCE, TARGET, NUMBER),
    "FLL": (NUMBER, FILLED, NUMBER),
    "JSR": (ROUTINE,), "SBR": (), "RET": (), "TND": (), "JMP": (LABEL,), "LBL": (OWN_LABEL,),
    "MCR": (), "AFI": (), "NOP": (), "UID": (), "UIE": (), "EVENT": (TASK,),
}  # fmt: skip

# What newer releases of Studio 5000 call some of them.
NEW_NAMES = {
    "EQ": "EQU", "NE": "NEQ", "LT": "LES", "LE": "LEQ", "GT": "GRT", "GE": "GEQ",
    "LIMIT": "LIM", "MOVE": "MOV",
}  # fmt: skip

FLAGS = ("S:FS", "S:V", "S:Z", "S:N")

TIMER_MEMBERS = {"EN": 31, "TT": 30, "DN": 29}
COUNTER_MEMBERS = {"CU": 31, "CD": 30, "DN": 29, "OV": 28, "UN": 27}

_LOWER = str.maketrans("ABCDEFGHIJKLMNOPQRSTUVWXYZ", "abcdefghijklmnopqrstuvwxyz")
_NAME = re.compile(r"(?:[A-Za-z]|_[A-Za-z0-9])(?:_?[A-Za-z0-9])*\Z")
_PART = re.compile(r"[A-Za-z0-9_]{1,40}\Z")
_WHOLE = re.compile(r"[0-9]{1,10}\Z")


def key(name: str) -> str:
    """The name as it is compared: ASCII case doesn't matter."""
    return name.translate(_LOWER)


def is_name(text: str) -> bool:
    """Whether it is a name; `__` and a `_` at the end are none."""
    return len(text) <= MAX_NAME_BYTES and _NAME.match(text) is not None


def is_tag_name(text: str) -> bool:
    """Whether a controller's tag may have the name: it may have parts with `:` between them."""
    first, *others = text.split(":")
    if not others:
        return is_name(text)
    return (
        len(text) <= MAX_TAG_NAME_BYTES
        and len(others) < MAX_TAG_NAME_PARTS
        and is_name(first)
        and key(first) not in ("s", "program")
        and all(_PART.match(part) for part in others)
    )


def whole(text: str | None) -> int | None:
    """The number that a few decimal digits are."""
    return int(text) if text is not None and _WHOLE.match(text) else None


def operand_kinds(op: str, texts: list[str]) -> tuple[str, ...] | None:
    """What is wanted at each operand of an instruction; none if it has too many or too few."""
    always = OPERANDS[op]
    more = len(texts) - len(always)
    if more < 0:
        return None
    if more == 0:
        return always
    if op in ("SBR", "RET"):
        return (INTEGER if op == "SBR" else NUMBER,) * more if more <= MAX_PARAMETERS else None
    if op != "JSR":
        return None
    handed = more - 1
    count = parameter_count(texts[1])
    if count is None:
        return always + (COUNT,) + (NUMBER,) * handed if handed <= 2 * MAX_PARAMETERS else None
    if handed < count or handed - count > MAX_PARAMETERS:
        return None
    return always + (COUNT,) + (NUMBER,) * count + (INTEGER,) * (handed - count)


def parameter_count(text: str) -> int | None:
    """The number of inputs that a JSR tells, if it may have so many."""
    count = decimal(text)
    return count if count is not None and 0 <= count <= MAX_PARAMETERS else None


_DECIMAL = re.compile(r"(-?)([0-9]+(?:_[0-9]+)*)\Z")
_BASED = re.compile(r"(?:2#([01]+(?:_[01]+)*)|8#([0-7]+(?:_[0-7]+)*)|16#([0-9A-Fa-f]+(?:_[0-9A-Fa-f]+)*))\Z")


def _digits(text: str, base: int) -> int:
    """The number of some digits; one that is far too large stays too large."""
    plain = text.replace("_", "").lstrip("0")
    return int(plain, base) if 0 < len(plain) <= 40 else (1 << 200 if plain else 0)


def decimal(text: str) -> int | None:
    """The number that a decimal operand is, if 32 bits can hold it."""
    found = _DECIMAL.match(text)
    if found is None:
        return None
    number = _digits(found[2], 10) * (-1 if found[1] else 1)
    return number if -(1 << 31) <= number < 1 << 31 else None


def number(text: str) -> int | str | None:
    """The number that an operand is, `outside` if 32 bits can't hold it, none if it is no number."""
    if _DECIMAL.match(text):
        value = decimal(text)
        return "outside" if value is None else value
    found = _BASED.match(text)
    if found is None:
        return None
    base = (2, 8, 16)[found.lastindex - 1]
    bits = _digits(found[found.lastindex], base)
    if bits >= 1 << 32:
        return "outside"
    return bits - (1 << 32) if bits >= 1 << 31 else bits
