"""How Studio 5000 draws each instruction: as a contact, a coil, or a box with a row for each operand."""

CONTACTS = {"XIC": "", "XIO": "/", "ONS": "ONS"}
COILS = {"OTE": "", "OTL": "L", "OTU": "U", **{op: op for op in "RES JMP AFI NOP TND MCR UID UIE LBL".split()}}

TITLES = {
    "TON": "Timer On Delay", "TOF": "Timer Off Delay", "RTO": "Retentive Timer On", "CTU": "Count Up", "CTD": "Count Down", "EQU": "Equal",
    "NEQ": "Not Equal", "LES": "Less Than", "LEQ": "Less Than or Eql", "GRT": "Greater Than", "GEQ": "Grtr Than or Eql", "LIM": "Limit Test",
    "MEQ": "Masked Equal", "ADD": "Add", "SUB": "Subtract", "MUL": "Multiply", "DIV": "Divide", "MOD": "Modulo", "NEG": "Negate",
    "ABS": "Absolute Value", "MOV": "Move", "AND": "Bitwise And", "OR": "Bitwise Or", "XOR": "Bitwise Exclusive Or", "NOT": "Bitwise Not",
    "MVM": "Masked Move", "CLR": "Clear", "COP": "Copy File", "CPS": "Synchronous Copy File", "FLL": "Fill File", "JSR": "Jump To Subroutine",
    "SBR": "Subroutine", "RET": "Return", "OSR": "One Shot Rising", "OSF": "One Shot Falling", "EVENT": "Trigger Event Task",
}

_TIMER, _COUNTER = ("Timer", "Preset", "Accum"), ("Counter", "Preset", "Accum")
_TWO, _THREE, _MOVED, _COPIED = ("Source A", "Source B"), ("Source A", "Source B", "Dest"), ("Source", "Dest"), ("Source", "Dest", "Length")
_LABELS = {
    **dict.fromkeys(("TON", "TOF", "RTO"), _TIMER), **dict.fromkeys(("CTU", "CTD"), _COUNTER),
    **dict.fromkeys("EQU NEQ LES LEQ GRT GEQ".split(), _TWO), **dict.fromkeys("ADD SUB MUL DIV MOD AND OR XOR".split(), _THREE),
    **dict.fromkeys("NEG ABS MOV NOT".split(), _MOVED), **dict.fromkeys("COP CPS FLL".split(), _COPIED),
    **dict.fromkeys(("OSR", "OSF"), ("Storage Bit", "Output Bit")), "LIM": ("Low Limit", "Test", "High Limit"),
    "MEQ": ("Source", "Mask", "Compare"), "MVM": ("Source", "Mask", "Dest"), "CLR": ("Dest",), "EVENT": ("Task",),
}

# The bits of a timer or counter that stand as coils beside its box.
DONE = {**dict.fromkeys(("TON", "TOF", "RTO"), ("EN", "TT", "DN")), "CTU": ("CU", "DN"), "CTD": ("CD", "DN")}

# What stands on the left: conditions, and what begins a rung. All else is drawn at the right rail.
INPUTS = frozenset("XIC XIO ONS EQU NEQ LES LEQ GRT GEQ LIM MEQ AFI LBL SBR".split())


def labels(op, operands):
    """The label of each operand's row in a box."""
    if op in ("SBR", "RET"):
        return ["Input Par" if op == "SBR" else "Return Par"] * len(operands)
    if op == "JSR":
        count = int(operands[1]) if len(operands) > 1 and operands[1].isdigit() else 0
        told = ["Routine", "Inputs", *["Input Par"] * count]
        return told[:len(operands)] + ["Return Par"] * (len(operands) - len(told))
    told = _LABELS.get(op, ())
    return [told[at] if at < len(told) else "" for at in range(len(operands))]
