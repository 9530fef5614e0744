"""Hundreds of rung texts in one journal: an accept is answered with the text's fault, or with the first instruction's."""

from .cases import file_text, journal_text, judged
from .plain.check import KINDS

TOKENS = (
    "XIC", "(", "a", ")", "[", "]", ",", ";", " ", "NOP()", "XIC(b)", "OTE(b)", "xic", "XI", "\t", "?", "5", "#", ".", "-", "{", "[,", "JSR(M)",
    "LBL(L)", "JMP(L)", "SBR()", "\x80",
)
PIECES = (
    "b", "n", "arr", "cells", "t", "c", "z", "Al", "Bl", "In", "small", "[0]", "[1]", "[3]", "[4]", "[n]", "[small]", "[arr[0]]", "[arr[n]]", "[b]",
    "[n.0]", "[t.ACC]", "[", "]", ".", ".PRE", ".acc", ".DN", ".OV", ".0", ".7", ".31", ".32", ".Ok", ".Count", ".Dwell", ".Deep", "Local:1:I", ":", "_",
    "1", "S:FS", "s:v", "?", "Program:P.own", "own", "M", "Sub", "E", "T", "L",
)
NUMBERS = (
    "0", "1", "-1", "-0", "08", "1_0", "1__0", "_1", "1_", "2147483647", "2147483648", "-2147483648", "-2147483649", "99999999999", "16#ff",
    "16#FFFF_FFFF", "16#1_0000_0000", "2#1010", "2#2", "8#17", "8#8", "-16#1", "10#1", "16#", "#1", "--1", "+1", "1.5", "9", "8",
)
NAMES = ("n", "b", "arr[n]", "arr[2]", "t", "c", "cells[1].Count", "cells[small].Dwell", "cells[0].Deep[n]", "z[3]", "z[n]", "Al", "Bl", "arr", "cells",
         "n.3", "cells[0]", "t.PRE", "c.DN", "own", "Local:1:I", "?", "M", "Sub", "E", "L")
PROJECT = {
    "schema": 1, "controller": "Bench",
    "types": [{"name": "Cell", "members": [{"name": "Ok", "type": "BOOL"}, {"name": "Count", "type": "INT"}, {"name": "Dwell", "type": "TIMER"},
                                           {"name": "Deep", "type": "SINT", "dim": 3}]}],
    "tags": [{"name": "Local:1:I", "type": "DINT"}, {"name": "b", "type": "BOOL"}, {"name": "n", "type": "DINT"}, {"name": "small", "type": "SINT"},
             {"name": "arr", "type": "DINT", "dim": 4}, {"name": "cells", "type": "Cell", "dim": 2}, {"name": "t", "type": "TIMER"},
             {"name": "c", "type": "COUNTER", "dim": 2}, {"name": "z", "type": "BOOL", "dim": 32}, {"name": "Al", "alias": "cells[1].Dwell"},
             {"name": "Bl", "alias": "arr"}],
    "programs": [{"name": "P", "main": "M", "tags": [{"name": "own", "type": "INT"}, {"name": "c", "type": "COUNTER"}],
                  "routines": [{"name": "M", "rungs": ["NOP();"]}, {"name": "Sub", "rungs": ["SBR(n)NOP();"]}]},
                 {"name": "Q", "main": "M", "routines": [{"name": "M", "rungs": []}]}],
    "tasks": [{"name": "T", "kind": "continuous", "programs": ["P"]}, {"name": "E", "kind": "event", "priority": 1, "programs": ["Q"]}],
}
TEXTS = 150


def texts(draw, _):
    lines = []
    for _ in range(TEXTS):
        made = draw.choice((tokens, operand, operand, instruction, instruction, instruction))
        lines += [f"accept P {draw.choice(('M', 'M', 'Sub'))} {draw.choice('rri')} 0 {made(draw)}", "cancel P"]
    return judged("replay"), [file_text(PROJECT), journal_text([*lines, "end"])]


def tokens(draw):
    return "".join(draw.choice(TOKENS) for _ in range(draw.randrange(0, 9)))


def form(draw):
    """Pieces of operands, mostly in an order that means something."""
    if draw.random() < 0.2:
        return draw.choice(NUMBERS)
    return draw.choice(PIECES[:11]) + "".join(draw.choice(PIECES) for _ in range(draw.randrange(0, 4)))


def operand(draw):
    """One operand alone, where a bit, an integer, a number, a timer, a counter or a block is wanted."""
    text = form(draw)
    return draw.choice((f"XIC({text});", f"OTE({text});", f"CLR({text});", f"MOV({text},n);", f"TON({text},?,?);", f"RES({text});",
                        f"COP({text},arr,1);", f"COP(arr,{text},1);", f"FLL(1,{text},1);", f"MOV(1,{text});", f"SBR({text});", f"TON(t,{text},?);",
                        f"JSR({text});", f"JSR(Sub,{text});", f"JSR(Sub,1,{text});", f"JSR(Sub,0,{text});", f"JMP({text});", f"EVENT({text});",
                        f"LBL({text});", f"RET({text});"))


def instruction(draw):
    """Some instructions with right and wrong operands, right and wrong numbers of them."""
    made = []
    for _ in range(draw.randrange(1, 4)):
        op = draw.choice((*KINDS, "JSR", "SBR", "RET"))
        count = len(KINDS[op]) if op in KINDS else draw.randrange(0, 12)
        if draw.random() < 0.1:
            count = max(0, count + draw.choice((-1, 1)))
        operands = [draw.choice((draw.choice(NAMES), draw.choice(NAMES), draw.choice(NUMBERS[:4]), form(draw))) for _ in range(count)]
        if op == "JSR" and count > 1:
            operands[0], operands[1] = draw.choice(("M", "Sub", "Zz")), draw.choice((str(max(0, count - 3)), str(draw.randrange(10))))
        if op in KINDS and "q" in KINDS[op] and draw.random() < 0.9:
            operands[1:] = ["?"] * (count - 1)
        made.append(f"{op}({','.join(operands)})")
    return draw.choice(("", "[", "XIC(b)")) + "".join(made) + draw.choice((";", ";", ";", "];", ""))
