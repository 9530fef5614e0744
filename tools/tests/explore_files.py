"""What tests of explorations share: the machines of examples/never with their answers, and questions that are refused."""

from __future__ import annotations

from common import TOP, read_bytes

NEVER = f"{TOP}/examples/never"
# Project, script and question, and the line, step and tick of the answer; None where the line never holds.
MACHINES = {
    "interlock": (("interlock.json", "interlock.script.txt", "interlock.never.txt"), (1, 95, 4)),
    "interlock, mended": (("interlock.mended.json", "interlock.script.txt", "interlock.never.txt"), None),
    "exchange": (("exchange.json", "exchange.script.txt", "exchange.never.txt"), (1, 46, 2)),
    "exchange, half mended": (("exchange.half.json", "exchange.script.txt", "exchange.never.txt"), (1, 47, 2)),
    "exchange, mended": (("exchange.mended.json", "exchange.script.txt", "exchange.never.txt"), None),
    "edit": (("edit.json", "edit.script.txt", "edit.never.txt"), (1, 72, 3)),
    "edit, mended": (("edit.json", "edit.mended.script.txt", "edit.never.txt"), None),
}
# What is true in the middle of a scan of a sound machine, and never at its end.
TRANSIENT, TRANSIENT_SHOWN = b"never Motor = 1 and Guard = 0\nend\n", (1, 66, 3)

# Questions about the edit's project, and their first line that is refused with its first cause.
ASKS = "never Motor = 1"
REFUSED = (
    ("", "Q1 line 1"), (f"{ASKS}\n", "Q1 line 2"), (f"{ASKS}", "Q1 line 2"), (f"{ASKS}\nend ed\n", "Q1 line 2"), ("x\nend\n", "Q1 line 1"), (f"# x\n\n{ASKS}\nx\nend\n", "Q1 line 4"), (" \nend\n", "Q1 line 1"),
    ("never\nend\n", "Q1 line 1"), ("never Motor\nend\n", "Q1 line 1"), ("never Motor =\nend\n", "Q1 line 1"), ("never Motor == 1\nend\n", "Q1 line 1"), ("never Motor=1\nend\n", "Q1 line 1"),
    (f"{ASKS} and\nend\n", "Q1 line 1"), (f"{ASKS} or Guard = 1\nend\n", "Q1 line 1"), (f"{ASKS} at\nend\n", "Q1 line 1"), (f"{ASKS} at Main Main\nend\n", "Q1 line 1"),
    (f"{ASKS} at Main and Guard = 1\nend\n", "Q1 line 1"), ("NEVER Motor = 1\nend\n", "Q1 line 1"), ("always Motor = 1\nend\n", "Q1 line 1"), ("never Motor\t= 1\nend\n", "Q1 line 1"),
    ("never Motor = 2147483648\nend\n", "Q1 line 1"), ("never Motor = -2147483649\nend\n", "Q1 line 1"), ("never Motor = 1x\nend\n", "Q1 line 1"), ("never Motor = 00000000001\nend\n", "Q1 line 1"),
    ("never Motor = 16#1\nend\n", "Q1 line 1"), ("never Motor = -\nend\n", "Q1 line 1"),
    ("within\nend\n", "Q1 line 1"), ("within -1\nend\n", "Q1 line 1"), ("within 4294967296\nend\n", "Q1 line 1"), ("within 1 2\nend\n", "Q1 line 1"), ("within two\nend\n", "Q1 line 1"),
    (f"{ASKS}{' ' * 65_522}\nend\n", "Q1 line 1"), (f"{ASKS}\n{' ' * 65_534}end\n", "Q1 line 2"),
    ("never Moter = 1\nend\n", "Q2 line 1"), ("never Motor = Moter\nend\n", "Q2 line 1"), ("never In = 1\nend\n", "Q2 line 1"), (f"{ASKS} and 1 = 1\nend\n", "Q2 line 1"), ("never Moter = 1 at Mane\nend\n", "Q2 line 1"),
    ("never Moter = 1x\nend\n", "Q1 line 1"), (f"never Moter = 1 and {' and '.join(['Motor = 1'] * 16)}\nend\n", "Q2 line 1"), (f"{ASKS}\nnever Moter = 1\nx\nend\n", "Q2 line 2"),
    (f"{ASKS} at Mane\nend\n", "Q3 line 1"), (f"{ASKS} at Go\nend\n", "Q3 line 1"), (f"never {' and '.join(['Motor = 1'] * 17)} at Mane\nend\n", "Q3 line 1"),
    ("end\n", "Q4 line 1"), ("within 2\nend\n", "Q4 line 2"), ("within 2\nwithin 2\nend\n", "Q4 line 2"), (f"{ASKS}\nwithin 2\nend\n", "Q4 line 2"), (f"{ASKS}\n" * 65 + "end\n", "Q4 line 65"),
    (f"never {' and '.join(['Motor = 1'] * 17)}\nend\n", "Q4 line 1"), (f"never {' and '.join(['Motor = 1'] * 17)} at Main\nend\n", "Q4 line 1"),
)
# These are taken: the number of lines of each.
TAKEN = (
    (f"{ASKS}\nend\n", 1), (f"{ASKS}\nend", 1), (f"{ASKS}\r\nend\r\nx\n", 1), (f"  never   motor   =   1   and GUARD <> guardopen   at   MAIN  \n end \n", 1), ("never Motor = -0\nend\n", 1), ("never Motor = 0000000001\nend\n", 1),
    ("never Motor >= -2147483648 and Motor <= 2147483647\nend\n", 1), (f"within 4294967295\n{ASKS}\nend\n", 1), (f"# x\n\nwithin 0\n# y\n{ASKS}\n{ASKS}\nend\nend\n", 2), (f"{ASKS}\n" * 64 + "end\n", 64),
    (f"never {' and '.join(['Motor = 1'] * 16)}\nend\n", 1), (f"{ASKS}{' ' * 65_521}\nend\n", 1), (f"{ASKS}\n{' ' * 65_533}end\n", 1),
)


def machine(name: str) -> list[bytes]:
    """The contents of a machine's project, script and question."""
    return [read_bytes(f"{NEVER}/{file}") for file in MACHINES[name][0]]


def head(answer: tuple[int, int, int]) -> str:
    """The first line of an answer with a journal."""
    return "# line {} after step {}, tick {}".format(*answer)
