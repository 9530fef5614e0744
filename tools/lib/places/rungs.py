"""Refusals of a rung's text and of what stands in it: the T and C codes, with the rung and a mark under what is meant."""

from __future__ import annotations

import re
from collections.abc import Callable
from typing import NamedTuple

from lib.hammer.plain.check import OF_TAG, Checker, Scope, kinds_of
from lib.hammer.plain.rungs import MNEMONICS, read_rung
from lib.hammer.plain.words import FLAGS, is_name, number_of
from lib.neutral import Instruction, elements, instructions
from lib.texts import Said, counted, marked, meant, near, quoted

from .refused import Refused
from .tags import Why, bytewise, described, no_place

TAG_CODES = {f"C{number}" for number in OF_TAG.values()}
# What stands at an operand of each kind of tools/lib/hammer/plain/check.py.
WANTED = {
    "b": "a BOOL or a bit", "f": "a BOOL, a bit or a flag", "i": "an integer tag", "v": "an integer tag or a number", "T": "a TIMER",
    "C": "a COUNTER", "R": "a TIMER or a COUNTER", "k": "a tag that is no BOOL", "s": "a tag that is no BOOL",
    "F": "an integer or an array of integers", "q": "a ?", "n": "a count from 0 to 8", "r": "a routine's name", "l": "a label",
    "L": "a label", "e": "an event task's name",
}  # fmt: skip


def text_fault(rung: str, code: str, place: int) -> Said:
    """A T code; its place counts bytes."""
    contents = rung.encode("utf-8")
    at = len(contents[:place].decode("utf-8", "ignore"))
    return Said(text_why(rung, code, at), marked(rung, at))


def text_why(rung: str, code: str, at: int) -> str:
    letters = re.match(r"[A-Za-z]*", rung[at:]).group()
    if code == "T2":
        return f"{quoted(letters)} is no instruction{meant(letters, MNEMONICS) if near(letters, MNEMONICS) else ''}"
    if code == "T4":
        return "the rung has no ; at its end"
    if code == "T3":
        return "the text ends too early"
    if code == "T5":
        return "this would be the 17th open branch"
    if rung[:at].rstrip().endswith(";"):
        return f"{quoted(rung[at : at + 1])} stands after the rung's ;"
    return f"no rung goes on with {quoted(rung[at : at + 1])} here"


def of_project(refused: Refused) -> Said:
    """P10."""
    code, *places = refused.inner
    if code.startswith("T"):
        return text_fault(str(refused.at(refused.keys)), code, int(places[0]))
    return check_fault(refused, int(refused.keys[1]), refused.at([*refused.keys, "rungs"]), code, int(places[0]), int(places[1]))


def check_fault(refused: Refused, program: int, rungs: list[str], code: str, rung: int, number: int) -> Said:
    """A C code at an instruction of these rungs."""
    one = instructions(elements(rungs[rung]))[number]
    routines = tuple(name.lower() for name in refused.names("programs", str(program), "routines"))
    tasks = [(task["name"], task["kind"] == "event") for task in refused.at(["tasks"])]
    scope = Scope(refused.half.tags, program, routines, tuple((name.lower(), event) for name, event in tasks))
    checker = Checker([read_rung(bytewise(text)) for text in rungs], scope)
    why, at, applies = Fault(refused, code, one, checker, program).told(rungs, rung)
    return Said(why, marked(rungs[rung], at), [], applies)


class Fault(NamedTuple):
    """A check fault of an instruction."""

    refused: Refused
    code: str
    one: Instruction
    checker: Checker
    program: int

    def told(self, rungs: list[str], rung: int) -> tuple[str, int, str]:
        """Why, where in the rung's text, and words of the sentence that applies."""
        if self.code == "C1":
            return self.count(), self.one.at, "of a JSR" if self.one.op == "JSR" else "too many"
        whole: dict[str, Callable[[], str]] = {
            "C13": lambda: f"the label {quoted(self.one.operands[0])} stands earlier, in rung {self.earlier(rungs)}",
            "C14": lambda: "an LBL must be the first of its rung", "C16": lambda: "this is the routine's 65,537th instruction",
            "C17": lambda: "an SBR must be the first of its routine's first rung",
        }  # fmt: skip
        if self.code in whole:
            return whole[self.code](), self.one.at, ""
        for kind, text, at in zip(kinds_of(self.one.op, self.one.operands) or "", self.one.operands, self.one.places):
            if self.checker.operand(kind, bytewise(text)) == int(self.code[1:]):
                why, applies = self.operand(kind, text)
                return why, at, applies
        return "this instruction", self.one.at, ""

    def earlier(self, rungs: list[str]) -> int:
        label = self.one.operands[0].lower()
        for at, text in enumerate(rungs):
            for one in instructions(elements(text)):
                if one.op == "LBL" and one.operands[0].lower() == label:
                    return at
        raise LookupError(label)

    def count(self) -> str:
        given = counted(len(self.one.operands), "operand")
        if self.one.op == "JSR":
            return f"JSR has {given}: a routine, then perhaps a count of inputs, so many inputs, and at most 8 returns"
        wanted = [length for length in range(10) if kinds_of(self.one.op, ["?"] * length) is not None]
        says = "at most 8" if len(wanted) > 1 else str(wanted[0])
        return f"{self.one.op} has {given}; {says} must stand here"

    def operand(self, kind: str, text: str) -> Why:
        """Why this operand has the code."""
        named = {"C11": self.routine, "C12": self.label, "C15": self.task}
        if self.code in named:
            return named[self.code](text), ""
        if self.code == "C10":
            return f"{quoted(text)} is out of range: numbers have 32 bits", ""
        if self.code in TAG_CODES and number_of(text) is None and text not in FLAGS:
            return no_place(self.refused, text, self.program, False)
        why = f"{quoted(text)} is {self.what(kind, text)}; {WANTED.get(kind, 'something else')} must stand here"
        return why, "no name" if kind in "nrlLe" else "wrong type"

    def what(self, kind: str, text: str) -> str:
        if kind in "rlLe":
            return "a name" if is_name(text) else "no name"
        if text == "?":
            return "a ?"
        if text in FLAGS:
            return "a flag"
        if number_of(text) is not None:
            return "a number"
        return described(self.refused, self.refused.half.tags.resolve(self.program, bytewise(text), False))

    def routine(self, text: str) -> str:
        names = self.refused.names("programs", str(self.program), "routines")
        return f"the program has no routine {quoted(text)}{meant(text, names)}"

    def label(self, text: str) -> str:
        return f"the routine has no label {quoted(text)}{meant(text, self.checker.places.keys() - {None})}"

    def task(self, text: str) -> str:
        tasks = self.refused.at(["tasks"])
        kinds = [task["kind"] for task in tasks if task["name"].lower() == text.lower()]
        if kinds:
            return f"the task {quoted(text)} is {kinds[0]}; EVENT names an event task"
        return f"there is no event task {quoted(text)}{meant(text, [task['name'] for task in tasks if task['kind'] == 'event'])}"
