"""The refusal of a project, from its line and the file: names and place, what is wrong there, and the sentences of its codes."""

from __future__ import annotations

import re

from lib.texts import marked

from . import naming, rungs, shape, tags
from .codes import sentences
from .json_text import NoJson, decoded, line_of, read
from .refused import refused_of

CODE = re.compile(r"[A-Z]\d{1,2}")
SAID = {
    "P2": shape.missing, "P3": shape.unknown_key, "P4": shape.other_kind, "P5": naming.wrong_value, "P6": naming.same_name,
    "P7": naming.not_once, "P8": naming.second_continuous, "P9": tags.declaration, "P10": rungs.of_project, "P11": shape.long_list,
}  # fmt: skip


def told(name: str, contents: bytes, words: list[str]) -> list[str]:
    """What is said of the refusal `CODE PATH ..` of the file of this name."""
    code, rest = words[0], words[1:]
    if code == "P1":
        return no_json(name, contents)
    keys = rest.pop(0).split(".") if rest and not CODE.fullmatch(rest[0]) else []
    try:
        refused = refused_of(contents, keys, rest)
    except NoJson:
        return [f"{name}: the file isn't JSON: it has changed since", *sentences(code)]
    if refused.judged.split()[1:] != words:
        return [f"{name}: the file isn't refused so: it has changed since, or is another", *codes_said([code, *rest])]
    said = SAID[code](refused)
    # Of a check fault the place is that of its rung.
    rung = rest[1:2] if code == "P10" and rest[0].startswith("C") else []
    where = ", ".join([*filter(None, [refused.where()]), *(f"rung {number}" for number in rung)])
    row = said.row or refused.line([*keys, "rungs", *rung] if rung else keys)
    head = f"{name}, line {row}: " + (f"{where}: " if where else "")
    return [head + said.why, *said.lines()[1:], *codes_said([code, *rest], said.applies)]


def codes_said(codes: list[str], applies: str = "") -> list[str]:
    """The sentences of the codes; of P9 and P10 that of the code after it, which says why."""
    known = [code for code in codes if CODE.fullmatch(code)]
    return [sentence for code in known[-1:] for sentence in sentences(code, applies)]


def no_json(name: str, contents: bytes) -> list[str]:
    """P1."""
    try:
        text = decoded(contents)
    except NoJson as fault:
        text, said = contents.decode("utf-8", "replace"), fault
    else:
        try:
            read(text)
            return [f"{name}: the file is JSON: it has changed since, or is another", *sentences("P1")]
        except NoJson as fault:
            said = fault
    row, column, quote = line_of(text, said.at)
    head = f"{name}, line {row}, column {column}: {said.why}"
    return [head, *marked(quote.expandtabs(1), column - 1), *sentences("P1", said.applies)]
