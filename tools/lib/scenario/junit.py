"""What came of a suite in the form that build servers read (JUnit): a suite for each scenario, a case for each requirement.

What is noted of a requirement that holds, as that it never came to that, is its case's system-out; how many held is the suite's.
"""

from __future__ import annotations

import re
import xml.etree.ElementTree as tree

# What XML can't have, even escaped.
OUTSIDE = re.compile("[^\t\n\r\u0020-\ud7ff\ue000-\ufffd\U00010000-\U0010ffff]")


def text(outcomes) -> bytes:
    every = [case for one in outcomes for case in one.cases]
    root = tree.Element("testsuites", name="scenarios", tests=str(len(every)), failures=str(sum(not case.holds for case in every)))
    for one in outcomes:
        failures = sum(not case.holds for case in one.cases)
        suite = tree.SubElement(
            root, "testsuite", name=plain(one.path), tests=str(len(one.cases)), failures=str(failures), time=f"{one.seconds:.3f}"
        )  # fmt: skip
        for case in one.cases:
            add_case(suite, plain(one.path), case)
        add_out(suite, one.tally)
    tree.indent(root)
    return b'<?xml version="1.0" encoding="utf-8"?>\n' + tree.tostring(root, encoding="utf-8") + b"\n"


def add_case(suite: tree.Element, name: str, case) -> None:
    made = tree.SubElement(suite, "testcase", classname=name, name=plain(case.text))
    if not case.holds:
        failure = tree.SubElement(made, "failure", message=plain(case.why[0] if case.why else "it fell short"))
        failure.text = plain("\n".join(case.why))
    add_out(made, case.note)


def add_out(to: tree.Element, told: str) -> None:
    if told:
        tree.SubElement(to, "system-out").text = plain(told)


def plain(told: str) -> str:
    return OUTSIDE.sub("?", told)
