"""What the documents name exists: crates, definitions, functions, files."""

from __future__ import annotations

import glob
import os
import re
import unittest
from importlib.machinery import SourceFileLoader
from importlib.util import module_from_spec, spec_from_loader
from types import ModuleType

from common import TOP, read_text

DOCUMENTS = ["README.md", *sorted(os.path.relpath(path, TOP) for path in glob.glob(f"{TOP}/docs/*.md"))]


def text(name: str) -> str:
    return read_text(f"{TOP}/{name}")


def sources(crate: str) -> str:
    return "".join(text(os.path.relpath(path, TOP)) for path in glob.glob(f"{TOP}/crates/{crate}/src/**/*.rt", recursive=True))


def imported(tool: str) -> ModuleType:
    loader = SourceFileLoader(tool, f"{TOP}/tools/{tool}")
    module = module_from_spec(spec_from_loader(tool, loader))
    loader.exec_module(module)
    return module


def crates() -> set[str]:
    return set(re.findall(r"^(\w+)[^:\n]*:", text("crates.txt"), re.MULTILINE))


class Documents(unittest.TestCase):
    def test_the_map_has_each_crate(self) -> None:
        named = set(re.findall(r"\b(?:spec|lgx|cmd|test|logix)(?:_\w+)?\b", text("docs/MAP.md")))
        self.assertEqual(crates() - named, set())

    def test_rules_stand_where_the_documents_say(self) -> None:
        for name in ("docs/CONTROLLER.md", "docs/FORMATS.md"):
            for stated in re.findall(r"\*[Ss]tated in\* (.*?)(?:\.\n|\)\. )", text(name), re.DOTALL):
                crate = None
                for word in re.findall(r"`(\w+)`", re.sub(r"\([^)]*\)", "", stated)):
                    if word in crates():
                        crate = word
                    elif word[0].isupper():
                        with self.subTest(document=name, crate=crate, definition=word):
                            self.assertTrue(os.path.isfile(f"{TOP}/crates/{crate}/specs/{word}.antt"))

    def test_each_claim_names_a_function(self) -> None:
        for crate, path in re.findall(r"`(\w+)::([\w:]+)`", text("docs/CLAIMS.md")):
            name = path.split("::")[-1]
            with self.subTest(crate=crate, name=name):
                self.assertRegex(sources(crate), rf"\b(?:fn|struct|type) {name}\b")

    def test_each_file_that_is_named_exists(self) -> None:
        for name in DOCUMENTS:
            for path in re.findall(r"(?<![\w/.])((?:docs|tools|examples|crates)/[\w./-]+\w)", text(name)):
                if not re.search(r"NAME|/tests/stored_$|/out/", path):
                    with self.subTest(document=name, path=path):
                        self.assertTrue(os.path.exists(f"{TOP}/{path}"), path)

    def test_the_counts_of_crates_are_those_of_crates_txt(self) -> None:
        above = imported("above")
        page = text("docs/CHANGING.md")
        self.assertEqual(above.written(page, above.above(above.crates())), page)

    def test_the_places_of_an_instruction_are_all_named(self) -> None:
        """What a search for a neighbour finds in the crates and tools stands in the list, but for worked runs."""
        listed = re.search(r"^## An instruction$(.*?)^## ", text("docs/CHANGING.md"), re.MULTILINE | re.DOTALL).group(1)
        for path in (found for part in ("src", "specs", "proofs") for found in glob.glob(f"*/{part}/**/*", root_dir=f"{TOP}/crates", recursive=True)):
            crate, name = path.split("/")[0], os.path.basename(path)
            if name.endswith((".rt", ".antt")) and crate != "test_cases" and re.search(r"\b(?:Clr|Equ|Meq|Mvm)\b", text(f"crates/{path}")):
                with self.subTest(path=path):
                    self.assertIn(f"`{crate}`", listed)
                    self.assertIn(name.removesuffix(".antt"), listed)
        for path in glob.glob("lib/**/*.[jp][sy]", root_dir=f"{TOP}/tools", recursive=True):
            if re.search(r"\b(?:MEQ|MVM)\b", text(f"tools/{path}")):
                with self.subTest(path=path):
                    self.assertIn(os.path.basename(path), listed)

    def test_the_first_page_is_short(self) -> None:
        self.assertLess(len(text("README.md").splitlines()), 120)


if __name__ == "__main__":
    unittest.main()
