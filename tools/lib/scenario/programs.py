"""The proved programs of a scenario: those that are built or installed, or in a folder that is named."""

from __future__ import annotations

import os
import subprocess

from lib.programs import IS_PACKAGED, asking, place

WHAT_TO_DO = "run tools/prove, which proves and builds it, or name a folder that has it: --programs FOLDER"


class Missing(Exception):
    """A program that isn't there, or isn't the proved one of these sources; what to do."""


class Programs:
    """The programs by name. Those of the repository are proved if their sources have the sum that they were built from: that is found
    out beside the run, and awaited by `sure`."""

    def __init__(self, folder: str | None = None) -> None:
        self.folder = folder
        self.checks: dict[str, subprocess.Popen] = {}

    def path(self, name: str) -> str:
        path = place(name) if self.folder is None else os.path.join(self.folder, name)
        if not os.access(path, os.X_OK) or os.path.isdir(path):
            raise Missing(f"there is no program {name} at {path}: {WHAT_TO_DO}")
        if self.folder is None and not IS_PACKAGED and name not in self.checks:
            self.checks[name] = asking(name)
        return path

    def sure(self) -> None:
        """Waits until each program that was asked for is known to be the proved one."""
        for name, check in self.checks.items():
            if check.wait() != 0:
                raise Missing(f"{name} isn't proved and built from the sources as they are: {WHAT_TO_DO}")

    def close(self) -> None:
        for check in self.checks.values():
            check.kill()
            check.wait()
