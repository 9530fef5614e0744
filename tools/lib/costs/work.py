"""What a process of the gate is at work on, by its command line and the folder that it runs in."""

import enum
import os
import re
from dataclasses import dataclass


class Kind(enum.Enum):
    """The kinds of work, in the order of the table's columns."""

    PROOF = "proof"  # of a library, which is built with it
    CHECK = "check"  # of a program or of tests
    COMPILE = "compile"  # of a program, by either compiler
    SEED = "seed"  # the check that a crate's planted bugs begin with
    EDIT = "edits"  # a planted bug, tried over the seed
    SOUND = "sound"  # the unchanged crate once more over the seed
    WHOLE = "whole"  # a planted bug that is tried from nothing


@dataclass(frozen=True)
class Work:
    crate: str
    kind: Kind


def work_of(words, folder, seeds):
    """What the prover's process of these words in this folder is at work on; None for any other process.

    `seeds` has the folders that a seed was checked into so far: a second check there is the one after the edits."""
    if len(words) < 3 or os.path.basename(words[0]) != "rattle" or "--crate-name" not in words:
        return None
    crate = words[words.index("--crate-name") + 1]
    if words[1] == "build":
        is_library = "-o" in words and words[words.index("-o") + 1].endswith(".rlib")
        return Work(crate, Kind.PROOF if is_library else Kind.COMPILE)
    if words[1] != "check":
        return None
    if not os.path.basename(folder).startswith("rt-edit-"):
        return Work(crate, Kind.CHECK)
    if "--incremental" not in words:
        return Work(crate, Kind.WHOLE)
    over = words[words.index("--incremental") + 1]
    if not over.endswith("/seed"):
        return Work(crate, Kind.EDIT if re.search(r"/\d+$", over) else Kind.WHOLE)
    kind = Kind.SOUND if over in seeds else Kind.SEED
    seeds.add(over)
    return Work(crate, kind)
