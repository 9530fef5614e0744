"""What the hammer takes of the other tools, so that their places are named here alone."""

import contextlib
import os
import sys

from lib.paths import TOOLS

HERE = os.path.dirname(os.path.abspath(__file__))
TESTS = f"{TOOLS}/tests"
PROGRAMS = ("logix", "logix_cover", "logix_explore", "logix_laws", "logix_live", "logix_timeline", "logix_wave")


def scenario(words):
    """A call of tools/scenario in this process; its status."""
    from lib.scenario.main import main
    return main(words)


def online():
    """The walks of tools/online, where its tests have them, and how a program is called there."""
    if TESTS not in sys.path:
        sys.path.insert(0, TESTS)
    import online_files
    from lib.programs import Program
    from lib.online import player
    return online_files, Program, player


@contextlib.contextmanager
def patience(seconds):
    """How long tools/online waits for an answer, at least."""
    from lib.online import follower
    usual, follower.PATIENCE = follower.PATIENCE, seconds
    try:
        yield
    finally:
        follower.PATIENCE = usual


def add_ons():
    """The two runs of a made call of Add-On Instructions, where the tests have them."""
    if TESTS not in sys.path:
        sys.path.insert(0, TESTS)
    import test_add_on_cases
    return test_add_on_cases.Both
