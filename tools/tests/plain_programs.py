"""The plain programs, as tools find the built ones; and the projects of the examples."""

import glob
import sys

from common import TESTS, TOP
from lib.programs import Program

PROJECTS = sorted(path for path in glob.glob(f"{TOP}/examples/*/*.json"))
LOGIX = Program((sys.executable, f"{TESTS}/plain_logix.py"), True)
LIVE = Program((sys.executable, f"{TESTS}/plain_live.py"), True)
