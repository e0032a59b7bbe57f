"""What the tests need that run the program."""

import functools
import os
from pathlib import Path

from gannetdivan import ProgramMissing
from gannetdivan.program import find

TOP = Path(__file__).resolve().parents[3]
EXAMPLES = TOP / "examples"


def _lacks_program():
    try:
        find()
    except ProgramMissing as fault:
        # bridges/test names a program, and then it is to be there.
        if os.environ.get("COHERE"):
            raise
        return str(fault)
    return ""


def live(case):
    """Skip the tests of a class where there is no program."""
    for name, test in list(vars(case).items()):
        if name.startswith("test_"):
            setattr(case, name, _skipping(test))
    return case


def _skipping(test):
    @functools.wraps(test)
    def run(self):
        lacks = _lacks_program()
        if lacks:
            self.skipTest(lacks)
        test(self)

    return run
