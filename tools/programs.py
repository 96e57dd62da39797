"""The programs that a test runs: those that ./build and `rt ci` leave, or with the word --unproved those that tools/try has compiled.

The latter are the same sources with checks, whose allocator is another one: what they take of time and memory says nothing of the
proved programs.
"""
import sys
from pathlib import Path

TOP = Path(__file__).resolve().parent.parent
UNPROVED = "--unproved"
WORDS = [it for it in sys.argv[1:] if it != UNPROVED]
IS_UNPROVED = UNPROVED in sys.argv[1:]


def built(name):
    """The file of a program."""
    folder = TOP / "crates" / name / "out"
    return folder / "checked" / name if IS_UNPROVED else folder / name
