"""What the tools share that run a program where memory is refused: the runs, and the count of what was checked.

It needs a C compiler, `cc`, for the library that refuses (tests/refuse_alloc.c).
"""

import os
import subprocess
from itertools import count

LIBRARY = os.path.join(os.path.dirname(os.path.abspath(__file__)), "refuse_alloc.c")
SECONDS = 60


def lines(text):
    return [line.strip().encode() for line in text.strip().splitlines()]


class Checks:
    """Counts what holds, and prints a line for each check that doesn't."""

    def __init__(self):
        self.passed = 0
        self.failed = 0

    def expect(self, name, holds, told):
        if holds:
            self.passed += 1
        else:
            self.failed += 1
            print(f"{name}: {told!r}")

    def end(self, name):
        """Prints the counts; the status that the tool ends with."""
        print(f"{name}: {self.passed} checks passed, {self.failed} failed")
        return 1 if self.failed else 0


class Refuser:
    """Runs programs before which the library that refuses stands, which it makes in a folder."""

    def __init__(self, folder):
        self.library = os.path.join(folder, "refuse_alloc.so")
        self.told = os.path.join(folder, "refused")
        subprocess.run(["cc", "-O1", "-shared", "-fPIC", "-o", self.library, LIBRARY], check=True)

    def run(self, words, given=b"", refuse=None):
        """One run with that standard input: how it ended, and whether each call was made and refused that `refuse`
        names, as REFUSE does."""
        if os.path.exists(self.told):
            os.remove(self.told)
        environment = {"LD_PRELOAD": self.library, "REFUSE": refuse, "REFUSED": self.told} if refuse else {}
        ran = subprocess.run(words, input=given, capture_output=True, env=environment, timeout=SECONDS)
        return ran, os.path.exists(self.told)


def in_turn(run):
    """All runs that are refused a call for memory, alone or with all after it, and which call: its number, and the way.
    `run` makes the one for what REFUSE is to be, and its `refused` says whether that came to pass."""
    for onward in ("", "+"):
        for call in count(1):
            ran = run(f"{call}{onward}")
            if not ran.refused:
                break
            yield call, onward, ran
