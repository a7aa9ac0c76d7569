"""What the tests share: where the tree and its program are, and a tally of what passed and what failed."""
from __future__ import annotations

import pathlib

TOP = pathlib.Path(__file__).resolve().parent.parent
# Where a build leaves the program.
PROGRAM = str(TOP / "crates" / "factoplan" / "out" / "factoplan")


class Tally:
    """Counts what passed and what failed. What failed is told at once."""

    def __init__(self) -> None:
        self.passed = self.failed = 0

    def check(self, what: object, holds: object, seen: object = "") -> bool:
        """Counts a try by whether it holds; where it doesn't, what was seen is told."""
        if holds:
            self.passed += 1
        else:
            self.failed += 1
            print("differs:", what, seen, flush=True)
        return bool(holds)

    def note(self, what: object, fault: object | None) -> bool:
        """Counts a try by what is wrong with it: None where nothing is."""
        return self.check(f"{what}:", fault is None, "" if fault is None else fault)

    def add(self, passed: int, failed: int) -> None:
        """Counts tries that were told of elsewhere."""
        self.passed += passed
        self.failed += failed

    @property
    def tries(self) -> int:
        return self.passed + self.failed

    def end(self) -> int:
        """Prints the last line of a test, and answers its exit status."""
        print(f"{self.passed} passed, {self.failed} failed", flush=True)
        return 1 if self.failed else 0
