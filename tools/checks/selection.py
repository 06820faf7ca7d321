# SPDX-License-Identifier: MIT
"""Which cases are to run, and what came of them."""
import fnmatch
import sys
from typing import List, Sequence


class Selection:
    """Patterns of the form SUITE or SUITE/CASE, as of a shell; none stands for all. If `lists` is set, cases are named and not run."""

    def __init__(self, patterns: Sequence[str] = (), lists: bool = False) -> None:
        self.patterns, self.lists = list(patterns), lists

    def has_suite(self, suite: str) -> bool:
        return not self.patterns or any(fnmatch.fnmatchcase(suite, one.split("/")[0]) for one in self.patterns)

    def has_case(self, suite: str, case: str) -> bool:
        return not self.patterns or any(
            fnmatch.fnmatchcase(suite, one.split("/")[0]) and fnmatch.fnmatchcase(case, one.partition("/")[2] or "*")
            for one in self.patterns)


class Suite:
    """The cases of a suite that are wanted, and how many passed and failed."""

    def __init__(self, name: str, selection: Selection) -> None:
        self.name, self.selection, self.passed, self.failed, self.left_out = name, selection, 0, 0, 0

    def wants(self, case: str) -> bool:
        """Whether a case is to run now. A listing names it in place of that."""
        wanted = self.selection.has_case(self.name, case)
        if wanted and self.selection.lists:
            print("%s/%s" % (self.name, case))
        return wanted and not self.selection.lists

    def note(self, case: str, differences: Sequence[str] = ()) -> None:
        """What came of a case: nothing differed, or these lines say what did."""
        if differences:
            self.failed += 1
            print("\n  ".join(["%s/%s:" % (self.name, case), *differences]))
        else:
            self.passed += 1
        sys.stdout.flush()

    def leave_out(self, case: str, why: str) -> None:
        self.left_out += 1
        print("%s/%s: left out, %s" % (self.name, case, why))

    def told(self) -> str:
        rest = ", %d left out" % self.left_out if self.left_out else ""
        return "%s: %d passed, %d failed%s" % (self.name, self.passed, self.failed, rest)


def shortened(text: str, most: int = 500) -> List[str]:
    """The lines of a text that may be long."""
    return (text if len(text) <= most else text[:most] + " ..").splitlines()
