#!/usr/bin/env python3
# SPDX-License-Identifier: MIT
"""Sees that each line of crates.txt names just the crates that the crate's text names, that lower crates come first, and that few paths
lead down from the libraries.

usage: tools/run checks/dependencies

`rt ci` of some kits reads a library's files along every path of crates.txt, twice, in one thread: 10,000 files take some 0.4 s. A crate too many
in the middle of the layers doubles them.
"""
import os
import re
import sys
from typing import Dict, List, Set

from tools.files import TOP

MOST = 8_000_000  # files that are read along all paths: ten minutes, twice
PARTS = ("src", "specs", "proofs")


def lines() -> Dict[str, List[str]]:
    """What each crate uses, in the order of crates.txt."""
    with open(os.path.join(TOP, "crates.txt")) as file:
        found = re.findall(r"^(\w+):(.*)$", file.read(), re.MULTILINE)
    return {name: used.split() for name, used in found}


def texts(crate: str) -> List[str]:
    """The paths of a crate's sources and proofs."""
    found = []
    for part in PARTS:
        for place, _, names in os.walk(os.path.join(TOP, "crates", crate, part)):
            found += [os.path.join(place, name) for name in names]
    return found


def named(crate: str) -> Set[str]:
    """The crates and libraries that a crate's text names, comments left out."""
    found: Set[str] = set()
    for path in texts(crate):
        with open(path) as file:
            text = re.sub(r"//.*" if path.endswith(".rt") else r"--.*", "", file.read())
        found.update(re.findall(r"\bRattle\.(\w+)", text))
        if path.endswith(".rt"):
            found.update(re.findall(r"(?<![\w:])(\w+)::", text))
            found.update(re.findall(r"\buse (\w+)\b", text))
    return found


def differences(used: Dict[str, List[str]]) -> List[str]:
    """What is wrong with the lines themselves."""
    wrong, above = [], set(used)
    for crate, below in used.items():
        above.discard(crate)
        words = named(crate)
        wrong += ["%s: its text names no %s" % (crate, one) for one in below if one not in words]
        wrong += ["%s: its text names %s, its line doesn't" % (crate, one) for one in sorted(words & set(used)) if one not in (*below, crate)]
        wrong += ["%s: %s comes later" % (crate, one) for one in below if one in above]
    return wrong


def read_files(used: Dict[str, List[str]]) -> int:
    """The files that are read for the sums of all libraries, along every path."""
    along: Dict[str, int] = {}
    for crate, below in used.items():
        along[crate] = len(texts(crate)) + sum(along.get(one, 0) for one in below)
    return sum(count for crate, count in along.items() if not os.path.exists(os.path.join(TOP, "crates", crate, "src", "main.rt")))


def main() -> bool:
    used = lines()
    wrong, count = differences(used), read_files(used)
    for line in wrong:
        print(line)
    if count > MOST:
        print("too many paths: join crates, or cut a line")
    print("dependencies: %d crates, %d files along all paths, at most %d; %d lines to mend" % (len(used), count, MOST, len(wrong)))
    return not wrong and count <= MOST


if __name__ == "__main__":
    if len(sys.argv) > 1:
        sys.exit(__doc__)
    sys.exit(0 if main() else 1)
