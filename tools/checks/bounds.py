#!/usr/bin/env python3
# SPDX-License-Identifier: MIT
"""Sees that contracts, functions and laws stay small: 15 clauses, 7 parameters, 10 parameters of a law.

usage: tools/run checks/bounds [--write] [CRATE...]    with --write, exceptions that are too wide are narrowed, or go; none is added
What is above a bound today stands in bounds.txt, by crate and name, with its number. A number may only fall. Tests are left out. A
law is a field of a record whose name ends in Law or Laws; its parameters are those that have names.
"""
import os
import re
import sys
from typing import Dict, Iterator, List, NamedTuple, Tuple

from tools.checks import exceptions, sources
from tools.files import TOOLS

BOUNDS: Dict[str, int] = {"clauses": 15, "parameters": 7, "law": 10}
TOLD: Dict[str, str] = {"clauses": "clauses", "parameters": "parameters", "law": "parameters of a law"}
EXCEPTIONS = os.path.join(TOOLS, "checks", "bounds.txt")


class Found(NamedTuple):
    key: exceptions.Key
    count: int
    place: str  # file and line


def counted(crate: str) -> Iterator[Found]:
    """The clauses and the parameters of each function, `self` too, and the parameters of each law."""
    for one in sources.functions(crate):
        yield Found(("clauses", crate, one.name), len(one.requires) + len(one.ensures), one.place)
        yield Found(("parameters", crate, one.name), one.parameters, one.place)
    for record in sources.records(crate):
        for name, (kind, place) in record.fields.items() if re.search("Laws?$", record.name) else ():
            yield Found(("law", crate, "%s.%s" % (record.name, name)), named_parameters(kind), place)


def named_parameters(kind: str) -> int:
    """The names in the brackets with which a type begins."""
    count, at = 0, 0
    while True:
        begin = re.compile(r"\s*(?:→\s*)?(?=\()").match(kind, at)
        if not begin:
            return count
        inner, at = sources.enclosed(kind, begin.end())
        names, colon, _ = inner.partition(" : ")
        if not colon or not re.fullmatch(r"[^\s(){}]+(\s+[^\s(){}]+)*", names):
            return count
        count += len(names.split())


def measured(crates: List[str]) -> Dict[exceptions.Key, Found]:
    """The most of each name of a crate, since files are moved oftener than functions get other names."""
    most: Dict[exceptions.Key, Found] = {}
    for crate in crates:
        for found in counted(crate):
            if found.key not in most or found.count > most[found.key].count:
                most[found.key] = found
    return most


def main(words: List[str]) -> bool:
    every = sources.crates()
    crates = [word for word in words if word in every] or every
    found, listed = measured(crates), exceptions.read(EXCEPTIONS)
    above = {key: one for key, one in found.items() if one.count > BOUNDS[key[0]]}
    wrong = [one for key, one in sorted(above.items()) if one.count > listed.get(key, 0)]
    for one in wrong:
        what, crate, name = one.key
        print("%s: %s has %d %s; the most is %d" % (one.place, name, one.count, TOLD[what], listed.get(one.key, BOUNDS[what])))
    wide = [key for key, count in sorted(listed.items()) if key[1] in crates and (key not in above or above[key].count < count)]
    if "--write" in words:
        exceptions.write(EXCEPTIONS, {key: min(count, above[key].count) if key in above else count for key, count in listed.items()
               if key in above or key[1] not in crates})
    for key in wide if "--write" not in words else []:
        print("%s %s: the exception is wider than it need be: tools/run checks/bounds --write" % (key[1], key[2]))
    told = ", ".join("%d above %d %s" % (sum(key[0] == what for key in above), BOUNDS[what], TOLD[what]) for what in BOUNDS)
    print("bounds: %s; %d new, %d too wide" % (told, len(wrong), len(wide)))
    return not wrong and ("--write" in words or not wide)


if __name__ == "__main__":
    sys.exit(0 if main(sys.argv[1:]) else 1)
