# SPDX-License-Identifier: MIT
"""What stands in the sources: functions with their clauses and parameters, records with their fields."""
import functools
import os
import re
from typing import Dict, Iterator, List, NamedTuple, Tuple

from tools.files import TOP

FUNCTION = re.compile(r"^[ \t]*(?:pub(?:\([a-z]+\))? )?(?:const )?fn (\w+)", re.MULTILINE)
CLAUSE = re.compile(r"^[ \t]*(requires|ensures) (\w*)", re.MULTILINE)
RECORD = re.compile(r"^(?:pub )?record (?:pub )?([\w']+)(.*?)\bwhere\n((?:[ \t][^\n]*\n|\n)*)", re.MULTILINE | re.DOTALL)
FIELD = re.compile(r"^  (?:pub )?([\w']+) : (.*\n(?:    .*\n|\n)*)", re.MULTILINE)


class Function(NamedTuple):
    name: str
    place: str  # file and line
    parameters: int
    requires: List[str]
    ensures: List[str]  # a clause without a name is ''


class Record(NamedTuple):
    name: str
    place: str
    fields: Dict[str, Tuple[str, str]]  # type and place of each


def crates() -> List[str]:
    return sorted(os.listdir(os.path.join(TOP, "crates")))


def files(crate: str, folder: str, ending: str) -> Iterator[Tuple[str, str]]:
    """Each file with its text, but for tests."""
    for place, folders, names in os.walk(os.path.join(TOP, "crates", crate, folder)):
        folders[:] = sorted(one for one in folders if one != "out")
        for name in sorted(names):
            if name.endswith(ending) and "test" not in name:
                path = os.path.join(place, name)
                with open(path) as file:
                    yield os.path.relpath(path, TOP), file.read()


def line_at(text: str, at: int) -> int:
    return text.count("\n", 0, at) + 1


def enclosed(text: str, at: int) -> Tuple[str, int]:
    """What stands between the bracket at a place and its partner, and the place after that."""
    depth = 0
    for end in range(at, len(text)):
        depth += {"(": 1, ")": -1}.get(text[end], 0)
        if depth == 0:
            return text[at + 1:end], end + 1
    return text[at + 1:], len(text)


def parts(text: str) -> List[str]:
    """What commas separate that stand in no bracket of any kind."""
    found, depth = [""], 0
    for letter in text.replace("->", "  "):
        depth += {"(": 1, "<": 1, "[": 1, ")": -1, ">": -1, "]": -1}.get(letter, 0)
        if letter == "," and depth == 0:
            found.append("")
        else:
            found[-1] += letter
    return [one for one in found if one.strip()]


def head_after(text: str, at: int) -> str:
    """What stands between a function's parameters and its body."""
    line = text[at:text.index("\n", at)]
    if "{" in line or line.endswith(";"):  # a function without clauses
        return line
    return re.split(r"^[ \t]*\{\}?[ \t]*$|;[ \t]*$", text[at:], maxsplit=1, flags=re.MULTILINE)[0]


@functools.lru_cache(maxsize=None)
def functions(crate: str) -> List[Function]:
    found = []
    for path, text in files(crate, "src", ".rt"):
        for match in FUNCTION.finditer(text):
            inner, after = enclosed(text, text.index("(", match.end()))
            clauses = CLAUSE.findall(head_after(text, after))
            found.append(Function(match[1], "%s:%d" % (path, line_at(text, match.start())), len(parts(inner)),
                                  [name for word, name in clauses if word == "requires"],
                                  [name for word, name in clauses if word == "ensures"]))
    return found


@functools.lru_cache(maxsize=None)
def records(crate: str) -> List[Record]:
    found = []
    for path, text in files(crate, "specs", ".antt"):
        for match in RECORD.finditer(text):
            fields = {field[1]: (field[2], "%s:%d" % (path, line_at(text, match.start(3) + field.start())))
                      for field in FIELD.finditer(match[3])}
            found.append(Record(match[1], "%s:%d" % (path, line_at(text, match.start())), fields))
    return found
