# SPDX-License-Identifier: MIT
"""`.inf` files, as archives for the BBC Micro and the Electron have them: `NAME.inf` tells name, words, length and access of NAME.

Two forms are read: `NAME LOAD EXEC LENGTH ACCESS` and `NAME LOAD EXEC [Locked]`, all numbers hexadecimal. The first is written,
with the name as fcore spells it. The access is a number, or letters of LWR and, after a slash, wr.
"""
from __future__ import annotations

import re
from typing import List, NamedTuple, Optional

from . import names
from .hostfiles import NEW_FILE, disc_attributes, system_attributes
from .program import Entry

ENDING = b".inf"
LONGEST = 1024  # bytes of an .inf file that is read
QUOTED = re.compile(r'\s*(?:"([^"]*)"|(\S+))\s*(.*)', re.DOTALL)
HEX = re.compile(r"[0-9A-Fa-f]{1,8}\Z")
DIRECTORY_PREFIX = re.compile(r"(?:\$|:[0-9]\.\$)\.")
LETTERS = {"R": 1, "W": 2, "L": 4, "E": 0, "D": 0, "r": 0x10, "w": 0x20, "/": 0}


class Inf(NamedTuple):
    """What an .inf file tells of its file. The name is empty if it is the file's."""

    name: bytes
    load: int
    execution: int
    attributes: int


def written(entry: Entry) -> bytes:
    return b"%s %08X %08X %08X %02X\n" % (names.spelled(entry.name).encode("ascii"), entry.load, entry.execution, entry.length,
                                          system_attributes(entry.attributes))


def read_inf(content: bytes) -> Optional[Inf]:
    """What the file tells; None if it isn't of either form."""
    line = content[:LONGEST].decode("latin-1").strip().splitlines()[:1]
    parts = QUOTED.match(line[0]) if line else None
    if not parts:
        return None
    fields = [field for field in parts[3].split() if "=" not in field]
    if len(fields) < 2 or not all(HEX.match(field) for field in fields[:2]):
        return None
    try:
        name = names.plain_bytes(DIRECTORY_PREFIX.sub("", parts[1] if parts[1] is not None else parts[2]).replace(".", "/"))
    except ValueError:
        return None
    load, execution = (word(field) for field in fields[:2])
    return Inf(name, load, execution, access(fields[2:]))


def word(field: str) -> int:
    """Six digits that begin with FF stand for an address of the I/O processor, as DFS cuts it."""
    value = int(field, 16)
    return value | 0xFF000000 if len(field) == 6 and value >> 16 == 0xFF else value


def access(fields: List[str]) -> int:
    """The attributes, from what follows load and exec words: a length and a number, or letters, or `Locked`."""
    if len(fields) > 1 and HEX.match(fields[0]) and HEX.match(fields[1]) and fields[1].upper() != "E":
        return disc_attributes(int(fields[1], 16))
    text = fields[1] if len(fields) > 1 and HEX.match(fields[0]) else fields[0] if fields and not HEX.match(fields[0]) else ""
    if text.lower() in ("locked", "l"):
        return NEW_FILE | 4
    if text and set(text) <= set(LETTERS):
        return sum({LETTERS[letter] for letter in text})
    return NEW_FILE
