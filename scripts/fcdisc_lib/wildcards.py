# SPDX-License-Identifier: MIT
"""Paths with wildcards: `*` stands for any letters of a name, and `#` for one, as in RISC OS. %2A and %23 are letters."""
from __future__ import annotations

import re
from typing import Dict, List, Pattern, Sequence, Set

from . import names
from .images import Image
from .messages import WRONG_WORDS, Trouble, shown
from .program import Entry, Path, Refused, batches

WILD = re.compile(r"([*#])")
MEANINGS = {"*": ".*", "#": "."}


def is_wild(text: str) -> bool:
    return WILD.search(text) is not None


def matcher(part: str) -> Pattern[str]:
    """What matches the names that are meant, in the case that `folded` gives and the letters of Latin 1."""
    if not part:
        raise ValueError(names.NO_NAME)
    pieces = [MEANINGS.get(piece) or re.escape(comparable(names.plain_bytes(piece))) for piece in WILD.split(part) if piece]
    return re.compile("".join(pieces), re.DOTALL)


def comparable(name: bytes) -> str:
    return names.folded(name).decode("latin-1")


def matches(pattern: Pattern[str], name: bytes) -> bool:
    return pattern.fullmatch(comparable(name)) is not None


def matchers(text: str) -> List[Pattern[str]]:
    """One for each name of a path."""
    parts = names.host_text(text).split(".")
    if parts[0] == "$":
        del parts[0]
    try:
        return [matcher(part) for part in parts]
    except ValueError as error:
        raise Trouble("%s: %s" % (shown(text), error), WRONG_WORDS) from None


def found_objects(program: str, image: Image, texts: Sequence[str]) -> List[Entry]:
    """The objects that the paths mean, each once. fcore runs once for each level of the paths. Trouble if a path means none."""
    listed: Dict[Path, List[Entry]] = {}
    found: Dict[Path, Entry] = {}
    for text in texts:
        here = objects_of(program, image, matchers(text), listed)
        if not here:
            raise Trouble("%s: %s: there is no such object on the disc" % (shown(image.path), shown(text)))
        for entry in here:
            found.setdefault(entry.path, entry)
    return list(found.values())


def objects_of(program: str, image: Image, parts: List[Pattern[str]], listed: Dict[Path, List[Entry]]) -> List[Entry]:
    holders: Set[Path] = {()}
    here: List[Entry] = []
    for part in parts:
        read_directories(program, image, [path for path in sorted(holders) if path not in listed], listed)
        here = [entry for path in sorted(holders) for entry in listed[path] if matches(part, entry.name)]
        holders = {entry.path for entry in here if entry.is_directory}
    return here


def read_directories(program: str, image: Image, paths: List[Path], listed: Dict[Path, List[Entry]]) -> None:
    stand_ins = [Entry(path, 8, 0, 0, 0) for path in paths]
    for script, batch in batches("cat", stand_ins):
        with image.run(program, script) as run:
            for entry in batch:
                try:
                    listed[entry.path] = run.cat(entry.path)
                except Refused:  # it was listed
                    raise run.changed() from None
