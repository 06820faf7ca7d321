# SPDX-License-Identifier: MIT
"""What two discs have that is different; or a disc and a folder as `extract` makes it."""
from __future__ import annotations

import os
from argparse import Namespace
from typing import Dict, Iterator, List, NamedTuple, Tuple

from . import names
from .adding import SETTABLE
from .archives import archive_items
from .catalogue import disc_in
from .collection import Found
from .contents import digest_of
from .hostfiles import NEW_DIRECTORY, NEW_FILE
from .hostitems import Failures, Item, Wishes, is_archive, items_of
from .messages import FAILED, counted, reason, say, shown
from .program import Path, find_program
from .unread import digests

AS_THEY_ARE = Wishes(name_help="")


class Side(NamedTuple):
    """An object of one of the two: its path as it is spelled, and what can differ."""

    path: str
    is_directory: bool
    digest: str
    load: int
    execution: int
    attributes: int


def diff(words: Namespace) -> int:
    fail = Failures(words.verbose, "not compared")
    program = find_program()
    first, second = (side_of(program, place, words.order, fail) for place in (words.first, words.second))
    fail.sum_up()
    alone = {words.first: 0, words.second: 0}
    differing = 0
    for key in sorted({**first, **second}):
        one, other = first.get(key), second.get(key)
        if one and other:
            texts = list(differences(one, other))
            differing += bool(texts)
            if texts:
                say("%s: other %s" % (one.path, ", ".join(texts)))
            continue
        there = one or other
        assert there
        place = words.first if one else words.second
        alone[place] += 1
        say("only in %s: %s%s" % (shown(place), there.path, " (directory)" if there.is_directory else ""))
    is_different = differing > 0 or any(alone.values())
    if is_different:
        say("; ".join(["%s differ%s" % (counted(differing, "object"), "s" * (differing == 1))]
                      + ["%d only in %s" % (count, shown(place)) for place, count in alone.items() if count]))
    return FAILED if is_different or fail.count else 0


def differences(one: Side, other: Side) -> Iterator[str]:
    if one.is_directory != other.is_directory:
        yield "kind of object"
        return
    if one.digest != other.digest:
        yield "bytes"
    if names.type_of(one.load) != names.type_of(other.load):
        yield "type"
    elif (one.load, one.execution) != (other.load, other.execution):
        yield "date" if names.has_type(one.load) else "words"
    if one.attributes != other.attributes:
        yield "access"


def side_of(program: str, place: str, order: str, fail: Failures) -> Dict[Path, Side]:
    """The objects of an image, a folder or a zip archive, by their folded paths. Of access only what fcore can set counts."""
    if os.path.isdir(place):
        return host_side(items_of(place, (), fail, AS_THEY_ARE), fail)
    if is_archive(place):
        return host_side(archive_items(place, (), fail, AS_THEY_ARE), fail)
    tree = disc_in(program, Found(place, True), order)
    assert tree
    with tree.image.file:
        sums = digests(program, tree.image, tree.files())
        return {folded(entry.path): Side(names.spelled_path(entry.path), entry.is_directory, sums.get(entry.path, ""), entry.load,
                                         entry.execution, entry.attributes & SETTABLE) for entry in tree.walk()}


def folded(path: Path) -> Path:
    return tuple(map(names.folded, path))


def host_side(items: List[Item], fail: Failures) -> Dict[Path, Side]:
    found: Dict[Path, Side] = {}
    for item in items:
        path = names.spelled_path(item.path)
        if item.is_directory:
            kept = item.source.kept()
            words: Tuple[int, int, int] = (kept.load, kept.execution, kept.attributes) if kept else (0, 0, NEW_DIRECTORY)
            found[folded(item.path)] = Side(path, True, "", words[0], words[1], words[2] & SETTABLE)
            continue
        try:
            file = item.source.read()
            digest = digest_of(file.content)
        except (OSError, ValueError) as error:
            fail.refuse(item.place, reason(error) if isinstance(error, OSError) else str(error))
            continue
        load, execution = file.words(item.named)
        attributes = file.kept.attributes if file.kept else NEW_FILE
        found[folded(item.path)] = Side(path, False, digest, load, execution, attributes & SETTABLE)
    return found
