# SPDX-License-Identifier: MIT
"""What a rescue has to say of a disc and its files: for people, and for programs."""
from __future__ import annotations

import json
from typing import Dict, Iterator, List

from ..listing import Row
from ..messages import counted
from ..names import spelled_path, type_of
from .reading import Reading
from .unchecked import OTHER_PARENT
from .walk import Found

GRADES = ("sound", "doubtful", "cut", "lost")
WORDS = {"sound": "sound", "doubtful": "doubtful", "cut": "cut off", "lost": "lost"}
MEANING = (
    "sound: the disc's own structures lead to these bytes, and nothing speaks against them. No disc of this kind has a check over",
    "the bytes of its files, so one that was misread within a file goes unnoticed. doubtful: whole, but it may be wrong, as said. cut:",
    "only its beginning is there. lost: nothing of it is. Deleted files, if asked for, are always doubtful.",
)


def in_order(found: List[Found]) -> List[Found]:
    return sorted(found, key=lambda one: one.path)


def counts(reading: Reading) -> Dict[str, int]:
    grades = [one.grade for one in reading.files]
    return {grade: grades.count(grade) for grade in GRADES}


def summary(reading: Reading) -> str:
    """`38 of 40 files sound, 1 doubtful, 1 cut off`."""
    found = counts(reading)
    rest = ["%d %s" % (found[grade], WORDS[grade]) for grade in GRADES[1:] if found[grade]]
    return ", ".join(["%d of %s sound" % (found["sound"], counted(len(reading.files), "file")), *rest])


def kind(found: Found) -> str:
    number = type_of(found.item.load)
    return "%08x-%08x" % (found.item.load, found.item.execution) if number is None else "%03x" % number


def remarks(reading: Reading) -> List[str]:
    """What is to be said of the disc as a whole."""
    disc, walk = reading.disc, reading.walk
    told = ["%s, %d bytes, sectors of %d; %s" % (disc.form, disc.size, disc.sector, reading.how or "read as it is")]
    if disc.told_by:
        told.append("described by %s" % disc.told_by)
    if reading.source.length < disc.size:
        told.append("the image has %d bytes" % reading.source.length)
    if reading.source.gap and reading.source.gap.place < reading.source.length:
        told.append("%d bytes seem to be left out at byte %d" % (reading.source.gap.size, reading.source.gap.place))
    told += reading.space.remarks
    if reading.deleted:
        text = "%s in free space, deleted or left from an older disc (--deleted takes what is in them)"
        told.append(text % counted(reading.deleted, "directory"))
    if reading.older:
        text = "%s of an older %s disc (--as %s --deleted takes what they still lead to)"
        told.append(text % (counted(reading.older.number, "directory"), reading.older.form, reading.older.form))
    if walk.too_many:
        told.append("more objects or directories than such a disc can have: the rest is left out")
    if walk.too_deep:
        told.append("directories that lie too deep are left out")
    return told


def lines(reading: Reading) -> Iterator[str]:
    """The report for people."""
    yield summary(reading)
    yield ""
    yield from ("disc: " + text for text in remarks(reading))
    for found in in_order(reading.walk.directories):
        reasons = reasons_of_directory(found)
        if reasons:
            state = "lost, " if found.listing.is_lost else ""
            yield "directory %s: %s%s" % (spelled_path(found.path), state, "; ".join(reasons))
    for found in in_order(reading.files):
        yield file_line(found)
    yield ""
    yield from MEANING


def reasons_of_directory(found: Found) -> List[str]:
    reasons = [*found.doubts, *([found.listing.fault] if found.listing.fault else [])]
    holder = found.holder or found
    if not found.listing.is_lost and not found.listing.fault and found.listing.parent != holder.item.address:
        reasons.append(OTHER_PARENT)
    return list(dict.fromkeys(reasons))


def file_line(found: Found) -> str:
    got = "-" if found.grade == "lost" else str(found.there)
    line = "%-8s %9s of %9d  %s  %s" % (found.grade, got, found.item.length, kind(found), spelled_path(found.path))
    reasons = reasons_of(found)
    return line + (": " + "; ".join(reasons) if reasons else "")


def reasons_of(found: Found) -> List[str]:
    missing = found.item.length - found.there
    cut = ["%d of %d bytes are missing" % (missing, found.item.length)] if found.grade == "cut" else []
    return cut + found.doubts


def tree(reading: Reading, image: str) -> Row:
    """The report for programs, with the same fields."""
    return {
        "image": image, "format": reading.disc.form, "size": reading.disc.size, "summary": summary(reading),
        "counts": counts(reading), "remarks": remarks(reading),
        "directories": [{
            "path": spelled_path(one.path), "lost": one.listing.is_lost, "reasons": reasons_of_directory(one),
        } for one in in_order(reading.walk.directories)],
        "files": [{
            "path": spelled_path(one.path), "grade": one.grade, "length": one.item.length, "bytes": one.there,
            "load": one.item.load, "exec": one.item.execution, "attributes": one.item.attributes, "deleted": one.is_deleted,
            "reasons": reasons_of(one),
        } for one in in_order(reading.files)],
    }


def text_of(reading: Reading) -> bytes:
    return "".join(line + "\n" for line in lines(reading)).encode("utf-8", "backslashreplace")


def json_of(reading: Reading, image: str) -> bytes:
    return (json.dumps(tree(reading, image), indent=1) + "\n").encode("ascii")
