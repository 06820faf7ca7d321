# SPDX-License-Identifier: MIT
"""Why an image isn't accepted, in words: by fcore's line, and by what the file turns out to be."""
from __future__ import annotations

from typing import BinaryIO, Optional

from .description import BLOCK, BOOT_BLOCK, boot_record, zones_of
from .faults import IT_IS, Fault, copies_explained, explained
from .images import HEADED, Image, begins_disc, head_alone, open_file, read_at
from .messages import Trouble
from .otherfiles import begins_later, disc_offsets, looks_like_image, recognised
from .program import BadImage

ELSEWHERE = "no FileCore disc begins here, but one begins at byte %d"


def fault_of(program: str, path: str, bad: BadImage) -> Fault:
    """The fault of the image, which fcore told as `bad`."""
    fault = explained(bad.words)
    try:
        with open_file(path) as file:
            if bad.words[0] == "NoKind":
                return no_kind(program, path, file) or fault
            if begins_later(file, 0):
                return at_offset(1024)
            if bad.words[0] == "Copies":
                record = boot_record(read_at(file, BOOT_BLOCK, BLOCK))
                return fault._replace(meaning=copies_explained(bad.words[1:], zones_of(record))) if record else fault
    except Trouble:
        pass  # it can't be read any more, and fcore has said what is wrong
    return fault


def no_kind(program: str, path: str, file: BinaryIO) -> Optional[Fault]:
    """What a file is that doesn't begin as a disc does, if that shows."""
    other = recognised(file, path)
    if other:
        return Fault(IT_IS + other.what, "NoKind", other.advice, other.is_disc)
    for start in disc_offsets(file):
        with head_alone(path, file, start).file as head:
            if begins_disc(program, Image(path, head, HEADED, start)):
                return at_offset(start)
    return None


def at_offset(start: int) -> Fault:
    return Fault(ELSEWHERE % start, "NoKind", "say --offset %d" % start)


def is_no_disc(path: str, fault: Fault) -> bool:
    """Whether the file is something else than a damaged disc."""
    if fault.line != "NoKind" or "--offset" in fault.advice:
        return False
    if fault.meaning.startswith(IT_IS):
        return not fault.is_disc
    with open_file(path) as file:
        return not looks_like_image(file, path)
