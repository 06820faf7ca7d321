# SPDX-License-Identifier: MIT
"""What of a damaged disc can be put right: the bytes that a mended copy gets. All but a guess is the only right value."""
from __future__ import annotations

from itertools import product
from typing import Iterator, List, NamedTuple, Optional

from ..names import spelled_path
from .agreement import agrees, guess_words
from .checks import big_check, boot_check, is_old_half, number, old_check, small_check, zone_check
from .directories import SMALL_PLACES, WRONG_CHECK, WRONG_NUMBERS, WRONG_WORD, Item, big_items, forms, small_item, used_places
from .discs import BOOT_BLOCK, BOOT_SIZE, UNIT, WORDS
from .reading import Reading
from .records import RECORD, Record
from .walk import Found
from .zones import ZoneSpace


class Repair(NamedTuple):
    """Bytes that belong to a place of the disc, and what they are. `is_guess`: other bytes may be wrong instead."""

    place: int
    data: bytes
    text: str
    is_guess: bool = False


def repairs(reading: Reading) -> Iterator[Repair]:
    """All that can be put right. The disc may need more."""
    if isinstance(reading.space, ZoneSpace):
        yield from map_repairs(reading, reading.space)
    else:
        yield from old_map_repairs(reading)
    for found in reading.walk.directories:
        if found.listing.fault in (WRONG_CHECK, WRONG_NUMBERS, WRONG_WORD):
            yield from directory_repairs(reading, found)


# ---- maps


def map_repairs(reading: Reading, space: ZoneSpace) -> Iterator[Repair]:
    """Both copies of the map, if the right zones make up one sound copy; then the boot block by its record."""
    record = space.record
    copies = [reading.source.read(space.start + copy * space.size, space.size) for copy in (0, 1)]
    if any(len(copy) != space.size for copy in copies):
        return
    zones = [one_right([copy[at:at + record.sector] for copy in copies]) for at in range(0, space.size, record.sector)]
    if all(map(is_sound_copy, ([copy[at:at + record.sector] for at in range(0, space.size, record.sector)] for copy in copies))):
        whole: Optional[bytes] = copies[0]
    else:
        whole = sound_copy(copies, zones, record.sector)
    if whole is None:
        return
    for copy, name in ((0, "first"), (1, "second")):
        if copies[copy] != whole:
            yield Repair(space.start + copy * space.size, whole, "the %s copy of the map" % name)
    own = Record(whole[4:4 + RECORD])
    if reading.disc.has_boot and own.has_shape_of(record) and own.fault is None:
        yield from boot_repairs(reading, own)


def one_right(copies: List[bytes]) -> Optional[bytes]:
    """The zone by the copies whose check is right; None if none is, or they differ."""
    right = {copy for copy in copies if any(copy) and copy[0] == zone_check(copy)}
    return right.pop() if len(right) == 1 else None


def is_sound_copy(zones: List[bytes]) -> bool:
    total = 0
    for zone in zones:
        total ^= zone[3]
    return total == 0xFF and all(any(zone) and zone[0] == zone_check(zone) for zone in zones)


def sound_copy(copies: List[bytes], zones: List[Optional[bytes]], sector: int) -> Optional[bytes]:
    """The first copy that is sound as it is; else one of the right zones of both."""
    for copy in copies:
        if is_sound_copy([copy[at:at + sector] for at in range(0, len(copy), sector)]):
            return copy
    known = [zone for zone in zones if zone is not None]
    return b"".join(known) if len(known) == len(zones) and is_sound_copy(known) else None


def boot_repairs(reading: Reading, own: Record) -> Iterator[Repair]:
    """The record of the map in the boot block, and the check that belongs to it. The other bytes stay."""
    block = bytearray(reading.source.read(BOOT_BLOCK, BOOT_SIZE))
    if len(block) < BOOT_SIZE:
        return
    there = Record(bytes(block[0x1C0:0x1C0 + RECORD]))
    is_right = there.fault is None and there.has_shape_of(own)
    if is_right and block[-1] == boot_check(block):
        return
    with_own = block[:0x1C0] + own.raw + block[0x1C0 + RECORD:]
    if not is_right or with_own[-1] == boot_check(with_own):
        block = with_own
    block[-1] = boot_check(block)
    yield Repair(BOOT_BLOCK, bytes(block), "the boot block")


def old_map_repairs(reading: Reading) -> Iterator[Repair]:
    """The checks of an old map, if its holes and the disc's objects share out all of the disc."""
    block = bytearray(reading.source.read(0, 512))
    if len(block) < 512 or all(map(is_old_half, (bytes(block[:256]), bytes(block[256:])))):
        return
    if number(block, 252, 3) * UNIT != reading.disc.size or not shares_out(reading, block):
        return
    for half in (0, 256):
        one = bytes(block[half:half + 256])
        if not is_old_half(one):
            block[half + 255] = old_check(one, 255)
    yield Repair(0, bytes(block), "the checks of the list of free space")


def shares_out(reading: Reading, block: bytes) -> bool:
    """Whether each sector of the disc is in one hole, in one object or in the map."""
    if any(found.place.missing or found.listing.fault for found in (*reading.walk.directories, *reading.files)) or block[510] % 3:
        return False
    extents = list(reading.space.reserved)
    for at in range(0, min(block[510], 246), 3):
        extents.append((number(block, at, 3) * UNIT, number(block, 256 + at, 3) * UNIT))
    for found in (*reading.walk.directories, *reading.files):
        extents += found.place.extents
    at = 0
    for start, length in sorted(extents):
        if start != at or not length:
            return False
        at = start + length
    return at == reading.disc.size


# ---- directories


def directory_repairs(reading: Reading, found: Found) -> Iterator[Repair]:
    size = sum(length for _, length in found.place.extents)
    size = size if reading.disc.directories == "big" else int(reading.disc.directories)
    block = reading.walk.read_bytes(found.place.extents, size)
    if len(block) < size:
        return
    right = {one for one in ends_agreed(block, reading.disc.directories) if has_check(one, reading.disc.directories)}
    text = "directory %s" % spelled_path(found.path)
    items = items_of(block, reading.disc.directories)
    is_guess = not right and found.listing.fault == WRONG_CHECK and agrees(reading, found, items)
    if is_guess:
        right = {checked(block, reading.disc.directories)}
        text += ": " + guess_words(len(items))
    if len(right) != 1:
        return
    mended, at = right.pop(), 0
    for start, length in found.place.extents:
        part = mended[at:at + length]
        if part != block[at:at + length]:
            yield Repair(start, part, text, is_guess)
        at += length


def ends_agreed(block: bytes, form: str) -> Iterator[bytes]:
    """The directory with each of the words and numbers of its ends at both."""
    first, last = (4, len(block) - 8) if form == "big" else (1, len(block) - 5)
    number_at = len(block) - (4 if form == "big" else 6)
    words = {b"SBPr"} if form == "big" else {block[at:at + 4] for at in (first, last)} & set(WORDS)
    for word, sequence in product(sorted(words), sorted({block[0], block[number_at]})):
        made = bytearray(block)
        made[first:first + 4] = word
        made[last:last + 4] = b"oven" if form == "big" else word
        made[0] = made[number_at] = sequence
        yield bytes(made)


def has_check(block: bytes, form: str) -> bool:
    """Whether the check is right. A directory of 1280 bytes has none: there the numbers of both ends have to be as they were."""
    if form == "big":
        return any(big_check(block, end) == block[-1] for _, _, end in forms(block, len(block)))
    return form == "2048" and small_check(block, used_places(block, SMALL_PLACES[form])) == block[-1]


def items_of(block: bytes, form: str) -> List[Item]:
    """The entries, as they stand there."""
    if form == "big":
        fitting = forms(block, len(block))
        return list(big_items(block, *fitting[0])) if fitting else []
    return [small_item(block, place, form) for place in range(used_places(block, SMALL_PLACES[form]))]


def checked(block: bytes, form: str) -> bytes:
    if form == "big":
        check = big_check(block, forms(block, len(block))[0][2])
    else:
        check = small_check(block, used_places(block, SMALL_PLACES[form]))
    return block[:-1] + bytes([check])
