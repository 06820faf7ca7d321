# SPDX-License-Identifier: MIT
"""Which disc an image holds: the descriptions that it may go by, the most trusted first."""
from __future__ import annotations

from typing import Iterator, List, NamedTuple, Optional, Tuple

from .checks import boot_check, is_old_half, number, zone_check
from .records import RECORD, Record, fresh_record
from .source import Source

BOOT_BLOCK, BOOT_SIZE, UNIT = 0xC00, 512, 256
FORMATS = ("E", "F", "D", "L", "E+", "F+")
MOST_TRIED = 20000  # records that look right in the search for a map: an image full of them must not take hours
WORDS = (b"Hugo", b"Nick")
SURE, FOUND, ROOT_WORDS, ASSUMED = range(4)  # how far a description is trusted


class Disc(NamedTuple):
    """A disc's shape, and what it was told by."""

    form: str
    sector: int
    size: int
    track: int  # bytes of a track; 0 if nothing says so
    neighbours: Tuple[int, ...]  # how far off, in tracks, a drive's head may be that reads a wrong track
    record: Optional[Record]  # of new maps
    has_boot: bool
    trust: int
    told_by: str  # for people; empty where the disc is described as it should be

    @property
    def is_old(self) -> bool:
        return self.record is None

    @property
    def directories(self) -> str:
        """The kind of its directories."""
        if self.record is None:
            return "1280" if self.form == "L" else "2048"
        return "big" if self.record.version else "2048"


def new_disc(record: Record, has_boot: bool, trust: int, told_by: str = "") -> Disc:
    track = record.raw[1] * record.sector
    return Disc(record.form(), record.sector, record.size, track, (1, 2), record, has_boot, trust, told_by)


def old_disc(form: str, units: int, trust: int, told_by: str = "") -> Disc:
    if form == "D":
        return Disc("D", 1024, units * UNIT, 5120, (1, 2), None, False, trust, told_by)
    tracks = units * UNIT // 4096
    return Disc("L", 256, units * UNIT, 4096, (1, tracks // 2) if tracks > 80 else (1,), None, False, trust, told_by)


def shape_of(units: int) -> Optional[str]:
    """The format with an old map of that many units, if there is one."""
    return "D" if units == 3200 else "L" if 7 <= units <= 2560 else None


# ---- descriptions without a guess


def boot_record(source: Source, checked: bool) -> Optional[Record]:
    block = source.read(BOOT_BLOCK, BOOT_SIZE)
    if len(block) < BOOT_SIZE or (block[-1] == boot_check(block)) != checked:
        return None
    record = Record(block[0x1C0:0x1C0 + RECORD])
    return None if record.fault is not None else record


def zone_record(sector: bytes) -> Optional[Record]:
    """The record of a zone 0 whose check is right."""
    record = Record(sector[4:4 + RECORD])
    return record if record.fault is None and zone_check(sector) == sector[0] else None


def sure_discs(source: Source) -> Iterator[Disc]:
    record = boot_record(source, True)
    if record:
        yield new_disc(record, True, SURE)
    for at in (0, 1024):
        sector = source.read(at, 1024)
        record = zone_record(sector) if len(sector) == 1024 else None
        if record and record.zones == 1 and record.sector == 1024 and sector[3] == 0xFF:
            yield new_disc(record, False, SURE, "" if at == 0 else "the second copy of its map")
            break
    halves = source.read(0, 256), source.read(256, 256)
    form = shape_of(number(halves[0], 252, 3))
    if form and all(map(is_old_half, halves)):
        yield old_disc(form, number(halves[0], 252, 3), SURE)


# ---- descriptions that were looked for


def found_discs(source: Source) -> Iterator[Disc]:
    for record, place in maps_found(source):
        yield new_disc(record, record.form()[0] != "E", FOUND, "the map that was found at byte %d" % place)
    block = boot_record(source, False)
    if block:
        yield new_disc(block, True, FOUND, "a boot block with a wrong check")
    halves = source.read(0, 256), source.read(256, 256)
    form = shape_of(number(halves[0], 252, 3))
    if form and is_old_half(halves[0]):
        yield old_disc(form, number(halves[0], 252, 3), FOUND, "one half of its map")
    elif form and any(halves[0]) and is_old_half(halves[1]) and any(halves[1]):
        yield old_disc(form, number(halves[0], 252, 3), FOUND, "a map with a wrong check")


def maps_found(source: Source) -> Iterator[Tuple[Record, int]]:
    """Zones 0 with a right check that lie where their own records put them, with their places."""
    tried = 0
    seen: List[bytes] = []
    for start, piece in source.pieces(UNIT, 1024):
        for at, log2 in enumerate(piece[4::UNIT]):
            place = start + at * UNIT
            raw = piece[at * UNIT + 4:at * UNIT + 4 + RECORD]
            if not 8 <= log2 <= 10 or place % (1 << log2) or raw in seen or len(raw) < RECORD or tried > MOST_TRIED:
                continue
            tried += 1
            record = Record(raw)
            if record.fault is not None or (place // record.sector - record.map_sector) not in (0, record.zones):
                continue
            sector = piece[at * UNIT:at * UNIT + record.sector]
            if len(sector) == record.sector and zone_check(sector) == sector[0]:
                seen.append(raw)
                yield record, place
                if len(seen) == 4:
                    return


# ---- guesses


def worded_discs(source: Source) -> Iterator[Disc]:
    """By the words of a root that lies where the format has it."""
    for form, place, size in (("D", 1024, 2048), ("L", 512, 1280), ("E", 2048, 2048), ("F", 0xC8800, 2048)):
        ends = source.read(place + 1, 4), source.read(place + size - 5, 4)
        if any(end in WORDS for end in ends):
            yield fresh_disc(form, ROOT_WORDS, "the words of its root")
    for form, place in (("E+", 2048), ("F+", 0xC8800)):
        if source.read(place + 4, 4) == b"SBPr" or source.read(place + 2040, 4) == b"oven":
            yield fresh_disc(form, ROOT_WORDS, "the words of its root")


def fresh_disc(form: str, trust: int, told_by: str) -> Disc:
    """The shape of a fresh disc of the format."""
    if form in ("D", "L"):
        return old_disc(form, 3200 if form == "D" else 2560, trust, told_by)
    record = fresh_record(form)
    return new_disc(record, form[0] == "F", trust, told_by)


def assumed_discs(source: Source) -> Iterator[Disc]:
    """The formats that are as long as the image, or not much longer."""
    for form in FORMATS:
        disc = fresh_disc(form, ASSUMED, "the length of the image alone")
        if disc.size * 7 // 8 <= source.length <= disc.size:
            yield disc


def discs_by_trust(source: Source) -> Iterator[List[Disc]]:
    """Lists of descriptions, each less trusted than the one before."""
    yield list(sure_discs(source))
    yield list(found_discs(source))
    yield list(worded_discs(source))
    yield list(assumed_discs(source))


def wanted_discs(source: Source, form: str) -> List[Disc]:
    """Descriptions of the format that the user says, and its fresh shape."""
    found = [disc for discs in (sure_discs(source), found_discs(source)) for disc in discs if disc.form == form]
    return found + [fresh_disc(form, ASSUMED, "what you said")]
