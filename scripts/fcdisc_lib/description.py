# SPDX-License-Identifier: MIT
"""What a disc says of itself and fcore doesn't tell: format, name, boot option, the length of a track, and its free space.

It is read from an image in disc order that fcore has accepted, by docs/FORMAT.md, so that every number is in its bounds.
"""
from __future__ import annotations

from typing import BinaryIO, Iterator, List, NamedTuple, Tuple

from .images import read_at

BOOT_BLOCK, BLOCK = 0xC00, 512
RECORD_IN_BLOCK, RECORD_IN_ZONE, RECORD = 0x1C0, 4, 60
UNIT = 256  # bytes that an old map's numbers count
D_UNITS = 3200
FORMATS_BY_UNITS = {640: "S", 1280: "M", 2560: "L", D_UNITS: "D"}
FORMATS_BY_BYTES = {819200: "E", 1638400: "F"}
BOOT_OPTIONS = ("none", "Load", "Run", "Exec")
Range = Tuple[int, int]  # bytes of the disc: from the first to before the last


class Description(NamedTuple):
    """`form` is S, M, L, D, E, F, HD, with a `+` for big directories. `record` is empty on a disc with an old map."""

    form: str
    name: str
    boot_option: int
    size: int
    track: int
    record: bytes = b""

    @property
    def boots(self) -> str:
        return BOOT_OPTIONS[self.boot_option] if self.boot_option < len(BOOT_OPTIONS) else str(self.boot_option)


def describe(file: BinaryIO) -> Description:
    record = boot_record(read_at(file, BOOT_BLOCK, BLOCK))
    record = record or zone_record(read_at(file, 0, 1024)) or zone_record(read_at(file, 1024, 1024))
    if not record:
        return old_description(read_at(file, 0, 512))
    place = map_place(record)
    described = read_at(file, place + RECORD_IN_ZONE, RECORD)  # the map's own record has the name; the boot block's may be older
    if described[4:6] != record[4:6]:
        described = record
    size = number(record, 16, 4) | number(record, 36, 4) << 32
    form = FORMATS_BY_BYTES.get(size, "HD") + "+" * (number(record, 44, 4) != 0)
    return Description(form, read_name(described[22:32]), described[7], size, max(record[1], 1) << record[0], record)


def old_description(sectors: bytes) -> Description:
    units = number(sectors, 252, 3)
    name = bytes(byte for pair in zip(sectors[247:252], sectors[502:507]) for byte in pair)
    track = 5 * 1024 if units == D_UNITS else 16 * UNIT
    return Description(FORMATS_BY_UNITS.get(units, "L"), read_name(name), sectors[509], units * UNIT, track)


def read_name(name: bytes) -> str:
    """A disc's name ends before its first control code; spaces fill it up."""
    kept = bytearray()
    for byte in name:
        if byte & 0x7F < 32:
            break
        kept.append(byte)
    return kept.decode("latin-1").rstrip()


def number(data: bytes, at: int, size: int) -> int:
    return int.from_bytes(data[at:at + size], "little")


# ---- where the record lies


def boot_record(block: bytes) -> bytes:
    """The record of a boot block with a right check, else nothing."""
    if len(block) < BLOCK or block_check(block) != block[-1]:
        return b""
    record = block[RECORD_IN_BLOCK:RECORD_IN_BLOCK + RECORD]
    return record if is_possible(record) else b""


def block_check(block: bytes) -> int:
    total = 0
    for byte in reversed(block[:511]):
        total = (total & 0xFF) + (total >> 8) + byte
    return total & 0xFF


def zone_record(sector: bytes) -> bytes:
    """The record of a map of one zone that is this sector, else nothing."""
    if len(sector) < 1024 or zone_check(sector) != sector[0] or sector[3] != 0xFF:
        return b""
    record = sector[RECORD_IN_ZONE:RECORD_IN_ZONE + RECORD]
    return record if is_possible(record) and record[0] == 10 and zones_of(record) == 1 else b""


def zone_check(sector: bytes) -> int:
    words = [number(sector, at, 4) for at in range(0, len(sector), 4)]
    words[0] &= ~0xFF
    total = carry = 0
    for word in reversed(words):
        total += word + carry
        carry, total = total >> 32, total & 0xFFFFFFFF
    return total & 0xFF ^ total >> 8 & 0xFF ^ total >> 16 & 0xFF ^ total >> 24


def is_possible(record: bytes) -> bool:
    """Whether the bytes can be a disc's record, by its plainest rules."""
    return (len(record) == RECORD and 8 <= record[0] <= 10 and record[0] + 3 <= record[4] <= 19 and 5 <= record[5] <= 20
            and zones_of(record) > 0 and number(record, 10, 2) >= 32 and number(record, 16, 4) | number(record, 36, 4) > 0)


def zones_of(record: bytes) -> int:
    return record[9] | record[42] << 8


def zone_start(record: bytes, zone: int) -> int:
    """The map bit of the disc with which a zone begins."""
    return zone * ((8 << record[0]) - number(record, 10, 2)) - 480 if zone else 0


def map_place(record: bytes) -> int:
    """The byte of the disc where the first copy of the map begins."""
    return (zone_start(record, zones_of(record) // 2) << record[5]) >> record[0] << record[0]


def is_old_map(sectors: bytes) -> bool:
    """Whether both halves of an old map have right checks."""
    return len(sectors) >= 512 and all(
        half[255] in (half_check(half, 255), half_check(half, 0)) for half in (sectors[:256], sectors[256:512]))


def half_check(half: bytes, total: int) -> int:
    for byte in reversed(half[:255]):
        if total > 255:
            total = (total & 0xFF) + 1
        total += byte
    return total & 0xFF


# ---- free space


def free_ranges(file: BinaryIO, disc: Description) -> List[Range]:
    """The disc's free space, in order; ranges that touch are one."""
    found: List[Range] = []
    for start, end in sorted(new_holes(file, disc.record) if disc.record else old_holes(read_at(file, 0, 512))):
        if found and found[-1][1] == start:
            start = found.pop()[0]
        found.append((start, end))
    return found


def old_holes(sectors: bytes) -> Iterator[Range]:
    for at in range(0, sectors[510], 3):
        start = number(sectors, at, 3) * UNIT
        yield start, start + number(sectors, 256 + at, 3) * UNIT


def new_holes(file: BinaryIO, record: bytes) -> Iterator[Range]:
    sector, zones, place = 1 << record[0], zones_of(record), map_place(record)
    copies = [[read_at(file, place + (copy * zones + zone) * sector, sector) for zone in range(zones)] for copy in (0, 1)]
    for zone, content in enumerate(next((one for one in copies if is_sound(one)), copies[0])):
        first = 512 if zone == 0 else 32
        base = zone_start(record, zone) - first
        for start, end in zone_holes(int.from_bytes(content, "little"), len(content) * 8, record[4]):
            yield base + start << record[5], base + end << record[5]


def is_sound(zones: List[bytes]) -> bool:
    crossed = 0
    for zone in zones:
        crossed ^= zone[3]
    return crossed == 0xFF and all(zone_check(zone) == zone[0] for zone in zones)


def zone_holes(bits: int, length: int, idlen: int) -> Iterator[Range]:
    """The bits of a zone's holes, along the chain that begins at bit 8."""
    at, link = 8, bits >> 8 & 0x7FFF
    while link:
        at += link
        link = bits >> at & (1 << min(idlen, 15)) - 1
        rest = bits >> at + idlen
        end = at + idlen + (rest & -rest).bit_length()
        if not rest or end > length:
            return
        yield at, end
