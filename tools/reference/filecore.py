# SPDX-License-Identifier: MIT
"""What the builder and the reader of images share: check bytes, disc records, the shape of a new map, and names.

Written from docs/FORMAT.md, with Python's standard library alone; no code is shared with fcore.
"""
from __future__ import annotations

import struct
from typing import List, Optional, Tuple, Union

BOOT_BLOCK = 0xC00
BOOT_SIZE = 512
RECORD_SIZE = 60
UNIT = 256  # old maps count bytes by 256
SMALL_SIZE = {"D": 2048, "L": 1280}
BIG_LIMIT = 4194304
# the bytes in which the record of a boot block and that of the map have to agree; of byte 40 the low four bits
AGREED = [0, 4, 5, 9, 10, 11, 16, 17, 18, 19, 36, 37, 38, 39, 40, 42, 44, 45, 46, 47]
NOT_SPELLED = b'$&%@\\^:.#*"|'
SCRIPT_LIMIT = 1 << 24  # bytes


def number(block: bytes, at: int, size: int) -> int:
    """The little-endian number of so many bytes."""
    return int.from_bytes(block[at:at + size], "little")


def put(block: bytearray, at: int, size: int, value: int) -> None:
    block[at:at + size] = value.to_bytes(size, "little")


# ---- check bytes


def bytes_folded(total: int) -> int:
    """The exclusive or of the four bytes of a number."""
    return (total ^ total >> 8 ^ total >> 16 ^ total >> 24) & 0xFF


def zone_check(sector: bytes) -> int:
    words = words_of(sector, 0, len(sector))
    words[0] &= ~0xFF
    total = carry = 0
    for word in reversed(words):
        carry, total = divmod(total + word + carry, 1 << 32)
    return bytes_folded(total)


def boot_check(block: bytes) -> int:
    total = 0
    for byte in reversed(block[:BOOT_SIZE - 1]):
        total = total % 256 + total // 256 + byte
    return total % 256


def old_map_check(half: bytes, start: int) -> int:
    """The check of half an old map, 256 bytes of which the last is the check itself."""
    total = start
    for byte in reversed(half[:255]):
        if total > 255:
            total = total % 256 + 1
        total += byte
    return total % 256


def accumulated(total: int, numbers: Union[List[int], bytes]) -> int:
    """Directory checks: each number is taken into the sum so far, turned right by 13 bits."""
    for taken in numbers:
        total = taken ^ (total >> 13 | total << 19) & 0xFFFFFFFF
    return total


def words_of(block: bytes, start: int, end: int) -> List[int]:
    return list(struct.unpack_from("<%dI" % ((end - start) // 4), block, start))


def small_directory_check(directory: bytes, end: int) -> int:
    """The check of 2048 bytes whose entries end there."""
    whole = end // 4 * 4
    total = accumulated(0, words_of(directory, 0, whole))
    total = accumulated(total, directory[whole:end])
    return bytes_folded(accumulated(total, words_of(directory, 2008, 2044)))


def big_directory_check(directory: bytes, end: int) -> int:
    """The check of a big directory whose heap ends there."""
    tail = directory[-8:]
    total = accumulated(0, words_of(directory, 0, end))
    return bytes_folded(accumulated(total, [number(tail, 0, 4), tail[4], tail[5], tail[6]]))


# ---- fields of directories


def padded(name: bytes, size: int) -> bytes:
    """A name in a field: 13 after it if there is room, then bytes 0."""
    return (name + b"\r" if len(name) < size else name).ljust(size, b"\0")[:size]


def name_space(name: bytes) -> int:
    """The bytes that a name takes in the heap of a big directory."""
    return (len(name) + 4) // 4 * 4


def head_space(form: int, name: bytes) -> int:
    """The space of the name in the head of a big directory, in the first or the second form."""
    return (len(name) + (4 if form == 1 else 3)) // 4 * 4


# ---- disc records


class Record:
    """The fields of a disc record that fcore reads."""

    def __init__(self, raw: bytes) -> None:
        self.raw = bytes(raw)
        self.log2_sector = raw[0]
        self.idlen = raw[4]
        self.log2_bit = raw[5]
        self.zones = raw[9] + 256 * raw[42]
        self.spare = number(raw, 10, 2)
        self.root = number(raw, 12, 4)
        self.size = number(raw, 16, 4) + (number(raw, 36, 4) << 32)
        self.log2_share = raw[40] % 16
        self.version = number(raw, 44, 4)
        self.root_size = number(raw, 48, 4)

    def root_fault(self) -> Optional[int]:
        """The offset of a wrong root, or None."""
        if self.root // 256 < 2 or self.version == 0 and self.root >= 1 << 24:
            return 12
        if self.version and (self.root_size % 2048 or not 2048 <= self.root_size <= BIG_LIMIT):
            return 48
        return None

    def fault(self) -> Optional[int]:
        """The offset of the first field that isn't valid, or None."""
        if self.log2_sector not in (8, 9, 10):
            return 0
        if not self.log2_sector + 3 <= self.idlen <= (19 if self.version else 15):
            return 4
        if not 5 <= self.log2_bit <= 20:
            return 5
        if self.zones < 1:
            return 9
        shape = Geometry(self)
        if self.spare < 32 or shape.zone_size < 480 + shape.least:
            return 10
        if not shape.is_size_right():
            return 16
        return self.root_fault()


class Geometry:
    """The numbers that follow from a record."""

    def __init__(self, record: Record) -> None:
        self.record = record
        self.sector = 1 << record.log2_sector
        self.idlen = record.idlen
        self.bit_bytes = 1 << record.log2_bit
        self.zones = record.zones
        self.zone_size = 8 * self.sector - record.spare
        self.disc_bits = record.size // self.bit_bytes
        self.multiple = max(1, self.sector // self.bit_bytes)  # the bits of a sector
        self.least = -(-(self.idlen + 1) // self.multiple) * self.multiple  # the bits of the shortest run
        self.share = self.sector << record.log2_share
        self.ids_per_zone = self.zone_size // (self.idlen + 1)
        self.id_limit = min(self.ids_per_zone * self.zones, 1 << self.idlen)
        self.map_sector = self.base(self.zones // 2) * self.bit_bytes // self.sector

    def base(self, zone: int) -> int:
        """The disc map bit with which a zone begins."""
        return zone * self.zone_size - 480 if zone else 0

    def first(self, zone: int) -> int:
        """The bit of its sector with which a zone's map begins."""
        return 32 if zone else 512

    def end(self, zone: int) -> int:
        if zone == self.zones - 1:
            return self.first(zone) + self.disc_bits - self.base(zone)
        return 32 + self.zone_size

    def home(self, identifier: int) -> int:
        """The zone from which an identifier's runs are looked for."""
        return self.zones // 2 if identifier == 2 else identifier // self.ids_per_zone % self.zones

    def is_size_right(self) -> bool:
        size = self.record.size
        copies_end = (self.map_sector + 2 * self.zones) * self.sector
        return (0 < size <= 1 << 40 and size % self.sector == 0 and self.base(self.zones - 1) < self.disc_bits
                and self.disc_bits <= self.zones * self.zone_size - 480 and copies_end <= size)

    def units(self, length: int) -> int:
        """The bits of the shortest run that holds so many bytes."""
        bits = -(-length // self.bit_bytes)
        return max(self.least, -(-bits // self.multiple) * self.multiple)


# ---- names


def folded(name: bytes) -> bytes:
    """A name as it is compared: `a` to `z` count as `A` to `Z`, other bytes as they are."""
    return bytes(name).upper()


def spelled(name: bytes) -> str:
    return "".join(chr(byte) if 33 <= byte <= 126 and byte not in NOT_SPELLED else "%%%02X" % byte for byte in name)


def spelled_path(names: Union[List[bytes], Tuple[bytes, ...]]) -> str:
    return ".".join(["$"] + [spelled(name) for name in names])


def entry_line(name: bytes, attributes: int, load: int, execution: int, length: Optional[int]) -> str:
    """A line of `cat`; no length stands for a directory."""
    return "%s %08x %08x %08x %s\n" % (spelled(name), attributes, load, execution, "dir" if length is None else length)


def refusal(count: int, word: str) -> str:
    return "error %d %s\n" % (count, word)


NOT_FOUND = refusal(3, "NotFound")
NOT_DIRECTORY = refusal(4, "NotDirectory")
IS_DIRECTORY = refusal(5, "IsDirectory")
BAD_COMMAND = refusal(1, "BadCommand")
BAD_NAME = refusal(2, "BadName")
EXISTS = refusal(6, "Exists")
ROOT_REFUSED = refusal(7, "RootRefused")
INTO_ITSELF = refusal(8, "IntoItself")
LOCKED = refusal(9, "Locked")
NOT_EMPTY = refusal(10, "NotEmpty")
READ_ONLY = refusal(11, "ReadOnly")
NOT_NEW_MAP = refusal(21, "NotNewMap")
