# SPDX-License-Identifier: MIT
"""Disc records: what a disc says of its own shape, and the numbers that follow."""
from __future__ import annotations

from typing import Dict, Optional, Tuple

from .checks import number

RECORD = 60  # bytes
BIG_LIMIT = 4194304
# Bytes in which the records of boot block and map agree; of byte 40 the low four bits, and the root may differ
SHAPE_BYTES = (0, 4, 5, 9, 10, 11, 16, 17, 18, 19, 36, 37, 38, 39, 40, 42, 44, 45, 46, 47)


class Record:
    """The fields that a reader needs. What follows from them is right where `fault` is None."""

    def __init__(self, raw: bytes):
        self.raw = raw
        self.log2_sector, self.idlen, self.log2_bit = raw[0], raw[4], raw[5]
        self.zones, self.spare = raw[9] + 256 * raw[42], number(raw, 10, 2)
        self.root, self.root_size = number(raw, 12, 4), number(raw, 48, 4)
        self.size = number(raw, 16, 4) + (number(raw, 36, 4) << 32)
        self.version = number(raw, 44, 4)
        self.fault = self.find_fault()

    def find_fault(self) -> Optional[int]:
        """The offset of the first field that can't be."""
        if not 8 <= self.log2_sector <= 10:
            return 0
        if not self.log2_sector + 3 <= self.idlen <= (19 if self.version else 15):
            return 4
        if not 5 <= self.log2_bit <= 20:
            return 5
        if not self.zones:
            return 9
        self.derive()
        if self.spare < 32 or self.zone_size < 480 + self.least:
            return 10
        if not self.has_size():
            return 16
        return self.root_fault()

    def derive(self) -> None:
        self.sector, self.bit_bytes = 1 << self.log2_sector, 1 << self.log2_bit
        self.zone_size = 8 * self.sector - self.spare
        self.disc_bits = self.size // self.bit_bytes
        self.step = max(1, self.sector // self.bit_bytes)  # the map bits of a sector
        self.least = -(-(self.idlen + 1) // self.step) * self.step  # the bits of the shortest run
        self.per_zone = self.zone_size // (self.idlen + 1)
        self.id_bound = min(self.per_zone * self.zones, 1 << self.idlen)
        self.share = self.sector << (self.raw[40] & 15)
        self.map_sector = self.base(self.zones // 2) * self.bit_bytes // self.sector

    def has_size(self) -> bool:
        copies_end = (self.map_sector + 2 * self.zones) * self.sector
        return (0 < self.size <= 1 << 40 and self.size % self.sector == 0 and self.base(self.zones - 1) < self.disc_bits
                and self.disc_bits <= self.zones * self.zone_size - 480 and copies_end <= self.size)

    def root_fault(self) -> Optional[int]:
        if self.root // 256 < 2 or not self.version and self.root >= 1 << 24:
            return 12
        if self.version and (self.root_size % 2048 or not 2048 <= self.root_size <= BIG_LIMIT):
            return 48
        return None

    def base(self, zone: int) -> int:
        """The disc's map bit with which a zone begins."""
        return zone * self.zone_size - 480 if zone else 0

    def first(self, zone: int) -> int:
        """The bit of its sector where that is."""
        return 32 if zone else 512

    def end(self, zone: int) -> int:
        if zone == self.zones - 1:
            return self.first(zone) + self.disc_bits - self.base(zone)
        return 32 + self.zone_size

    def home(self, identifier: int) -> int:
        """The zone from which an identifier's runs are looked for."""
        return self.zones // 2 if identifier == 2 else identifier // self.per_zone % self.zones

    def has_shape_of(self, other: Record) -> bool:
        """Whether both describe one disc, but for its root."""
        return all(not (self.raw[at] ^ other.raw[at]) & (15 if at == 40 else 255) for at in SHAPE_BYTES)

    def form(self) -> str:
        """The name of the format, or `hard disc`."""
        plus = "+" if self.version else ""
        if self.log2_sector == 10 and (self.size, self.zones) in FLOPPIES:
            return FLOPPIES[self.size, self.zones] + plus
        return "hard disc"


FLOPPIES = {(819200, 1): "E", (1638400, 4): "F"}


def fresh_record(form: str) -> Record:
    """The record of a fresh disc of the formats with new maps."""
    raw = bytearray(RECORD)
    text = {"E": "0A050202 0F070100 00012005 03020000 00800C", "F": "0A0A0204 0F060100 00044006 09020000 000019"}[form[0]]
    known = bytes.fromhex(text)
    raw[:len(known)] = known
    if form.endswith("+"):
        raw[12:16] = b"\x01\x03\0\0"
        raw[44], raw[49] = 1, 8
    return Record(bytes(raw))


# Where a fresh disc has its identifiers 2 and, with big directories, 3: the disc's map bits. The map and the root don't move.
FRESH_RUNS: Dict[str, Dict[int, Tuple[Tuple[int, int], ...]]] = {
    "E": {2: ((0, 32),)}, "E+": {2: ((0, 16),), 3: ((16, 16),)},
    "F": {2: ((12704, 160), (0, 64))}, "F+": {2: ((12704, 128), (0, 64)), 3: ((12832, 32),)},
}
