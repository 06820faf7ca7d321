#!/usr/bin/env python3
# SPDX-License-Identifier: MIT
"""A reader of disc images that uses docs/FORMAT.md and nothing else, to show that the page is complete.

usage: tools/run reference/format_reader IMAGE       prints the fault, or what `check` and `free` count and each object with its SHA-256
       tools/run reference/format_reader IMAGE PATH  writes the bytes of a file to standard output

It shares no code with fcore or with the other tools. The comment at a rule names the page's heading, and its table if there are
several. It favours short code over speed.
"""
from __future__ import annotations

import hashlib
import signal
import sys
from typing import Dict, List, Optional, Set, Tuple, TypedDict, Union

Fields = TypedDict("Fields", {
    "name": bytes, "load": int, "exec": int, "length": int, "address": int, "attributes": int, "path": str,
    "sectors": Optional[List[int]], "entries": List["Fields"], "parent": "Fields", "parent field": int}, total=False)


class Bad(Exception):
    """A fault, as the words after `bad-image`."""


def num(data: bytes, at: int, size: int) -> int:
    return int.from_bytes(data[at:at + size], "little")  # head of the page: numbers are little-endian


def xor_bytes(value: int) -> int:
    return value & 255 ^ value >> 8 & 255 ^ value >> 16 & 255 ^ value >> 24


# ---- checks


def boot_check(block: bytes) -> int:  # Boot block, check
    s = 0
    for at in range(510, -1, -1):
        s = s % 256 + s // 256 + block[at]
    return s % 256


def zone_check(zone: bytes) -> int:  # New map, ZoneCheck
    words = [num(zone, at, 4) for at in range(0, len(zone), 4)]
    words[0] -= words[0] % 256
    s = carry = 0
    for word in words[::-1]:
        s += word + carry
        carry, s = s >> 32, s % 2 ** 32
    return xor_bytes(s)


def half_check(half: bytes, s: int) -> int:  # Old map, check of a half
    for at in range(254, -1, -1):
        if s > 255:
            s = s % 256 + 1
        s += half[at]
    return s % 256


def fold(a: int, values: Union[List[int], bytes]) -> int:  # Small directories, check
    for v in values:
        a = v ^ (a >> 13 | a << 19 & 0xFFFFFFFF)
    return a


def words(data: bytes, start: int, end: int) -> List[int]:
    return [num(data, at, 4) for at in range(start, end, 4)]


# ---- records


class Record:
    def __init__(self, raw: bytes) -> None:
        self.raw = raw
        # Disc record, table
        self.log2_sector, self.idlen, self.log2_bit = raw[0], raw[4], raw[5]
        self.spare, self.root, self.version, self.root_size = num(raw, 10, 2), num(raw, 12, 4), num(raw, 44, 4), num(raw, 48, 4)
        # Numbers that follow, table, row by row
        self.sector, self.bit_bytes = 2 ** raw[0], 2 ** raw[5]
        self.zones, self.size = raw[9] + 256 * raw[42], num(raw, 16, 4) + num(raw, 36, 4) * 2 ** 32
        self.zone_size = 8 * self.sector - self.spare
        self.disc_bits = self.size // self.bit_bytes
        self.q = max(1, self.sector // self.bit_bytes)
        self.least = next(bits for bits in range(self.idlen + 1, self.idlen + 2 + self.q) if bits % self.q == 0)
        self.ids_per_zone = self.zone_size // (self.idlen + 1)
        self.id_bound = min(self.ids_per_zone * self.zones, 2 ** self.idlen)
        self.share = self.sector * 2 ** (raw[40] % 16)

    def base(self, z: int) -> int:
        return z * self.zone_size - 480 if z else 0

    def first(self, z: int) -> int:
        return 32 if z else 512

    def end(self, z: int) -> int:
        return self.first(z) + self.disc_bits - self.base(z) if z == self.zones - 1 else 32 + self.zone_size

    def map_sector(self) -> int:
        return self.base(self.zones // 2) * self.bit_bytes // self.sector

    def home(self, identifier: int) -> int:  # Addresses on new maps, home
        return self.zones // 2 if identifier == 2 else identifier // self.ids_per_zone % self.zones

    def root_fault(self) -> Optional[int]:  # Valid records, rows 12 and 48
        if self.root // 256 < 2 or self.version == 0 and self.root >= 2 ** 24:
            return 12
        if self.version and not is_big_size(self.root_size):
            return 48
        return None

    def fault(self) -> Optional[int]:  # Valid records, table, row by row
        if self.log2_sector not in (8, 9, 10):
            return 0
        if not self.log2_sector + 3 <= self.idlen <= (19 if self.version else 15):
            return 4
        if not 5 <= self.log2_bit <= 20:
            return 5
        if self.zones == 0:
            return 9
        if self.spare < 32 or self.zone_size < 480 + self.least:
            return 10
        if (self.size == 0 or self.size % self.sector or self.size > 2 ** 40
                or not self.base(self.zones - 1) < self.disc_bits <= self.zones * self.zone_size - 480
                or (self.map_sector() + 2 * self.zones) * self.sector > self.size):
            return 16
        return self.root_fault()


def is_big_size(size: int) -> bool:  # Big directories, first sentence
    return size % 2048 == 0 and 2048 <= size <= 4194304


def valid(raw: bytes) -> Optional[Record]:
    """The record of these 60 bytes, or None. Sectors that are far too large are sorted out first, since 2^255 has no use."""
    if len(raw) < 60 or raw[0] > 10 or raw[5] > 20:
        return None
    record = Record(raw)
    return record if record.fault() is None else None


# ---- kinds


def kind_of(data: bytes) -> Tuple[str, Union[int, Record]]:  # Kinds, table, row by row
    if len(data) >= 0xE00:
        block = data[0xC00:0xE00]
        if block[511] == boot_check(block) and valid(block[0x1C0:0x1FC]):
            return "Boot", Record(block[0x1C0:0x1FC])
    for zone in (data[0:1024], data[1024:2048]):
        if len(zone) == 1024 and zone[0] == zone_check(zone) and zone[3] == 0xFF:
            record = valid(zone[4:64])
            if record and record.log2_sector == 10 and record.zones == 1:
                return "OneZone", record
    if len(data) >= 512:
        halves = data[0:256], data[256:512]
        if all(half[255] in (half_check(half, 255), half_check(half, 0)) for half in halves):
            units = num(data, 252, 3)
            if units == 3200:
                return "D", units
            if 7 <= units <= 2560:
                return "L", units
    raise Bad("NoKind")


# ---- maps


class NewMap:
    def __init__(self, data: bytes, kind: str, record: Record) -> None:
        self.g, self.sector = record, record.sector
        zones = self.choose(data)
        own = self.own_record(zones[0])
        self.root = own.root
        self.form = "big" if record.version else "2048"  # Kinds, column Directories
        self.root_size = own.root_size if record.version else 2048
        self.holes: List[Tuple[int, int]] = []
        self.runs: Dict[int, List[Tuple[int, Tuple[int, int]]]] = {}
        for z in range(record.zones):  # Order of tests: each zone, its runs, then its holes
            self.read_zone(z, zones[z])
        boot = range(0xC00 // self.sector, -(-0xE00 // self.sector)) if kind == "Boot" else ()
        copies = range(record.map_sector(), record.map_sector() + 2 * record.zones)
        self.boot, self.copies = set(boot), set(copies)
        self.claimed = self.boot | self.copies  # Walk, what is claimed at the beginning

    def choose(self, data: bytes) -> List[bytes]:  # Two copies
        g, wrong = self.g, []
        for first in (g.map_sector(), g.map_sector() + g.zones):  # New map, second sentence
            zones = [data[self.sector * at:self.sector * (at + 1)] for at in range(first, first + g.zones)]
            bad = [z for z in range(g.zones) if zones[z][0] != zone_check(zones[z])]
            cross = 0
            for zone in zones:
                cross ^= zone[3]
            if not bad and cross == 0xFF:
                return zones
            wrong.append(bad[0] if bad else g.zones)
        raise Bad("Copies", *wrong)

    def own_record(self, zone: bytes) -> Record:  # Two copies, the map's record
        for at in [0, 4, 5, 9, 10, 11, *range(16, 20), *range(36, 40), 40, 42, *range(44, 48)]:
            if (zone[4 + at] ^ self.g.raw[at]) & (15 if at == 40 else 255):
                raise Bad("Differs", at)
        own = Record(zone[4:64])
        if own.root_fault() is not None:
            raise Bad("Bad", own.root_fault())
        return own

    def is_boundary(self, z: int, x: int) -> bool:  # Runs and holes, first paragraph
        return (self.g.base(z) + x - self.g.first(z)) * self.g.bit_bytes % self.sector == 0

    def read_zone(self, z: int, zone: bytes) -> None:  # Runs and holes
        g, found, x = self.g, {}, self.g.first(z)
        bits = bin(int.from_bytes(zone, "little"))[:1:-1].ljust(8 * self.sector, "0")
        while x < g.end(z):
            one = bits.find("1", x + g.idlen, g.end(z))
            if not self.is_boundary(z, x) or one < 0 or not self.is_boundary(z, one + 1):
                raise Bad("Zone", z, x)  # table of zone faults, first row
            found[x] = one + 1, int(bits[x:x + g.idlen][::-1], 2)
            x = one + 1
        holes, x, distance = set(), 8, num(zone, 1, 2) % 2 ** 15
        while distance:
            x += distance
            if x not in found:
                raise Bad("Zone", z, x)  # second row
            holes.add(x)
            distance = found[x][1] % 2 ** 15
        for x, (after, field) in found.items():
            start = (g.base(z) + x - g.first(z)) * g.bit_bytes  # Numbers that follow, last paragraph
            run = start, (after - x) * g.bit_bytes
            if x in holes:
                self.holes.append(run)
            else:
                self.runs.setdefault(field, []).append((z, run))

    def sectors_of_runs(self, runs: List[Tuple[int, int]]) -> List[int]:
        return [at for start, size in runs for at in range(start // self.sector, (start + size) // self.sector)]

    def identifier_sectors(self, identifier: int) -> List[int]:  # Addresses on new maps, the order of an identifier's runs
        runs = self.runs.get(identifier, [])
        home = self.g.home(identifier)
        return self.sectors_of_runs([run for z, run in runs if z >= home] + [run for z, run in runs if z < home])

    def sectors(self, address: int, length: int) -> Optional[List[int]]:  # Addresses on new maps, sharing
        if length == 0:
            return []
        identifier, low = address // 256, address % 256
        if not 2 <= identifier < self.g.id_bound:
            return None
        skipped = (low - 1) * self.g.share // self.sector if low else 0
        count = (length + self.sector - 1) // self.sector
        sectors = self.identifier_sectors(identifier)[skipped:skipped + count]
        return sectors if len(sectors) == count else None

    def misplaced(self, owned: Set[int]) -> Optional[int]:  # Walk, MapPlace
        runs = self.holes + [run for identifier in owned if identifier > 2 for z, run in self.runs.get(identifier, [])]
        wrong = (self.boot | self.copies) & set(self.sectors_of_runs(runs)) | self.boot & self.copies
        return min(wrong) if wrong else None

    def lost(self, owned: Set[int], claimed: Set[int]) -> int:  # Counts, lost
        return sum(size for identifier, runs in self.runs.items() if identifier not in (1, 2) and identifier not in owned
                   for z, (start, size) in runs)


class OldMap:
    def __init__(self, data: bytes, kind: str, units: int) -> None:
        # Old map, table of D and L; Kinds, column Directories
        self.sector, self.form, self.root = (1024, "2048", 4) if kind == "D" else (256, "1280", 2)
        self.root_size = int(self.form)
        self.size = units * 256
        map_size = 1024 if kind == "D" else 512
        self.holes: List[Tuple[int, int]] = []
        free_end, before = data[510], map_size  # Old map, hole faults
        if free_end % 3 or free_end > 246:
            raise Bad("Hole", free_end // 3)
        for i in range(free_end // 3):
            start, length = num(data, 3 * i, 3) * 256, num(data, 256 + 3 * i, 3) * 256
            if (length == 0 or start < before or start + length > self.size or start % self.sector or length % self.sector):
                raise Bad("Hole", i)
            before = start + length
            self.holes.append((start, length))
        self.claimed = set(range(map_size // self.sector))  # Walk, what is claimed at the beginning
        for start, length in self.holes:
            self.claimed.update(range(start // self.sector, (start + length) // self.sector))

    def sectors(self, address: int, length: int) -> Optional[List[int]]:  # Old map, last paragraph
        if length == 0:
            return []
        start = address * 256
        if start % self.sector or start + length > self.size:
            return None
        return list(range(start // self.sector, (start + length + self.sector - 1) // self.sector))

    def misplaced(self, owned: Set[int]) -> None:
        return None  # Walk: MapPlace is for new maps

    def lost(self, owned: Set[int], claimed: Set[int]) -> int:  # Counts, lost
        return len(set(range(self.size // self.sector)) - claimed) * self.sector


# ---- directories


def upper(name: bytes) -> bytes:  # Small directories, last sentence
    return bytes(byte - 32 if 97 <= byte <= 122 else byte for byte in name)


def check_names(entries: List[Fields]) -> List[Fields]:  # the last two rows of either table of faults
    for at, entry in enumerate(entries):
        if not entry["name"]:
            raise Bad("BadEntry", at)
    seen = set()
    for at, entry in enumerate(entries):
        if upper(entry["name"]) in seen:
            raise Bad("Twin", at)
        seen.add(upper(entry["name"]))
    return entries


def cut(name: bytes) -> bytes:  # Small directories, table of an entry, name
    for at, byte in enumerate(name):
        if byte < 32:
            return name[:at]
    return name


def small_entry(raw: bytes, form: str) -> Fields:  # Small directories, table of an entry
    name, attributes = raw[0:10], raw[25]
    if form == "1280":
        attributes = sum(2 ** i for i in range(10) if name[i] >= 128)
        name = bytes(byte % 128 for byte in name)
    return Fields(name=cut(name), load=num(raw, 10, 4), exec=num(raw, 14, 4), length=num(raw, 18, 4), address=num(raw, 22, 3),
                attributes=attributes)


def read_small(data: bytes, form: str) -> Tuple[List[Fields], int]:  # Small directories
    size, places, parent = (2048, 77, 2010) if form == "2048" else (1280, 47, 1238)
    if data[1:5] not in (b"Hugo", b"Nick") or data[size - 5:size - 1] != data[1:5]:
        raise Bad("Magic")
    if data[0] != data[size - 6]:
        raise Bad("Sequence")
    raws = [data[5 + 26 * i:31 + 26 * i] for i in range(places)]
    count = next((i for i in range(places) if raws[i][0] == 0), places)
    if form == "2048":
        end = 5 + 26 * count
        whole = end - end % 4
        a = fold(fold(fold(0, words(data, 0, whole)), data[whole:end]), words(data, 2008, 2044))
        if xor_bytes(a) != data[2047]:
            raise Bad("Check")
    return check_names([small_entry(raw, form) for raw in raws[:count]]), num(data, parent, 3)


def read_big(data: bytes) -> Tuple[List[Fields], int]:  # Big directories; the tables of fields, then that of faults, row by row
    size = len(data)
    if not is_big_size(size):
        raise Bad("Size")
    if data[1:8] != b"\0\0\0SBPr" or data[size - 8:size - 4] != b"oven":
        raise Bad("Magic")
    if data[0] != data[size - 4]:
        raise Bad("Sequence")
    n, count, heap = num(data, 8, 4), num(data, 16, 4), num(data, 20, 4)
    starts = [28 + space for space in ((n + 4) // 4 * 4, (n + 3) // 4 * 4) if 28 + space + 28 * count + heap <= size - 8]
    if num(data, 12, 4) != size or heap % 4 or not starts:
        raise Bad("Size")
    tail = [num(data, size - 8, 4), *data[size - 4:size - 1]]
    right = [at for at in starts if xor_bytes(fold(fold(0, words(data, 0, at + 28 * count + heap)), tail)) == data[size - 1]]
    if not right:
        raise Bad("Check")
    entries, names = [], data[right[0] + 28 * count:right[0] + 28 * count + heap]
    for at in range(right[0], right[0] + 28 * count, 28):
        load, execution, length, address, attributes, name_length, offset = words(data, at, at + 28)
        name = names[offset:offset + name_length]
        if not 1 <= name_length <= 255 or offset + name_length > heap or min(name) < 32:
            name = b""  # check_names calls it a BadEntry
        entries.append(Fields(name=name, load=load, exec=execution, length=length, address=address, attributes=attributes))
    return check_names(entries), num(data, 24, 4)


# ---- the walk


class Disc:
    def __init__(self, data: bytes) -> None:
        kind, found = kind_of(data)
        need = found * 256 if isinstance(found, int) else found.size  # Kinds, third column
        if len(data) < need:
            raise Bad("Short", need, len(data))
        self.data = data
        self.map: Union[NewMap, OldMap] = OldMap(data, kind, found) if isinstance(found, int) else NewMap(data, kind, found)
        self.claimed = set(self.map.claimed)
        self.owned: Set[int] = set()
        self.root = Fields(name=b"$", path="$", attributes=8, address=self.map.root, length=self.map.root_size)
        self.files: List[Fields] = []
        self.directories = [self.root]
        self.claim(self.root)
        for directory in self.directories:  # Walk, 2: the list grows while it is read
            self.read(directory)
        sector = self.map.misplaced(self.owned)
        if sector is not None:
            raise Bad("MapPlace", sector)

    @property
    def new_map(self) -> NewMap:
        assert isinstance(self.map, NewMap)
        return self.map

    def claim(self, entry: Fields) -> None:  # Walk, after the steps
        if entry["attributes"] & 8 and self.map.form != "big":
            entry["length"] = int(self.map.form)
        entry["sectors"] = self.map.sectors(entry["address"], entry["length"])
        if entry["sectors"] is None:
            raise Bad("Place", entry["path"])
        if self.claimed & set(entry["sectors"]):
            raise Bad("Overlap", entry["path"])
        self.claimed |= set(entry["sectors"])
        if entry["sectors"]:
            self.owned.add(entry["address"] // 256)

    def content(self, entry: Fields) -> bytes:
        size = self.map.sector
        return b"".join(self.data[size * at:size * (at + 1)] for at in entry["sectors"])[:entry["length"]]

    def read(self, directory: Fields) -> None:  # Walk, 3
        data = self.content(directory)
        try:
            found = read_big(data) if self.map.form == "big" else read_small(data, self.map.form)
        except Bad as bad:
            raise Bad("Directory", directory["path"], *bad.args) from None
        directory["entries"], directory["parent field"] = found
        for entry in directory["entries"]:
            entry["path"] = directory["path"] + "." + spelled(entry["name"])
            entry["parent"] = directory
            self.claim(entry)
            (self.directories if entry["attributes"] & 8 else self.files).append(entry)

    def counts(self) -> str:  # Counts
        def unsorted(directory: Fields) -> bool:
            names = [upper(entry["name"]) for entry in directory["entries"]]
            return any(not one < other for one, other in zip(names, names[1:]))

        sizes = [size for start, size in self.map.holes]
        wrong = sum(one["parent field"] != one.get("parent", one)["address"] for one in self.directories)
        return ("files %d dirs %d lost %d holes %d free %d unsorted %d parents %d\nok\nfree %d %d\nok\n" % (
            len(self.files), len(self.directories), self.map.lost(self.owned, self.claimed), len(sizes), sum(sizes),
            sum(map(unsorted, self.directories)), wrong, sum(sizes), max(sizes, default=0)))


def spelled(name: bytes) -> str:  # Walk, last sentence
    return "".join(chr(byte) if 33 <= byte <= 126 and chr(byte) not in '$&%@\\^:.#*"|' else "%%%02X" % byte for byte in name)


def line(entry: Fields) -> str:
    length = "dir" if entry["attributes"] & 8 else entry["length"]
    return "%s %08x %08x %08x %s" % (entry["path"], entry["attributes"], entry["load"], entry["exec"], length)


def main(image: str, path: Optional[str] = None) -> int:
    """The status: 3 for an image that isn't accepted, 1 for a path that is no file."""
    with open(image, "rb") as file:
        data = file.read()
    try:
        disc = Disc(data)
    except Bad as bad:
        print("bad-image", *bad.args)
        return 3
    if path is None:
        print(disc.counts(), end="")
        for entry in disc.directories[1:]:
            print(line(entry))
        for entry in disc.files:
            print(line(entry), hashlib.sha256(disc.content(entry)).hexdigest())
        return 0
    found = [entry for entry in disc.files if upper(entry["path"].encode()) == upper(path.encode())]
    for entry in found:
        sys.stdout.buffer.write(disc.content(entry))
    return 0 if found else 1


if __name__ == "__main__":
    if len(sys.argv) not in (2, 3):
        sys.exit(__doc__)
    signal.signal(signal.SIGPIPE, signal.SIG_DFL)  # a pager may close its end
    try:
        sys.exit(main(*sys.argv[1:]))
    except OSError as error:
        sys.exit(str(error))
