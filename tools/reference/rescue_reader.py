# SPDX-License-Identifier: MIT
"""A second reading of damaged discs, to compare with what `fcdisc rescue` says: by the functions of format_reader.py, relaxed.

It gives up the checks that a reader can do without in the order of docs/RESCUE.md, and shares no code with fcdisc. It leaves aside
what it doesn't do (`Beyond`): discs that have to be guessed, short images, directories that nothing leads to.
"""
from __future__ import annotations

import hashlib
from typing import Dict, Iterator, List, Set, Tuple, Union

from tools.reference import format_reader
from tools.reference.format_reader import Bad, Fields, Record, cut, num, small_entry, spelled, zone_check


class Beyond(Exception):
    """What this reading doesn't do."""


def sectors_of(start: int, size: int, sector: int) -> range:
    return range(start // sector, (start + size) // sector)


class Zones:
    """A new map, each zone from a copy where it is right."""

    def __init__(self, data: bytes, record: Record, has_boot: bool) -> None:
        self.g, self.sector, self.form = record, record.sector, "big" if record.version else "2048"
        self.runs, self.holes, self.doubted = {}, [], set()
        copies = [[data[self.sector * at:self.sector * (at + 1)] for at in range(first, first + record.zones)]
                  for first in (record.map_sector(), record.map_sector() + record.zones)]
        whole = [copy for copy in copies if is_sound(copy)]
        root = None
        for z in range(record.zones):
            right = [copy[z] for copy in copies if is_zone(copy[z])]
            if whole:
                zone = whole[0][z]
            elif right:
                zone = right[0]
                self.doubted |= {z} if len(set(right)) == 2 else set()
            else:
                raise Beyond("a zone that is wrong in both copies")
            self.read_zone(z, zone)
            root = Record(zone[4:64]) if z == 0 else root
        root = root if root.root_fault() is None else record
        self.root, self.root_size = root.root, root.root_size if record.version else 2048
        first = record.map_sector()
        self.reserved = set(range(first, first + 2 * record.zones))
        if has_boot:
            self.reserved |= set(range(0xC00 // self.sector, -(-0xE00 // self.sector)))

    def read_zone(self, z: int, zone: bytes) -> None:
        reader = format_reader.NewMap.__new__(format_reader.NewMap)
        reader.g, reader.sector, reader.runs, reader.holes = self.g, self.sector, {}, []
        try:
            reader.read_zone(z, zone)
        except Bad:
            raise Beyond("a zone that doesn't spell runs") from None
        for identifier, runs in reader.runs.items():
            self.runs.setdefault(identifier, []).extend(runs)

    def place(self, address: int, length: int) -> Tuple[List[int], bool]:
        """The sectors of an object, as many as there are, and whether a doubtful zone has a part in it."""
        identifier, low = address // 256, address % 256
        if identifier < 2:
            return [], False
        home = self.g.home(identifier)
        runs = sorted(self.runs.get(identifier, []), key=lambda run: ((run[0] - home) % self.g.zones, run[1][0]))
        sectors = [at for z, (start, size) in runs for at in sectors_of(start, size, self.sector)]
        skipped = (low - 1) * self.g.share // self.sector if low else 0
        return sectors[skipped:skipped + -(-length // self.sector)], bool(self.doubted) or identifier >= self.g.id_bound

    def is_free(self, sectors: List[int]) -> bool:
        return False


def is_zone(sector: bytes) -> bool:
    """A zone of zeros has a right check too, but is one that was never read."""
    return any(sector) and sector[0] == zone_check(sector)


def is_sound(copy: List[bytes]) -> bool:
    cross = 0
    for zone in copy:
        cross ^= zone[3]
    return cross == 0xFF and all(map(is_zone, copy))


class Places:
    """A disc with an old map, which is needed for free space alone."""

    def __init__(self, data: bytes, form: str, units: int) -> None:
        self.sector, self.form = (1024, "2048") if form == "D" else (256, "1280")
        self.root, self.root_size = (4, 2048) if form == "D" else (2, 1280)
        self.units, self.free = units, set()
        self.reserved = set(range(1 if form == "D" else 2))
        for at in range(0, min(data[510], 246) // 3 * 3, 3):
            start, length = num(data, at, 3) * 256, num(data, 256 + at, 3) * 256
            if length and start + length <= units * 256 and start % self.sector == length % self.sector == 0:
                self.free |= set(sectors_of(start, length, self.sector))

    def place(self, address: int, length: int) -> Tuple[List[int], bool]:
        start = address * 256
        if start % self.sector or start >= self.units * 256:
            return [], False
        end = min(start + length, self.units * 256)
        return list(range(start // self.sector, -(-end // self.sector))), False

    def is_free(self, sectors: List[int]) -> bool:
        return not self.free.isdisjoint(sectors)


def map_of(data: bytes) -> Union[Zones, Places]:
    """The map by the first description that has no guess in it."""
    kind, found = format_reader.kind_of(data)
    need = found.size if kind in ("Boot", "OneZone") else found * 256
    if len(data) < need:
        raise Beyond("a short image")
    if kind in ("Boot", "OneZone"):
        return Zones(data, found, kind == "Boot")
    return Places(data, kind, found)


class Reading:
    """All files of a disc: path, whether each is whole and undoubted, digest."""

    def __init__(self, data: bytes) -> None:
        self.data, self.map = data, map_of(data)
        self.claims, self.files, seen = {}, [], set()
        sure, doubtful = [("$", self.map.root, self.map.root_size, True)], []
        while sure or doubtful:
            path, address, length, is_sure = (sure or doubtful).pop(0)
            sectors, _ = self.map.place(address, length)
            if not sectors or sectors[0] in seen or len(sectors) * self.map.sector < length:
                raise Beyond("a directory that is lost")
            entries, is_right = self.entries(self.bytes_of(sectors, length))
            if not is_sure and not is_right:
                raise Beyond("a damaged directory in a damaged one")
            seen.add(sectors[0])
            self.claim(path, sectors, True)
            for entry in entries:
                inner = path + "." + spelled(entry["name"])
                if entry["attributes"] & 8:
                    size = entry["length"] if self.map.form == "big" else int(self.map.form)
                    (sure if is_right else doubtful).append((inner, entry["address"], size, is_right))
                else:
                    self.files.append((inner, entry, is_right))
        self.rows = self.judged()

    def bytes_of(self, sectors: List[int], length: int) -> bytes:
        size = self.map.sector
        return b"".join(self.data[size * at:size * (at + 1)] for at in sectors)[:length]

    def claim(self, path: str, sectors: List[int], is_sure: bool) -> Set[Tuple[str, bool]]:
        """The doubt that comes from what else has these sectors."""
        others = {self.claims[at] for at in sectors if at in self.claims}
        for at in sectors:
            self.claims.setdefault(at, (path, is_sure))
        return others

    def entries(self, data: bytes) -> Tuple[List[Fields], bool]:
        """The entries, and whether the directory is right."""
        read = format_reader.read_big if self.map.form == "big" else format_reader.read_small
        try:
            found, _ = read(data) if self.map.form == "big" else read(data, self.map.form)
            return found, True
        except Bad as bad:
            if bad.args[0] in ("BadEntry", "Twin"):
                raise Beyond("an entry without a name of its own") from None
            if self.map.form == "big":
                raise Beyond("a damaged big directory") from None
        heads = data[1:5], data[-5:-1]
        if not any(head in (b"Hugo", b"Nick") for head in heads):
            raise Beyond("a directory that is lost")
        return [entry for entry in self.remains(data) if self.can_be(entry)], False

    def remains(self, data: bytes) -> Iterator[Fields]:
        for at in range(5, 5 + 26 * (77 if self.map.form == "2048" else 47), 26):
            raw = data[at:at + 26]
            if raw[0]:
                yield small_entry(raw, self.map.form)
            elif any(raw):
                return

    def can_be(self, entry: Fields) -> bool:
        """Whether an entry of a damaged directory looks right."""
        name, length = cut(entry["name"]), entry["length"]
        is_directory = entry["attributes"] & 8
        if not name or not is_directory and length > self.size():
            return False
        length = int(self.map.form) if is_directory else length
        sectors, _ = self.map.place(entry["address"], length)
        has_place = not length or len(sectors) == -(-length // self.map.sector)
        if isinstance(self.map, Places) and length:
            has_place = has_place and entry["address"] * 256 >= len(self.map.reserved) * self.map.sector
        plain = all(byte > 32 and not 127 <= byte < 160 and byte not in b'$&%@\\^:.#*"|' for byte in name)
        return has_place or plain if 127 not in name else has_place and False

    def size(self) -> int:
        return self.map.g.size if isinstance(self.map, Zones) else self.map.units * 256

    def judged(self) -> Dict[str, Tuple[bool, str]]:
        """Path, whether it is sound, and the digest; the files of right directories have the first claim."""
        rows = {}
        for path, entry, is_right in sorted(self.files, key=lambda file: not file[2]):
            sectors, doubt = self.map.place(entry["address"], entry["length"]) if entry["length"] else ([], False)
            others = self.claim(path, sectors, is_right)
            whole = len(sectors) == -(-entry["length"] // self.map.sector)
            is_sound = (whole and is_right and not doubt and not others and not self.map.is_free(sectors)
                        and self.map.reserved.isdisjoint(sectors))
            for other, other_right in others:
                if is_right and other_right and other in rows:
                    rows[other] = (False, rows[other][1])
            rows[path] = (is_sound, hashlib.sha256(self.bytes_of(sectors, entry["length"])).hexdigest() if whole else "")
        return rows


