#!/usr/bin/env python3
# SPDX-License-Identifier: MIT
"""Reads an image of a FileCore disc, and answers a script of reading commands as fcore has to.

usage: tools/run reference/read_image IMAGE < script
A second, independent reading of docs/FORMAT.md for comparisons; it shares no code with fcore. It reads the whole image into
memory and keeps sectors in sets, since it is for small images.
"""
from __future__ import annotations

import hashlib
import re
import sys
from collections import deque
from typing import Dict, Iterator, List, Optional, Set, Tuple, Union

from tools.reference.filecore import (AGREED, BAD_COMMAND, BAD_NAME, BIG_LIMIT, BOOT_BLOCK, BOOT_SIZE, EXISTS, INTO_ITSELF,
                                      IS_DIRECTORY, LOCKED, NOT_DIRECTORY, NOT_EMPTY, NOT_FOUND, NOT_NEW_MAP, NOT_SPELLED, READ_ONLY,
                                      RECORD_SIZE, ROOT_REFUSED, SCRIPT_LIMIT, SMALL_SIZE, UNIT, Geometry, Record,
                                      big_directory_check, boot_check, entry_line, folded, number, old_map_check,
                                      small_directory_check, spelled_path, zone_check)


class Fault(Exception):
    """The first fault of an image: the words of its line."""

    def __str__(self) -> str:
        return "bad-image %s\n" % " ".join(str(word) for word in self.args)


class DirectoryFault(Exception):
    """The first fault of a directory: its name, and the entry's number where it has one."""


# ---- the kind of an image


def boot_record(data: bytes) -> Optional[Record]:
    block = data[BOOT_BLOCK:BOOT_BLOCK + BOOT_SIZE]
    if len(block) < BOOT_SIZE or block[-1] != boot_check(block):
        return None
    record = Record(block[0x1C0:0x1C0 + RECORD_SIZE])
    return None if record.fault() is not None else record


def single_zone_record(sector: bytes) -> Optional[Record]:
    """The record of one whole, sound zone of 1024 bytes."""
    if len(sector) < 1024 or sector[0] != zone_check(sector) or sector[3] != 0xFF:
        return None
    record = Record(sector[4:4 + RECORD_SIZE])
    return record if record.fault() is None and record.log2_sector == 10 and record.zones == 1 else None


def old_units(data: bytes) -> Optional[int]:
    """The units of an old map whose halves are both right."""
    if len(data) < 512:
        return None
    for half in (data[0:256], data[256:512]):
        if half[255] not in (old_map_check(half, 255), old_map_check(half, 0)):
            return None
    return number(data, 252, 3)


def kind_of(data: bytes) -> Tuple[str, Union[int, Record]]:
    """The kind, and its record or its units."""
    record = boot_record(data)
    if record:
        return "Boot", record
    record = single_zone_record(data[0:1024]) or single_zone_record(data[1024:2048])
    if record:
        return "OneZone", record
    units = old_units(data)
    if units == 3200:
        return "D", units
    if units is not None and 7 <= units <= 2560:
        return "L", units
    raise Fault("NoKind")


# ---- maps


class OldMap:
    """The free list of a D or L disc."""

    def __init__(self, data: bytes, kind: str, units: int) -> None:
        self.form = kind
        self.units = units
        self.sector = 1024 if kind == "D" else UNIT
        self.reserved = set(range(1 if kind == "D" else 2))
        self.root = 4 if kind == "D" else 2
        self.root_size = SMALL_SIZE[kind]
        self.holes = self.read_holes(data)
        self.taken = self.reserved | {sector for first, end in self.holes for sector in range(first, end)}
        self.free = [(end - first) * self.sector for first, end in self.holes]

    def read_holes(self, data: bytes) -> List[Tuple[int, int]]:
        free_end = data[510]
        if free_end % 3 or free_end > 246:
            raise Fault("Hole", free_end // 3)
        step = self.sector // UNIT
        holes, before = [], len(self.reserved) * step
        for at in range(0, free_end, 3):
            start, length = number(data, at, 3), number(data, 256 + at, 3)
            if not length or start < before or start + length > self.units or start % step or length % step:
                raise Fault("Hole", at // 3)
            before = start + length
            holes.append((start // step, before // step))
        return holes

    def sectors_at(self, address: int, length: int) -> Optional[List[int]]:
        if length == 0:
            return []
        start = address * UNIT
        if start % self.sector or start + length > self.units * UNIT:
            return None
        return list(range(start // self.sector, (start + length - 1) // self.sector + 1))

    def misplaced(self, owned: Set[int]) -> None:
        return None

    def lost(self, owned: Set[int], claimed: Set[int]) -> int:
        return (self.units * UNIT // self.sector - len(claimed)) * self.sector


def runs_of(sector: bytes, zone: int, shape: Geometry) -> List[Tuple[int, int, int]]:
    """The runs of a zone, as start, length and field; a fault where the bits don't spell runs."""
    bits = int.from_bytes(sector, "little")
    start, end, runs = shape.first(zone), shape.end(zone), []

    def is_boundary(bit: int) -> bool:
        return (shape.base(zone) + bit - shape.first(zone)) * shape.bit_bytes % shape.sector == 0

    while start < end:
        rest = bits >> (start + shape.idlen)
        after = start + shape.idlen + (rest & -rest).bit_length()
        if rest == 0 or after > end or not is_boundary(start) or not is_boundary(after):
            raise Fault("Zone", zone, start)
        runs.append((start, after - start, bits >> start & (1 << shape.idlen) - 1))
        start = after
    return runs


def hole_starts(sector: bytes, zone: int, runs: List[Tuple[int, int, int]]) -> Set[int]:
    fields = {start: field for start, length, field in runs}
    place, distance, holes = 8, number(sector, 1, 2) & 0x7FFF, set()
    while distance:
        place += distance
        if place not in fields:
            raise Fault("Zone", zone, place)
        holes.add(place)
        distance = fields[place] & 0x7FFF
    return holes


class NewMap:
    """The map of zones: which sectors are free, and which every identifier has."""

    def __init__(self, data: bytes, kind: str, record: Record) -> None:
        shape = self.shape = Geometry(record)
        self.sector = shape.sector
        zones = self.chosen_copy(data)
        own = Record(zones[0][4:4 + RECORD_SIZE])
        self.check_agreement(record, own)
        self.form = "big" if record.version else "D"
        self.root = own.root
        self.root_size = own.root_size if record.version else SMALL_SIZE["D"]
        self.runs = self.read_runs(zones)
        self.sectors_of = self.read_identifiers()
        first = BOOT_BLOCK // self.sector
        boot = set(range(first, -(-(BOOT_BLOCK + BOOT_SIZE) // self.sector))) if kind == "Boot" else set()
        copies = set(range(shape.map_sector, shape.map_sector + 2 * shape.zones))
        self.twice_reserved = boot & copies
        self.reserved = self.taken = boot | copies
        self.free = [length * shape.bit_bytes for zone, start, length, identifier in self.runs if identifier is None]
        self.holes = self.free

    def chosen_copy(self, data: bytes) -> List[bytes]:
        wrong = []
        for copy in (0, 1):
            first = self.shape.map_sector + copy * self.shape.zones
            zones = [data[at * self.sector:(at + 1) * self.sector] for at in range(first, first + self.shape.zones)]
            fault = next((n for n, zone in enumerate(zones) if zone[0] != zone_check(zone)), None)
            total = 0
            for zone in zones:
                total ^= zone[3]
            if fault is None and total == 0xFF:
                return zones
            wrong.append(len(zones) if fault is None else fault)
        raise Fault("Copies", *wrong)

    @staticmethod
    def check_agreement(record: Record, own: Record) -> None:
        for at in AGREED:
            mask = 15 if at == 40 else 255
            if (record.raw[at] ^ own.raw[at]) & mask:
                raise Fault("Differs", at)
        if own.root_fault() is not None:
            raise Fault("Bad", own.root_fault())

    def read_runs(self, zones: List[bytes]) -> List[Tuple[int, int, int, Optional[int]]]:
        """All runs, as zone, disc map bit, length and identifier; None stands for a hole."""
        found = []
        for zone, sector in enumerate(zones):
            runs = runs_of(sector, zone, self.shape)
            holes = hole_starts(sector, zone, runs)
            shift = self.shape.base(zone) - self.shape.first(zone)
            found += [(zone, start + shift, length, None if start in holes else field) for start, length, field in runs]
        return found

    def sectors_in(self, start: int, length: int) -> range:
        return range(start * self.shape.bit_bytes // self.sector, (start + length) * self.shape.bit_bytes // self.sector)

    def read_identifiers(self) -> Dict[int, List[int]]:
        """The sectors of each identifier, from its home zone round to the zone before it."""
        found: Dict[int, List[Tuple[int, int, int]]] = {}
        for zone, start, length, identifier in self.runs:
            if identifier is not None:
                turn = (zone - self.shape.home(identifier)) % self.shape.zones
                found.setdefault(identifier, []).append((turn, start, length))
        return {identifier: [sector for turn, start, length in sorted(runs) for sector in self.sectors_in(start, length)]
                for identifier, runs in found.items()}

    def sectors_at(self, address: int, length: int) -> Optional[List[int]]:
        if length == 0:
            return []
        identifier, low = divmod(address, 256)
        if not 2 <= identifier < self.shape.id_limit:
            return None
        skipped = (low - 1) * self.shape.share // self.sector if low else 0
        wanted = -(-length // self.sector)
        sectors = self.sectors_of.get(identifier, [])[skipped:skipped + wanted]
        return sectors if len(sectors) == wanted else None

    def misplaced(self, owned: Set[int]) -> Optional[int]:
        """The least sector of map and boot block that lies in a hole, in an object's identifier or in both of them."""
        movable = {sector for zone, start, length, identifier in self.runs if identifier is None or identifier in owned
                   for sector in self.sectors_in(start, length)}
        return min(self.reserved & movable | self.twice_reserved, default=None)

    def lost(self, owned: Set[int], claimed: Set[int]) -> int:
        return sum(length * self.shape.bit_bytes for zone, start, length, identifier in self.runs
                   if identifier is not None and identifier not in owned and identifier not in (1, 2))


# ---- directories


class Entry:
    """An object, as the directory that holds it tells."""

    def __init__(self, name: bytes, attributes: int, load: int, execution: int, length: int, address: int) -> None:
        self.name, self.attributes, self.load, self.execution = name, attributes, load, execution
        self.length, self.address = length, address
        self.path: List[bytes] = []
        self.sectors: List[int] = []
        self.entries: List[Entry] = []
        self.parent, self.holder = 0, self

    def is_directory(self) -> bool:
        return bool(self.attributes & 8)


def cut_name(raw: bytes) -> bytes:
    """A name ends before its first byte below 32."""
    return raw[:next((at for at, byte in enumerate(raw) if byte < 32), len(raw))]


def small_entry(raw: bytes, form: str) -> Entry:
    attributes = raw[25]
    name = raw[:10]
    if form == "L":
        attributes = sum((byte >> 7) << at for at, byte in enumerate(name))
        name = bytes(byte & 127 for byte in name)
    return Entry(cut_name(name), attributes, number(raw, 10, 4), number(raw, 14, 4), number(raw, 18, 4), number(raw, 22, 3))


def read_small(block: bytes, form: str) -> Tuple[List[Entry], int]:
    """The entries and the parent of a directory of 2048 or 1280 bytes."""
    size = len(block)
    if block[1:5] not in (b"Hugo", b"Nick") or block[1:5] != block[size - 5:size - 1]:
        raise DirectoryFault("Magic")
    if block[0] != block[size - 6]:
        raise DirectoryFault("Sequence")
    places = [5 + 26 * at for at in range(47 if form == "L" else 77)]
    used = next((count for count, at in enumerate(places) if block[at] == 0), len(places))
    if form != "L" and block[-1] != small_directory_check(block, 5 + 26 * used):
        raise DirectoryFault("Check")
    entries = [small_entry(block[at:at + 26], form) for at in places[:used]]
    for at, entry in enumerate(entries):
        if not entry.name:
            raise DirectoryFault("BadEntry", at)
    return entries, number(block, 1238 if form == "L" else 2010, 3)


def big_places(block: bytes) -> Iterator[Tuple[int, int, int]]:
    """For each of the two forms of the head's name with which the parts fit, where entries and heap begin and the heap ends."""
    name, count, heap = number(block, 8, 4), number(block, 16, 4), number(block, 20, 4)
    for space in ((name + 4) // 4 * 4, (name + 3) // 4 * 4):
        entries = 28 + space
        end = entries + 28 * count + heap
        if heap % 4 == 0 and end + 8 <= len(block):
            yield entries, entries + 28 * count, end


def big_entry(block: bytes, at: int, heap: int, end: int) -> Entry:
    load, execution, length, address, attributes, size, place = words_at(block, at, 7)
    start = heap + place
    name = block[start:start + size] if start + size <= end else b""
    if not 1 <= size <= 255 or len(name) != size or min(name) < 32:
        name = b""
    return Entry(name, attributes, load, execution, length, address)


def words_at(block: bytes, at: int, count: int) -> List[int]:
    return [number(block, at + 4 * n, 4) for n in range(count)]


def read_big(block: bytes) -> Tuple[List[Entry], int]:
    if len(block) % 2048 or not 2048 <= len(block) <= BIG_LIMIT:
        raise DirectoryFault("Size")
    if block[4:8] != b"SBPr" or block[-8:-4] != b"oven" or block[1:4] != bytes(3):
        raise DirectoryFault("Magic")
    if block[0] != block[-4]:
        raise DirectoryFault("Sequence")
    fitting = list(big_places(block))
    if number(block, 12, 4) != len(block) or not fitting:
        raise DirectoryFault("Size")
    right = [places for places in fitting if big_directory_check(block, places[2]) == block[-1]]
    if not right:
        raise DirectoryFault("Check")
    first, heap, end = right[0]
    entries = [big_entry(block, at, heap, end) for at in range(first, heap, 28)]
    for at, entry in enumerate(entries):
        if not entry.name:
            raise DirectoryFault("BadEntry", at)
    return entries, number(block, 24, 4)


def check_twins(entries: List[Entry]) -> None:
    seen = set()
    for at, entry in enumerate(entries):
        if folded(entry.name) in seen:
            raise DirectoryFault("Twin", at)
        seen.add(folded(entry.name))


# ---- a whole disc


class Disc:
    """An image that opened: its map, its root, and all directories in the order in which they were found."""

    def __init__(self, data: bytes) -> None:
        kind, found = kind_of(data)
        need = found * UNIT if isinstance(found, int) else found.size
        if len(data) < need:
            raise Fault("Short", need, len(data))
        self.data = data
        self.map: Union[OldMap, NewMap] = OldMap(data, kind, found) if isinstance(found, int) else NewMap(data, kind, found)
        self.claimed = set(self.map.taken)
        self.owned: Set[int] = set()  # identifiers that objects have
        self.files = 0
        self.root = Entry(b"$", 8, 0, 0, self.map.root_size, self.map.root)
        self.directories: List[Entry] = []
        self.walk()
        sector = self.map.misplaced(self.owned - {1, 2})
        if sector is not None:
            raise Fault("MapPlace", sector)

    def size_of(self, entry: Entry) -> int:
        return entry.length if self.map.form == "big" or not entry.is_directory() else SMALL_SIZE[self.map.form]

    def claim(self, entry: Entry) -> None:
        path = spelled_path(entry.path)
        sectors = self.map.sectors_at(entry.address, self.size_of(entry))
        if sectors is None:
            raise Fault("Place", path)
        if not self.claimed.isdisjoint(sectors):
            raise Fault("Overlap", path)
        self.claimed.update(sectors)
        entry.sectors = sectors
        if sectors:
            self.owned.add(entry.address // 256)

    def content(self, entry: Entry) -> bytes:
        size = self.map.sector
        return b"".join(self.data[at * size:(at + 1) * size] for at in entry.sectors)[:self.size_of(entry)]

    def walk(self) -> None:
        self.claim(self.root)
        waiting = deque([self.root])
        while waiting:
            directory = waiting.popleft()
            self.read_directory(directory)
            self.directories.append(directory)
            for entry in directory.entries:
                entry.path, entry.holder = directory.path + [entry.name], directory
                self.claim(entry)
                if entry.is_directory():
                    waiting.append(entry)
                else:
                    self.files += 1

    def read_directory(self, directory: Entry) -> None:
        block = self.content(directory)
        try:
            found = read_big(block) if self.map.form == "big" else read_small(block, self.map.form)
            directory.entries, directory.parent = found
            check_twins(directory.entries)
        except DirectoryFault as fault:
            raise Fault("Directory", spelled_path(directory.path), *fault.args) from None

    def find(self, names: List[bytes]) -> Tuple[Optional[Entry], str]:
        """The object there, or the refusal."""
        here = self.root
        for name in names:
            if not here.is_directory():
                return None, NOT_DIRECTORY
            found = next((entry for entry in here.entries if folded(entry.name) == folded(name)), None)
            if found is None:
                return None, NOT_FOUND
            here = found
        return here, ""

    def counts(self) -> Tuple[int, ...]:
        def is_sorted(directory: Entry) -> bool:
            names = [folded(entry.name) for entry in directory.entries]
            return all(one < other for one, other in zip(names, names[1:]))

        return (self.files, len(self.directories), self.map.lost(self.owned, self.claimed), len(self.map.holes),
                sum(self.map.free), sum(not is_sorted(one) for one in self.directories),
                sum(one.parent != one.holder.address for one in self.directories))


# ---- scripts

WORD = "[0-9A-Fa-f]{8}"
FORMS = {  # what follows the words that are paths
    "cat": (1, ""), "load": (1, ""), "digest": (1, ""), "cdir": (1, ""), "delete": (1, ""), "rename": (2, ""),
    "free": (0, ""), "check": (0, ""), "compact": (0, ""), "reclaim": (0, ""),
    "save": (1, f" {WORD} {WORD} (-|([0-9A-Fa-f][0-9A-Fa-f])+)"), "create": (1, f" {WORD} {WORD} (0|[1-9][0-9]{{0,9}})"),
    "set": (1, f" {WORD} {WORD} (-|(?=[RWL])R?W?L?)"),
}
READING = ("cat", "load", "digest", "free", "check")
ADDING = ("save", "create", "cdir", "rename")  # a directory gets an entry


def read_path(text: str) -> Optional[List[bytes]]:
    """The names of a path, or None where it isn't one."""
    if not text.startswith("$") or text != "$" and text[1] != ".":
        return None
    names = []
    for word in text.split(".")[1:]:
        if not re.fullmatch(r"([^%]|%[0-9A-Fa-f]{2})+", word) or any(ord(c) in NOT_SPELLED for c in word if c != "%"):
            return None
        name = re.sub(rb"%(..)", lambda match: bytes([int(match[1], 16)]), word.encode())
        if not 1 <= len(name) <= 255 or min(name) < 32:
            return None
        names.append(name)
    return names


def read_line(line: bytes) -> Tuple[str, List[List[bytes]], str]:
    """The command's word, its paths, and the refusal: empty, or the word is."""
    if any(not 32 <= byte <= 126 for byte in line):
        return "", [], BAD_COMMAND
    text = line.decode()
    word = text.split(" ")[0]
    if word not in FORMS:
        return "", [], BAD_COMMAND
    paths, rest = FORMS[word]
    match = re.fullmatch(re.escape(word) + r" ([^ ]+)" * paths + rest, text)
    if not match or word == "create" and int(text.split(" ")[-1]) > 0xFFFFFFFF:
        return "", [], BAD_COMMAND
    names = [name for name in (read_path(match[1 + at]) for at in range(paths)) if name is not None]
    return (word, names, "") if len(names) == paths else ("", [], BAD_NAME)


def lines_of(script: bytes) -> List[bytes]:
    return [line for line in script.split(b"\n") if line and not line.startswith(b"#")]


def file_reply(disc: Disc, word: str, entry: Entry) -> str:
    if entry.is_directory():
        return IS_DIRECTORY
    content = disc.content(entry)
    return "%s\nok\n" % (content.hex() if word == "load" else hashlib.sha256(content).hexdigest())


def change_reply(word: str, path: List[bytes], entry: Entry, read_only: bool) -> str:
    """The refusal, or `ok`: this reader changes nothing, so that a script goes on over the image as it was."""
    if not path:
        return ROOT_REFUSED
    if word == "delete" and entry.attributes & 4:
        return LOCKED
    if word == "delete" and entry.is_directory() and entry.entries:
        return NOT_EMPTY
    return READ_ONLY if read_only else "ok\n"


def adding_reply(disc: Disc, word: str, paths: List[List[bytes]], read_only: bool) -> str:
    """The refusal, or `ok`: of a disc whose directories don't grow, with room for what is added."""
    to, form = paths[-1], disc.map.form
    most = 255 if form == "big" else 10
    if to and (len(to[-1]) > most or any(byte < 33 or byte == 127 or byte in NOT_SPELLED or byte > 127 and form == "L" for byte in to[-1])):
        return BAD_NAME
    entry, refused = disc.find(paths[0])
    if entry is None and word == "rename":
        return refused
    holder, refused = disc.find(to[:-1])
    if holder is None or not holder.is_directory():
        return refused or NOT_DIRECTORY
    there = disc.find(to)[0]
    if word in ("save", "create") and there and (there.is_directory() or there.attributes & 4):
        return IS_DIRECTORY if there.is_directory() else LOCKED
    same = word == "rename" and [folded(name) for name in paths[0]] == [folded(name) for name in to]
    if word in ("cdir", "rename") and there and not same:
        return EXISTS
    if word == "rename" and not paths[0]:
        return ROOT_REFUSED
    if word == "rename" and not same and [folded(name) for name in to[:len(paths[0])]] == [folded(name) for name in paths[0]]:
        return INTO_ITSELF
    if word == "rename" and entry and entry.attributes & 4:
        return LOCKED
    return READ_ONLY if read_only else "ok\n"


def reply(disc: Disc, word: str, paths: List[List[bytes]], read_only: bool) -> str:
    if word == "compact":  # of a disc on which nothing is left to do: this reader changes nothing
        return READ_ONLY if read_only else "ok\n"
    if word == "reclaim":  # of a disc of which nothing goes back
        return READ_ONLY if read_only else "reclaimed 0\nok\n" if isinstance(disc.map, NewMap) else NOT_NEW_MAP
    if word == "free":
        return "free %d %d\nok\n" % (sum(disc.map.free), max(disc.map.free, default=0))
    if word == "check":
        return "files %d dirs %d lost %d holes %d free %d unsorted %d parents %d\nok\n" % disc.counts()
    if word in ADDING:
        return adding_reply(disc, word, paths, read_only)
    entry, refused = disc.find(paths[0])
    if entry is None:
        return refused
    if word in ("delete", "set"):
        return change_reply(word, paths[0], entry, read_only)
    if word != "cat":
        return file_reply(disc, word, entry)
    if not entry.is_directory():
        return NOT_DIRECTORY
    return "".join(entry_line(one.name, one.attributes, one.load, one.execution, None if one.is_directory() else one.length)
                   for one in sorted(entry.entries, key=lambda one: folded(one.name))) + "ok\n"


def answer(data: bytes, script: bytes, read_only: bool = False) -> Tuple[int, str]:
    """The status and the text that fcore has to answer."""
    if len(script) > SCRIPT_LIMIT:
        return 8, ""
    commands = [read_line(line) for line in lines_of(script)]
    try:
        disc = Disc(data)
    except Fault as fault:
        return 3, str(fault)
    replies = [refused or reply(disc, word, paths, read_only) for word, paths, refused in commands]
    is_refused = any(re.fullmatch(r"error [0-9]+ [A-Za-z]+\n", one) for one in replies)
    return int(is_refused), "".join(replies)


if __name__ == "__main__":
    with open(sys.argv[1], "rb") as opened:
        status, text = answer(opened.read(), sys.stdin.buffer.read())
    sys.stdout.write(text)
    sys.exit(status)
