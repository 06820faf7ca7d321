# SPDX-License-Identifier: MIT
"""Builds images of FileCore discs from a description, and says what has to be answered over them.

A volume is described by its format, the space that each object takes, and its directories. The image and the answers come from
this description alone; tools/reference/read_image.py reads the image without it. No code is shared with fcore.
"""
from __future__ import annotations

import hashlib
from typing import TYPE_CHECKING, Callable, Dict, Iterator, List, Optional, Set, Tuple, TypeVar, Union

from tools.reference.filecore import (BOOT_BLOCK, BOOT_SIZE, IS_DIRECTORY, NOT_DIRECTORY, NOT_FOUND, SMALL_SIZE, UNIT, Geometry,
                                      Record, big_directory_check, boot_check, entry_line, folded, head_space, name_space,
                                      old_map_check, padded, put, small_directory_check, spelled_path, zone_check)

if TYPE_CHECKING:
    from tools.images.large import SparseFile

Part = Tuple[int, Optional[int]]  # of a zone: bits, and identifier; None for a hole
Some = TypeVar("Some", bound="Entry")

# ---- objects


class Entry:
    """What a directory says of an object. `address` None: the object takes no space, and 0 is written."""

    is_directory: bool
    data: bytes  # of a file
    length: int  # of a file
    size: int  # of a big directory

    def __init__(self, name: bytes, address: Optional[int], attributes: int, load: int, execution: int) -> None:
        self.name, self.address, self.attributes, self.load, self.execution = name, address, attributes, load, execution
        self.last = 0  # in directories of 1280 bytes, the byte that is carried unread


class File(Entry):
    is_directory = False

    def __init__(self, name: bytes, data: bytes, address: Optional[int] = None, attributes: int = 3, load: int = 0,
                 execution: int = 0) -> None:
        super().__init__(name, address, attributes, load, execution)
        self.data = data
        self.length = len(data)  # another number where a damaged entry tells one


class Directory(Entry):
    is_directory = True

    def __init__(self, name: bytes, address: int, attributes: int = 8, load: int = 0, execution: int = 0) -> None:
        super().__init__(name, address, attributes, load, execution)
        self.entries: List[Entry] = []  # in stored order
        self.holder = self
        self.parent: Optional[int] = None  # a parent field that isn't the holder's address
        self.title = name
        self.head_name = name
        self.sequence = 0
        self.word: Optional[bytes] = None  # `Hugo` or `Nick`, where it isn't the format's
        self.size = 2048  # of a big directory
        self.form = 1  # of a big directory's head name: 1 or 2
        self.heap_tail = 0  # bytes of the heap after the names
        self.spare_words = 0  # what comes after the heap
        self.guards_form = False  # of a big directory: whether the word after the heap keeps the second form from being read as the first
        self.reserved = b""  # what the reserved bytes begin with

    def insert(self, entry: Some) -> Some:
        """In the place of a new entry: before the first greater name."""
        at = next((n for n, other in enumerate(self.entries) if folded(other.name) > folded(entry.name)), len(self.entries))
        self.entries.insert(at, entry)
        return entry

    def append(self, entry: Some) -> Some:
        self.entries.append(entry)
        return entry

    def parent_field(self) -> Optional[int]:
        return self.holder.address if self.parent is None else self.parent


def small_entry(entry: Entry, form: str) -> bytearray:
    raw = bytearray(26)
    raw[0:10] = padded(entry.name, 10)
    put(raw, 10, 4, entry.load)
    put(raw, 14, 4, entry.execution)
    put(raw, 18, 4, SMALL_SIZE[form] if entry.is_directory else entry.length)
    put(raw, 22, 3, entry.address or 0)
    if form == "D":
        raw[25] = entry.attributes
    else:
        for bit in range(10):
            raw[bit] |= (entry.attributes >> bit & 1) << 7
        raw[25] = entry.last
    return raw


def small_directory(directory: Directory, form: str) -> bytearray:
    """A directory of 2048 bytes (`D`, also on E and F) or 1280 bytes (`L`)."""
    block = bytearray(SMALL_SIZE[form])
    word = directory.word or (b"Nick" if form == "D" else b"Hugo")
    name, title, parent = (2032, 2013, 2010) if form == "D" else (1228, 1241, 1238)
    for at, entry in enumerate(directory.entries):
        block[5 + 26 * at:31 + 26 * at] = small_entry(entry, form)
    block[0] = block[-6] = directory.sequence
    block[1:5] = block[-5:-1] = word
    block[name:name + 10] = padded(directory.head_name, 10)
    block[title:title + 19] = padded(directory.title, 19)
    put(block, parent, 3, directory.parent_field())
    reserved = 2008 if form == "D" else 1260
    block[reserved:reserved + len(directory.reserved)] = directory.reserved
    if form == "D":
        block[-1] = small_directory_check(block, 5 + 26 * len(directory.entries))
    return block


def big_heap(directory: Directory) -> Tuple[bytearray, List[int]]:
    """The heap, and the place of every name in it."""
    heap, places = bytearray(), []
    for entry in directory.entries:
        places.append(len(heap))
        heap += padded(entry.name, name_space(entry.name))
    return heap + bytes(directory.heap_tail), places


def big_directory(directory: Directory) -> bytearray:
    block = bytearray(directory.size)
    heap, places = big_heap(directory)
    entries = 28 + head_space(directory.form, directory.head_name)
    names = entries + 28 * len(directory.entries)
    end = names + len(heap)
    block[0] = block[-4] = directory.sequence
    block[4:8] = b"SBPr"
    fields = (len(directory.head_name), directory.size, len(directory.entries), len(heap), directory.parent_field())
    for at, field in enumerate(fields):
        put(block, 8 + 4 * at, 4, field)
    block[28:entries] = padded(directory.head_name, entries - 28)
    for at, (entry, place) in enumerate(zip(directory.entries, places)):
        length = entry.size if entry.is_directory else entry.length
        words = (entry.load, entry.execution, length, entry.address or 0, entry.attributes, len(entry.name), place)
        for n, word in enumerate(words):
            put(block, entries + 28 * at + 4 * n, 4, word)
    block[names:end] = heap
    if directory.spare_words:
        put(block, end, 4, directory.spare_words)
    block[-8:-4] = b"oven"
    block[-3:-3 + len(directory.reserved)] = directory.reserved
    block[-1] = big_directory_check(block, end)
    if directory.guards_form and directory.form == 2 and end + 12 <= len(block) and big_directory_check(block, end + 4) == block[-1]:
        block[end] ^= 1  # or it would be read in the first form
    return block


# ---- answers


class Volume:
    """What volumes over old and new maps have in common: the tree, and what has to be answered."""

    root: Directory
    form: str

    def hole_lengths(self) -> List[int]:
        raise NotImplementedError

    def lost(self) -> int:
        raise NotImplementedError

    def image(self) -> bytearray:
        raise NotImplementedError

    def directories(self) -> List[Directory]:
        found = [self.root]
        for directory in found:
            found += [entry for entry in directory.entries if isinstance(entry, Directory)]
        return found

    def objects(self) -> List[Entry]:
        return [self.root] + [entry for directory in self.directories() for entry in directory.entries]

    def path_of(self, directory: Directory, entry: Optional[Entry] = None) -> str:
        names = [entry.name] if entry else []
        while directory is not self.root:
            names.insert(0, directory.name)
            directory = directory.holder
        return spelled_path(names)

    def directory_bytes(self, directory: Directory) -> bytearray:
        return big_directory(directory) if self.form == "big" else small_directory(directory, self.form)

    def is_in_one_piece(self, entry: Entry) -> bool:
        """Whether an object's bytes lie one after the other."""
        return True

    def content(self, entry: Entry) -> bytes:
        return self.directory_bytes(entry) if isinstance(entry, Directory) else entry.data

    def free_line(self) -> str:
        holes = self.hole_lengths()
        return "free %d %d\n" % (sum(holes), max(holes, default=0))

    def check_line(self) -> str:
        directories = self.directories()
        objects = self.objects()
        unsorted = sum([folded(e.name) for e in d.entries] != sorted(folded(e.name) for e in d.entries) for d in directories)
        parents = sum(d.parent is not None and d.parent != d.holder.address for d in directories)
        return "files %d dirs %d lost %d holes %d free %d unsorted %d parents %d\n" % (
            len(objects) - len(directories), len(directories), self.lost(), len(self.hole_lengths()),
            sum(self.hole_lengths()), unsorted, parents)

    def cat_lines(self, directory: Directory) -> str:
        entries = sorted(directory.entries, key=lambda entry: folded(entry.name))
        return "".join(entry_line(e.name, e.attributes, e.load, e.execution, None if e.is_directory else len(e.data))
                       for e in entries)

    def directory_cases(self, directory: Directory) -> Iterator[Tuple[str, str]]:
        """Lines over a directory and the files in it, each with its reply."""
        path = self.path_of(directory)
        yield "cat " + path, self.cat_lines(directory) + "ok\n"
        yield "load " + path, IS_DIRECTORY
        yield "digest " + path + ".none-such", NOT_FOUND
        for entry in directory.entries:
            if not entry.is_directory:
                yield from self.file_cases(self.path_of(directory, entry), entry)

    @staticmethod
    def file_cases(path: str, entry: Entry) -> Iterator[Tuple[str, str]]:
        yield "digest " + path, hashlib.sha256(entry.data).hexdigest() + "\nok\n"
        yield "load " + path.lower(), entry.data.hex() + "\nok\n"
        if len(entry.data) < 2:
            yield "cat " + path, NOT_DIRECTORY
            yield "load " + path + ".X", NOT_DIRECTORY

    def cases(self) -> Iterator[Tuple[str, str]]:
        """All lines with their replies: counts, and every directory and file."""
        yield "check", self.check_line() + "ok\n"
        yield "free", self.free_line() + "ok\n"
        for directory in self.directories():
            yield from self.directory_cases(directory)


# ---- old maps


class OldVolume(Volume):
    """A D disc, or an L disc of so many units of 256 bytes. Space is given out from the front, in units."""

    def __init__(self, form: str, units: int) -> None:
        self.form, self.units = form, units
        self.step = 4 if form == "D" else 1
        self.map_units = 4 if form == "D" else 2
        self.root = Directory(b"$", 4 if form == "D" else 2)
        self.next = self.map_units + self.units_of(SMALL_SIZE[form])
        self.holes: List[Tuple[int, int]] = []
        self.lost_units = 0
        self.check_start = 255
        self.name, self.identifier, self.option = b"", 0, 0

    def units_of(self, length: int) -> int:
        return -(-length // (UNIT * self.step)) * self.step

    def take(self, length: int) -> int:
        start = self.next
        self.next += self.units_of(length)
        return start

    def hole(self, units: int) -> None:
        self.holes.append((self.next, units))
        self.next += units

    def lose(self, units: int) -> None:
        self.lost_units += units
        self.next += units

    def rest_is_hole(self) -> None:
        if self.next < self.units:
            self.hole(self.units - self.next)

    def file(self, name: bytes, data: bytes, **fields: int) -> File:
        return File(name, data, self.take(len(data)) if data else None, **fields)

    def directory(self, holder: Directory, name: bytes, **fields: int) -> Directory:
        made = Directory(name, self.take(SMALL_SIZE[self.form]), **fields)
        made.holder = holder
        return made

    def hole_lengths(self) -> List[int]:
        return [UNIT * length for start, length in self.holes]

    def lost(self) -> int:
        return UNIT * (self.lost_units + self.units - self.next)

    def map_bytes(self) -> bytearray:
        block = bytearray(512)
        for at, (start, length) in enumerate(self.holes):
            put(block, 3 * at, 3, start)
            put(block, 256 + 3 * at, 3, length)
        block[247:252], block[502:507] = self.name[0::2].ljust(5, b"\0"), self.name[1::2].ljust(5, b"\0")
        put(block, 252, 3, self.units)
        put(block, 507, 2, self.identifier)
        block[509], block[510] = self.option, 3 * len(self.holes)
        seal_old_map(block, self.check_start)
        return block

    def image(self) -> bytearray:
        disc = bytearray(self.units * UNIT)
        disc[0:512] = self.map_bytes()
        for entry in self.objects():
            content = self.content(entry)
            if content and entry.address is not None:
                disc[entry.address * UNIT:entry.address * UNIT + len(content)] = content
        return disc


def seal_old_map(block: bytearray, start: int = 255) -> None:
    block[255] = old_map_check(block[0:256], start)
    block[511] = old_map_check(block[256:512], start)


# ---- new maps


class NewVolume(Volume):
    """A volume with zones. `runs` has for each zone the runs in order: length and identifier, None for a hole."""

    def __init__(self, raw: bytearray, has_boot: bool, cross_checks: Optional[List[int]] = None) -> None:
        self.raw = raw
        record = Record(raw)
        assert record.fault() is None, record.fault()
        self.shape = shape = Geometry(record)
        self.form = "big" if record.version else "D"
        self.has_boot = has_boot
        self.root = Directory(b"$", record.root)
        self.runs: List[List[Part]] = [[(shape.end(zone) - shape.first(zone), None)] for zone in range(shape.zones)]
        self.cross_checks = cross_checks or [0xFF] + [0] * (shape.zones - 1)
        self.next_identifier = 3
        self.extents: Dict[int, List[Tuple[int, int]]] = {}  # of all identifiers, found anew for each image
        self.past_end = 0  # the bits that come after the last map bit of each zone
        self.high_bits = 0  # what holes have in the bits of their fields above the distance

    def take(self, identifier: int, zone: int, bits: int, skip: int = 0) -> None:
        """Gives the identifier so many bits of the first long enough hole of the zone, after `skip` bits of it."""
        runs = self.runs[zone]
        at = next(n for n, (length, owner) in enumerate(runs) if owner is None and length >= bits + skip)
        rest = runs[at][0] - bits - skip
        parts: List[Part] = [(skip, None), (bits, identifier), (rest, None)]
        runs[at:at + 1] = [part for part in parts if part[0]]

    def split_hole(self, zone: int, bits: int) -> None:
        """Makes two touching holes of the last one of a zone."""
        length, owner = self.runs[zone].pop()
        assert owner is None
        self.runs[zone] += [(bits, None), (length - bits, None)]

    def new_identifier(self) -> int:
        self.next_identifier += 1
        return self.next_identifier - 1

    def place(self, length: int, pieces: Optional[List[Tuple[int, int]]] = None, identifier: Optional[int] = None) -> int:
        """A new identifier over the pieces, each a zone and bits, or over one run in the first zone with room."""
        identifier = identifier or self.new_identifier()
        bits = self.shape.units(length)
        if pieces is None:
            room = [max((n for n, owner in runs if owner is None), default=0) for runs in self.runs]
            pieces = [(next(zone for zone, most in enumerate(room) if most >= bits), bits)]
        for zone, count in pieces:
            self.take(identifier, zone, count)
        return identifier

    def file(self, name: bytes, data: bytes, pieces: Optional[List[Tuple[int, int]]] = None, low: int = 0,
             identifier: Optional[int] = None, **fields: int) -> File:
        address = self.place(len(data), pieces, identifier) * 256 + low if data else None
        return File(name, data, address, **fields)

    def directory(self, holder: Directory, name: bytes, pieces: Optional[List[Tuple[int, int]]] = None, size: int = 2048,
                  low: int = 0, **fields: int) -> Directory:
        made = Directory(name, self.place(size, pieces) * 256 + low, **fields)
        made.size, made.holder = size, holder
        return made

    def hole_lengths(self) -> List[int]:
        return [bits * self.shape.bit_bytes for runs in self.runs for bits, owner in runs if owner is None]

    def owned(self) -> Set[int]:
        return {entry.address // 256 for entry in self.objects() if entry.address and (entry.is_directory or entry.data)} | {1, 2}

    def lost(self) -> int:
        owned = self.owned()
        return sum(bits * self.shape.bit_bytes for runs in self.runs for bits, owner in runs
                   if owner is not None and owner not in owned)

    # the image

    def zone_sector(self, zone: int) -> bytearray:
        shape = self.shape
        bits, at, hole_before = 0, shape.first(zone), 8
        links = {}
        for length, owner in self.runs[zone]:
            bits |= 1 << (at + length - 1)
            if owner is None:
                links[hole_before] = at - hole_before
                hole_before = at
            else:
                bits |= owner << at
            at += length
        assert at == shape.end(zone)
        bits |= self.past_end << at
        link = links.pop(8, 0)
        for hole, distance in links.items():
            bits |= distance << hole
        for hole in [*links, hole_before]:
            bits |= self.high_bits << (hole + 15)
        sector = bytearray((bits & (1 << 8 * shape.sector) - 1).to_bytes(shape.sector, "little"))
        put(sector, 1, 2, 0x8000 | link)
        sector[3] = self.cross_checks[zone]
        if zone == 0:
            sector[4:64] = self.raw
        sector[0] = zone_check(sector)
        return sector

    def find_extents(self) -> None:
        """The bytes of every identifier's runs, from its home zone round: places and lengths."""
        shape = self.shape
        found: Dict[int, List[Tuple[int, int, int]]] = {}
        for zone, runs in enumerate(self.runs):
            bit = shape.base(zone)
            for length, owner in runs:
                if owner is not None:
                    turn = (zone - shape.home(owner)) % shape.zones
                    found.setdefault(owner, []).append((turn, bit * shape.bit_bytes, length * shape.bit_bytes))
                bit += length
        self.extents = {owner: [(start, length) for _, start, length in sorted(runs)] for owner, runs in found.items()}

    def pieces_of(self, address: Optional[int], length: int) -> Iterator[Tuple[int, int]]:
        """Where the bytes of an object lie: places and lengths."""
        identifier, low = divmod(address or 0, 256)
        skipped = (low - 1) * self.shape.share if low else 0
        for start, room in self.extents[identifier]:
            passed = min(skipped, room)
            skipped -= passed
            count = min(length, room - passed)
            if count:
                yield start + passed, count
            length -= count
        assert length == 0

    def is_in_one_piece(self, entry: Entry) -> bool:
        return len(list(self.pieces_of(entry.address, len(self.content(entry))))) < 2

    def write_object(self, disc: Union[bytearray, SparseFile], entry: Entry) -> None:
        content = bytes(self.content(entry))
        done = 0
        for start, count in self.pieces_of(entry.address, len(content)) if content else ():
            disc[start:start + count] = content[done:done + count]
            done += count

    def image(self) -> bytearray:
        disc = bytearray(self.shape.record.size)
        self.write(disc)
        return disc

    def write(self, disc: Union[bytearray, SparseFile]) -> None:
        """Fills a disc of bytes 0, which takes bytes in slices."""
        shape = self.shape
        self.find_extents()
        if self.has_boot:
            disc[BOOT_BLOCK:BOOT_BLOCK + BOOT_SIZE] = boot_block(self.raw)
        copy = b"".join(self.zone_sector(zone) for zone in range(shape.zones))
        start = shape.map_sector * shape.sector
        disc[start:start + 2 * len(copy)] = copy + copy
        for entry in self.objects():
            self.write_object(disc, entry)


AnyVolume = Union[OldVolume, NewVolume]
OldOrNew = TypeVar("OldOrNew", OldVolume, NewVolume)


def boot_block(raw: bytearray) -> bytearray:
    block = bytearray(BOOT_SIZE)
    block[0x1C0:0x1C0 + 60] = raw
    block[-1] = boot_check(block)
    return block


def record_bytes(log2_sector: int, idlen: int, log2_bit: int, zones: int, spare: int, root: int, size: int, share: int = 0,
                 version: int = 0, root_size: int = 0, carried: Optional[Dict[int, int]] = None) -> bytearray:
    """The bytes of a record; `carried` is a table of offsets and bytes."""
    raw = bytearray(60)
    raw[0], raw[4], raw[5], raw[9], raw[42] = log2_sector, idlen, log2_bit, zones % 256, zones // 256
    put(raw, 10, 2, spare)
    put(raw, 12, 4, root)
    put(raw, 16, 4, size % (1 << 32))
    put(raw, 36, 4, size >> 32)
    raw[40] = share
    put(raw, 44, 4, version)
    put(raw, 48, 4, root_size)
    for at, byte in (carried or {}).items():
        raw[at] = byte
    return raw


# ---- fresh volumes


def fresh_e(big: bool = False) -> NewVolume:
    others = {"version": 1, "root_size": 2048} if big else {}
    raw = record_bytes(10, 15, 7, 1, 1312, 0x301 if big else 0x203, 819200, carried={1: 5, 2: 2, 3: 2, 6: 1}, **others)
    volume = NewVolume(raw, False)
    volume.take(2, 0, 16 if big else 32)
    if big:
        volume.take(volume.new_identifier(), 0, 16)
    return volume


def fresh_f(big: bool = False) -> NewVolume:
    others = {"version": 1, "root_size": 2048} if big else {}
    raw = record_bytes(10, 15, 6, 4, 1600, 0x301 if big else 0x209, 1638400, carried={1: 10, 2: 2, 3: 4, 6: 1}, **others)
    volume = NewVolume(raw, True)
    volume.take(2, 2, 128 if big else 160)
    volume.take(2, 0, 64)
    if big:
        volume.take(volume.new_identifier(), 2, 32)
    return volume


def fresh_old(form: str) -> OldVolume:
    volume = OldVolume(form, 3200 if form == "D" else 2560)
    volume.rest_is_hole()
    return volume


FRESH_NEW: Dict[str, Callable[[], NewVolume]] = {"E": fresh_e, "F": fresh_f, "E+": lambda: fresh_e(True), "F+": lambda: fresh_f(True)}
FRESH: Dict[str, Callable[[], AnyVolume]] = {
    "E": fresh_e, "F": fresh_f, "D": lambda: fresh_old("D"), "L": lambda: fresh_old("L"), "E+": FRESH_NEW["E+"], "F+": FRESH_NEW["F+"]}
