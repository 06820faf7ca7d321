# SPDX-License-Identifier: MIT
"""An image as the check of changing commands sees it: what tools/reference/read_image.py finds, the heads of its directories, its owners.

Written from docs/FORMAT.md with Python's standard library alone; no code is shared with fcore.
"""
from __future__ import annotations

from typing import TYPE_CHECKING, Dict, List, NamedTuple, Optional, Set, Tuple, Union

from tools.reference.filecore import SMALL_SIZE, big_directory_check, folded, head_space, number
from tools.reference.read_image import Disc, Entry, NewMap, OldMap, cut_name, kind_of

if TYPE_CHECKING:
    from tools.checks.failing_calls import Bytes

MAP_OWNER = "the map"  # identifier 2 has it as an owner that no entry shows
Key = Tuple[bytes, ...]  # of an object: the folded names of its path


class Tail(NamedTuple):
    """Where small directories have their last mark, reserved bytes, parent, title and name."""

    mark: int
    reserved: slice
    parent: int
    title: slice
    name: slice


TAILS = {"D": Tail(2007, slice(2008, 2010), 2010, slice(2013, 2032), slice(2032, 2042)),
         "L": Tail(1227, slice(1260, 1274), 1238, slice(1241, 1260), slice(1228, 1238))}


def size_for(head: int, entries: int, heap: int) -> int:
    """The least size of a big directory with these parts."""
    return -(-(28 + head + 28 * entries + heap + 8) // 2048) * 2048


class Head:
    """What a directory says beside its entries."""

    size: int
    sequence: int
    word: bytes
    parent: int
    name: bytes
    reserved: bytes
    lasts: List[int]
    # of a small directory
    mark: int
    title: bytes
    check: int
    raw_names: List[bytes]
    # of a big one
    form: int
    padding: bytes
    heap: bytes
    places: List[int]


class SmallHead(Head):
    """Of a directory of 2048 or 1280 bytes."""

    def __init__(self, block: bytes, form: str, count: int) -> None:
        tail = TAILS[form]
        self.size = len(block)
        self.sequence, self.word = block[0], block[1:5]
        self.mark, self.parent = block[tail.mark], number(block, tail.parent, 3)
        self.reserved, self.title, self.name = block[tail.reserved], block[tail.title], block[tail.name]
        self.check = block[-1]
        self.raw_names = [block[5 + 26 * at:15 + 26 * at] for at in range(count)]
        self.lasts = [block[30 + 26 * at] if form == "L" else 0 for at in range(count)]


class BigHead(Head):
    """Of a big directory."""

    def __init__(self, block: bytes, count: int) -> None:
        length, heap = number(block, 8, 4), number(block, 20, 4)
        self.size = len(block)
        self.sequence, self.word, self.parent = block[0], block[4:8], number(block, 24, 4)
        self.name, self.reserved = block[28:28 + length], block[-3:-1]
        self.form = next(form for form in (1, 2) if self.has_form(block, form, count, heap))
        first = 28 + head_space(self.form, self.name)
        self.padding = block[28 + length:first]
        self.heap = block[first + 28 * count:first + 28 * count + heap]
        self.places = [number(block, first + 28 * at + 24, 4) for at in range(count)]
        self.lasts = [0] * count

    def has_form(self, block: bytes, form: int, count: int, heap: int) -> bool:
        end = 28 + head_space(form, self.name) + 28 * count + heap
        return end + 8 <= len(block) and big_directory_check(block, end) == block[-1]


class State:
    """An image that opened. Objects have the folded names of their path as key; the root has the empty one."""

    def __init__(self, data: bytes) -> None:
        self.data = bytes(data)
        self.kind = kind_of(self.data)[0]
        self.disc = Disc(self.data)
        self.map, self.form = self.disc.map, self.disc.map.form
        self.is_new = isinstance(self.map, NewMap)
        self.sector = self.map.sector
        self.objects: Dict[Key, Entry] = {(): self.disc.root}
        self.heads: Dict[Key, Head] = {}
        for directory in self.disc.directories:
            self.objects.update({key_of(entry.path): entry for entry in directory.entries})
            block = self.disc.content(directory)
            count = len(directory.entries)
            self.heads[key_of(directory.path)] = BigHead(block, count) if self.form == "big" else SmallHead(block, self.form, count)
        self.owners = self.read_owners()

    @property
    def new_map(self) -> NewMap:
        assert isinstance(self.map, NewMap)
        return self.map

    @property
    def old_map(self) -> OldMap:
        assert isinstance(self.map, OldMap)
        return self.map

    def read_owners(self) -> Dict[int, List[Union[Key, str]]]:
        """For each identifier the keys of the objects that have sectors in it."""
        if not self.is_new:
            return {}
        found: Dict[int, List[Union[Key, str]]] = {2: [MAP_OWNER]}
        for key, entry in self.objects.items():
            if entry.sectors:
                found.setdefault(entry.address // 256, []).append(key)
        return found

    def is_directory(self, key: Tuple[bytes, ...]) -> bool:
        return key in self.objects and self.objects[key].is_directory()

    def content(self, entry: Entry) -> bytes:
        return self.disc.content(entry)

    def new_directory_size(self) -> int:
        return SMALL_SIZE.get(self.form, 2048)

    def free_identifiers(self) -> List[int]:
        used = {identifier for zone, start, length, identifier in self.new_map.runs}
        return [identifier for identifier in range(3, self.new_map.shape.id_limit) if identifier not in used]

    def holes(self) -> List[Tuple[int, int, int]]:
        """On a new map zone, disc map bit and bits of each hole."""
        return [(zone, start, length) for zone, start, length, identifier in self.new_map.runs if identifier is None]

    def runs_of(self, identifier: int) -> List[Tuple[int, int, int]]:
        return [(zone, start, length) for zone, start, length, other in self.new_map.runs if other == identifier]

    def old_holes(self) -> List[Tuple[int, int]]:
        """On an old map first sector and sectors of each hole, as stored."""
        return [(first, end - first) for first, end in self.old_map.holes]

    def is_writable(self, name: bytes) -> bool:
        """Whether a new object may have this name here."""
        most, last = (255, 255) if self.form == "big" else (10, 126 if self.form == "L" else 255)
        return 1 <= len(name) <= most and all(33 <= byte <= last and byte != 127 and byte not in b'$&%@\\^:.#*"|' for byte in name)

    def disc_bytes(self) -> int:
        return self.new_map.shape.record.size if self.is_new else self.old_map.units * 256

    def copies(self) -> Tuple[bytes, bytes]:
        """The two copies of a new map."""
        size = self.new_map.shape.zones * self.sector
        start = self.new_map.shape.map_sector * self.sector
        return self.data[start:start + size], self.data[start + size:start + 2 * size]

    def idle_sectors(self) -> Set[int]:
        """The sectors of identifier 1 and of lost space, outside the map's."""
        if self.is_new:
            owned = self.disc.owned | {2}
            runs = [run for run in self.new_map.runs if run[3] is not None and (run[3] == 1 or run[3] not in owned)]
            copies = range(self.new_map.shape.map_sector, self.new_map.shape.map_sector + 2 * self.new_map.shape.zones)
            return {sector for zone, start, length, identifier in runs for sector in self.new_map.sectors_in(start, length)} - set(copies)
        return set(range(self.old_map.units * 256 // self.sector)) - self.disc.claimed

    def tree(self) -> Dict[Key, Tuple[int, int, int, Optional[Entry]]]:
        """Each path with its attributes, words and the bytes of a file; None for a directory."""
        return {tuple(entry.path): (entry.attributes, entry.load, entry.execution, None if entry.is_directory() else entry)
                for entry in self.objects.values()}


def key_of(names: Union[List[bytes], Tuple[bytes, ...]]) -> Tuple[bytes, ...]:
    return tuple(folded(name) for name in names)


def same_name(one: bytes, other: bytes) -> bool:
    return folded(one) == folded(other)


def name_in(field: bytes) -> bytes:
    """The name in a field: up to its first byte below 32."""
    return cut_name(field)


def changed_sectors(before: State, after: Union[Bytes, State]) -> Set[int]:
    """The sectors that differ."""
    old, new, size, found = before.data, after.data, before.sector, set()
    for at in range(0, max(len(old), len(new)), 64 * size):
        if old[at:at + 64 * size] != new[at:at + 64 * size]:
            found.update(place // size for place in range(at, at + 64 * size, size) if old[place:place + size] != new[place:place + size])
    return found
