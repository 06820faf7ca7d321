# SPDX-License-Identifier: MIT
"""A plain implementation of the commands that change a volume, for the self-test of tools/checks/changes.py.

It edits a copy of the image in memory and draws by chance what the rules leave open. Its refusals are those of
tools/reference/change_answer.py. With the name of a fault it does one thing wrong.
"""
from __future__ import annotations

import random
from typing import Dict, List, Optional, Set, Tuple, Union

from tools.reference.change_answer import WORDS, Command, Needs, low_byte, owed_refusal
from tools.reference.change_state import Key, State, size_for
from tools.reference.filecore import (big_directory_check, folded, head_space, name_space, old_map_check, padded, put,
                                      small_directory_check, zone_check)
from tools.reference.read_image import Entry

FAULTS = {  # and words of the names of the discs over which each is sought first
    "space given back first": "nearly", "shared identifier given back": "shared", "words lost": "", "attributes lost": "table",
    "save renames": "", "file not copied": "shared", "parent left": "fragmented", "sequence kept": "", "entry at the end": "",
    "no slack": "shared", "low byte 0": "", "hole not joined": "", "second copy left": "", "root size in one copy": "growing",
    "holder left": "growing", "lost run released": "fragmented", "children left": "shared", "left identifier lost": "shared +",
    "zeros not written": "", "all holes joined": "fragmented", "one hole too many": "", "title changed": "fragmented", "place kept": "",
    "head form lost": "growing",
    "repair forgotten": "", "not the first hole": "old", "last byte lost": "old", "MapFull at 82": "old 82",
    "unused places left": "old", "second form misread": "second forms", "short rest left": "nearly", "repair before a refusal": "",
    "entries sorted": "", "word changed": "", "reserved bytes lost": "", "bits past the end lost": "user",
    "written past the object": "fragmented", "set clears attributes": "table",
    "object not slid": "old filled", "last hole forgotten": "old filled", "parents left by compaction": "old filled",
}


Place = Tuple[int, int]  # of a run: its zone, and where it starts
Part = Tuple[int, Optional[int]]  # bits, and identifier; None for a hole


class Item:
    """An entry of a directory. `raw`: the bytes of a small entry that stays as it is."""

    def __init__(self, entry: Union[New, Entry], raw: Optional[bytes] = None, last: int = 0) -> None:
        self.name, self.attributes, self.load, self.execution = entry.name, entry.attributes, entry.load, entry.execution
        self.length, self.address, self.raw, self.last = entry.length, entry.address, raw, last


class New:
    """The fields of an entry that is new."""

    def __init__(self, name: bytes, attributes: int, load: int, execution: int, length: int, address: int) -> None:
        self.name, self.attributes, self.load, self.execution = name, attributes, load, execution
        self.length, self.address = length, address


class Folder:
    """A directory that is edited."""

    def __init__(self, state: State, key: Key) -> None:
        self.state, self.head, self.entry = state, state.heads[key], state.objects[key]
        self.block = bytearray(state.content(self.entry))
        self.size, self.name, self.parent = len(self.block), self.head.name, None
        self.gained: Optional[bytes] = None  # a name that is new in a big directory
        self.places: Optional[List[Tuple[int, int]]] = None  # where it is written, if not where it lies
        raws = [bytes(self.block[5 + 26 * at:31 + 26 * at]) for at in range(len(self.entry.entries))] if state.form != "big" else None
        self.items = [Item(entry, raws[at] if raws else None, self.head.lasts[at]) for at, entry in enumerate(self.entry.entries)]

    def find(self, folded_name: bytes) -> Item:
        return next(item for item in self.items if folded(item.name) == folded_name)

    def insert(self, item: Item, at_end: bool = False) -> None:
        places = [at for at, other in enumerate(self.items) if folded(other.name) > folded(item.name)]
        self.items.insert(len(self.items) if at_end or not places else places[0], item)

    def small_item(self, item: Item) -> bytes:
        if item.raw:
            return item.raw
        raw = bytearray(padded(item.name, 10) + bytes(16))
        for at, size, value in ((10, 4, item.load), (14, 4, item.execution), (18, 4, item.length), (22, 3, item.address)):
            put(raw, at, size, value)
        if self.state.form == "D":
            raw[25] = item.attributes
            return raw
        for bit in range(10):
            raw[bit] |= (item.attributes >> bit & 1) << 7
        raw[25] = item.last
        return raw

    def small(self, parent: int, sequence: int) -> bytearray:
        block, is_d = self.block, self.state.form == "D"
        name, place, mark = (2032, 2010, 2007) if is_d else (1228, 1238, 1227)
        items = b"".join(bytes(self.small_item(item)) for item in self.items)
        block[5:mark + 1] = items.ljust(mark - 4, b"\0")
        block[0] = block[-6] = sequence
        put(block, place, 3, parent)
        block[name:name + 10] = self.name
        block[-1] = small_directory_check(block, 5 + len(items)) if is_d else 0
        return block

    def heap(self, chance: random.Random) -> Tuple[bytearray, Dict[bytes, int]]:
        """The heap and the names' places in it: appended to, or packed."""
        packed, at = bytearray(), {}
        for item in self.items:
            at[item.name] = len(packed)
            packed += padded(item.name, name_space(item.name))
        if self.gained and self.gained in [entry.name for entry in self.entry.entries]:
            return packed, at
        kept = bytearray(self.head.heap) + (padded(self.gained, name_space(self.gained)) if self.gained else b"")
        places = {entry.name: place for entry, place in zip(self.entry.entries, self.head.places)}
        if self.gained:
            places[self.gained] = len(self.head.heap)
        space = head_space(self.head.form, self.name)
        if len(kept) % 4 or size_for(space, len(self.items), len(kept)) > self.size or chance.random() < 0.5:
            return packed, at
        return kept, places

    def big(self, parent: int, sequence: int, chance: random.Random, form: int, fault: Optional[str]) -> bytearray:
        heap, places = self.heap(chance)
        block, first = bytearray(self.size), 28 + head_space(form, self.name)
        names = first + 28 * len(self.items)
        end = names + len(heap)
        block[0] = block[-4] = sequence
        block[4:8], block[-8:-4] = b"SBPr", b"oven"
        block[-3:-1] = self.head.reserved if fault != "reserved bytes lost" else bytes(2)
        for at, value in enumerate((len(self.name), self.size, len(self.items), len(heap), parent)):
            put(block, 8 + 4 * at, 4, value)
        block[28:first] = padded(self.name, first - 28)
        for at, item in enumerate(self.items):
            words = (item.load, item.execution, item.length, item.address, item.attributes, len(item.name), places[item.name])
            block[first + 28 * at:first + 28 * at + 28] = b"".join(word.to_bytes(4, "little") for word in words)
        block[names:end] = heap
        block[-1] = big_directory_check(block, end)
        if fault != "second form misread" and form == 2 and end + 12 <= self.size and big_directory_check(block, end + 4) == block[-1]:
            block[end] = 1  # else it would be read in the first form
        return block

    def written(self, parent: int, fault: Optional[str], chance: random.Random) -> bytearray:
        sequence = (self.head.sequence + (fault != "sequence kept")) % 256
        if fault == "entries sorted":
            self.items.sort(key=lambda item: folded(item.name))
        if fault == "word changed" and self.state.form != "big":
            self.block[1:5] = self.block[-5:-1] = b"Nick" if self.state.form == "D" else b"Hugo"
        if fault == "reserved bytes lost" and self.state.form != "big":
            self.block[slice(2008, 2010) if self.state.form == "D" else slice(1260, 1274)] = bytes(2 if self.state.form == "D" else 14)
        if self.state.form != "big":
            return self.small(parent, sequence)
        form = self.head.form
        if fault == "head form lost" or head_space(1, self.name) == head_space(2, self.name):
            form = 1
        return self.big(parent, sequence, chance, form, fault)


def empty_folder(form: str, name: bytes, parent: int) -> bytearray:
    """The bytes of a new directory."""
    if form == "big":
        block, end = bytearray(2048), 28 + head_space(1, name)
        block[4:8], block[-8:-4], block[28:end] = b"SBPr", b"oven", padded(name, end - 28)
        put(block, 8, 4, len(name))
        put(block, 12, 4, 2048)
        put(block, 24, 4, parent)
        block[-1] = big_directory_check(block, end)
        return block
    block = bytearray(2048 if form == "D" else 1280)
    at, title, place = (2032, 2013, 2010) if form == "D" else (1228, 1241, 1238)
    block[1:5] = block[-5:-1] = b"Nick" if form == "D" else b"Hugo"
    block[at:at + 10], block[title:title + 19] = padded(name, 10), padded(name, 19)
    put(block, place, 3, parent)
    block[-1] = small_directory_check(block, 5) if form == "D" else 0
    return block


# ---- space


class NewSpace:
    """The runs of a new map, and their change."""

    def __init__(self, state: State, fault: Optional[str], chance: random.Random) -> None:
        self.state, self.shape, self.fault, self.chance = state, state.new_map.shape, fault, chance
        # by zone and start: bits and identifier
        self.runs: Dict[Place, Part] = {(zone, start): (bits, owner) for zone, start, bits, owner in state.new_map.runs}
        self.free = state.free_identifiers()

    def fronts(self, bits: int) -> List[Tuple[Tuple[int, int], int]]:
        """Parts of the fewest holes: one that is long enough by chance, or the longest."""
        holes = sorted(((length, place) for place, (length, owner) in self.runs.items() if owner is None), reverse=True)
        least, parts, missing = self.shape.least, [], bits
        enough = [hole for hole in holes if hole[0] >= bits]
        if enough and self.fault != "one hole too many":
            holes = [self.chance.choice(enough)]
        elif self.fault == "one hole too many" and len(holes) > 1 and holes[-1][0] < bits:
            holes = holes[-1:] + holes[:-1]
        for length, place in holes:
            wanted = max(missing, least)
            part = length if length < wanted + least else wanted
            if self.fault == "short rest left" and length > missing:
                part = missing
            parts.append((place, part))
            missing -= part
            if missing <= 0:
                return parts
        raise AssertionError("no space")

    def take(self, bits: int, identifier: Optional[int] = None) -> Tuple[int, int, Set[Place]]:
        """Space for an identifier, a new one if none is given; a grown directory's own one may be given."""
        identifier = identifier or self.chance.choice(self.free)
        if identifier in self.free:
            self.free.remove(identifier)
        parts = self.fronts(bits)
        for (zone, start), length in parts:
            rest = self.runs[zone, start][0] - length
            self.runs[zone, start] = length, identifier
            if rest:
                self.runs[zone, start + length] = rest, None
        return identifier, sum(length for place, length in parts), {place for place, length in parts}

    def extents(self, identifier: int, only: Optional[Set[Place]] = None) -> List[Tuple[int, int]]:
        """The places of an identifier's bytes and their lengths, in order."""
        home, bit = self.shape.home(identifier), self.shape.bit_bytes
        found = sorted(((zone - home) % self.shape.zones, start, length) for (zone, start), (length, owner) in self.runs.items()
                       if owner == identifier and (only is None or (zone, start) in only))
        return [(start * bit, length * bit) for turn, start, length in found]

    def release(self, places: Set[Place]) -> None:
        for place in sorted(places):
            self.runs[place] = self.runs[place][0], None
            if self.fault != "hole not joined":
                self.join(place)

    def join(self, place: Tuple[int, int]) -> None:
        zone, start = place
        after = (zone, start + self.runs[place][0])
        if after in self.runs and self.runs[after][1] is None:
            self.runs[place] = self.runs[place][0] + self.runs.pop(after)[0], None
        holes = [(one, length) for one, (length, owner) in self.runs.items() if one[0] == zone and owner is None]
        before = next((one for one, length in holes if one[1] + length == start), None)
        if before:
            self.runs[before] = self.runs[before][0] + self.runs.pop(place)[0], None

    def join_all(self) -> None:
        for place in sorted(self.runs):
            if place in self.runs and self.runs[place][1] is None:
                self.join(place)

    def zone_sector(self, zone: int, old: bytes) -> bytearray:
        shape, sector = self.shape, bytearray(old)
        bits = int.from_bytes(old, "little")
        first, end = shape.first(zone), shape.end(zone)
        bits &= ~((1 << end) - (1 << first)) if self.fault != "bits past the end lost" else (1 << first) - 1
        before, links = 8, {}
        for (other, start), (length, owner) in sorted(self.runs.items()):
            if other == zone:
                at = start - shape.base(zone) + first
                bits |= 1 << (at + length - 1) | (owner or 0) << at
                if owner is None:
                    links[before], before = at - before, at
        for hole, distance in links.items():
            if hole != 8:
                bits |= distance << hole
        sector[:] = bits.to_bytes(len(sector), "little")
        put(sector, 1, 2, 0x8000 | links.get(8, 0))
        return sector


# ---- a command


class Edit:
    """One accepted command, made on a copy of the image."""

    def __init__(self, state: State, c: Command, needs: Needs, fault: Optional[str], chance: random.Random) -> None:
        self.state, self.c, self.needs, self.fault, self.chance = state, c, needs, fault, chance
        self.image = bytearray(state.data)
        self.folders: Dict[Key, Folder] = {}
        self.root: Tuple[int, Optional[int]] = (state.disc.root.address, None)
        self.addresses: Dict[Key, int] = {}  # of grown directories, by key
        self.space = NewSpace(state, fault, chance) if state.is_new else None
        self.holes = None if state.is_new else needs.old_holes_after()
        self.blocks: List[Tuple[Item, bytes, Key]] = []  # what is written at the end: places with lengths, and bytes

    def new_space(self) -> NewSpace:
        assert self.space
        return self.space

    def folder(self, key: Key) -> Folder:
        if key not in self.folders:
            self.folders[key] = Folder(self.state, key)
        return self.folders[key]

    def write(self, extents: List[Tuple[int, int]], content: bytes) -> None:
        done = 0
        for start, room in extents:
            count = min(room, len(content) - done)
            self.image[start:start + count] = content[done:done + count]
            done += count
        assert done == len(content), (done, len(content))
        if self.fault == "written past the object" and extents and self.state.is_new:
            end = sum(extents[-1])
            if end + 16 <= self.state.disc_bytes() and end // self.state.sector not in self.state.map.reserved:
                self.image[end:end + 16] = bytes(16)

    def places_of(self, entry: Entry) -> List[Tuple[int, int]]:
        return [(sector * self.state.sector, self.state.sector) for sector in entry.sectors]

    # space

    def gone(self) -> Set[Place]:
        """The places of the runs that go, if an identifier loses its last owner."""
        c, state = self.c, self.state
        entry = state.objects.get(c.key()) if c.word in ("delete", "save", "create") else None
        if not state.is_new or entry is None or not entry.sectors or entry.address < 3 * 256:
            return set()
        identifier = entry.address // 256
        shared = len(state.owners[identifier]) > 1 or self.needs.slack and self.needs.slack[0] == identifier
        if shared and self.fault != "shared identifier given back":
            return set()
        return {run[:2] for run in state.new_map.runs if run[3] == identifier}

    def new_object(self, content: bytes, is_directory: bool) -> int:
        """Space with the content in it: the address."""
        if not content:
            return 0
        state, needs = self.state, self.needs
        if not state.is_new:
            return self.old_object(content)
        if needs.slack and self.fault != "no slack":
            identifier, low = needs.slack
            sectors = state.map.sectors_at(identifier * 256 + low, len(content))
            if not self.is_left_unwritten():
                self.write([(sector * state.sector, state.sector) for sector in sectors], content)
            return identifier * 256 + low
        identifier, bits, places = self.new_space().take(state.new_map.shape.units(len(content)))
        if not self.is_left_unwritten():
            self.write(self.new_space().extents(identifier), content)
        room = bits * state.new_map.shape.bit_bytes
        low = 0 if is_directory or self.fault == "low byte 0" else low_byte(state.new_map.shape, room, len(content))
        return identifier * 256 + low

    def is_left_unwritten(self) -> bool:
        return self.fault == "zeros not written" and self.c.word == "create"

    def old_object(self, content: bytes) -> int:
        sector = self.state.sector
        wanted = -(-len(content) // sector)
        place = self.needs.old_place()
        if self.fault == "not the first hole":
            place = [start for start, length in self.state.old_holes() if length >= wanted][-1]
        if not self.is_left_unwritten():
            self.write([(place * sector, wanted * sector)], content)
        return place * sector // 256

    def grow(self) -> Set[Place]:
        """The grown directory's new space or size."""
        needs, key = self.needs, self.needs.grown
        if key is None:
            return set()
        folder, address, gone = self.folder(key), self.state.objects[key].address, set()
        folder.size = needs.size
        extents = None
        if needs.growth:
            identifier = address // 256 if needs.alone else None
            old = self.state.owners[address // 256]
            if identifier or old == [key] and self.fault != "left identifier lost":  # the last owner goes
                gone = {place for place, run in self.new_space().runs.items() if run[1] == address // 256}
            identifier, bits, places = self.new_space().take(needs.growth_bits(), identifier)
            extents = self.new_space().extents(identifier, places)
            address = address if needs.alone else identifier * 256
        self.addresses[key] = address
        folder.places = extents or [(one * self.state.sector, self.state.sector) for one in self.state.map.sectors_at(address, needs.size)]
        if key == ():
            self.root = (address, needs.size)
        else:
            item = self.folder(key[:-1]).find(key[-1])
            item.address, item.raw = address, None
            if self.fault != "holder left":
                item.length = needs.size
        self.regrown_children(key)
        return gone

    def regrown_children(self, key: Key) -> None:
        if self.needs.growth and not self.needs.alone and self.fault != "children left":
            for entry in self.state.objects[key].entries:
                if entry.is_directory():
                    self.folder(key + (folded(entry.name),))

    # the commands

    def run(self) -> bytes:
        early = self.gone() if self.fault == "space given back first" else set()
        if early:
            self.new_space().release(early)
        getattr(self, self.c.word)()
        late = self.grow()
        if self.space:
            self.space.release((self.gone() if not early else set()) | late)
            if self.fault == "lost run released":
                self.release_lost()
            if self.fault == "all holes joined":
                self.space.join_all()
        self.write_folders()
        self.write_map()
        return bytes(self.image)

    def release_lost(self) -> None:
        lost = sorted(run[:2] for run in self.state.new_map.runs if run[3] and run[3] > 2 and run[3] not in self.state.owners)
        self.new_space().release(set(lost[:1]))

    def put_item(self, name: bytes, fields: Dict[str, int]) -> None:
        """A new entry in the holder of the command's last path, or the present one changed: a table of fields."""
        holder, target = self.folder(self.c.target()[:-1]), self.c.target()[-1]
        item = next((one for one in holder.items if folded(one.name) == target), None)
        if item is None:
            item = Item(New(name, 3, 0, 0, 0, 0))
            item.name = holder.gained = name
            holder.insert(item, self.fault == "entry at the end")
        elif self.fault == "save renames" and self.c.is_making_file():
            item.name = holder.gained = name
        item.raw = None
        for field, value in fields.items():
            setattr(item, field, value)

    def save(self) -> None:
        content = self.c.bytes if self.c.word == "save" else bytes(self.c.length)
        address = self.new_object(content, False)
        self.put_item(self.c.paths[0][-1], dict(load=self.c.load, execution=self.c.execution, length=len(content), address=address))

    create = save

    def cdir(self) -> None:
        name, holder = self.c.paths[0][-1], self.c.target()[:-1]
        size = self.state.new_directory_size()
        self.put_item(name, dict(attributes=8, length=size, address=self.new_object(bytes(size), True)))
        self.blocks.append((self.folder(holder).find(folded(name)), name, holder))

    def delete(self) -> None:
        holder = self.folder(self.c.key()[:-1])
        holder.items.remove(holder.find(self.c.key()[-1]))

    def set(self) -> None:
        holder = self.folder(self.c.key()[:-1])
        item = holder.find(self.c.key()[-1])
        item.attributes = item.attributes & (8 if self.fault == "set clears attributes" else ~7) | self.c.access
        item.load, item.execution, item.raw = self.c.load, self.c.execution, None

    def rename(self) -> None:
        c, source, target = self.c, self.c.key(), self.c.target()
        old, new, name = self.folder(source[:-1]), self.folder(target[:-1]), c.paths[1][-1]
        item, moved = old.find(source[-1]), source[:-1] != target[:-1]
        at = old.items.index(item)
        old.items.remove(item)
        if moved or item.name != name:
            new.gained = name
        if moved and self.needs.copied and self.fault != "file not copied":
            item.address = self.new_object(self.state.content(self.state.objects[source]), False)
        if moved and self.fault == "words lost":
            item.load = item.execution = 0
        if moved and self.fault == "attributes lost":
            item.attributes &= 15
        if self.fault == "last byte lost":
            item.last = 0
        item.name, item.raw = name, None
        if self.fault == "place kept" and not moved:
            new.items.insert(at, item)
        else:
            new.insert(item, self.fault == "entry at the end")
        if self.state.is_directory(source):
            self.rename_folder(source, name)

    def rename_folder(self, source: Key, name: bytes) -> None:
        folder = self.folder(source)
        if self.state.form != "big":
            folder.name = padded(name, 10)
            if self.fault == "title changed":
                at = 2013 if self.state.form == "D" else 1241
                folder.block[at:at + 19] = padded(name, 19)
            return
        packed = sum(name_space(entry.name) for entry in folder.entry.entries)
        if size_for(head_space(folder.head.form, name), len(folder.items), max(packed, len(folder.head.heap))) <= folder.size:
            folder.name = name

    # writing

    def holder_address(self, key: Key) -> int:
        """The address of the directory that holds the one that had this key."""
        c, source = self.c, self.c.key()
        if c.word == "rename" and key == source and self.fault != "parent left":
            key = c.target()
        return self.addresses.get(key[:-1], self.state.objects[key[:-1]].address)

    def write_folders(self) -> None:
        for key, folder in self.folders.items():
            block = folder.written(self.holder_address(key), self.fault, self.chance)
            self.write(folder.places or self.places_of(folder.entry), block)
        for item, name, holder in self.blocks:
            parent = self.addresses.get(holder, self.state.objects[holder].address)
            self.write(self.new_places(item.address), empty_folder(self.state.form, name, parent))

    def new_places(self, address: int) -> List[Tuple[int, int]]:
        if self.space:
            return self.space.extents(address // 256)
        return [(address * 256, self.state.new_directory_size())]

    def write_map(self) -> None:
        if not self.space:
            write_holes(self.image, self.state, self.holes, self.fault == "unused places left")
            return
        shape, sector = self.space.shape, self.state.sector
        start = shape.map_sector * sector
        for zone, old in enumerate(self.state.new_map.chosen_copy(self.state.data)):
            new = self.space.zone_sector(zone, old)
            for copy in (0, 1):
                if zone == 0 and self.root[1] and not (copy and self.fault == "root size in one copy"):
                    put(new, 4 + 12, 4, self.root[0])
                    put(new, 4 + 48, 4, self.root[1])
                elif zone == 0:
                    new[16:20], new[52:56] = old[16:20], old[52:56]
                new[0] = zone_check(new)
                place = start + (copy * shape.zones + zone) * sector
                is_kept = self.fault == "second copy left" and copy or self.fault == "repair forgotten" and new == old
                if not is_kept:
                    self.image[place:place + sector] = new


def repaired(state: State) -> bytes:
    """The image with two equal copies of the map."""
    if not state.is_new or len(set(state.copies())) == 1:
        return state.data
    chosen, start = b"".join(state.new_map.chosen_copy(state.data)), state.new_map.shape.map_sector * state.sector
    return state.data[:start] + chosen + chosen + state.data[start + 2 * len(chosen):]


def changed(state: State, c: Command, fault: Optional[str], chance: random.Random) -> Tuple[str, bytes]:
    """The reply to a changing command, and the image afterwards: the same one, if it is refused."""
    number, needs = owed_refusal(state, c)
    if number == 14 and needs and fault == "space given back first" and Edit(state, c, needs, fault, chance).gone():
        try:
            return "ok\n", Edit(state, c, needs, fault, chance).run()
        except AssertionError:
            pass
    if not number and needs and fault == "MapFull at 82" and not state.is_new and needs.gives_back() and len(needs.old_holes_after()) == 82:
        number = 16
    if number:
        return "error %d %s\n" % (number, WORDS[number]), repaired(state) if fault == "repair before a refusal" else state.data
    return "ok\n", Edit(state, c, needs, fault, chance).run()


# ---- compaction of an old map


def squashed(state: State, fault: Optional[str]) -> bytes:
    """The image after `compact` on an old map: each object slides into the hole before it."""
    image, step = bytearray(state.data), state.sector // 256
    things = [(start, length, "hole") for start, length in state.old_holes()]
    things += [(entry.sectors[0], len(entry.sectors), key) for key, entry in state.objects.items() if entry.sectors and key]
    things += [(sector, 1, None) for sector in state.idle_sectors() | set(state.disc.root.sectors)]
    free, holes, moved, end = 0, [], {}, 0
    for start, length, thing in sorted(things, key=lambda one: one[0]):
        if thing == "hole":
            free += length
        elif thing is None or fault == "object not slid" and free and length == 1:
            holes += [(start - free, free)] if free else []
            free = 0
        elif free:
            moved[thing] = (start - free) * step
            content = state.data[start * state.sector:(start + length) * state.sector]
            image[(start - free) * state.sector:(start - free + length) * state.sector] = content
        end = start + length
    holes += [(end - free, free)] if free and fault != "last hole forgotten" else []
    address = {key: moved.get(key, entry.address) for key, entry in state.objects.items()}
    for key in state.heads:
        children = {item: address[key + (folded(item.name),)] for item in state.objects[key].entries}
        has_moved = any(item.address != place for item, place in children.items())
        if has_moved or key[:-1] in moved and fault != "parents left by compaction":
            block = moved_folder(state, key, children, address[key[:-1]] if key[:-1] in moved else state.heads[key].parent)
            image[address[key] * 256:address[key] * 256 + len(block)] = block
    write_holes(image, state, holes)
    return bytes(image)


def moved_folder(state: State, key: Key, children: Dict[Entry, int], parent: int) -> bytearray:
    """The bytes of a directory with its entries' new addresses."""
    folder = Folder(state, key)
    for item, place in zip(folder.items, children.values()):
        if item.address != place:
            item.raw = item.raw[:22] + place.to_bytes(3, "little") + item.raw[25:]
    return folder.small(parent, (folder.head.sequence + 1) % 256)


def write_holes(image: bytearray, state: State, holes: List[Tuple[int, int]], keeps_unused: bool = False) -> None:
    """An old map with these holes, each a first sector and sectors."""
    step, block = state.sector // 256, image[0:512]
    if holes == state.old_holes():
        return
    for at in (0, 256):
        if not keeps_unused:
            block[at:at + 246] = bytes(246)
    for at, (start, length) in enumerate(holes):
        put(block, 3 * at, 3, start * step)
        put(block, 256 + 3 * at, 3, length * step)
    block[510] = 3 * len(holes)
    block[255], block[511] = old_map_check(block[0:256], 255), old_map_check(block[256:512], 255)
    image[0:512] = block
