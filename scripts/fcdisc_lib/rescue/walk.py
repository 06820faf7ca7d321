# SPDX-License-Identifier: MIT
"""The objects of a disc, found from its root down, and in directories that nothing leads to."""
from __future__ import annotations

from collections import deque
from typing import Deque, Dict, List, Optional, Tuple

from ..names import folded
from ..program import Path
from ..tree import MAX_DEPTH
from .directories import NO_WORDS, Item, Limits, Listing, lost, read_listing, size_told
from .discs import Disc
from .places import Extent, Place, Space
from .source import Source

MOST_OBJECTS = 100000
MOST_TRIED = 300000  # entries that are looked at in search of big directories' heaps
DIRECTORY_SPACE = 4  # directories are read as long as they have no more bytes than so many discs
DAMAGED_HOLDER = "its directory is damaged"
NOWHERE = "nothing says where it lies"
NOT_THERE = "the image ends before it"
TWICE = "it was found before, at another place in the tree"
OTHER = "another directory lies where it should be"
OTHER_PATH = "a directory that it lies in may have another name"


NO_PLACE = Place([], 0)
NO_LISTING = Listing([], "", 0, b"")


class Found:
    """An object, as its directory tells of it, and what is known of its bytes."""

    __slots__ = ("path", "item", "holder", "doubts", "is_sure", "stale", "is_deleted", "place", "there", "is_left_out", "listing",
                 "is_homeless")

    def __init__(self, path: Path, item: Item, holder: Optional[Found], doubts: Tuple[str, ...] = ()):
        self.path, self.item, self.holder = path, item, holder
        self.doubts: List[str] = [*doubts, *item.doubts]
        self.is_sure = not self.doubts  # whether what tells of it is right
        self.is_homeless = False  # whether it is a directory whose place in the tree isn't known
        self.stale = ""  # why whatever is in this directory is doubted
        self.is_deleted = False
        self.place = NO_PLACE
        self.there = 0  # bytes of it that can be read, before the first that can't
        self.is_left_out = False
        self.listing = NO_LISTING

    @property
    def is_directory(self) -> bool:
        return self.item.is_directory

    @property
    def is_damaged(self) -> bool:
        """Whether it is a directory that isn't whole."""
        return bool(self.listing.fault)

    @property
    def grade(self) -> str:
        if self.is_left_out or self.item.length and not self.there:
            return "lost"
        if self.there < self.item.length:
            return "cut"
        return "doubtful" if self.doubts else "sound"

    def doubt(self, text: str) -> None:
        if text not in self.doubts:
            self.doubts.append(text)


class Walk:
    """A walk over the directories of a disc."""

    def __init__(self, disc: Disc, space: Space, source: Source, most_tried: int = MOST_TRIED):
        self.disc, self.space, self.source = disc, space, source
        self.files: List[Found] = []
        self.directories: List[Found] = []
        self.seen: Dict[int, Found] = {}  # directories by the place of their first byte
        self.by_address: Dict[int, Found] = {}
        self.displaced: List[Place] = []  # where directories should lie that were found elsewhere
        self.lost: Dict[Tuple[Path, bytes], Found] = {}  # directories that can't be read, by their holders and names
        self.taken: Dict[Path, Dict[bytes, int]] = {}  # names in a directory, as they are compared; how often each came up
        self.too_many = self.too_deep = False
        self.room = DIRECTORY_SPACE * max(min(source.length, disc.size), 4096)
        self.limits = Limits(disc.size, space.can_be, most_tried)
        self.sure: Deque[Found] = deque()
        self.doubtful: Deque[Found] = deque()

    def run(self) -> None:
        root = Found((), Item(b"$", 8, 0, 0, self.space.root_size, self.space.root), None)
        self.add_directory(root)
        self.go_on()

    @property
    def root(self) -> Found:
        return self.directories[0]

    def add_directory(self, found: Found) -> None:
        self.directories.append(found)
        (self.sure if found.is_sure else self.doubtful).append(found)

    def go_on(self) -> None:
        """Reads the directories that wait: what sure entries lead to comes first."""
        while self.sure or self.doubtful:
            self.read((self.sure or self.doubtful).popleft())

    # one directory

    def read(self, found: Found) -> None:
        if len(found.path) > MAX_DEPTH:
            self.too_deep = True
            self.lose(found, lost("it lies too deep"))
            return
        found.place = self.find(found)
        self.read_at(found)

    def find(self, found: Found) -> Place:
        size = self.size_of(found)
        place = self.space.place(found.item.address, size)
        if self.disc.directories == "big" and place.extents and (size % 2048 or not size or place.missing):
            told = size_told(self.read_bytes(self.space.place(found.item.address, 2048).extents, 2048))
            place = self.space.place(found.item.address, told or 2048)
        return place

    def size_of(self, found: Found) -> int:
        return found.item.length if self.disc.directories == "big" else int(self.disc.directories)

    def read_at(self, found: Found) -> None:
        """Reads the directory that lies at its place, unless it was read before."""
        if not found.place.extents:
            self.lose(found, lost(NOWHERE))
            return
        first = found.place.extents[0][0]
        size = sum(length for start, length in found.place.extents)
        if first in self.seen:
            self.lose(found, lost(TWICE))
            return
        if size > self.room:
            self.too_many = True
            self.lose(found, lost("too many directories"))
            return
        self.room -= size
        wanted = self.size_of(found) if self.disc.directories != "big" or found.item.length else size
        block = self.read_bytes(found.place.extents, min(size, wanted) if wanted else size)
        if not block:
            self.lose(found, lost(NOT_THERE))
            return
        listing = read_listing(block, self.disc.directories, wanted, self.limits)
        self.accept(found, first, listing)

    def accept(self, found: Found, first: int, listing: Listing) -> None:
        if not found.is_sure and not listing.is_lost and not listing.fault and self.is_other(found, listing):
            self.lose(found, lost(OTHER))
            return
        if listing.is_lost:
            self.lose(found, listing)
            return
        self.settle_name(found, listing)
        found.listing = listing
        self.seen[first] = found
        self.by_address.setdefault(found.item.address, found)
        for item in listing.items:
            self.enter(found, item)

    def settle_name(self, found: Found, listing: Listing) -> None:
        """A damaged directory told the name: what is found there has its own, if it is right. Else all below it may have another path."""
        holder, own, told = found.holder, listing.name, found.item.name
        if self.disc.directories != "big":  # small ones have their own name without top bits
            told = bytes(byte & 127 for byte in told)
        if found.is_sure or not holder or found.is_homeless or folded(own) == folded(told):
            return
        if listing.fault or self.disc.directories == "1280" or not own:
            found.stale = found.stale or OTHER_PATH
            return
        found.item = found.item._replace(name=own)
        found.path = (*holder.path, self.free_name(holder.path, own))
        found.doubt("its entry has another name")

    def lose(self, found: Found, listing: Listing) -> None:
        found.listing = listing
        if found.holder:
            self.lost[found.holder.path, folded(found.item.name)] = found

    def is_other(self, found: Found, listing: Listing) -> bool:
        """Whether what a doubtful entry leads to says that it is another directory."""
        holder = found.holder
        if not holder or found.stale:
            return False
        return listing.parent != holder.item.address and folded(listing.name) != folded(found.item.name)

    def enter(self, holder: Found, item: Item) -> None:
        if len(self.files) + len(self.directories) >= MOST_OBJECTS:
            self.too_many = True
            return
        name = self.free_name(holder.path, item.name)
        doubt = holder.stale or (DAMAGED_HOLDER if holder.is_damaged else "")
        found = Found((*holder.path, name), item, holder, (doubt,) if doubt else ())
        found.stale, found.is_deleted = holder.stale, holder.is_deleted
        if found.is_directory:
            self.add_directory(found)
        else:
            self.files.append(found)

    def free_name(self, holder: Path, name: bytes) -> bytes:
        """The name, or another where something in the directory has it."""
        names = self.taken.setdefault(holder, {})
        chosen, key = name, folded(name)
        while folded(chosen) in names:
            names[key] += 1
            chosen = name + b"~%d" % names[key]
        names[folded(chosen)] = 1
        return chosen

    def read_bytes(self, extents: List[Extent], length: int) -> bytes:
        """The bytes of these extents, up to the first that can't be read."""
        parts: List[bytes] = []
        for start, count in extents:
            wanted = min(count, length)
            parts.append(self.source.read(start, wanted))
            if len(parts[-1]) < wanted:
                break
            length -= wanted
        return b"".join(parts)

    def has_other_bytes(self, place: Place) -> bool:
        """Whether something was read where a directory should lie, not the same byte throughout."""
        block = self.read_bytes(place.extents, self.disc.sector)
        return block.count(block[:1]) != len(block)

    # directories that nothing leads to

    def adopt(self, start: int, place: Place, listing: Listing, stale: str, is_deleted: bool) -> None:
        """Takes a directory that nothing leads to into the tree, where its parent field says if that is known.

        `stale` is why what it says is doubted, or empty.
        """
        address = self.space.address_at(start)
        holder = None if is_deleted or address == listing.parent else self.holder_at(listing.parent)
        made = self.lost.pop((holder.path, folded(listing.name)), None) if holder else None
        if made is None:
            made = self.new_stray(holder, start, listing)
        elif made.is_sure and made.listing.fault == NO_WORDS:
            self.displaced.append(made.place)
        size = sum(length for _, length in place.extents)
        made.item = made.item._replace(length=size, address=address or 0)
        made.doubt("no directory leads to it")
        made.place, made.stale, made.is_deleted = place, stale, is_deleted
        self.accept(made, start, listing)
        self.go_on()

    def new_stray(self, holder: Optional[Found], start: int, listing: Listing) -> Found:
        """A directory of the tree for one that no entry is known of."""
        name = listing.name if holder and listing.name else b"found-%d" % (start // self.disc.sector)
        is_homeless, holder = name.startswith(b"found-"), holder or self.root
        made = Found((*holder.path, self.free_name(holder.path, name)), Item(name, 8, 0, 0, 0, 0), holder)
        made.is_sure = False
        made.is_homeless = is_homeless
        self.directories.append(made)
        return made

    def holder_at(self, address: int) -> Optional[Found]:
        """The directory that has that address; also the root if it is lost."""
        return self.by_address.get(address) or (self.root if address == self.root.item.address else None)
