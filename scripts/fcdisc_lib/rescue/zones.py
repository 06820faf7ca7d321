# SPDX-License-Identifier: MIT
"""The space of new maps: each zone from the copy where it is right, and of damaged zones what still spells runs."""
from __future__ import annotations

from array import array
from bisect import bisect_left, bisect_right
from collections import Counter
from itertools import accumulate
from typing import Dict, List, NamedTuple, Optional, Sequence, Set, Tuple

from .checks import number, zone_check
from .discs import BOOT_BLOCK, Disc
from .places import DAMAGED_MAP, Extent, Place, Space, fresh_runs
from .records import RECORD, Record
from .source import Source

HOLE = -1
KEPT = 500000  # runs that are kept at hand by their identifiers
Run = Tuple[int, int, int]  # the bit of its sector where it begins, its bits, its field


class Zone(NamedTuple):
    """A zone of the map as it was read."""

    runs: List[Run]
    holes: Set[int]
    doubt: str  # empty where the zone is right


class Copy(NamedTuple):
    """A zone as one copy of the map has it."""

    sector: bytes
    zone: Zone
    is_right: bool


class Chain(NamedTuple):
    """The runs of one identifier, in their order: places of the disc, the bytes before and with each, and the zone of each."""

    starts: Sequence[int]
    ends: Sequence[int]
    zones: Sequence[int]
    turn: int  # the number of the first run before home

    def find(self, start: int) -> int:
        """The number of the run that begins there. The places rise up to the turn, and again after it."""
        if self.turn == len(self.starts) or start >= self.starts[0]:
            return bisect_left(self.starts, start, 0, self.turn)
        return bisect_left(self.starts, start, self.turn)


class ZoneSpace(Space):
    """A disc with a new map."""

    def __init__(self, disc: Disc, source: Source):
        super().__init__(disc)
        record = disc.record
        assert record
        self.record = record
        self.size = record.zones * record.sector
        self.start = record.map_sector * record.sector
        self.reserved = [(self.start, 2 * self.size)]
        if disc.has_boot:
            sector = BOOT_BLOCK // record.sector * record.sector
            self.reserved.append((sector, max(record.sector, 512)))
        # run by run: identifier, first map bit, bits, zone
        self.identifiers, self.bits, self.lengths, self.zone_of = array("i"), array("q"), array("q"), array("H")
        self.by_place, self.places = array("q"), array("q")  # the runs in the order of their places, once that is asked for
        self.doubts: Dict[int, str] = {}  # of zones
        self.doubted: List[Tuple[str, List[int]]] = []  # the zones with each of these doubts
        self.chains: Dict[int, Chain] = {}
        self.kept = 0
        self.read_zones(source)
        self.index()

    # reading

    def read_zones(self, source: Source) -> None:
        record = self.record
        last = min(record.zones, self.zones_within(source))
        totals, rights = [0, 0], [0, 0]
        pairs: List[List[Copy]] = []
        for zone in range(last):
            pairs.append(self.copies(source, zone))
            for copy in (0, 1):
                if pairs[-1][copy].is_right:
                    totals[copy] ^= pairs[-1][copy].sector[3]
                    rights[copy] += 1
        whole = [rights[copy] == record.zones and totals[copy] == 0xFF for copy in (0, 1)]
        owns = []
        for zone, pair in enumerate(pairs):
            chosen, doubt = self.chosen(pair, whole)
            self.take(zone, chosen.zone, doubt or chosen.zone.doubt)
            if zone == 0 and has_check(chosen.sector, record.sector):
                owns.append(Record(chosen.sector[4:4 + RECORD]))
        for zone in range(last, record.zones):
            self.doubts[zone] = DAMAGED_MAP
        by_text: Dict[str, List[int]] = {}
        for zone, doubt in sorted(self.doubts.items()):
            by_text.setdefault(doubt, []).append(zone)
        self.doubted = sorted(by_text.items())
        self.right_parts = sum(rights)
        sectors = Counter(copy.sector for pair in pairs for copy in pair)
        self.has_rivals = any(is_rival(pair, sectors) for pair in pairs)
        self.is_right = any(whole)
        self.tell_map(rights, whole)
        self.choose_root(owns)

    def copies(self, source: Source, zone: int) -> List[Copy]:
        """Both copies of a zone, as they are and as they spell runs."""
        size = self.record.sector
        found: List[Copy] = []
        for copy in (0, 1):
            sector = source.read(self.start + copy * self.size + zone * size, size)
            if found and sector == found[0].sector:
                return found * 2
            spelled = self.spelled(zone, sector.ljust(size, b"\0"))
            found.append(Copy(sector, spelled, has_check(sector, size) and not spelled.doubt))
        return found

    def zones_within(self, source: Source) -> int:
        """The zones that have a sector of the image in them, or the map's beginning."""
        bits = (source.length + (source.gap.size if source.gap else 0)) // self.record.bit_bytes
        return (bits + 480) // self.record.zone_size + 1

    def chosen(self, pair: List[Copy], whole: List[bool]) -> Tuple[Copy, str]:
        """Which copy of a zone counts, and what makes it doubtful."""
        for copy in (0, 1):
            if whole[copy]:
                return pair[copy], ""
        right = [copy for copy in pair if copy.is_right]
        if len(right) == 2 and right[0].sector != right[1].sector:
            return right[0], "the copies of the map differ where it lies"
        if right:
            return right[0], ""
        checked = [copy for copy in pair if has_check(copy.sector, self.record.sector)]
        return max(checked or pair, key=lambda copy: len(copy.zone.runs)), DAMAGED_MAP

    def spelled(self, zone: int, sector: bytes) -> Zone:
        """The runs that the bits spell. Where they don't, it goes on at the next boundary of a sector."""
        record, doubt = self.record, ""
        bits = bin(int.from_bytes(sector, "little"))[:1:-1].ljust(8 * record.sector, "0")
        at, end, runs = record.first(zone), min(record.end(zone), 8 * record.sector), []
        shift = record.base(zone) - at
        while at < end:
            one = bits.find("1", at + record.idlen, end) + 1
            if not one or (at + shift) % record.step or (one + shift) % record.step:
                doubt = DAMAGED_MAP
                if "1" not in bits[at:end]:
                    break
                at += record.step - (at + shift) % record.step
                continue
            runs.append((at, one - at, int(bits[at:at + record.idlen][::-1], 2)))
            at = one
        holes, chained = holes_of(sector, runs)
        return Zone(runs, holes, doubt if chained else DAMAGED_MAP)

    def take(self, zone: int, found: Zone, doubt: str) -> None:
        record = self.record
        shift = record.base(zone) - record.first(zone)
        for at, length, field in found.runs:
            self.identifiers.append(HOLE if at in found.holes else field)
            self.bits.append(at + shift)
            self.lengths.append(length)
            self.zone_of.append(zone)
        if doubt:
            self.doubts[zone] = doubt

    def tell_map(self, rights: List[int], whole: List[bool]) -> None:
        if not all(whole):
            texts = ["%d of %d zones" % (right, self.record.zones) for right in rights]
            self.remarks.append("the map's copies: %s are right in the first, %s in the second" % tuple(texts))
        self.is_right = self.is_right and not self.doubts
        for zone, doubt in sorted(self.doubts.items())[:20]:
            self.remarks.append("zone %d of the map: %s" % (zone, doubt))

    def choose_root(self, owns: List[Record]) -> None:
        """The root as the map has it; else as the boot block, or the description that was found, does."""
        record = self.record
        for own in owns:
            if not own.has_shape_of(record):
                self.is_right = False
                self.remarks.append("the map and the boot block describe different discs")
            if own.root_fault() is None:
                record = own
            else:
                self.is_right = False
                self.remarks.append("the map's address of the root can't be")
        self.root, self.root_size = record.root, record.root_size if self.record.version else 2048

    @property
    def has_own_runs(self) -> bool:
        """Whether the map spelled any run of an object."""
        return any(identifier > 2 for identifier in self.identifiers[:self.spelled_runs])

    def add_runs(self, runs: List[Tuple[int, int, int]]) -> None:
        """Takes in runs that were worked out: identifier, place and bytes."""
        for identifier, start, length in runs:
            self.add_run(identifier, start // self.record.bit_bytes, length // self.record.bit_bytes)
        self.chains.clear()
        self.by_place, self.places = array("q"), array("q")
        self.order_runs()

    def add_run(self, identifier: int, bit: int, bits: int) -> None:
        record = self.record
        self.identifiers.append(identifier)
        self.bits.append(bit)
        self.lengths.append(bits)
        self.zone_of.append(0 if bit < record.base(1) or record.zones == 1 else record.zones // 2)

    def index(self) -> None:
        """Finds the runs of identifiers and the holes; what a fresh floppy has for map and root counts where the map lacks it."""
        known = set(self.identifiers)
        self.spelled_runs = len(self.identifiers)
        for identifier, bit, length in fresh_runs(self.disc):
            if identifier not in known:
                self.add_run(identifier, bit, length)
        self.order_runs()
        for at in self.order[:bisect_right(self.sorted, HOLE)]:
            self.holes.append(self.extent(self.bits[at], self.lengths[at]))

    def order_runs(self) -> None:
        """Puts the runs into the order of their identifiers."""
        key = self.identifiers.__getitem__
        self.order = array("q", sorted(range(len(self.identifiers)), key=key))
        self.sorted = array("i", (key(at) for at in self.order))

    def extent(self, bit: int, bits: int) -> Extent:
        return bit * self.record.bit_bytes, bits * self.record.bit_bytes

    # answers

    def chain(self, identifier: int) -> Chain:
        found = self.chains.get(identifier)
        if found is None:
            found = self.new_chain(identifier)
            self.kept += len(found.starts)
            if self.kept > KEPT:
                self.chains.clear()
                self.kept = len(found.starts)
            self.chains[identifier] = found
        return found

    def new_chain(self, identifier: int) -> Chain:
        record = self.record
        inside = self.order[bisect_left(self.sorted, identifier):bisect_right(self.sorted, identifier)]
        home = record.home(identifier)
        turned = sorted(inside, key=lambda at: ((self.zone_of[at] - home) % record.zones, self.bits[at]))
        ends = accumulate(self.lengths[at] * record.bit_bytes for at in turned)
        starts = [self.bits[at] * record.bit_bytes for at in turned]
        turn = next((at for at, one in enumerate(turned) if self.zone_of[one] < home), len(turned))
        return Chain(array("q", starts), array("q", ends), array("H", (self.zone_of[at] for at in turned)), turn)

    def place(self, address: int, length: int) -> Place:
        identifier, low = divmod(address, 256)
        if identifier < 2:
            return Place([], length)
        skipped = (low - 1) * self.record.share if low else 0
        return self.along(identifier, skipped, length)

    def bytes_of(self, identifier: int) -> int:
        """The bytes of an identifier's runs."""
        ends = self.chain(identifier).ends
        return ends[-1] if ends else 0

    def needed(self, length: int) -> int:
        """The bytes that an object gets which has an identifier of its own."""
        record = self.record
        bits = -(-self.sectors(length) * record.sector // record.bit_bytes)
        return max(record.least, bits) * record.bit_bytes

    def can_be(self, address: int, length: int) -> bool:
        identifier, low = divmod(address, 256)
        if not 2 <= identifier < self.record.id_bound:
            return False
        return self.bytes_of(identifier) - ((low - 1) * self.record.share if low else 0) >= length

    def along(self, identifier: int, skipped: int, length: int) -> Place:
        """An object that begins so many bytes after the beginning of an identifier's space."""
        chain = self.chain(identifier)
        extents: List[Extent] = []
        left = self.sectors(length) * self.record.sector
        at = first = bisect_right(chain.ends, skipped)
        while left > 0 and at < len(chain.starts):
            before = chain.ends[at - 1] if at else 0
            inner = max(0, skipped - before)
            count = min(left, chain.ends[at] - before - inner)
            extents.append((chain.starts[at] + inner, count))
            left -= count
            at += 1
        missing = max(0, min(length, left))
        return Place(extents, missing, self.doubts_of(identifier, chain.zones[:at] if at > first else (), missing))

    def doubts_of(self, identifier: int, zones: Sequence[int], missing: int) -> Tuple[str, ...]:
        """Damaged zones from the identifier's home to its last run there: they may hide runs of it, or show wrong ones."""
        if identifier >= self.record.id_bound:
            return ("its address can't be that of an object",)
        home, count = self.record.home(identifier), self.record.zones
        last = (zones[-1] - home) % count if zones and not missing else count - 1
        return tuple(doubt for doubt, doubted in self.doubted if meets_turn(doubted, home, home + last, count))

    def address_at(self, place: int) -> Optional[int]:
        found = self.run_at(place)
        if found is None:
            return None
        identifier, skipped = found
        if not skipped:
            return identifier * 256 if identifier != 2 else None
        low = skipped // self.record.share + 1
        return None if skipped % self.record.share or low > 255 else identifier * 256 + low

    def run_at(self, place: int) -> Optional[Tuple[int, int]]:
        """The identifier that has a place, and how far from its beginning that is."""
        if not self.by_place:
            self.by_place = array("q", sorted(range(len(self.bits)), key=self.bits.__getitem__))
            self.places = array("q", (self.bits[at] for at in self.by_place))
        bit = place // self.record.bit_bytes
        rank = bisect_right(self.places, bit) - 1
        if rank < 0:
            return None
        at = self.by_place[rank]
        identifier = self.identifiers[at]
        if identifier < 2 or bit >= self.bits[at] + self.lengths[at]:
            return None
        chain = self.chain(identifier)
        which = chain.find(self.bits[at] * self.record.bit_bytes)
        before = chain.ends[which - 1] if which else 0
        return identifier, before + place - chain.starts[which]

    def at(self, place: int, length: int) -> Place:
        found = self.run_at(place)
        if found is None:  # in free space, or where no run is: as if it lay in one piece
            taken = max(0, min(length, self.disc.size - place))
            return Place([(place, self.sectors(taken) * self.record.sector)], length - taken)
        return self.along(*found, length)


def meets_turn(zones: List[int], first: int, last: int, count: int) -> bool:
    """Whether any of the zones, which rise, is from the first to the last; after the last zone of all comes zone 0."""
    at = bisect_left(zones, first)
    if at < len(zones) and zones[at] <= last:
        return True
    return last >= count and zones[0] <= last - count


def is_rival(pair: List[Copy], sectors: Counter[bytes]) -> bool:
    """Whether both copies of a zone are right and differ, and neither is a sector that was read again in place of another."""
    return all(copy.is_right and sectors[copy.sector] == 1 for copy in pair)


def has_check(sector: bytes, size: int) -> bool:
    """Whether a zone has its check. Zeros would have theirs, but no zone is like that."""
    return len(sector) == size and any(sector) and sector[0] == zone_check(sector)


def holes_of(sector: bytes, runs: List[Run]) -> Tuple[Set[int], bool]:
    """The runs that are holes, and whether the chain leads from run to run. If it doesn't, none counts as a hole."""
    fields = {at: field for at, length, field in runs}
    place, distance, holes = 8, number(sector, 1, 2) & 0x7FFF, set()
    while distance:
        place += distance
        if place not in fields:
            return set(), False
        holes.add(place)
        distance = fields[place] & 0x7FFF
    return holes, True
