# SPDX-License-Identifier: MIT
"""Damaged images, each with the line that fcore has to answer: every fault, and which comes first where two stand together."""
from __future__ import annotations

from typing import Callable, Dict, Iterator, List, Optional, Tuple

from tools.images import volumes
from tools.images.volumes import (AnyVolume, Directory, File, NewVolume, OldOrNew, OldVolume, Part, boot_block, fresh_e, fresh_f,
                                  fresh_old, record_bytes, seal_old_map)
from tools.reference.filecore import BOOT_BLOCK, boot_check, head_space, put, small_directory_check, zone_check


class Damage:
    """The image of a volume, and ways to damage it."""

    def __init__(self, volume: AnyVolume) -> None:
        self.volume, self.data = volume, volume.image()

    def patch(self, at: int, changed: bytes) -> Damage:
        self.data[at:at + len(changed)] = changed
        return self

    def cut(self, length: int) -> Damage:
        del self.data[length:]
        return self

    def zone(self, zone: int, changes: Dict[int, int], copies: Tuple[int, ...] = (0, 1), sealed: bool = True) -> Damage:
        """Changes bytes of a zone's sector, by their places in it."""
        shape = self.volume.shape
        for copy in copies:
            start = (shape.map_sector + copy * shape.zones + zone) * shape.sector
            for at, byte in changes.items():
                self.data[start + at] = byte
            if sealed:
                self.data[start] = zone_check(self.data[start:start + shape.sector])
        return self

    def wrong_check(self, zone: int, copies: Tuple[int, ...]) -> Damage:
        shape = self.volume.shape
        for copy in copies:
            self.data[(shape.map_sector + copy * shape.zones + zone) * shape.sector] ^= 0x55
        return self

    def boot(self, changes: Dict[int, int]) -> Damage:
        """Changes bytes of the boot block's record."""
        for at, byte in changes.items():
            self.data[BOOT_BLOCK + 0x1C0 + at] = byte
        self.data[BOOT_BLOCK + 511] = boot_check(self.data[BOOT_BLOCK:BOOT_BLOCK + 512])
        return self

    def place(self, entry: Directory) -> int:
        if isinstance(self.volume, OldVolume):
            return entry.address * volumes.UNIT
        return next(self.volume.pieces_of(entry.address, 1))[0]

    def directory(self, entry: Directory, changes: Dict[int, bytes]) -> Damage:
        """Changes bytes of a directory, without a new check."""
        place = self.place(entry)
        for at, changed in changes.items():
            self.patch(place + at, changed)
        return self

    def checked(self, entry: Directory) -> Damage:
        """Gives a directory of 2048 bytes the check that fits."""
        place = self.place(entry)
        block = self.data[place:place + 2048]
        block[2047] = small_directory_check(block, 5 + 26 * len(entry.entries))
        return self.patch(place, block)

    def old_map(self, changes: Dict[int, int]) -> Damage:
        for at, byte in changes.items():
            self.data[at] = byte
        seal_old_map(self.data)
        return self


def tiny() -> NewVolume:
    """A disc of 18,944 bytes with a boot block: one zone of 512 bytes, the root and a file."""
    volume = NewVolume(record_bytes(9, 15, 8, 1, 32, 0x208, 74 * 256), True)
    volume.take(2, 0, 22)
    volume.root.insert(volume.file(b"F", b"tiny"))
    return volume


def with_directory(make: Callable[[], OldOrNew]) -> Tuple[OldOrNew, Directory]:
    """A volume with `$.D`, which has four files, and with `$.Z`."""
    volume = make()
    inner = volume.root.insert(volume.directory(volume.root, b"D"))
    for name in (b"Aa", b"Bb", b"Cc", b"Dd"):
        inner.insert(volume.file(name, b""))
    volume.root.insert(volume.file(b"Z", b"last"))
    return volume, inner


def d_disc() -> OldVolume:
    return OldVolume("D", 3200)


def l_disc() -> OldVolume:
    return OldVolume("L", 2560)


def e_plus() -> NewVolume:
    return fresh_e(big=True)


# ---- kinds and lengths


def kinds() -> Iterator[Tuple[str, bytearray, str]]:
    yield "empty", bytearray(), "NoKind"
    yield "zeros", bytearray(819200), "NoKind"
    yield "511-bytes", Damage(fresh_old("L")).cut(511).data, "NoKind"
    yield "e-checks", Damage(fresh_e()).wrong_check(0, (0, 1)).data, "NoKind"
    yield "e-cross", Damage(fresh_e()).zone(0, {3: 0xFE}).data, "NoKind"
    yield "e-record", Damage(fresh_e()).zone(0, {4 + 4: 12}).data, "NoKind"
    yield "e-two-zones", Damage(fresh_e()).zone(0, {4 + 9: 2}).data, "NoKind"
    yield "e-sectors-of-512", Damage(fresh_e()).zone(0, {4: 9}).data, "NoKind"
    yield "e-second-copy-cut", Damage(fresh_e()).wrong_check(0, (0,)).cut(2047).data, "NoKind"
    yield "d-check-0", Damage(fresh_old("D")).patch(255, b"\x97").data, "NoKind"
    yield "d-check-1", Damage(fresh_old("D")).patch(511, b"\x80").data, "NoKind"
    yield "l-check-of-no-holes", Damage(OldVolume("L", 7)).patch(511, b"\x01").data, "NoKind"
    for units in (0, 6, 2561, 3199, 3201):
        yield "old-%d-units" % units, old_of_size(units), "NoKind"
    yield "f-boot-check", Damage(fresh_f()).patch(BOOT_BLOCK + 511, b"\x9F").data, "NoKind"
    for name, changes in RECORDS.items():
        yield "record-" + name, Damage(tiny()).boot(changes).data, "NoKind"
    yield "boot-cut", Damage(tiny()).cut(0xDFF).data, "NoKind"


# records that aren't valid, by the places in them
RECORDS = {
    "sector-2048": {0: 11}, "sector-128": {0: 7}, "idlen-11": {4: 11}, "idlen-16": {4: 16}, "bit-4": {5: 4}, "bit-21": {5: 21},
    "no-zones": {9: 0}, "spare-31": {10: 31}, "spare-most": {10: 0x00, 11: 0x0F}, "no-size": {16: 0, 17: 0},
    "odd-size": {16: 1}, "huge-size": {37: 2}, "size-past-zones": {18: 0x20}, "short-of-map": {16: 0, 17: 2},
    "root-identifier-1": {13: 1}, "root-of-32-bits": {15: 1}, "root-size": {44: 1, 49: 1}, "root-size-0": {44: 1},
    "many-zones": {42: 1},
}


def old_of_size(units: int) -> bytearray:
    damage = Damage(fresh_old("D"))
    put(damage.data, 252, 3, units)
    seal_old_map(damage.data)
    return damage.data


def lengths() -> Iterator[Tuple[str, bytearray, str]]:
    yield "f-cut", Damage(fresh_f()).cut(1000000).data, "Short 1638400 1000000"
    yield "f-least", Damage(fresh_f()).cut(0xE00).data, "Short 1638400 3584"
    yield "d-cut", Damage(fresh_old("D")).cut(800000).data, "Short 819200 800000"
    yield "e-cut", Damage(fresh_e()).cut(819199).data, "Short 819200 819199"
    yield "e-one-sector", Damage(fresh_e()).cut(1024).data, "Short 819200 1024"
    yield "l-map-alone", Damage(fresh_old("L")).cut(512).data, "Short 655360 512"
    yield "e-on-a-short-l", Damage(fresh_old("L")).patch(1024, fresh_e().zone_sector(0)).data, "Short 819200 655360"
    # a boot block counts before an old map, and before a single zone
    yield "d-with-boot", Damage(fresh_old("D")).patch(BOOT_BLOCK, boot_block(fresh_f().raw)).data, "Short 1638400 819200"
    yield "e-with-boot", Damage(fresh_e()).patch(BOOT_BLOCK, boot_block(tiny().raw)).data, "Copies 0 0"


# ---- the two copies


def copies() -> Iterator[Tuple[str, bytearray, str]]:
    yield "f-both-copies", Damage(fresh_f()).wrong_check(1, (0,)).wrong_check(3, (1,)).data, "Copies 1 3"
    yield "f-both-totals", Damage(fresh_f()).zone(2, {3: 1}).data, "Copies 4 4"
    yield "f-total-and-check", Damage(fresh_f()).zone(0, {3: 0xFE}, (0,)).wrong_check(0, (1,)).data, "Copies 4 0"
    yield "f-check-and-total", Damage(fresh_f()).wrong_check(3, (0,)).zone(0, {3: 0xFE}, (1,)).data, "Copies 3 4"
    yield "f-first-zone", Damage(fresh_f()).wrong_check(1, (0, 1)).wrong_check(2, (0, 1)).data, "Copies 1 1"
    both = Damage(tiny()).zone(0, {4 + 9: 2}).wrong_check(0, (0, 1))
    yield "copies-before-differs", both.data, "Copies 0 0"


def agreement() -> Iterator[Tuple[str, bytearray, str]]:
    record = tiny().raw
    for at in (0, 4, 5, 9, 10, 11, 16, 17, 18, 19, 36, 37, 38, 39, 40, 42, 44, 45, 46, 47):
        yield "differs-%d" % at, Damage(tiny()).zone(0, {4 + at: record[at] ^ 1}).data, "Differs %d" % at
    yield "differs-first", Damage(tiny()).zone(0, {4 + 42: 1, 4 + 17: 0}).data, "Differs 17"
    yield "differs-before-bad", Damage(tiny()).zone(0, {4 + 13: 1, 4 + 47: 1}).data, "Differs 47"
    yield "bad-root", Damage(tiny()).zone(0, {4 + 13: 1}).data, "Bad 12"
    yield "bad-high-root", Damage(tiny()).zone(0, {4 + 15: 1}).data, "Bad 12"
    # where the first copy is sound, it counts, also if only the second one's record is right
    yield "e-first-copy-counts", Damage(fresh_e()).zone(0, {4 + 4: 12}, (0,)).data, "Differs 4"
    yield "e-first-root-counts", Damage(fresh_e()).zone(0, {4 + 13: 0}, (0,)).data, "Bad 12"
    big = Damage(fresh_f(big=True))
    yield "bad-root-size", big.zone(0, {4 + 49: 9}).data, "Bad 48"
    yield "bad-root-and-size", big.zone(0, {4 + 13: 1}).data, "Bad 12"
    yield "bad-before-zone", Damage(tiny()).zone(0, {1: 7, 4 + 13: 1}).data, "Bad 12"


# ---- zones and holes


def with_runs(make: Callable[[], NewVolume], zone: int, runs: Callable[[int], List[Part]]) -> NewVolume:
    """A volume whose zone has these runs and then the rest."""
    volume = make()
    volume.runs[zone] = runs(sum(length for length, owner in volume.runs[zone]))
    return volume


def zones() -> Iterator[Tuple[str, bytearray, str]]:
    no_end = {at: 0 for at in range(64, 512)}
    no_run = Damage(tiny()).zone(0, no_end)
    yield "zone-without-bits", no_run.data, "Zone 0 512"
    yield "zone-1-without-bits", Damage(fresh_f()).zone(1, {at: 0 for at in range(4, 1024)}).data, "Zone 1 32"
    yield "zone-3-without-bits", Damage(fresh_f()).zone(3, {at: 0 for at in range(4, 1024)}).data, "Zone 3 32"
    yield "chain-1-further", Damage(fresh_e()).zone(0, {1: 0x19}).data, "Zone 0 545"
    yield "zone-3-chain-1-further", Damage(fresh_f()).zone(3, {1: 0x19}).data, "Zone 3 33"
    yield "chain-past-end", Damage(fresh_e()).zone(0, {1: 0xFF, 2: 0xFF}).data, "Zone 0 32775"
    yield "chain-past-hole", Damage(fresh_e()).zone(0, {68: 5}).data, "Zone 0 549"
    odd = with_runs(fresh_f, 1, lambda bits: [(32, 5), (24, 6), (bits - 56, None)])
    yield "run-off-sector", odd.image(), "Zone 1 64"
    short = with_runs(fresh_e, 0, lambda bits: [(32, 2), (bits - 40, None), (8, 1)])
    yield "run-too-short", short.image(), "Zone 0 %d" % (512 + 6400 - 8)
    yield "runs-before-chain", Damage(with_runs(fresh_f, 2, lambda bits: [(160, 2), (24, None), (bits - 184, None)])).zone(
        2, {1: 9}).data, "Zone 2 192"
    yield "first-zone-first", Damage(odd).zone(0, {1: 0x39}).data, "Zone 0 577"
    yield "zone-before-root", Damage(fresh_e()).zone(0, {1: 0x19}).patch(2049, b"X").data, "Zone 0 545"


def holes() -> Iterator[Tuple[str, bytearray, str]]:
    def holed(changes: Dict[int, int]) -> bytearray:
        volume = d_disc()
        volume.hole(8)
        volume.lose(8)
        volume.hole(8)
        return Damage(volume).old_map(changes).data

    for end, index in ((1, 0), (4, 1), (5, 1), (247, 82), (249, 83), (255, 85)):
        yield "free-end-%d" % end, holed({510: end}), "Hole %d" % index
    yield "hole-of-0", holed({259: 0}), "Hole 1"
    yield "hole-off-sector", holed({3: 29}), "Hole 1"
    yield "hole-length-off-sector", holed({256: 6}), "Hole 0"
    yield "hole-past-end", holed({4: 0x0C, 3: 0x7C}), "Hole 1"
    yield "hole-before-last", holed({0: 28, 3: 12}), "Hole 1"
    yield "hole-in-last", holed({256: 20}), "Hole 1"
    yield "hole-on-map", holed({0: 0}), "Hole 0"
    yield "holes-wrong-twice", holed({256: 0, 259: 0}), "Hole 0"
    yield "hole-before-root", Damage(d_disc()).old_map({510: 1}).patch(1025, b"X").data, "Hole 0"
    yield "l-hole-on-map", Damage(fresh_old("L")).old_map({0: 1}).data, "Hole 0"


# ---- directories


def small_directories() -> Iterator[Tuple[str, bytearray, str]]:
    volume, inner = with_directory(d_disc)

    def damage(changes: Dict[int, bytes]) -> Damage:
        return Damage(volume).directory(inner, changes)

    fault = "Directory $.D "
    yield "d-word", damage({1: b"nick"}).data, fault + "Magic"
    yield "d-words-differ", damage({1: b"Hugo"}).data, fault + "Magic"
    yield "d-magic-first", damage({2043: b"X", 0: b"\1"}).data, fault + "Magic"
    yield "d-sequence", damage({0: b"\1"}).data, fault + "Sequence"
    yield "d-sequence-before-check", damage({2042: b"\1", 9: b"\0"}).data, fault + "Sequence"
    yield "d-check", damage({2047: bytes([small_check(volume, inner) ^ 1])}).data, fault + "Check"
    yield "d-check-before-entry", damage({5: b"\r"}).data, fault + "Check"
    yield "d-empty-name", damage({5 + 26 * 2: b"\r"}).checked(inner).data, fault + "BadEntry 2"
    yield "d-twin", damage({5 + 26 * 3: b"bB"}).checked(inner).data, fault + "Twin 3"
    yield "d-entry-before-twin", damage({5 + 26: b"aA", 5 + 26 * 3: b"\1"}).checked(inner).data, fault + "BadEntry 3"
    twins = fresh_e()
    twins.root.append(File(b"Ab", b""))
    twins.root.append(File(b"aB", b""))
    yield "e-root-twin", twins.image(), "Directory $ Twin 1"
    yield "d-root", Damage(volume).patch(1025, b"X").data, "Directory $ Magic"
    yield "d-root-first", damage({1: b"X"}).patch(1025, b"X").data, "Directory $ Magic"


def small_check(volume: OldVolume, entry: Directory) -> int:
    return volume.directory_bytes(entry)[2047]


def short_directories() -> Iterator[Tuple[str, bytearray, str]]:
    volume, inner = with_directory(l_disc)

    def damage(changes: Dict[int, bytes]) -> bytearray:
        return Damage(volume).directory(inner, changes).data

    fault = "Directory $.D "
    yield "l-words-differ", damage({1275: b"Nick"}), fault + "Magic"
    yield "l-sequence", damage({1274: b"\1"}), fault + "Sequence"
    yield "l-name-of-top-bit", damage({5 + 26: b"\x80"}), fault + "BadEntry 1"
    yield "l-name-of-return", damage({5: b"\x8D"}), fault + "BadEntry 0"
    yield "l-twin", damage({5 + 26 * 2: b"\xE1A"}), fault + "Twin 2"
    yield "l-first-twin", damage({5 + 26: b"AA", 5 + 26 * 2: b"aa"}), fault + "Twin 1"


def big_directories() -> Iterator[Tuple[str, bytearray, str]]:
    volume, inner = with_directory(e_plus)
    entry = 32 + 28  # the second entry: the head's name takes 4 bytes

    def damage(changes: Dict[int, bytes], of: Directory = inner) -> Damage:
        return Damage(volume).directory(of, changes)

    fault = "Directory $.D "
    yield "big-head-word", damage({4: b"sBPr"}).data, fault + "Magic"
    yield "big-tail-word", damage({2040: b"Oven"}).data, fault + "Magic"
    yield "big-version", damage({3: b"\1"}).data, fault + "Magic"
    yield "big-sequence", damage({2044: b"\1"}).data, fault + "Sequence"
    yield "big-sequence-before-size", damage({2044: b"\1", 12: b"\1"}).data, fault + "Sequence"
    yield "big-size", damage({12: b"\0\x10"}).data, fault + "Size"
    yield "big-too-many", damage({16: b"\x50"}).data, fault + "Size"
    yield "big-long-name", damage({8: b"\0\0\0\x80"}).data, fault + "Size"
    yield "big-heap-of-2", damage({20: b"\x12"}).data, fault + "Size"
    yield "big-size-before-check", damage({20: b"\x12", 2047: b"\0"}).data, fault + "Size"
    yield "big-check", damage({33: b"\1"}).data, fault + "Check"
    for name, changes, wrong in big_entries(entry):
        for at, changed in changes.items():
            yield name, big_rechecked(damage({at: changed}), inner), fault + wrong
    yield "big-root-word", damage({4: b"X"}, volume.root).data, "Directory $ Magic"
    empty = e_plus()
    for name, changes, wrong in BIG_FRAMES:
        yield "big-frame-" + name, Damage(empty).directory(empty.root, changes).data, "Directory $ " + wrong
    yield "big-directory-size-0", sized(0), "Directory $.D Size"
    yield "big-directory-size-odd", sized(2049), "Directory $.D Size"
    yield "big-directory-longer", sized(4096), "Directory $.D Magic"
    yield "big-first-form-first", twice_right(), "Directory $.Docs BadEntry 0"


# the root of a fresh E+, which has no entries: the longest name and the most entries for which there is room
BIG_FRAMES = [
    ("first-byte", {1: b"\1"}, "Magic"), ("top-bit", {3: b"\x80"}, "Magic"), ("size-of-4096", {13: b"\x10"}, "Size"),
    ("name-too-long", {8: b"\xdd\7"}, "Size"), ("longest-name", {8: b"\xdc\7"}, "Check"), ("too-many-entries", {16: b"\x48"}, "Size"),
    ("heap-of-2", {20: b"\2"}, "Size"), ("check", {2047: b"\x7a"}, "Check"), ("behind-the-name", {31: b"\1"}, "Check"),
]


def big_entries(entry: int) -> Iterator[Tuple[str, Dict[int, bytes], str]]:
    heap = 32 + 28 * 4
    yield "big-name-of-0", {entry + 20: b"\0"}, "BadEntry 1"
    yield "big-name-of-256", {entry + 20: b"\0\1"}, "BadEntry 1"
    yield "big-name-past-heap", {entry + 24: b"\x10"}, "BadEntry 1"
    yield "big-name-far-off", {entry + 24: b"\xFF\xFF\xFF\xFF"}, "BadEntry 1"
    yield "big-name-low-byte", {heap + 5: b"\x1F"}, "BadEntry 1"
    yield "big-twin", {heap + 8: b"AA"}, "Twin 2"
    yield "big-entry-before-twin", {heap + 4: b"AA\r\0cc\r\0\1"}, "BadEntry 3"


def big_rechecked(damage: Damage, entry: Directory) -> bytearray:
    place = damage.place(entry)
    block = damage.data[place:place + entry.size]
    end = 28 + head_space(entry.form, entry.head_name) + 28 * len(entry.entries) + len(volumes.big_heap(entry)[0])
    block[-1] = volumes.big_directory_check(block, end)
    return damage.patch(place, block).data


def sized(length: int) -> bytearray:
    """`$.D` has another length in the root's entry than in its head."""
    volume = e_plus()
    inner = volume.root.insert(volume.directory(volume.root, b"D", pieces=[(0, 48)]))
    damage = Damage(volume)
    inner.size = length
    return damage.patch(damage.place(volume.root), volumes.big_directory(volume.root)).data


def twice_right() -> bytearray:
    """A directory of the second form whose check is right for the first form too: that is the form that counts."""
    volume = e_plus()
    docs = volume.root.insert(volume.directory(volume.root, b"Docs", size=2048))
    docs.form = 2
    made = docs.insert(volume.file(b"A", b""))
    for made.load in range(1 << 16):
        block = volumes.big_directory(docs)
        end = 32 + 28 + 4
        if volumes.big_directory_check(block, end) == volumes.big_directory_check(block, end + 4):
            return volume.image()
    raise AssertionError("no such directory")


# ---- places


def placed(make: Callable[[], AnyVolume], address: int, length: int = 1, name: bytes = b"F", units: Optional[int] = None) -> bytearray:
    """A file at an address that nothing leads to, whose bytes stand nowhere."""
    volume = make()
    wrong = File(name, b"", address)
    wrong.length = length
    volume.root.insert(wrong)
    if units:
        volume.take(units, 0, 16)
    return volume.image()


def places() -> Iterator[Tuple[str, bytearray, str]]:
    yield "identifier-1", placed(fresh_e, 0x100), "Place $.F"
    yield "identifier-0", placed(fresh_e, 0), "Place $.F"
    yield "identifier-without-run", placed(fresh_e, 0x500), "Place $.F"
    yield "identifier-at-bound", placed(fresh_e, 430 * 256, units=430), "Place $.F"
    yield "past-identifier", placed(fresh_e, 0x300, 2049, units=3), "Place $.F"
    yield "low-past-identifier", placed(fresh_e, 0x303, 1, units=3), "Place $.F"
    yield "odd-name", placed(fresh_e, 0, name=b"a b\xe9"), "Place $.a%20b%E9"
    yield "d-off-sector", placed(d_disc, 30), "Place $.F"
    yield "d-past-end", placed(d_disc, 3196, 1025), "Place $.F"
    yield "l-past-end", placed(l_disc, 2559, 257), "Place $.F"
    yield "l-7-units-past-end", placed(lambda: OldVolume("L", 7), 7), "Place $.F"
    yield "root-nowhere", Damage(tiny()).zone(0, {4 + 13: 9}).data, "Place $"
    volume, inner = with_directory(fresh_e)
    inner.insert(Directory(b"None", 0x7700)).holder = inner
    yield "directory-nowhere", image_without(volume, inner.entries[-1]), "Place $.D.None"


def image_without(volume: NewVolume, entry: Directory) -> bytearray:
    """The image, where the entry stands in its directory but its own bytes stand nowhere."""
    objects = [other for other in volume.objects() if other is not entry]
    volume.objects = lambda: objects
    return volume.image()


def overlaps() -> Iterator[Tuple[str, bytearray, str]]:
    volume = fresh_e()
    volume.root.insert(Directory(b"D", 0x203))
    yield "root-again", image_without(volume, volume.root.entries[0]), "Overlap $.D"
    yield "on-map", placed(fresh_e, 0x202), "Overlap $.F"
    yield "on-boot-block", placed(fresh_f, 0x204), "Overlap $.F"
    yield "f-on-map", placed(fresh_f, 0x201), "Overlap $.F"
    yield "d-on-map", placed(d_disc, 0), "Overlap $.F"
    yield "l-in-hole", placed(lambda: fresh_old("L"), 2000), "Overlap $.F"
    yield "root-on-map", Damage(tiny()).zone(0, {4 + 12: 2}).data, "Overlap $"
    for name, make in (("e", fresh_e), ("d", d_disc), ("l", l_disc), ("big", e_plus)):
        volume = make()
        first = volume.root.insert(volume.file(b"First", b"12345"))
        volume.root.insert(File(b"Second", b"12345", first.address))
        yield name + "-one-address", volume.image(), "Overlap $.Second"
    volume, inner = with_directory(fresh_e)
    inner.insert(File(b"E", b"last", volume.root.entries[1].address))
    yield "later-directory", volume.image(), "Overlap $.D.E"
    volume, inner = with_directory(d_disc)
    volume.root.entries[1].length = 1025 + 4 * 1024
    volume.hole(4)
    yield "d-into-hole", volume.image(), "Overlap $.Z"


def map_places() -> Iterator[Tuple[str, bytearray, str]]:
    volume = NewVolume(tiny().raw, True)
    volume.raw[12:14] = (0x308).to_bytes(2, "little")
    volume.root.address = 0x308
    volume.take(3, 0, 22)
    yield "map-in-identifier", volume.image(), "MapPlace 0"
    volume = NewVolume(tiny().raw, True)
    volume.raw[12:14] = (0x300).to_bytes(2, "little")
    volume.root.address = 0x300
    volume.take(3, 0, 16, skip=16)
    yield "map-in-hole", volume.image(), "MapPlace 0"
    volume = fresh_f()
    volume.runs[0] = [(16, 77), (48, None), (volume.shape.end(0) - 512 - 64, 77)]
    yield "boot-block-in-hole", volume.image(), "MapPlace 3"
    volume = fresh_f()
    volume.runs[0] = [(64, 5), (volume.shape.end(0) - 512 - 64, None)]
    volume.root.insert(File(b"F", b"short", 0x500))
    yield "boot-block-in-identifier", volume.image(), "MapPlace 3"
    yield "boot-block-in-map", boot_block_in_map(), "MapPlace 12"


def boot_block_in_map() -> bytearray:
    """The boot block stands where the first copy of the map does: to make the copies equal would be its end."""
    volume = NewVolume(record_bytes(8, 11, 5, 2, 1472, 0x205, 672 * 32), True)
    volume.take(2, 1, 96)
    return Damage(volume).patch(BOOT_BLOCK, boot_block(volume.raw)).data


# ---- which comes first


def first_faults() -> Iterator[Tuple[str, bytearray, str]]:
    volume, inner = with_directory(fresh_e)
    volume.root.insert(File(b"Q", b"", 0)).length = 1
    yield "place-before-directory", Damage(volume).directory(inner, {1: b"X"}).data, "Place $.Q"
    volume, inner = with_directory(fresh_e)
    second = volume.root.insert(volume.directory(volume.root, b"E"))
    deep = inner.insert(volume.directory(inner, b"Deep"))
    both = Damage(volume).directory(second, {1: b"X"}).directory(deep, {1: b"X"})
    yield "breadth-first", both.data, "Directory $.E Magic"
    yield "found-first", both.directory(inner, {1: b"X"}).data, "Directory $.D Magic"
    volume = fresh_e()
    volume.root.append(File(b"Z", b"", 0x202)).length = 1
    volume.root.append(File(b"A", b"", 0x100)).length = 1
    yield "stored-order", volume.image(), "Overlap $.Z"
    volume = fresh_e()
    volume.root.append(File(b"Z", b"", 0x202)).length = 4096
    yield "place-before-overlap", volume.image(), "Place $.Z"
    volume = NewVolume(tiny().raw, True)
    volume.raw[12:14] = (0x308).to_bytes(2, "little")
    volume.root.address = 0x308
    volume.take(3, 0, 22)
    volume.root.insert(File(b"F", b"", 0x301)).length = 1
    yield "overlap-before-map-place", volume.image(), "Overlap $.F"
    yield "directory-before-map-place", Damage(volume).directory(volume.root, {1: b"X"}).data, "Directory $ Magic"
    yield "short-before-copies", Damage(fresh_f()).wrong_check(1, (0, 1)).cut(1638399).data, "Short 1638400 1638399"


GROUPS = (kinds, lengths, copies, agreement, zones, holes, small_directories, short_directories, big_directories, places,
          overlaps, map_places, first_faults)


def damaged() -> Iterator[Tuple[str, bytes, str]]:
    """Each image: its name, its bytes, and the words of its line."""
    for group in GROUPS:
        for name, data, line in group():
            yield name, bytes(data), line  # a copy, since the group may go on damaging it
