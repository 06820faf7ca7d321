# SPDX-License-Identifier: MIT
"""What a changing command may do to an image: the differences from the tree of `answer` (fc_model), and from `Placed` and
`Steady` of fc_image::effects.

Each function answers a list of differences in words; the list is empty if all is as it has to be.
"""
from __future__ import annotations

from typing import Dict, Iterable, List, Optional, Set, Tuple, Union

from tools.reference import change_directories
from tools.reference.change_answer import OLD_HOLES, Command, Needs, given, low_byte, tree_after
from tools.reference.change_state import Key, State, changed_sectors
from tools.reference.filecore import BOOT_BLOCK, BOOT_SIZE, old_map_check, spelled_path
from tools.reference.read_image import Entry

AFTER_MAP = 0x7FFF


class Change:
    """A command that isn't refused, with the image before it and after it."""

    def __init__(self, before: State, after: State, c: Command, needs: Needs) -> None:
        self.before, self.after, self.c, self.needs = before, after, c, needs
        self.changed = changed_sectors(before, after)

    def key_after(self, key: Key) -> Optional[Key]:
        """The key afterwards of an object of before; None if it is deleted."""
        source, target = self.c.key(), self.c.target()
        if self.c.word == "delete" and key == source:
            return None
        if self.c.word == "rename" and key[:len(source)] == source:
            return target + key[len(source):]
        return key

    def made(self) -> Optional[Entry]:
        """The object for which there was new space or slack, or which the command renames or sets; None if it is deleted."""
        return None if self.c.word == "delete" else self.after.objects[self.c.target()]

    def takes_space(self) -> bool:
        return self.needs.length > 0 and not self.needs.slack

    def new_identifier(self) -> Optional[int]:
        return self.made().address // 256 if self.takes_space() else None

    def grown(self) -> Optional[Entry]:
        """The grown directory afterwards, or None."""
        return None if self.needs.grown is None else self.after.objects[self.key_after(self.needs.grown)]

    def has_new_address(self) -> bool:
        return bool(self.needs.growth) and not self.needs.alone


# ---- the tree


def content_differs(change: Change, wanted: Union[bytes, Entry], entry: Entry) -> bool:
    if isinstance(wanted, (bytes, bytearray)):
        return change.after.content(entry) != wanted
    if wanted.sectors == entry.sectors and change.changed.isdisjoint(entry.sectors):
        return False
    return change.after.content(entry) != change.before.content(wanted)


def tree_differences(change: Change) -> List[str]:
    wanted, found = tree_after(change.before, change.c), change.after.tree()
    differences = ["%s is missing" % spelled_path(path) for path in sorted(set(wanted) - set(found))[:3]]
    differences += ["%s should not be there" % spelled_path(path) for path in sorted(set(found) - set(wanted))[:3]]
    for path in sorted(set(wanted) & set(found)):
        old, new = wanted[path], found[path]
        if old[:3] != new[:3]:
            differences.append("%s has attributes and words %s instead of %s" % (spelled_path(path), shown(new[:3]), shown(old[:3])))
        if (old[3] is None) != (new[3] is None):
            differences.append("%s is a file and should be a directory, or the other way round" % spelled_path(path))
        elif old[3] is not None and content_differs(change, old[3], new[3]):
            differences.append("%s has other bytes" % spelled_path(path))
    return differences


def shown(numbers: Iterable[int]) -> str:
    return " ".join("%08x" % number for number in numbers)


# ---- Placed


def fewest(holes: List[Tuple[int, int, int]], bits: int) -> int:
    """The least number of holes that have so many bits in all."""
    total = count = 0
    for length in sorted((length for zone, start, length in holes), reverse=True):
        if total >= bits:
            break
        total, count = total + length, count + 1
    return count


def taken(change: Change, holes: List[Tuple[int, int, int]], parts: List[Tuple[int, int, int]], bits: int,
          who: str) -> Tuple[List[Tuple[int, int, int]], List[str]]:
    """The holes that are left when the parts are taken, and the differences from what may be taken."""
    least, found, left = change.before.new_map.shape.least, [], list(holes)
    total = sum(length for zone, start, length in parts)
    if len(parts) != fewest(holes, bits):
        found.append("%s has %d runs, and %d would do" % (who, len(parts), fewest(holes, bits)))
    if not bits <= total < bits + 2 * least:
        found.append("%s has %d bits for %d" % (who, total, bits))
    for zone, start, length in parts:
        hole = next((hole for hole in left if hole[:2] == (zone, start) and length <= hole[2]), None)
        if hole is None:
            found.append("the run of %s in zone %d at %d isn't the front of a hole" % (who, zone, start))
            continue
        left.remove(hole)
        rest = hole[2] - length
        if rest:
            left.append((zone, start + length, rest))
            if rest < least:
                found.append("%s leaves %d bits of a hole" % (who, rest))
    return sorted(left), found


def address_differences(change: Change) -> List[str]:
    """The address of the named object, unless it lies in new space."""
    made, needs, c = change.made(), change.needs, change.c
    if made is None or change.takes_space():
        return []
    if needs.slack:
        wanted = needs.slack[0] * 256 + needs.slack[1]
    elif c.is_making_file():
        wanted = 0
    else:
        wanted = change.before.objects[c.key()].address
    return [] if made.address == wanted else ["the object has the address %x instead of %x" % (made.address, wanted)]


def fresh_identifier(change: Change, identifier: int, who: str) -> List[str]:
    return [] if identifier in change.before.free_identifiers() else ["%s has identifier %d, which wasn't free" % (who, identifier)]


def object_placed(change: Change) -> Tuple[List[Tuple[int, int, int]], List[str]]:
    """The holes that the new object leaves, and differences."""
    holes = change.before.holes()
    if not change.takes_space():
        return holes, []
    made, needs = change.made(), change.needs
    parts = change.after.runs_of(made.address // 256)
    found = fresh_identifier(change, made.address // 256, "the new object")
    left, wrong = taken(change, holes, parts, needs.object_bits(), "the new object")
    shape = change.before.new_map.shape
    room = sum(bits for zone, start, bits in parts) * shape.bit_bytes
    low = 0 if made.is_directory() else low_byte(shape, room, needs.length)
    if made.address % 256 != low:
        wrong.append("the new object has low byte %d instead of %d" % (made.address % 256, low))
    return left, found + wrong


def growth_placed(change: Change, holes: List[Tuple[int, int, int]]) -> Tuple[List[Tuple[int, int, int]], List[str]]:
    """The holes that the grown directory leaves, and differences."""
    needs, grown = change.needs, change.grown()
    if grown is None:
        return holes, []
    found = []
    size = change.after.disc.size_of(grown)
    if size != needs.size:
        found.append("the grown directory has %d bytes instead of %d" % (size, needs.size))
    old = change.before.objects[needs.grown]
    if not change.has_new_address():
        if grown.address != old.address:
            found.append("the grown directory has the address %x instead of %x" % (grown.address, old.address))
    else:
        found += fresh_identifier(change, grown.address // 256, "the grown directory")
        found += ["the grown directory has low byte %d" % (grown.address % 256)] if grown.address % 256 else []
        found += ["both new objects have one identifier"] if grown.address // 256 == change.new_identifier() else []
    if not needs.growth:
        return holes, found
    left, wrong = taken(change, holes, change.after.runs_of(grown.address // 256), needs.growth_bits(), "the grown directory")
    return left, found + wrong


# ---- the map


def given_back(change: Change) -> Set[int]:
    """The identifiers whose runs go: without an owner now, or of an alone directory that took new space."""
    old, new = (set(state.owners) for state in (change.before, change.after))
    gone = {identifier for identifier in old - new if identifier > 2}
    if change.needs.growth and change.needs.alone:
        gone.add(change.before.objects[change.needs.grown].address // 256)
    return gone


def runs_after(change: Change, left: List[Tuple[int, int, int]], gone: Set[int]) -> List[Tuple[int, int, int, Optional[int]]]:
    """All runs as they have to be: zone, start, bits, identifier."""
    before, after = change.before, change.after
    kept = [run for run in before.new_map.runs if run[3] is not None and run[3] not in gone]
    new = [change.new_identifier()] + ([change.grown().address // 256] if change.needs.growth else [])
    kept += [(*run, identifier) for identifier in set(new) - {None} for run in after.runs_of(identifier)]
    holes: Dict[int, List[Tuple[int, int]]] = {}
    for zone, start, length in left:
        holes.setdefault(zone, []).append((start, length))
    for zone, start, length, identifier in before.new_map.runs:
        if identifier in gone:
            holes[zone] = given(holes.get(zone, []), (start, length))
    return sorted(kept + [(zone, *hole, None) for zone, found in holes.items() for hole in found], key=lambda run: run[:3])


def run_text(run: Tuple[int, int, int, Optional[int]]) -> str:
    return "zone %d at %d, %d bits, %s" % (*run[:3], "hole" if run[3] is None else "identifier %d" % run[3])


def map_differences(change: Change) -> List[str]:
    left, found = object_placed(change)
    left, wrong = growth_placed(change, left)
    found += wrong
    wanted, there = runs_after(change, left, given_back(change)), sorted(change.after.new_map.runs, key=lambda run: run[:3])
    missing, extra = (sorted(set(one) - set(other), key=lambda run: run[:3]) for one, other in ((wanted, there), (there, wanted)))
    found += ["no run: " + run_text(run) for run in missing[:3]] + ["a run that should not be: " + run_text(run) for run in extra[:3]]
    return found


def zone_differences(change: Change) -> List[str]:
    """Bits outside the allocation bits, links, and the record."""
    shape, found = change.before.new_map.shape, []
    copies = chosen_copy(change.before), change.after.copies()[0]
    for zone in range(shape.zones):
        old, new = (copy[zone * shape.sector:(zone + 1) * shape.sector] for copy in copies)
        bits, others = (int.from_bytes(sector, "little") >> shape.end(zone) for sector in (old, new))
        if bits != others:
            found.append("bits past the end of zone %d have changed" % zone)
        if zone == 0:
            found += record_differences(change, old[4:64], new[4:64])
        if old[1:3] != new[1:3] and not new[2] & 0x80:
            found.append("the link to the first hole of zone %d lacks its top bit" % zone)
        found += high_bits(change, zone, old, new)
    return found


def chosen_copy(state: State) -> bytes:
    """The copy of the map that the image opens by."""
    shape, sector = state.new_map.shape, state.sector
    chosen = b"".join(state.new_map.chosen_copy(state.data))
    assert len(chosen) == shape.zones * sector
    return chosen


def high_bits(change: Change, zone: int, old: bytes, new: bytes) -> List[str]:
    """Bits of a hole's field above the link are 0, or as they were."""
    shape = change.before.new_map.shape
    if shape.idlen <= 15:
        return []
    mask = (1 << shape.idlen) - 1
    for other, start, length in change.after.holes():
        if other == zone:
            bit = start - shape.base(zone) + shape.first(zone)
            field, was = (int.from_bytes(sector, "little") >> bit & mask for sector in (new, old))
            if field > AFTER_MAP and field >> 15 != was >> 15:
                return ["the hole of zone %d at bit %d has bits above its link" % (zone, bit)]
    return []


def record_differences(change: Change, old: bytes, new: bytes) -> List[str]:
    wanted = bytearray(old)
    if change.needs.grown == ():
        root = change.grown()
        wanted[12:16], wanted[48:52] = root.address.to_bytes(4, "little"), change.needs.size.to_bytes(4, "little")
    places = [at for at in range(60) if wanted[at] != new[at]]
    return ["the record differs at %s" % places] if places else []


def copy_differences(change: Change) -> List[str]:
    one, other = change.after.copies()
    return [] if one == other else ["the two copies of the map differ"]


# ---- old maps


def old_map_differences(change: Change) -> List[str]:
    found, needs = [], change.needs
    wanted, there = needs.old_holes_after(), change.after.old_holes()
    if wanted != there:
        found.append("the holes are %s instead of %s" % (there[:8], wanted[:8]))
    made = change.made()
    if change.takes_space() and made.sectors[:1] != [needs.old_place()]:
        found.append("the object lies at sector %s instead of %d" % (made.sectors[:1], needs.old_place()))
    assert len(wanted) <= OLD_HOLES
    return found + old_map_bytes(change, change.before.old_holes() != there)


def old_map_bytes(change: Change, is_new: bool) -> List[str]:
    """An old map keeps every byte but its hole fields, FreeEnd and checks."""
    old, new = change.before.data, change.after.data
    found = ["byte %d of the map has changed" % at for at in [*range(246, 255), *range(502, 510)] if old[at] != new[at]]
    if change.before.form == "D" and old[512:1024] != new[512:1024]:
        found.append("the sector of the map has changed past the map")
    count = len(change.after.old_holes())
    for at in (0, 256):
        unused, was = new[at + 3 * count:at + 246], old[at + 3 * count:at + 246]
        if any(unused) and (is_new or unused != was):
            found.append("places of the map that aren't used aren't 0")
        if new[at:at + 256] != old[at:at + 256] and new[at + 255] != old_map_check(new[at:at + 256], 255):
            found.append("the check of half %d of the map isn't that of writing" % (at // 256))
    return found


# ---- all that stays


def outside_differences(change: Change) -> List[str]:
    before, after, found = change.before, change.after, []
    if after.kind != before.kind:
        found.append("the image opens as %s instead of %s" % (after.kind, before.kind))
    size = before.disc_bytes()
    if before.data[size:] != after.data[size:]:
        found.append("bytes past the disc's end have changed")
    place = slice(BOOT_BLOCK, BOOT_BLOCK + BOOT_SIZE)
    if before.kind == "Boot" and before.data[place] != after.data[place]:
        found.append("the boot block has changed")
    idle = sorted(before.idle_sectors() & change.changed)
    if idle:
        found.append("bytes of lost space or of identifier 1 have changed, in sectors %s" % idle[:4])
    return found


def differences(before: State, after: State, c: Command, needs: Needs) -> List[str]:
    """All that is wrong with what a changing command left."""
    change = Change(before, after, c, needs)
    found = tree_differences(change)
    if found:
        return found
    found = address_differences(change) + outside_differences(change)
    if before.is_new:
        found += map_differences(change) + zone_differences(change) + copy_differences(change)
    else:
        found += old_map_differences(change)
    return found + change_directories.differences(change)
