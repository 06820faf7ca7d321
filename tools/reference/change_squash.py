# SPDX-License-Identifier: MIT
"""What `compact` may do to a disc with an old map: the differences from `Compacts` of fc_image::effects."""
from __future__ import annotations

from typing import List

from tools.reference.change_directories import lines_of
from tools.reference.change_effects import old_map_bytes, outside_differences
from tools.reference.change_state import Key, State, changed_sectors
from tools.reference.filecore import spelled_path


class Compaction:
    """The image before it and after it."""

    def __init__(self, before: State, after: State) -> None:
        self.before, self.after, self.changed = before, after, changed_sectors(before, after)


def tree_differences(before: State, after: State) -> List[str]:
    """The tree is the same, and files of 0 bytes keep their addresses."""
    if [entry.path for entry in before.objects.values()] != [entry.path for entry in after.objects.values()]:
        return ["there are other objects"]
    found = []
    for key, old in before.objects.items():
        new = after.objects[key]
        if not old.is_directory() and before.content(old) != after.content(new):
            found.append("%s has other bytes" % spelled_path(old.path))
        if not old.sectors and old.address != new.address:
            found.append("%s has another address" % spelled_path(old.path))
    return found


def directory_differences(before: State, after: State, key: Key) -> List[str]:
    """A directory keeps all but addresses, its parent field if its holder moved, and its sequence if it is rewritten."""
    old, new, entry = before.heads[key], after.heads[key], before.objects[key]
    found = [field for field in ("word", "name", "title", "reserved") if getattr(old, field) != getattr(new, field)]
    for one, other in zip(lines_of(before, key), lines_of(after, key)):
        one.address = other.address
        found += one.differences(other)
    holder = after.objects[key].holder
    parent = holder.address if holder.address != entry.holder.address else old.parent
    found += [] if new.parent == parent else ["parent"]
    is_rewritten = before.content(entry) != after.content(after.objects[key])
    found += [] if new.sequence == (old.sequence + is_rewritten) % 256 else ["sequence"]
    return ["%s has another %s" % (spelled_path(entry.path), one) for one in found]


def left_to_do(after: State) -> List[str]:
    """Holes that touch, or that an object follows."""
    starts = {entry.sectors[0]: entry for entry in after.objects.values() if entry.sectors and entry is not after.disc.root}
    holes = after.old_holes()
    found = ["a hole is followed by %s" % spelled_path(starts[sum(hole)].path) for hole in holes if sum(hole) in starts]
    return found + ["two holes touch at %d" % sum(one) for one, other in zip(holes, holes[1:]) if sum(one) == other[0]]


def differences(before: State, after: State) -> List[str]:
    found = tree_differences(before, after)
    if found:
        return found
    change = Compaction(before, after)
    for key in before.heads:
        found += directory_differences(before, after, key)
    found += left_to_do(after) + outside_differences(change) + old_map_bytes(change, before.old_holes() != after.old_holes())
    if before.idle_sectors() != after.idle_sectors():
        found.append("other space is lost")
    sums = [sum(length for start, length in state.old_holes()) for state in (before, after)]
    return found + (["%d sectors are free instead of %d" % (sums[1], sums[0])] if sums[0] != sums[1] else [])
