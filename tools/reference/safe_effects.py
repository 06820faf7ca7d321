# SPDX-License-Identifier: MIT
"""What a changing command may do to an image in the safe mode: the differences from fc_image specs/safe (SafeSteady), in words.

The tree, the entries of directories, and what stays outside the map are as without the safe mode (change_effects.py,
change_directories.py). Here are the runs, which the needs decide, that each changed directory is written anew, and that nothing is
written but the map and what was free.
"""
from __future__ import annotations

from typing import List, Optional

from tools.reference import change_directories
from tools.reference.change_answer import Command, given, low_byte
from tools.reference.change_effects import (Change, copy_differences, outside_differences, run_text, tree_differences,
                                            zone_differences)
from tools.reference.change_state import Key, State
from tools.reference.filecore import spelled_path
from tools.reference.safe_answer import SafeNeeds


class SafeChange(Change):
    """A command that isn't refused in the safe mode, with the image before it and after it."""

    needs: SafeNeeds

    def has_new_address(self) -> bool:
        return self.needs.leaving is not None


def address_differences(change: SafeChange) -> List[str]:
    """Where the named object lies, and a directory that grows."""
    needs, made, found = change.needs, change.made(), []
    new = needs.new_identifiers()
    if made is not None:
        wanted = named_address(change, new)
        if made.address != wanted:
            found.append("the object has the address %x instead of %x" % (made.address, wanted))
    grown = change.grown()
    if grown is not None:
        old = change.before.objects[needs.grown]
        wanted = new[-1] * 256 if needs.leaving is not None else old.address
        if grown.address != wanted:
            found.append("the grown directory has the address %x instead of %x" % (grown.address, wanted))
        if change.after.disc.size_of(grown) != needs.size:
            found.append("the grown directory has %d bytes instead of %d" % (change.after.disc.size_of(grown), needs.size))
    return found


def named_address(change: SafeChange, new: List[int]) -> int:
    needs, c = change.needs, change.c
    if needs.slack:
        return needs.slack[0] * 256 + needs.slack[1]
    if not change.takes_space():
        return 0 if c.is_making_file() else change.before.objects[c.key()].address
    room = sum(bits for zone, start, bits in needs.parts[0]) * needs.shape.bit_bytes
    return new[0] * 256 + (0 if change.made().is_directory() else low_byte(needs.shape, room, needs.length))


def map_differences(change: SafeChange) -> List[str]:
    """All runs: each need's identifier has exactly the parts of its need, and no other run but what goes back changes."""
    needs, before = change.needs, change.before
    placed = needs.parts_by_identifier()
    wanted = [run for run in before.new_map.runs if run[3] is not None and run[3] not in needs.given_up]
    wanted += [(*run, identifier) for identifier, parts in placed.items() for run in parts]
    holes = {zone: [(start, length) for other, start, length in needs.holes_unneeded if other == zone] for zone in range(needs.shape.zones)}
    for zone, start, length in needs.runs_given_up():
        holes[zone] = given(holes[zone], (start, length))
    wanted += [(zone, *hole, None) for zone, found in holes.items() for hole in found]
    there = set(change.after.new_map.runs)
    missing, extra = (sorted(one, key=lambda run: run[:3]) for one in (set(wanted) - there, there - set(wanted)))
    return ["no run: " + run_text(run) for run in missing[:3]] + ["a run that should not be: " + run_text(run) for run in extra[:3]]


def written_differences(change: SafeChange) -> List[str]:
    """Nothing is written but the map, what the needs take, and the sectors of a file in slack."""
    before, needs = change.before, change.needs
    start = needs.shape.map_sector
    may = set(range(start, start + 2 * needs.shape.zones))
    for parts in needs.parts or []:
        may.update(sector for zone, first, length in parts for sector in before.new_map.sectors_in(first, length))
    if needs.slack:
        may.update(change.made().sectors)
    others = sorted(change.changed - may)
    return ["sectors that weren't free have changed: %s" % others[:4]] if others else []


def rewritten_differences(change: SafeChange) -> List[str]:
    """Each changed directory is written anew, even if it says the same; no other is."""
    found = []
    for key in change.before.heads:
        now: Optional[Key] = change.key_after(key)
        if now is None:
            continue
        is_changed = change.after.heads[now].sequence != change.before.heads[key].sequence
        if is_changed != (key in change.needs.changed):
            found.append("%s: %s" % (spelled_path(now), "it has changed" if is_changed else "it isn't written anew"))
    return found


def differences(before: State, after: State, c: Command, needs: SafeNeeds) -> List[str]:
    """All that is wrong with what a changing command left in the safe mode."""
    change = SafeChange(before, after, c, needs)
    found = tree_differences(change)
    if found:
        return found
    found = address_differences(change) + outside_differences(change) + written_differences(change)
    found += map_differences(change) + zone_differences(change) + copy_differences(change)
    return found + rewritten_differences(change) + change_directories.differences(change)
