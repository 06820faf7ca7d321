# SPDX-License-Identifier: MIT
"""What has to be answered to a changing command in the safe mode: what it needs, the places for that, and why it is refused.

Written from fc_image specs/safe (FirstFit, SafeShort). Refusals by the tree come first, and DirFull and IdsFull are as without the safe
mode (change_answer.py).
"""
from __future__ import annotations

from typing import Dict, List, Optional, Set, Tuple

from tools.reference.change_answer import CHANGING, Command, Needs, refusal_of
from tools.reference.change_state import Key, State

Hole = Tuple[int, int, int]  # zone, disc map bit and bits
SPREAD, MOST_ZONES = 17, 9
WORDS_OF_SPREAD = "error 17 Spread\n"


def is_suitable(state: State) -> bool:
    """Whether the safe mode serves the disc: directories are big, and none lies in the map's identifier."""
    return state.is_new and state.form == "big" and not any(
        entry.is_directory() and entry.address // 256 == 2 for entry in state.objects.values())


# ---- first fit


def front_of(hole: Hole, bits: int, least: int) -> Hole:
    zone, start, length = hole
    return hole if length < bits + least else (zone, start, bits)


def first_fit(holes: List[Hole], bits: int, least: int) -> Optional[List[Hole]]:
    """The front of the first hole that has the bits; else holes whole, until one has what is still missing."""
    one = next((hole for hole in holes if hole[2] >= bits), None)
    if one:
        return [front_of(one, bits, least)]
    parts = []
    for hole in holes:
        if bits <= hole[2]:
            return [*parts, front_of(hole, max(bits, least), least)]
        parts.append(hole)
        bits -= hole[2]
    return None


def holes_left(holes: List[Hole], parts: List[Hole]) -> List[Hole]:
    taken = {(zone, start): length for zone, start, length in parts}
    left = []
    for zone, start, length in holes:
        count = taken.get((zone, start), 0)
        if count < length:
            left.append((zone, start + count, length - count))
    return left


class SafeNeeds(Needs):
    """What a command needs in the safe mode that isn't refused by the tree. `refusal` is the number; `parts` are by needs, in their order."""

    def __init__(self, state: State, c: Command) -> None:
        super().__init__(state, c)
        self.shape = state.new_map.shape
        self.gone = c.key() if c.word == "delete" else None
        self.replaced = c.key() if c.word in ("delete", "save", "create") and c.key() in state.objects else None
        self.leaving = self.grown if self.growth and not self.alone else None  # a directory that gets a new identifier
        self.changed = [key for key in state.heads if self.may_be_rewritten(key) and key != self.gone]
        self.changed_identifiers = sorted({state.objects[key].address // 256 for key in self.changed if self.remains(key)})
        self.needs = self.bits_needed()
        self.holes_unneeded: List[Hole] = state.holes()
        self.parts = self.fitted()
        self.given_up = [identifier for identifier in sorted(state.owners) if identifier > 2 and self.is_given_up(identifier)]
        self.zones = self.changed_zones() if self.parts is not None else set()
        if self.refusal not in (12, 13):
            self.refusal = 14 if self.parts is None else SPREAD if len(self.zones) > MOST_ZONES else 0

    # which directories are written, and what stays in an identifier

    def may_be_rewritten(self, key: Key) -> bool:
        """It holds a named path's last name, is renamed or set, holds a grown directory, or lies in one that gets a new identifier."""
        c = self.c
        if key in {path[:-1] for path in (c.key(), c.target()) if path} or c.word == "rename" and key == c.key():
            return True
        return bool(self.grown is not None and (self.grown and self.grown[:-1] == key or key and key[:-1] == self.leaving))

    def remains(self, key: Key) -> bool:
        """Whether the object owns its identifier after the command too."""
        return bool(self.state.objects[key].sectors) and key not in (self.replaced, self.leaving) and not (self.copied and key == self.c.key())

    def remaining_in(self, identifier: int) -> List[Key]:
        return [key for key in self.state.owners.get(identifier, []) if not isinstance(key, str) and self.remains(key)]

    def end_of(self, key: Key) -> int:
        """The bytes of its identifier up to the object's end."""
        entry, sector = self.state.objects[key], self.state.sector
        low = entry.address % 256
        skipped = (low - 1) * (self.shape.share // sector) if low else 0
        return (skipped + (self.size // sector if key == self.grown else len(entry.sectors))) * sector

    # needs

    def bits_needed(self) -> List[int]:
        """The bits of the needs: of the new object, of each identifier with a changed directory, and of a directory that leaves its own."""
        ends = [max(self.end_of(key) for key in self.remaining_in(identifier)) for identifier in self.changed_identifiers]
        needs = [self.object_bits(), *map(self.shape.units, ends), self.shape.units(self.size) if self.leaving is not None else 0]
        return [needs[0]] * bool(needs[0]) + needs[1:-1] + [needs[-1]] * bool(needs[-1])

    def fitted(self) -> Optional[List[List[Hole]]]:
        """The parts of each need, in the holes that those before it left."""
        found = []
        for bits in self.needs:
            parts = first_fit(self.holes_unneeded, bits, self.shape.least)
            if parts is None:
                return None
            found.append(parts)
            self.holes_unneeded = holes_left(self.holes_unneeded, parts)
        return found

    # what goes back, and the zones

    def is_given_up(self, identifier: int) -> bool:
        if identifier in self.changed_identifiers:
            return True
        return not self.remaining_in(identifier) and not (self.slack and self.slack[0] == identifier)

    def runs_given_up(self) -> List[Hole]:
        return [run for identifier in self.given_up for run in self.state.runs_of(identifier)]

    def changed_zones(self) -> Set[int]:
        zones = {run[0] for parts in self.parts or [] for run in parts} | {run[0] for run in self.runs_given_up()}
        return zones | ({0} if self.grown == () else set())

    def new_identifiers(self) -> List[int]:
        """Those of the needs that are new, in their order: the least without a run."""
        return self.state.free_identifiers()[:bool(self.object_bits()) + (self.leaving is not None)]

    def need_identifiers(self) -> List[int]:
        new = self.new_identifiers()
        own = new[:1] if self.object_bits() else []
        return own + self.changed_identifiers + (new[len(own):] if self.leaving is not None else [])

    def parts_by_identifier(self) -> Dict[int, List[Hole]]:
        return dict(zip(self.need_identifiers(), self.parts or []))


def safe_refusal(state: State, c: Command, read_only: bool = False) -> Tuple[int, Optional[SafeNeeds]]:
    """The number of the refusal of any kind in the safe mode, and the needs of a command that the tree doesn't refuse."""
    number = refusal_of(state, c, read_only)
    if number or c.word not in CHANGING:
        return number, None
    needs = SafeNeeds(state, c)
    return needs.refusal, needs
