# SPDX-License-Identifier: MIT
"""Discs of each kind, and a line of each command that changes them, for bench/crashes. Each follows from its seed alone.

The discs are worn, but not as badly as those of checks/crash: about half full, with holes between the files, of which many lie in several
runs on new maps, and most directories in one. What is free has noise, as a used disc has old bytes. Lines are drawn until one is
accepted, by tools/reference/change_answer.py.
"""
from __future__ import annotations

import random
from typing import Callable, Dict, List, Optional, Tuple

from tools.images.drawn_discs import OldRecipe, Recipe, growing, noisy
from tools.images.fragmented import SHAPES, Fragmenter
from tools.images.volumes import FRESH_NEW, AnyVolume, NewVolume, OldVolume
from tools.reference.change_answer import LOCKED, Command, Needs, owed_refusal
from tools.reference.change_state import State
from tools.reference.filecore import spelled_path
from tools.reference.read_image import Entry


def used(form: str, units: int) -> OldRecipe:
    """A disc with some directories, and files with holes between them in the front part; the rest is one hole."""
    def make(chance: random.Random) -> OldVolume:
        volume = OldVolume(form, units)
        directories = [volume.root]
        for number in range(chance.randint(2, 5)):
            holder = chance.choice(directories)
            directories.append(holder.insert(volume.directory(holder, b"D%d" % number)))
        for number in range(70):
            if chance.random() < 0.3:
                volume.hole(chance.randint(1, 8) * volume.step)
            length = chance.choice((chance.randint(1, 300), chance.randint(1, 3000), chance.randint(1, 10000)))
            chance.choice(directories).insert(volume.file(b"F%04d" % number, chance.randbytes(length)))
        volume.rest_is_hole()
        return volume
    return make


def worn(shape: str, most: int) -> Recipe:
    """A disc cut into runs of up to so many shortest ones, which are 1 KB on F and F+, and 2 KB on the others."""
    def make(chance: random.Random) -> NewVolume:
        volume = SHAPES[shape]()
        Fragmenter(volume, chance.random(), most).fill(chance.randint(2, 6))
        return volume
    return make


RECIPES: Dict[str, Callable[[random.Random], AnyVolume]] = {
    "D": used("D", 3200), "L": used("L", 2560), "E": worn("E", 8), "F": worn("F", 16), "E+": worn("E+", 8), "F+": worn("F+", 16),
    "hard disc": worn("nine-zones", 8)}
GROWING: Dict[str, Recipe] = {form: growing(FRESH_NEW[form]) for form in ("E+", "F+")}
KINDS = tuple(RECIPES)
TRIES = 60
GROWS = ", a directory grows"


def image_of(kind: str, seed: int, is_growing: bool = False) -> bytes:
    """A disc of the kind; on one for growth big directories are nearly full."""
    chance = random.Random("%s %d %s" % (kind, seed, is_growing))
    recipe: Callable[[random.Random], AnyVolume] = GROWING[kind] if is_growing else RECIPES[kind]
    volume = recipe(chance)
    for directory in volume.directories():
        directory.sequence, directory.guards_form = chance.randrange(256), True
    return bytes(noisy(bytearray(volume.image()), chance))


class Lines:
    """Draws lines over a disc."""

    def __init__(self, state: State, chance: random.Random, is_growing: bool) -> None:
        self.state, self.chance, self.is_growing = state, chance, is_growing
        self.objects = [entry for key, entry in sorted(state.objects.items()) if key]
        self.directories = [entry for key, entry in sorted(state.objects.items()) if entry.is_directory()]
        self.movable = [entry for entry in self.objects if not entry.attributes & LOCKED]
        self.files = [entry for entry in self.movable if entry.sectors and not entry.is_directory()]

    # words

    def name(self) -> str:
        most = 60 if self.is_growing else 10
        return "".join(self.chance.choices("abcdefgh", k=self.chance.randint(most - 6, most)))

    def within(self, directory: Entry) -> str:
        return "%s.%s" % (spelled_path(directory.path), self.name())

    def fresh(self) -> str:
        return self.within(self.chance.choice(self.directories))

    def any_file(self) -> str:
        return spelled_path(self.chance.choice(self.files).path)

    def saved(self, path: str) -> str:
        return "save %s %08x 00000000 %s" % (path, self.chance.getrandbits(32), self.chance.randbytes(self.chance.randint(1, 3000)).hex())

    # lines

    def save(self) -> str:
        return self.saved(self.fresh())

    def save_over(self) -> str:
        return self.saved(self.any_file())

    def create(self) -> str:
        return "create %s 00000000 00000000 %d" % (self.fresh(), self.chance.randint(1, 3000))

    def cdir(self) -> str:
        return "cdir " + self.fresh()

    def delete(self) -> str:
        return "delete " + self.any_file()

    def set(self) -> str:
        path, access = spelled_path(self.chance.choice(self.objects).path), self.chance.choice(("R", "RW", "RL", "-"))
        return "set %s %08x 00000000 %s" % (path, self.chance.getrandbits(32), access)

    def rename(self) -> str:
        entry = self.chance.choice(self.movable)
        return "rename %s %s" % (spelled_path(entry.path), self.within(entry.holder))

    def across(self) -> str:
        """To another directory."""
        entry = self.chance.choice(self.movable)
        others = [one for one in self.directories if one is not entry.holder]
        return "rename %s %s" % (spelled_path(entry.path), self.within(self.chance.choice(others)))


Draw = Callable[[Lines], str]
Wanted = Callable[[Needs], bool]


def is_plain(needs: Needs) -> bool:
    return needs.grown is None and not needs.copied


def grows(needs: Needs) -> bool:
    return needs.grown is not None


def is_copied(needs: Needs) -> bool:
    return needs.copied and needs.grown is None


ROWS: Dict[str, Tuple[Draw, Wanted]] = {
    "save": (Lines.save, is_plain), "save over a file": (Lines.save_over, is_plain), "create": (Lines.create, is_plain),
    "cdir": (Lines.cdir, is_plain), "delete": (Lines.delete, is_plain), "set": (Lines.set, is_plain),
    "rename": (Lines.rename, is_plain), "rename to another directory": (Lines.across, is_plain),
    "rename, a file is copied": (Lines.across, is_copied),
    "save" + GROWS: (Lines.save, grows), "cdir" + GROWS: (Lines.cdir, grows), "rename" + GROWS: (Lines.rename, grows),
    "rename to another directory" + GROWS: (Lines.across, grows),
}
SETTLED = ("compact", "reclaim")  # commands that leave the tree
COMMANDS: Tuple[str, ...] = (*ROWS, *SETTLED)


def drawn(lines: Lines, row: str) -> Optional[bytes]:
    """A line of this row of the table that will be accepted; None if the disc has none, or none was found."""
    if row in SETTLED:
        return row.encode() if row == "compact" or lines.state.is_new else None
    draw, wanted = ROWS[row]
    for _ in range(TRIES):
        line = draw(lines).encode() if lines.files and len(lines.directories) > 1 else b""
        number, needs = owed_refusal(lines.state, Command(line)) if line else (1, None)
        if not number and needs and wanted(needs):
            return line
    return None


def runs_of(kind: str, seed: int) -> List[Tuple[str, State, bytes]]:
    """For each command that a kind of disc has its row, a disc and the line."""
    found = []
    for is_growing in (False, True) if kind in GROWING else (False,):
        state = State(image_of(kind, seed, is_growing))
        lines = Lines(state, random.Random("%s %d %s lines" % (kind, seed, is_growing)), is_growing)
        for row in COMMANDS:
            line = drawn(lines, row) if (GROWS in row) == is_growing else None
            if line:
                found.append((row, state, line))
    return found
