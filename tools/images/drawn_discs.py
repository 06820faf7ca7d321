# SPDX-License-Identifier: MIT
"""Discs for the check of changing commands: each follows from its number alone. No code is shared with fcore.

Fresh discs, fragmented ones, those of tools/images/table.py, nearly full ones, some whose identifiers, holes or directories are nearly
used up, big directories with and without room; over them by chance unsorted directories, wrong parent fields, odd heads, copies
of the map that differ, and bytes past the disc's end. Free space is filled with noise, so that bytes that weren't written show.
"""
from __future__ import annotations

import random
from typing import Callable, Tuple

from tools.images.fragmented import SHAPES, Fragmenter, hard_disc
from tools.images.table import VOLUMES, full_identifiers, two_holes
from tools.images.volumes import FRESH, FRESH_NEW, AnyVolume, Directory, Entry, File, NewVolume, OldVolume, Some, Volume, big_heap
from tools.reference.change_state import State
from tools.reference.filecore import folded, head_space, zone_check

Recipe = Callable[[random.Random], NewVolume]
OldRecipe = Callable[[random.Random], OldVolume]
Maker = Callable[[], NewVolume]

TABLE = ("hello", "e-files", "f-files", "e-plus-files", "f-plus-files", "f-user", "e-plus-grown", "scattered-directories", "scattered-big",
         "small-sectors", "large-sectors", "wide-disc")
OLD_TABLE = ("d-files", "l-files", "l-7-units", "l-8-units", "l-640-units", "l-82-holes")


# ---- what new maps hold


def fragments(name: str) -> Recipe:
    def make(chance: random.Random) -> NewVolume:
        volume = SHAPES[name]()
        Fragmenter(volume, chance.random()).fill(chance.randint(1, 6))
        return volume
    return make


def nearly_full(name: str) -> Recipe:
    """A fragmented disc whose holes were given to one file, but for a few."""
    def make(chance: random.Random) -> NewVolume:
        volume = fragments(name)(chance)
        leave_few_holes(volume, chance)
        return volume
    return make


def leave_few_holes(volume: NewVolume, chance: random.Random) -> None:
    """Gives most of the free space to one file, and leaves a few holes, not all of them as they were."""
    least, identifier, room = volume.shape.least, volume.new_identifier(), 0
    places = [(zone, at) for zone, runs in enumerate(volume.runs) for at, run in enumerate(runs) if run[1] is None]
    kept = chance.sample(places, min(len(places), chance.randint(1, 6)))
    for zone, at in sorted(places, reverse=True):
        bits = volume.runs[zone][at][0]
        left = bits if bits < 2 * least else min(bits - least, least * chance.randint(1, 5)) if (zone, at) in kept else 0
        if left < bits:
            volume.runs[zone][at:at + 1] = [(bits - left, identifier)] + ([(left, None)] if left else [])
            room += (bits - left) * volume.shape.bit_bytes
    if room:
        add(volume, volume.root, File(b"Filler", chance.randbytes(room - chance.randrange(volume.shape.sector)), identifier * 256))


def few_identifiers(make_volume: Recipe) -> Recipe:
    """A disc of whose identifiers at most four are left, while many holes are."""
    def make(chance: random.Random) -> NewVolume:
        volume = make_volume(chance)
        runs = [(zone, at) for zone, found in enumerate(volume.runs) for at, run in enumerate(found) if run[1] is not None and run[1] > 3]
        lost = set(range(3, volume.shape.id_limit)) - {entry.address // 256 for entry in volume.objects() if entry.address}
        chosen = [place for place in runs if volume.runs[place[0]][place[1]][1] in lost]
        for number, (zone, at) in enumerate(chance.sample(chosen, chance.randint(10, 40))):
            bits, identifier = volume.runs[zone][at]
            if number < chance.randint(0, 4):
                volume.runs[zone][at] = bits, None
            else:
                content = chance.randbytes(chance.randint(1, bits * volume.shape.bit_bytes))
                add(volume, volume.root, File(b"F%d" % number, content, identifier * 256 + chance.randint(0, 1)))
        return volume
    return make


def few_identifiers_big(chance: random.Random) -> NewVolume:
    """All identifiers of a disc with big directories have runs, most of them lost."""
    volume = hard_disc(8, 11, 8, 16, big=True)
    growing_directories(volume, chance, 3)
    least = volume.shape.least
    for identifier in range(volume.next_identifier, volume.shape.id_limit):
        zone = next(zone for zone, runs in enumerate(volume.runs) if runs[-1][1] is None and runs[-1][0] >= 2 * least)
        length, owner = volume.runs[zone].pop()
        volume.runs[zone] += [(least, identifier), (length - least, None)]
    return volume


def growing_directories(volume: NewVolume, chance: random.Random, most: int) -> None:
    """Big directories of which little is left, each with some directories in it, alone in their identifiers or not."""
    holders = [volume.root]
    for number in range(chance.randint(1, most)):
        holder = chance.choice(holders)
        made = add(volume, holder, volume.directory(holder, b"Grow%d" % number, low=chance.choice((0, 0, 1))))
        holders.append(made)
        for at in range(chance.randint(0, 2)):
            inner = add(volume, made, volume.directory(made, b"In%d" % at))
            inner.insert(volume.file(b"File", chance.randbytes(chance.randint(1, 3000))))
    for holder in holders:
        if chance.random() < 0.8:
            fill_big(chance, holder)


def growing(make_volume: Maker) -> Recipe:
    def make(chance: random.Random) -> NewVolume:
        volume = make_volume()
        growing_directories(volume, chance, 4)
        if chance.random() < 0.4:
            leave_few_holes(volume, chance)
        return volume
    return make


def full_directory(name: str) -> Recipe:
    """A directory with as many entries as can be, or one less."""
    def make(chance: random.Random) -> NewVolume:
        volume = FRESH_NEW[name]()
        holder = add(volume, volume.root, volume.directory(volume.root, b"Full"))
        for holder in (holder, volume.root):
            while len(holder.entries) < 77 - chance.randint(0, 1):
                holder.insert(File(b"N%02d" % len(holder.entries), b""))
        return volume
    return make


def shared(make_volume: Maker) -> Recipe:
    """Files that share identifiers, with slack between and after them; for big directories one with room, or without."""
    def make(chance: random.Random) -> NewVolume:
        volume = make_volume()
        holders = [volume.root, add(volume, volume.root, volume.directory(volume.root, b"Docs"))]
        for number in range(chance.randint(3, 8)):
            room = chance.randint(2, 12) * max(volume.shape.share, 1024)
            identifier, units = volume.place(room), room // volume.shape.share
            low, holder = chance.randint(1, 2), chance.choice(holders)
            if volume.form == "big" and chance.random() < 0.5:
                low = add_big_directory(volume, chance, holder, b"Dir%d" % number, identifier, units)
            while low <= min(units, 250) and len(holder.entries) < 60:
                size = chance.randint(1, min(units - low + 1, 3))
                if chance.random() < 0.6:
                    content = chance.randbytes(chance.randint((size - 1) * volume.shape.share + 1, size * volume.shape.share))
                    add(volume, holder, File(b"S%d_%d" % (number, low), content, identifier * 256 + low))
                low += size
        return volume
    return make


def add_big_directory(volume: NewVolume, chance: random.Random, holder: Directory, name: bytes, identifier: int,
                      units: int) -> int:
    """A big directory that is nearly full, at the front of an identifier; answers the low byte after it."""
    low, share = chance.choice((0, 1, 1, 2)), volume.shape.share
    needed = -(-2048 // share)
    if max(low, 1) + needed - 1 > units:
        return 1
    made = add(volume, holder, Directory(name, identifier * 256 + low))
    made.holder = holder
    if chance.random() < 0.6:
        add(volume, made, volume.directory(made, b"Inner"))
    fill_big(chance, made)
    return max(low, 1) + needed + chance.choice((0, 0, 1, 2))


def fill_big(chance: random.Random, directory: Directory) -> None:
    """Files of 0 bytes until little is left of the directory."""
    while True:
        name = random_name(chance, "big")
        if any(folded(name) == folded(entry.name) for entry in directory.entries):
            continue
        entry = directory.insert(File(name, b""))
        if not big_fits(directory):
            directory.entries.remove(entry)
            return


def big_fits(directory: Directory, more: int = 0) -> bool:
    head = head_space(directory.form, directory.head_name)
    return 28 + head + 28 * len(directory.entries) + len(big_heap(directory)[0]) + more + 8 <= directory.size


def second_forms(chance: random.Random) -> NewVolume:
    """Directories whose heads' names have the second form, and lengths in which it differs from the first, with a word 0 after the heap."""
    volume = FRESH_NEW[chance.choice(("E+", "F+"))]()
    holders = [volume.root]
    for number in range(10):
        holder = chance.choice(holders)
        holders.append(add(volume, holder, volume.directory(holder, b"Dir%d" % number)))
    for directory in holders:
        directory.form, directory.head_name = 2, b"Named by 4b."[:chance.choice((4, 8, 12))]
    return volume


def in_the_map(make_volume: Maker) -> Recipe:
    """Objects in identifier 2, which the map owns too."""
    def make(chance: random.Random) -> NewVolume:
        volume = make_volume()
        shape = volume.shape
        before = {zone: [run for run in runs] for zone, runs in enumerate(volume.runs)}
        zone = chance.randrange(shape.zones)
        volume.take(2, zone, shape.units(6 * shape.share + 8192))
        place = next(n for n, (old, new) in enumerate(zip(before[zone] + [None], volume.runs[zone])) if old != new)
        start = (shape.base(zone) + sum(bits for bits, owner in volume.runs[zone][:place])) * shape.bit_bytes
        volume.find_extents()
        offset = 0
        for first, length in volume.extents[2]:
            if first == start:
                break
            offset += length
        if offset % shape.share or offset // shape.share > 200:
            return volume
        low = offset // shape.share + 1
        units = -(-2048 // shape.share)
        made = add(volume, volume.root, Directory(b"InMap", 2 * 256 + low))
        made.holder = volume.root
        if volume.form == "big":
            add(volume, made, volume.directory(made, b"Inner"))
            fill_big(chance, made)
        low += units + chance.randint(0, 1)
        for number in range(chance.randint(1, 3)):
            add(volume, volume.root, File(b"M%d" % number, chance.randbytes(chance.randint(1, shape.share)), 2 * 256 + low + number))
        return volume
    return make


def add(volume: NewVolume, holder: Directory, entry: Some) -> Some:
    """Inserts an entry; if a big directory can't hold it, files of 0 bytes make room."""
    holder.insert(entry)
    while volume.form == "big" and not big_fits(holder):
        holder.entries.remove(next(one for one in holder.entries if not one.is_directory and not one.data))
    return entry


def shares() -> NewVolume:
    return hard_disc(9, 13, 7, 5, share=1)


def big_shares() -> NewVolume:
    return hard_disc(8, 14, 7, 6, big=True)


def table(name: str) -> Callable[[random.Random], AnyVolume]:
    return lambda chance: VOLUMES[name]()


NEW = {
    **{"fresh " + name: lambda chance, name=name: FRESH_NEW[name]() for name in ("E", "F", "E+", "F+")},
    **{"fragmented " + name: fragments(name) for name in SHAPES},
    **{"nearly full " + name: nearly_full(name) for name in SHAPES},
    **{"table " + name: table(name) for name in TABLE},
    **{"full directory " + name: full_directory(name) for name in ("E", "F")},
    **{"shared " + name: shared(FRESH_NEW[name]) for name in ("E", "F", "E+", "F+")},
    "shared, units of two sectors": shared(shares), "shared, big": shared(big_shares),
    **{"in identifier 2, " + name: in_the_map(FRESH_NEW[name]) for name in ("E", "F", "E+", "F+")},
    "in identifier 2, nine zones": in_the_map(SHAPES["nine-zones"]), "in identifier 2, big": in_the_map(big_shares),
    **{"growing " + name: growing(FRESH_NEW[name]) for name in ("E+", "F+")}, "growing, big": growing(big_shares),
    "second forms": second_forms,
    "few identifiers": few_identifiers(lambda chance: full_identifiers()), "few identifiers, big": few_identifiers(few_identifiers_big),
    "two holes": lambda chance: two_holes(),
}


# ---- old maps


def old_filled(form: str, units: Callable[[random.Random], int], holes: int, most_steps: int = 8) -> OldRecipe:
    """A disc of an old map with files, holes and lost space in turn; a hole has at most so many sectors, a file some times as many."""
    def make(chance: random.Random) -> OldVolume:
        size = units(chance)
        volume = OldVolume(form, size)
        directories, number, most = [volume.root], 0, 47 if form == "L" else 77
        while size - volume.next > 48 * volume.step and len(volume.holes) < holes:
            number += 1
            draw, holder = chance.random(), chance.choice(directories)
            if draw < 0.3:
                volume.hole(chance.randint(1, most_steps) * volume.step)
            elif draw < 0.35:
                volume.lose(volume.step)
            elif draw < (0.45 if most_steps > 2 else 0.38) and len(holder.entries) < most:
                directories.append(holder.insert(volume.directory(holder, b"D%d" % number)))
            elif len(holder.entries) < most:
                length = chance.choice((1, 255, 256, 257, 1024, chance.randint(1, 500 * most_steps)))
                holder.insert(volume.file(b"F%d" % number, chance.randbytes(length)))
            elif all(len(one.entries) >= most for one in directories):
                break
        if len(volume.holes) < 82 and chance.random() < 0.7:
            volume.rest_is_hole()
        volume.check_start = chance.choice((0, 255))
        volume.name = b"Disc name"
        return volume
    return make


def many_units(form: str) -> Callable[[random.Random], int]:
    return (lambda chance: 3200) if form == "D" else (lambda chance: 2560)


OLD = {
    **{"fresh " + name: lambda chance, name=name: FRESH[name]() for name in ("D", "L")},
    **{"table " + name: table(name) for name in OLD_TABLE},
    **{"filled " + form: old_filled(form, many_units(form), 60) for form in "DL"},
    **{"82 holes " + form: old_filled(form, many_units(form), 82, 1 if form == "D" else 2) for form in "DL"},
    "filled, small": old_filled("L", lambda chance: chance.randint(64, 1280), 40),
    "tiny": old_filled("L", lambda chance: chance.randint(7, 90), 40),
}


# ---- oddities by chance


def decorate(volume: Volume, chance: random.Random) -> None:
    """Heads, orders, parents, attributes: all that a reader accepts."""
    for directory in volume.directories():
        directory.sequence = chance.choice((0, 1, 254, 255, chance.randrange(256)))
        directory.reserved = chance.randbytes(2) if chance.random() < 0.5 else b""
        directory.title = chance.choice((directory.title, b"Some title", b""))
        if volume.form != "big":
            directory.word = chance.choice((None, b"Hugo", b"Nick"))
        else:
            decorate_big(directory, chance)
        if chance.random() < 0.15:
            directory.parent = chance.randrange(1 << 24)
        if chance.random() < 0.15:
            chance.shuffle(directory.entries)
        for entry in directory.entries:
            decorate_entry(volume, entry, chance)


def decorate_big(directory: Directory, chance: random.Random) -> None:
    """Another form, another name in the head, a longer heap; taken back if the parts don't fit."""
    for field, value in (("form", 2), ("head_name", random_name(chance, "big")), ("heap_tail", 4 * chance.randint(1, 20))):
        kept = getattr(directory, field)
        if chance.random() < 0.4:
            setattr(directory, field, value)
            if not big_fits(directory):
                setattr(directory, field, kept)
    if chance.random() < 0.3 and big_fits(directory, 4):
        directory.spare_words = chance.getrandbits(32)


def decorate_entry(volume: Volume, entry: Entry, chance: random.Random) -> None:
    bits = {"D": 8, "L": 10, "big": 32}[volume.form]
    if chance.random() < 0.2:
        entry.attributes = entry.attributes & 15 | chance.getrandbits(bits) & ~15
    if chance.random() < 0.06:
        entry.attributes |= 4
    entry.load, entry.execution = chance.getrandbits(32), chance.getrandbits(32)
    if volume.form == "L" and chance.random() < 0.3:
        entry.last = chance.randrange(256)
    if not entry.is_directory and not entry.data and chance.random() < 0.3:
        entry.address = chance.getrandbits(32 if volume.form == "big" else 24)


def noisy(image: bytearray, chance: random.Random) -> bytearray:
    """Free sectors, and those of identifiers that no object has, with noise."""
    state = State(image)
    objects = {sector for entry in state.objects.values() for sector in entry.sectors}
    kept = objects | set(state.map.reserved)
    for sector in range(state.disc_bytes() // state.sector):
        if sector not in kept:
            image[sector * state.sector:(sector + 1) * state.sector] = chance.randbytes(state.sector)
    return image


def torn(image: bytearray, chance: random.Random) -> bytearray:
    """Copies that differ: the second is worn, or the first, or the first one's checks are right but another total stands in it."""
    state = State(image)
    sector, zones = state.sector, state.new_map.shape.zones
    start = state.new_map.shape.map_sector * sector
    zone = chance.randrange(zones)
    copy = chance.choice((0, 1, 1))
    place = start + (copy * zones + zone) * sector
    if chance.random() < 0.5:
        image[place + chance.randrange(64, sector)] ^= chance.randint(1, 255)
    else:
        image[place + 3] ^= chance.randint(1, 255)
        image[place] = zone_check(image[place:place + sector])
    return image


def random_name(chance: random.Random, form: str) -> bytes:
    """Few letters, so that names meet; in big directories sometimes long ones, about the lengths of words."""
    most = 255 if form == "big" else 10
    draw = chance.random()
    size = chance.randint(1, 3 if draw < 0.4 else min(most, 24))
    if 0.4 < draw < 0.55:
        size = chance.choice((most, most - 1, 4, 8))
    letters = b"AaBb01" if draw < 0.5 else b"AbCdEfGh!-_+xyz0123456789" + (b"" if form == "L" else b"\xe9\x80\xff")
    return bytes(chance.choice(letters) for at in range(size))


def image_of(number: int, old: bool = False) -> Tuple[str, bytes]:
    """The name of a disc and its bytes; what a fresh disc holds is left as it is for the first numbers."""
    recipes = OLD if old else NEW
    names = list(recipes)
    name = names[number % len(names)]
    chance = random.Random("%d %s" % (number, name))
    volume = recipes[name](chance)
    if number >= len(names) or not name.startswith("fresh"):
        decorate(volume, chance)
    for directory in volume.directories():
        directory.guards_form = True
    image = noisy(bytearray(volume.image()), chance)
    if not old and chance.random() < 0.3:
        image = torn(image, chance)
    if chance.random() < 0.2:
        image += chance.randbytes(chance.randint(1, 3000))
    return name, bytes(image)
