# SPDX-License-Identifier: MIT
"""Discs to convert, with each kind of object: names, attributes and counts of entries at the edges of what formats hold.

What a disc holds follows from its description alone; what a conversion of it has to answer is in tools/reference/conversion.py.
"""
from __future__ import annotations

import random
from typing import Iterator, Tuple

from tools.images.drawn_discs import random_name
from tools.images.fragmented import hard_disc
from tools.images.volumes import FRESH, AnyVolume, Directory, NewVolume, OldVolume
from tools.reference.conversion import FORMATS
from tools.reference.filecore import folded

UNITS = {"D": 3200, "L": 2560}
LEAST = 16  # bits of a run on these hard discs
Source = Tuple[str, AnyVolume, Tuple[str, ...]]  # its name, the disc, and the formats that it is converted to
NEIGHBOURS = {"E+": ("E", "L", "F+"), "F": ("L", "D", "E+"), "L": ("D", "E", "F+")}


def empty(form: str) -> AnyVolume:
    """A fresh disc to be filled; `whole` ends it."""
    return OldVolume(form, UNITS[form]) if form in UNITS else FRESH[form]()


def hard(zones: int = 4) -> NewVolume:
    """A hard disc of some megabytes, whose root has 4096 bytes."""
    return hard_disc(9, 15, 8, zones, big=True)


def whole(volume: AnyVolume) -> AnyVolume:
    if isinstance(volume, OldVolume):
        volume.rest_is_hole()
    return volume


def put(volume: AnyVolume, holder: Directory, name: bytes, data: bytes = b"", **fields: int) -> None:
    holder.insert(volume.file(name, data, **fields))


def made(volume: AnyVolume, holder: Directory, name: bytes, **fields: int) -> Directory:
    return holder.insert(volume.directory(holder, name, **fields))


# ---- what each format takes


def filled(form: str) -> AnyVolume:
    """Files of several lengths, directories in directories, and empty ones."""
    volume = empty(form)
    for at, length in enumerate((0, 1, 1023, 1024, 5000, 40000)):
        put(volume, volume.root, b"File%d" % at, (bytes(range(256)) * (length // 256 + 1))[:length],
            attributes=(3, 51, 1, 7, 0, 19)[at], load=0xFFFFFF00 + at, execution=at)
    holder = made(volume, volume.root, b"dir", attributes=9 if form == "F" else 13)
    made(volume, volume.root, b"Empty", load=0xFFFFFD00, execution=1)
    below = made(volume, holder, b"Below")
    for name in (b"a", b"B", b"c"):
        put(volume, below, name, name * 300)
    return whole(volume)


def plain() -> Iterator[Source]:
    for form in FORMATS:
        yield "fresh " + form, FRESH[form](), FORMATS
        yield "filled " + form, filled(form), FORMATS


# ---- names


def with_name(form: str, name: bytes, is_directory: bool = False) -> AnyVolume:
    """A file, and an object of that name."""
    volume = empty(form)
    put(volume, volume.root, b"First", b"1")
    if is_directory:
        put(volume, made(volume, volume.root, name), b"Inner", b"2")
    else:
        put(volume, volume.root, name, b"2")
    return whole(volume)


def names() -> Iterator[Source]:
    """Each letter that a name may have, but few of those that all discs take, in the middle of one; and names of each length at an edge."""
    for form, targets in NEIGHBOURS.items():
        most = 255 if form == "E+" else 10
        for letter in (one for one in range(32, 256) if not 48 < one < 58 and not 65 < one < 90 and not 97 < one < 122):
            if letter < 128 or form != "L":
                yield "letter %d on %s" % (letter, form), with_name(form, b"A%cz" % letter, letter % 2 == 1), targets
        for length in (1, 2, 7, 9, 10, 11, 24, 254, 255):
            if length <= most:
                yield "%d letters on %s" % (length, form), with_name(form, b"N" * length, length % 2 == 0), targets


# ---- attributes


def attributes() -> Iterator[Source]:
    """Each bit above the lowest three, at a file and at a directory; and the greatest numbers that fit, and the next ones."""
    for form, bits in (("E", 8), ("L", 10), ("E+", 32)):
        for value in sorted({1 << bit for bit in range(4, bits)} | {one for one in (0xF7, 0x3F7) if one < 1 << bits}):
            volume = empty(form)
            put(volume, volume.root, b"File", b"1", attributes=value)
            made(volume, volume.root, b"Dir", attributes=value & 0xFF | 8)
            yield "attributes %x on %s" % (value, form), whole(volume), ("E", "D", "L", "F+")
    for value in (0x100, 0x400):
        volume = empty("E+")
        made(volume, volume.root, b"Dir", attributes=value | 8)
        yield "attributes %x of a directory" % value, whole(volume), ("F", "L", "E+")


# ---- counts of entries


def entries() -> Iterator[Source]:
    """As many entries as a format has places for, one less and one more, in the root and below."""
    for count in (46, 47, 48, 76, 77, 78):
        for below in (False, True):
            volume = hard()
            holder = volume.root
            if below:
                made(volume, volume.root, b"A")
                holder = made(volume, volume.root, b"B", size=4096)
            for at in range(count):
                put(volume, holder, b"N%03d" % at)
            yield "%d entries %s" % (count, "below" if below else "in the root"), volume, ("E", "L", "E+")


# ---- which one is first


def drawn_misfits(number: int) -> AnyVolume:
    """Objects by chance, some of which don't fit: in a name, in attributes, or by their number."""
    chance = random.Random("misfits %d" % number)
    volume = empty("F+")
    holders = [volume.root]
    for at in range(chance.randint(3, 40)):
        holder, draw = chance.choice(holders), chance.random()
        name = random_name(chance, "big" if draw < 0.1 else "D" if draw < 0.9 else "L")
        if chance.random() < 0.05:
            name = name[:8] + bytes([chance.choice(b" \x7f$*!")])
        if any(folded(other.name) == folded(name) for other in holder.entries):
            continue
        value = 1 << chance.randint(0, 31) if chance.random() < 0.05 else chance.choice((0, 3, 51, 255))
        if chance.random() < 0.25 and len(holders) < 8:
            holders.append(made(volume, holder, name, attributes=value | 8))
        else:
            put(volume, holder, name, chance.randbytes(chance.choice((0, 1, 300, 3000))), attributes=value & ~8)
    if chance.random() < 0.3:
        crowd = made(volume, volume.root, b"Crowd", size=6144)
        for at in range(chance.randint(70, 90)):
            put(volume, crowd, b"C%02d" % at)
    return whole(volume)


# ---- room


def crowded(number: int) -> NewVolume:
    """About as many bytes as an L, a D or an F disc has, in files and directories by chance."""
    chance = random.Random("crowd %d" % number)
    volume = hard()
    left = chance.choice((655360, 819200, 1638400)) * chance.randint(95, 102) // 100
    holders, biggest = [volume.root], chance.choice((8000, 40000, 300000))
    at = 0
    while left > 0 and at < 400:
        holder = chance.choice(holders)
        if len(holder.entries) > 30:
            holders.append(volume.root.insert(volume.directory(volume.root, b"D%d" % len(holders), [roomy(volume, 2048)])))
            left -= 2048
            continue
        data = chance.randbytes(min(chance.randint(1, biggest), left))
        holder.insert(volume.file(b"F%d" % at, data, [roomy(volume, len(data))], attributes=chance.choice((3, 51))))
        at, left = at + 1, left - len(data)
    return volume


def roomy(volume: NewVolume, length: int) -> Tuple[int, int]:
    """The first zone with a hole for so many bytes, of which nothing is left, or enough for another object; and their bits."""
    bits = volume.shape.units(length)
    for zone, runs in enumerate(volume.runs):
        hole = next((count for count, owner in runs if owner is None and count >= bits), 0)
        if hole == bits or hole >= bits + LEAST:
            return zone, bits
    raise ValueError("the disc is full")


def large(length: int) -> NewVolume:
    """A hard disc with a file that is longer than any of the formats' discs, after one that isn't."""
    volume = hard(8)
    put(volume, volume.root, b"Before", b"before")
    data = random.Random("large").randbytes(1 << 16) * (length >> 16)
    bits, pieces = volume.shape.units(len(data)), []
    for zone, runs in enumerate(volume.runs):
        most = min(bits, max((count for count, owner in runs if owner is None), default=0))
        if most:
            pieces.append((zone, most))
            bits -= most
    volume.root.insert(volume.file(b"Large", data, pieces=pieces))
    return whole(volume)
