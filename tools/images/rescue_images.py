# SPDX-License-Identifier: MIT
"""Floppies of every format as a keeper has them, and what goes wrong with such discs: for tools/checks/rescue.py.

A volume keeps its files, so what should come out of a damaged image is known.
"""
from __future__ import annotations

import hashlib
import random
from typing import Dict, Iterator, List, Tuple

from tools.images.volumes import FRESH, AnyVolume, Entry, File, OldVolume
from tools.reference.filecore import UNIT

Damages = Iterator[Tuple[str, bytes]]  # each a kind, and the image
FORMATS = ("E", "F", "D", "L", "E+", "F+")
TRACKS = {"E": 5120, "F": 10240, "D": 5120, "L": 4096}
FOLDERS = ((b"$", b"Docs"), (b"$", b"Games"), (b"Docs", b"Old"), (b"$", b"Art"), (b"Games", b"Data"), (b"$", b"Music"))
FILES = 40
ROOM = {"E": 620000, "F": 1250000, "D": 640000, "L": 500000}


def track_of(form: str) -> int:
    return TRACKS[form[0]]


def content(length: int, seed: int) -> bytes:
    """Bytes as files have them: a third packed, a third text, a third with runs of zeros."""
    packed = hashlib.shake_128(b"%d" % seed).digest(length)
    if seed % 3 == 1:
        return bytes(32 + byte % 90 for byte in packed)
    if seed % 3 == 2:
        return b"".join(packed[at:at + 700] + bytes(min(300, max(0, length - at - 700))) for at in range(0, length, 1000))[:length]
    return packed


def lengths(form: str, source: random.Random) -> List[int]:
    """Forty lengths, some of a few bytes, which fill most of the disc."""
    parts = [source.choice((1, 2, 3, 8, 20, 60)) for _ in range(FILES - 4)]
    room = ROOM[form[0]]
    return [0, 1, 1023, 2048] + [max(1, room * part // sum(parts) - source.randrange(900)) for part in parts]


def place_file(volume: AnyVolume, name: bytes, data: bytes, source: random.Random) -> File:
    """A file in one piece, or on a new map where its first zone has no room, in several."""
    load = 0xFFF00000 | source.choice((0xFFF, 0xFFB, 0xFF9, 0xFEB)) << 8 | 0x41
    fields = {"load": load, "execution": source.randrange(1 << 32)}
    if isinstance(volume, OldVolume) or not data:
        return volume.file(name, data, **fields)
    shape = volume.shape
    bits, pieces = shape.units(len(data)), []
    room = [max((n for n, owner in runs if owner is None), default=0) for runs in volume.runs]
    for zone in sorted(range(shape.zones), key=lambda one: room[one] < bits):
        count = min(bits, room[zone])
        if count >= shape.least and bits - count not in range(1, shape.least):
            pieces.append((zone, count))
            bits -= count
        if bits <= 0:
            break
    assert bits <= 0, "no room"
    return volume.file(name, data, pieces, **fields)


def empty(form: str) -> AnyVolume:
    """A fresh volume whose free space is still to be given out."""
    volume = FRESH[form]()
    if isinstance(volume, OldVolume):
        volume.holes.clear()
        volume.next = volume.map_units + volume.units_of(2048 if form == "D" else 1280)
    return volume


def floppy(form: str, seed: int = 1) -> AnyVolume:
    """A volume of forty files in seven directories."""
    source = random.Random("%s %d" % (form, seed))
    volume = empty(form)
    sizes = lengths(form, source)
    source.shuffle(sizes)
    holders = [volume.root]
    for at, size in enumerate(sizes):
        if at % 5 == 2 and len(holders) < 7:  # directories lie among the files, as they were made
            above, made = FOLDERS[len(holders) - 1]
            outer = next(one for one in holders if one.name == above)
            holders.append(outer.insert(volume.directory(outer, made)))
            holders[-1].holder = outer
        name = b"%s%02d%d" % (source.choice((b"File", b"!Run", b"Notes", b"Pic")), at, seed)
        source.choice(holders).insert(place_file(volume, name, content(size, seed * 100 + at), source))
    if isinstance(volume, OldVolume):
        volume.rest_is_hole()
    return volume


def files_of(volume: AnyVolume) -> Dict[str, bytes]:
    """The bytes of each file, by its path."""
    return {volume.path_of(holder, entry): bytes(entry.data)
            for holder in volume.directories() for entry in holder.entries if not entry.is_directory}


def extents_of(volume: AnyVolume, entry: Entry) -> List[Tuple[int, int]]:
    """Where an object lies: places and lengths."""
    length = len(volume.content(entry))
    if not length:
        return []
    if isinstance(volume, OldVolume):
        return [(entry.address * UNIT, length)]
    volume.find_extents()
    return list(volume.pieces_of(entry.address, length))


def places_of(volume: AnyVolume) -> Iterator[Tuple[str, int, int]]:
    """The bytes that the disc's structures have: kind, place and length."""
    if isinstance(volume, OldVolume):
        yield "map", 0, 512
    else:
        shape = volume.shape
        for copy in (0, 1):
            for zone in range(shape.zones):
                yield "map copy %d" % (copy + 1), (shape.map_sector + copy * shape.zones + zone) * shape.sector, shape.sector
        if volume.has_boot:
            yield "boot block", 0xDC0, 64
    for directory in volume.directories():
        for start, length in extents_of(volume, directory):
            yield "directory", start, length


# ---- damages: each a name of its kind, and the image


def changed(image: bytes, start: int, data: bytes) -> bytes:
    made = bytearray(image)
    made[start:start + len(data)] = data
    return bytes(made)


def whole_tracks(form: str, image: bytes, source: random.Random) -> Damages:
    """Tracks that weren't read, that were left out, or that were read in place of their neighbour."""
    size = track_of(form)
    count = len(image) // size
    chosen = sorted({0, 1, count // 2, count // 2 + 1, *source.sample(range(count), 8)})
    for track in chosen:
        start = track * size
        fill = source.choice((b"\0", b"\xe5", b"\x6c"))
        yield "track of one byte", changed(image, start, fill * size)
        yield "track left out", image[:start] + image[start + size:]
        other = track + source.choice((1, 80) if form == "L" and track < 80 else (1,) if form == "L" else (1, 2))
        other = other if other < count else track - 1
        yield "wrong track read", changed(image, start, image[other * size:(other + 1) * size])


def cuts(form: str, image: bytes, source: random.Random) -> Damages:
    size = track_of(form)
    for part in (98, 95, 90, 80, 60):
        end = len(image) * part // 100
        yield "end cut off", image[:end // size * size]
        yield "end cut off", image[:end - source.randrange(1, 200)]


def bits(volume: AnyVolume, image: bytes, source: random.Random) -> Damages:
    """One bit of each structure."""
    for kind, start, length in places_of(volume):
        used = length if kind != "directory" else min(length, 400)
        at = start + source.randrange(used)
        yield "one bit of a " + kind.split(" copy")[0], changed(image, at, bytes([image[at] ^ 1 << source.randrange(8)]))


def sectors(volume: AnyVolume, form: str, image: bytes, source: random.Random) -> Damages:
    """A sector of each structure that wasn't read: zeros, or the one before again."""
    size = 256 if form == "L" else 1024
    for kind, start, length in places_of(volume):
        first = start // size
        at = (first + source.randrange(max(1, length // size))) * size
        yield "sector of a %s" % kind.split(" copy")[0], changed(image, at, bytes(size))
        if at:
            yield "sector repeated", changed(image, at, image[at - size:at])
    for at in source.sample(range(size, len(image), size), 4):
        yield "sector given up", changed(image, at, b"-=[BAD SECTOR]=-" * (size // 16))
    for at in source.sample(range(size, len(image), size), 6):
        if image[at - size:at] != bytes(size):
            yield "sector repeated", changed(image, at, image[at - size:at])


def both_maps(volume: AnyVolume, form: str, image: bytes) -> Damages:
    """The same zone of both copies of a map."""
    if not isinstance(volume, OldVolume):
        shape = volume.shape
        for zone in range(shape.zones):
            made = image
            for copy in (0, 1):
                made = changed(made, (shape.map_sector + copy * shape.zones + zone) * shape.sector, bytes(shape.sector))
            yield "zone of both maps", made


def mixtures(form: str, image: bytes, other: bytes) -> Damages:
    """From some track on, or between two, the image is that of another disc."""
    size = track_of(form)
    count = len(image) // size
    for first, end in ((count // 2, count), (count * 3 // 4, count), (count // 3, count // 2)):
        yield "two discs mixed", image[:first * size] + other[first * size:end * size] + image[end * size:]


def formattings(form: str, image: bytes) -> Damages:
    """A new formatting was broken off."""
    size = track_of(form)
    for part in (20, 8, 4, 2):
        length = len(image) // size // part * size
        yield "format broken off", b"\xe5" * length + image[length:]


def damages(volume: AnyVolume, form: str, other: bytes) -> Damages:
    """Each kind of damage, with images."""
    source = random.Random("damages of " + form)
    image = bytes(volume.image())
    yield from whole_tracks(form, image, source)
    yield from cuts(form, image, source)
    yield from bits(volume, image, source)
    yield from sectors(volume, form, image, source)
    yield from both_maps(volume, form, image)
    yield from mixtures(form, image, other)
    yield from formattings(form, image)


def reformatted(volume: AnyVolume, form: str, fresh: str) -> bytes:
    """A disc whose map and root are those of a fresh disc, and whose other bytes are still those of the old one."""
    image, new = bytes(volume.image()), FRESH[fresh]()
    made = bytearray(image.ljust(len(new.image()), b"\0"))
    data = new.image()
    for _, start, length in places_of(new):
        made[start:start + length] = data[start:start + length]
    return bytes(made)
