# SPDX-License-Identifier: MIT
"""Images that were made to do harm, or are damaged at random: for tools/checks/rescue.py."""
from __future__ import annotations

import random
from typing import Iterator, Tuple

from tools.images import damaged as damaged_images, rescue_images
from tools.images.volumes import (AnyVolume, Directory, File, NewVolume, OldVolume, boot_block, fresh_e, record_bytes,
                                  small_directory)
from tools.reference.filecore import UNIT, Geometry, Record, put, zone_check

NAMES = (b"..", b".", b"/", b"//", b"../x", b"/etc/x", b"a/../../b", b"\\..\\x", b"x,fff", b"sound", b"report/txt", b"\xe9\xff",
         b"con", b"%2e%2e/x", b"~", b"-rf")


def names(form: str) -> AnyVolume:
    """A disc whose names try to lead out of a folder, with a damaged root."""
    volume = rescue_images.empty(form)
    for at, name in enumerate(NAMES):
        name = name[:10]
        if form == "L":
            name = bytes(byte & 127 for byte in name)
        if at % 4 == 3:
            inner = volume.root.append(volume.directory(volume.root, name))
            inner.append(volume.file(b"../in", b"inside"))
        else:
            volume.root.append(volume.file(name, b"content of %d" % at))
    return volume


def broken_root(volume: AnyVolume) -> bytes:
    damage = damaged_images.Damage(volume)
    word = 2040 if volume.form == "big" else 1274 if volume.form == "L" else 2042
    return bytes(damage.directory(volume.root, {word: b"XX"}).data)


def whole_disc_entries(form: str) -> bytes:
    """A directory with as many entries as there can be, each of which names nearly the whole disc."""
    volume = OldVolume(form, 3200 if form == "D" else 2560)
    count, first = (77, 8) if form == "D" else (47, 7)
    for at in range(count):
        made = File(b"All%d" % at, b"", first)
        made.length = volume.units * UNIT - first * UNIT
        volume.root.append(made)
    data = volume.image()
    data[volume.root.address * UNIT + 1] ^= 1
    return bytes(data)


def many_directories(form: str) -> bytes:
    """A directory in every place where one fits, each full of entries that name directories or the whole disc."""
    units = 3200 if form == "D" else 2560
    data = bytearray(units * UNIT)
    size, count = (2048, 77) if form == "D" else (1280, 47)
    step = size // UNIT if form == "D" else 5
    source = random.Random(form)
    places = range(4 if form == "D" else 2, units - step, step)
    for place in places:
        holder = Directory(b"D", place)
        for at in range(count):
            if at % 2:
                made = File(b"F%d" % at, b"", source.choice(places))
                made.length = units * UNIT // 2
            else:
                made = Directory(b"D%d" % at, source.choice(places))
            holder.append(made)
        data[place * UNIT:place * UNIT + size] = small_directory(holder, form)
    return bytes(data)


def big_directories() -> bytes:
    """An E+ disc full of big directories whose heads are wrong, and whose entries look right."""
    volume = fresh_e(True)
    holder = volume.root
    for at in range(60):
        holder = holder.append(volume.directory(holder, b"D%d" % at, size=12288))
        for number in range(200):
            holder.append(File(b"Name%d" % number, b""))
    data = volume.image()
    for directory in volume.directories()[1:]:
        start = rescue_images.extents_of(volume, directory)[0][0]
        data[start + 16] ^= 0xFF
    return bytes(data)


def many_zones() -> bytes:
    """A disc that says it has as many zones as a record can tell, in a short image with thousands of files."""
    raw = record_bytes(10, 15, 5, 65535, 32, 0x203, 65535 * 8160 * 32 - 480 * 32)
    data = bytearray(many_directories("D"))
    data[0xC00:0xE00] = boot_block(raw)
    return bytes(data)


def loop(form: str) -> bytes:
    """A directory that holds itself and its holder."""
    volume = rescue_images.empty(form)
    inner = volume.root.insert(volume.directory(volume.root, b"In"))
    inner.append(volume.file(b"File", b"one"))
    image = volume.image
    objects = volume.objects()
    for name, address in ((b"Self", inner.address), (b"Up", volume.root.address)):
        made = Directory(name, address)
        made.holder = inner
        inner.append(made)
    volume.objects = lambda: objects
    return bytes(image())


def deep(levels: int = 200) -> NewVolume:
    """Directories one in the other, beyond any path."""
    volume = fresh_e()
    holder = volume.root
    for at in range(levels):
        holder = holder.append(volume.directory(holder, b"d"))
    holder.append(volume.file(b"f", b"deep"))
    return volume


def shortest_runs(shape: Geometry, raw: bytes) -> bytes:
    """A copy of a map that is all runs of one sector pair, of identifier 5."""
    sectors = []
    for zone in range(shape.zones):
        at = shape.first(zone)
        runs = (5 | 1 << 15).to_bytes(2, "little") * ((shape.end(zone) - at) // 16)
        bits = int.from_bytes(runs, "little") << at
        block = bytearray((bits & (1 << 8 * shape.sector) - 1).to_bytes(shape.sector, "little"))
        put(block, 1, 2, 0x8000)
        if zone == 0:
            block[3], block[4:64] = 0xFF, raw
        block[0] = zone_check(block)
        sectors.append(bytes(block))
    return b"".join(sectors)


def write_large(path: bytes, size: int = 512 << 20) -> None:
    """A hard disc of the shortest runs, with thousands of directories, whose entries all name half the disc: a sparse file."""
    zones = -(-(size // 64 + 480) // (8 * 512 - 32))
    raw = record_bytes(9, 15, 6, zones, 32, 0x500, size)
    shape = Geometry(Record(raw))
    copy = shortest_runs(shape, raw)
    directory = Directory(b"$", 0x500)
    for at in range(77):
        made = File(b"F%d" % at, b"", 0x500 + at % 5)
        made.length = size // 2
        directory.append(made)
    root = small_directory(directory, "D")
    with open(path, "wb") as file:
        file.truncate(size)
        for place in range(0, size, size // 4096):
            file.seek(place)
            file.write(root)
        file.seek(0xC00)
        file.write(boot_block(raw))
        file.seek(shape.map_sector * 512)
        file.write(copy + copy)


def random_damages(form: str, count: int, seed: int) -> Iterator[Tuple[AnyVolume, bytes]]:
    """The image of a floppy with 1 to 2,000 other bytes, half of them in its map and directories; and where it was changed."""
    volume = rescue_images.floppy(form)
    image = bytes(volume.image())
    inner = [(start, length) for _, start, length in rescue_images.places_of(volume)]
    source = random.Random("%s %d" % (form, seed))
    for _ in range(count):
        data = bytearray(image)
        many = source.choice((1, 2, 5, 20, 100, 500, 2000))
        if source.random() < 0.5:
            start = source.randrange(len(data) - many)  # in one place
            data[start:start + many] = bytes(source.getrandbits(8) for _ in range(many))
        else:
            for at in range(many):
                start, length = source.choice(inner) if at % 2 else (0, len(data))
                data[start + source.randrange(length)] = source.getrandbits(8)
        if source.random() < 0.1:
            del data[source.randrange(len(data)):]
        yield volume, bytes(data)


