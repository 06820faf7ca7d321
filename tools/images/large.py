#!/usr/bin/env python3
# SPDX-License-Identifier: MIT
"""Makes a hard disc of 518 MB with directories of 50 files each, to see how long fcore takes to open it.

usage: tools/run images/large IMAGE [DIRECTORIES]    1,000 directories, if no number is given
"""
from __future__ import annotations

import sys
from typing import BinaryIO, Union

from tools.images.volumes import Directory, File, NewVolume, record_bytes

ZONES, ZONE_BITS, BIT_BYTES = 62, 8160, 1024
FILES = 50


class SparseFile:
    """A file of bytes 0 that takes bytes in slices."""

    def __init__(self, file: BinaryIO, size: int) -> None:
        self.file = file
        file.truncate(size)

    def __setitem__(self, place: slice, content: Union[bytes, bytearray]) -> None:
        self.file.seek(place.start)
        self.file.write(content)


def with_directories(count: int, files: int = FILES, big: bool = False) -> NewVolume:
    size = (ZONES * ZONE_BITS - 480) * BIT_BYTES
    others = dict(version=1, root_size=4096) if big else {}
    volume = NewVolume(record_bytes(10, 15, 10, ZONES, 32, 0x300, size, **others), True)
    volume.root.size = 4096 if big else 2048
    volume.take(2, ZONES // 2, 2 * ZONES)
    volume.take(2, 0, 16)
    volume.take(volume.new_identifier(), 0, 16)
    holders = [volume.root]
    for at in range(count):
        zone = at % ZONES
        if len(holders[0].entries) == 70:
            del holders[0]
        made = volume.directory(holders[0], b"D%d" % at, pieces=[(zone, 16)], size=4096 if big else 2048)
        holders[0].entries.append(made)
        holders.append(made)
        fill(volume, made, zone, files)
    for directory in volume.directories():
        directory.entries.sort(key=lambda entry: entry.name)
    return volume


def fill(volume: NewVolume, directory: Directory, zone: int, files: int) -> None:
    """At most 50 files of up to 2,048 bytes that share one identifier."""
    identifier = volume.place(2 * files * 1024, [(zone, 2 * files)])
    for at in range(files):
        content = b"%08d" % (identifier * FILES + at) * (1 + at * 5)
        directory.entries.append(File(b"F%02d" % at, content, identifier * 256 + 1 + 2 * at))


def main(path: str, directories: int = 1000) -> None:
    volume = with_directories(directories)
    with open(path, "wb") as file:
        volume.write(SparseFile(file, volume.shape.record.size))
    print(volume.check_line() + volume.free_line(), end="")


if __name__ == "__main__":
    main(sys.argv[1], *map(int, sys.argv[2:]))
