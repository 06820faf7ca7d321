# SPDX-License-Identifier: MIT
"""Files that lie in a track of equal bytes: an imaging tool may have filled in what it couldn't read.

FileCore has no check over a file's bytes, so fcore can't see that. Which files lie there, fcore itself tells: over a copy of the
image whose bytes in those tracks are others, the digests of just these files are others.
"""
from __future__ import annotations

from typing import BinaryIO, Dict, Iterator, List

from .description import Description, free_ranges
from .images import AS_IT_IS, MEMORY_LIMIT, Image, copy, nameless_file, read_at, size_of
from .program import BadImage, Entry, Path, batches

TURNED = bytes(byte ^ 0xFF for byte in range(256))


def files_in_equal_tracks(program: str, image: Image, disc: Description, files: List[Entry]) -> List[Entry]:
    """The files of the disc that have bytes in such a track. On very long images none is looked for."""
    if not files or disc.size > MEMORY_LIMIT:
        return []
    tracks = list(used_tracks(image.file, disc))
    if not tracks:
        return []
    with nameless_file(size_of(image.file)) as turned:
        copy(image.file, 0, turned)
        for at in tracks:
            turned.seek(at)
            turned.write(read_at(image.file, at, disc.track).translate(TURNED))
        try:
            others = digests(program, Image(image.path, turned, AS_IT_IS), files)
        except BadImage:  # no file, but a directory lies there
            return []
    own = digests(program, image, files)
    return [file for file in files if own[file.path] != others[file.path]]


def used_tracks(file: BinaryIO, disc: Description) -> Iterator[int]:
    """The places of tracks of equal bytes that aren't free space alone."""
    holes = free_ranges(file, disc)
    for at in range(0, disc.size - disc.track + 1, disc.track):
        while holes and holes[0][1] <= at:
            del holes[0]
        if holes and holes[0][0] <= at and at + disc.track <= holes[0][1]:
            continue
        content = read_at(file, at, disc.track)
        if content and content.count(content[:1]) == disc.track:
            yield at


def digests(program: str, image: Image, files: List[Entry]) -> Dict[Path, str]:
    """The SHA-256 of each file, by its path."""
    found: Dict[Path, str] = {}
    for script, batch in batches("digest", files):
        with image.run(program, script) as run:
            for entry in batch:
                (line,) = run.lines()
                found[entry.path] = line.decode("ascii")
    return found
