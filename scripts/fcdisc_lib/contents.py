# SPDX-License-Identifier: MIT
"""The bytes of files on their way to a disc: in memory, or in an open file that fcore is to read."""
from __future__ import annotations

import hashlib
import os
from typing import BinaryIO, Iterable, Tuple, Union

from .images import nameless_file
from .output import write_all

LARGE = 1 << 20  # bytes; a file of more isn't held in memory
CHANGED = "it changed while it was read"


class LargeFile:
    """A file that fcore is to read, and the bytes and the time that it had when it was opened."""

    def __init__(self, file: BinaryIO):
        found = os.fstat(file.fileno())
        self.file, self.size, self.time = file, found.st_size, found.st_mtime_ns

    @property
    def number(self) -> int:
        return self.file.fileno()

    def is_changed(self) -> bool:
        found = os.fstat(self.number)
        return (found.st_size, found.st_mtime_ns) != (self.size, self.time)

    def pieces(self) -> Iterable[bytes]:
        self.file.seek(0)
        return iter(lambda: self.file.read(LARGE), b"")

    def close(self) -> None:
        self.file.close()


Content = Union[bytes, LargeFile]


def held(pieces: Iterable[bytes], size: int) -> Tuple[Content, int]:
    """The pieces of a file that should have so many bytes: its bytes, or a file without a name if it is large; and how many they are."""
    if size <= LARGE:
        content = b"".join(pieces)
        return content, len(content)
    file, length = nameless_file(size), 0
    try:
        for piece in pieces:
            write_all(file.fileno(), piece)
            length += len(piece)
    except BaseException:
        file.close()
        raise
    return LargeFile(file), length


def digest_of(content: Content) -> str:
    if isinstance(content, bytes):
        return hashlib.sha256(content).hexdigest()
    sums = hashlib.sha256()
    for piece in content.pieces():
        sums.update(piece)
    changed = content.is_changed()
    content.close()
    if changed:
        raise ValueError(CHANGED)
    return sums.hexdigest()
