# SPDX-License-Identifier: MIT
"""The bytes of a disc, out of an image that is open for reading alone."""
from __future__ import annotations

import os
from typing import BinaryIO, Callable, Iterator, NamedTuple, Optional, Tuple

from ..images import HEADER, L_SIZE, read_at, size_of, to_disc_order
from ..messages import Trouble, reason, shown

PIECE = 1 << 20
Fetch = Callable[[int, int], bytes]


class Gap(NamedTuple):
    """A piece of the disc that the image leaves out."""

    place: int
    size: int


class Source:
    """What can be read of a disc. Reading stops at the first byte that isn't there."""

    def __init__(self, fetch: Fetch, length: int, gap: Optional[Gap] = None):
        self.fetch, self.length, self.gap = fetch, length, gap

    def with_gap(self, gap: Gap) -> Source:
        return Source(self.fetch, self.length, gap)

    def there(self, at: int, length: int) -> int:
        """How many of these bytes are there, before the first that isn't."""
        gap = self.gap
        if gap and at < gap.place:
            return max(0, min(length, gap.place - at, self.length - at))
        if gap and at < gap.place + gap.size:
            return 0
        shift = gap.size if gap else 0
        return max(0, min(length, self.length + shift - at))

    def read(self, at: int, length: int) -> bytes:
        count = self.there(at, length) if at >= 0 else 0
        if not count:
            return b""
        return self.fetch(at - self.gap.size if self.gap and at >= self.gap.place else at, count)

    def pieces(self, step: int, overlap: int) -> Iterator[Tuple[int, bytes]]:
        """The image from its beginning, in pieces that begin at multiples of `step`, each with some bytes of the next."""
        size = max(PIECE // step, 1) * step
        for at in range(0, self.length, size):
            yield at, self.fetch(at, min(size + overlap, self.length - at))

    def disc_place(self, place: int) -> int:
        """Where a byte of the image lies on the disc."""
        return place + self.gap.size if self.gap and place >= self.gap.place else place


def file_source(file: BinaryIO, name: str, start: int = 0) -> Source:
    number = file.fileno()

    def fetch(at: int, length: int) -> bytes:
        try:
            return os.pread(number, length, start + at)
        except OSError as error:
            raise Trouble("%s: %s" % (shown(name), reason(error))) from None

    return Source(fetch, max(0, size_of(file) - start))


def headless_source(file: BinaryIO, name: str) -> Source:
    return file_source(file, name, HEADER)


def turned_source(file: BinaryIO) -> Source:
    """An L disc whose sides are interleaved."""
    turned = to_disc_order(read_at(file, 0, L_SIZE))
    return Source(lambda at, length: turned[at:at + length], len(turned))
