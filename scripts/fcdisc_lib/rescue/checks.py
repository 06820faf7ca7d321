# SPDX-License-Identifier: MIT
"""The check bytes of maps, boot blocks and directories, as docs/FORMAT.md gives them."""
from __future__ import annotations

import struct
from typing import Iterable, List

WORD = 0xFFFFFFFF


def number(block: bytes, at: int, size: int) -> int:
    """The little-endian number of so many bytes."""
    return int.from_bytes(block[at:at + size], "little")


def words_of(block: bytes, start: int, end: int) -> Iterable[int]:
    """The 32-bit words that lie whole between these places."""
    return struct.unpack_from("<%dI" % ((end - start) // 4), block, start)


def byte_of(total: int) -> int:
    """The exclusive or of a word's four bytes."""
    return (total ^ total >> 8 ^ total >> 16 ^ total >> 24) & 0xFF


def zone_check(sector: bytes) -> int:
    words: List[int] = list(words_of(sector, 0, len(sector)))
    words[0] &= ~0xFF
    total = 0
    for word in reversed(words):
        total = (total & WORD) + word + (total >> 32)
    return byte_of(total & WORD)


def boot_check(block: bytes) -> int:
    total = 0
    for byte in block[510::-1]:
        total = (total & 0xFF) + (total >> 8) + byte
    return total & 0xFF


def is_old_half(half: bytes) -> bool:
    """Whether a half of an old map has its check. Both beginnings of the sum are in use."""
    return len(half) == 256 and half[255] in (old_check(half, 255), old_check(half, 0))


def old_check(half: bytes, total: int) -> int:
    for byte in half[254::-1]:
        if total > 255:
            total = (total & 0xFF) + 1
        total += byte
    return total & 0xFF


def gathered(total: int, values: Iterable[int]) -> int:
    for value in values:
        total = value ^ (total >> 13 | total << 19) & WORD
    return total


def small_check(block: bytes, entries: int) -> int:
    """The check of a directory of 2048 bytes with so many entries."""
    end = 5 + 26 * entries
    whole = end // 4 * 4
    total = gathered(gathered(0, words_of(block, 0, whole)), block[whole:end])
    return byte_of(gathered(total, words_of(block, 2008, 2044)))


def big_check(block: bytes, end: int) -> int:
    """The check of a big directory whose heap ends there."""
    size = len(block)
    total = gathered(0, words_of(block, 0, end))
    return byte_of(gathered(total, [number(block, size - 8, 4), *block[size - 4:size - 1]]))
