# SPDX-License-Identifier: MIT
"""Directories: whole ones as docs/FORMAT.md has them, and of damaged ones the entries that look right."""
from __future__ import annotations

from itertools import chain
from typing import Callable, Iterable, Iterator, List, NamedTuple, Optional, Set, Tuple

from ..names import NOT_PLAIN, folded
from .checks import big_check, number, small_check
from .discs import WORDS
from .records import BIG_LIMIT

SMALL_PLACES = {"2048": 77, "1280": 47}
LARGEST_SOUGHT = 16384  # bytes of the largest big directory without a head that is searched for its heap
WRONG_WORD = "the word at one of its ends is wrong"
NO_WORDS = "neither of its ends has the word of a directory"
WRONG_NUMBERS = "its two ends have different numbers"
WRONG_CHECK = "its check is wrong"
WRONG_SIZE = "its size can't be"
CanBe = Callable[[int, int], bool]


class Item(NamedTuple):
    """An entry of a directory."""

    name: bytes
    attributes: int
    load: int
    execution: int
    length: int
    address: int
    doubts: Tuple[str, ...] = ()

    @property
    def is_directory(self) -> bool:
        return bool(self.attributes & 8)


class Listing(NamedTuple):
    """What a directory says. `fault` is empty where it is whole; one that is lost has no items."""

    items: List[Item]
    fault: str
    parent: int
    name: bytes
    is_lost: bool = False


class Limits:
    """What an entry of this disc can say: the longest file, and whether an address and a length can be; and how many more entries
    may be looked at in search of heaps."""

    def __init__(self, longest: int, can_be: CanBe, tries: int):
        self.longest, self.can_be, self.tries = longest, can_be, tries


def read_listing(block: bytes, form: str, size: int, limits: Limits) -> Listing:
    """The directory that has these bytes, of which the end may be missing."""
    listing = read_big(block, size, limits) if form == "big" else read_small(block, form, limits)
    return listing._replace(items=named_apart(listing.items))


def lost(fault: str) -> Listing:
    return Listing([], fault, 0, b"", True)


def cut_name(raw: bytes) -> bytes:
    return raw[:next((at for at, byte in enumerate(raw) if byte < 32), len(raw))]


def named_apart(items: List[Item]) -> List[Item]:
    """Gives names to the entries that have none, or that of one before them."""
    seen: Set[bytes] = set()
    named = []
    for at, item in enumerate(items):
        name = item.name or b"entry%d" % at
        doubt = "" if item.name else "entry %d has a name that can't be" % at
        count = 1
        while folded(name) in seen:
            doubt = doubt or "another entry has its name"
            count += 1
            name = (item.name or b"entry%d" % at) + b"~%d" % count
        seen.add(folded(name))
        named.append(item._replace(name=name, doubts=item.doubts + (doubt,)) if doubt else item)
    return named


# ---- small directories


def read_small(block: bytes, form: str, limits: Limits) -> Listing:
    size, places = int(form), SMALL_PLACES[form]
    block = block.ljust(size, b"\0")
    fault = small_fault(block, form)
    parent, name = (1238, 1228) if form == "1280" else (2010, 2032)
    about = number(block, parent, 3), cut_name(bytes(byte & 127 for byte in block[name:name + 10]))
    if fault == NO_WORDS:
        return lost(fault)
    if fault:
        return Listing(small_remains(block, form, limits), fault, *about)
    return Listing([small_item(block, at, form) for at in range(used_places(block, places))], "", *about)


def used_places(block: bytes, places: int) -> int:
    return next((at for at in range(places) if not block[5 + 26 * at]), places)


def small_fault(block: bytes, form: str) -> str:
    first, last = block[1:5], block[-5:-1]
    if first not in WORDS or last != first:
        return WRONG_WORD if first in WORDS or last in WORDS else NO_WORDS
    if block[0] != block[-6]:
        return WRONG_NUMBERS
    if form == "2048" and block[-1] != small_check(block, used_places(block, SMALL_PLACES[form])):
        return WRONG_CHECK
    return ""


def small_item(block: bytes, place: int, form: str) -> Item:
    raw = block[5 + 26 * place:31 + 26 * place]
    name, attributes = raw[:10], raw[25]
    if form == "1280":
        attributes = sum(byte >> 7 << at for at, byte in enumerate(name))
        name = bytes(byte & 127 for byte in name)
    return Item(cut_name(name), attributes, number(raw, 10, 4), number(raw, 14, 4), number(raw, 18, 4), number(raw, 22, 3))


def small_remains(block: bytes, form: str, limits: Limits) -> List[Item]:
    """The entries that look right. After a place of zeros it goes on: a sector in the middle may be lost."""
    found = []
    for place in range(SMALL_PLACES[form]):
        raw = block[5 + 26 * place:31 + 26 * place]
        if not raw[0]:
            if any(raw):
                break  # the mark of the end; what comes after it are entries that were removed
            continue
        item = small_item(block, place, form)
        if looks_right(item, limits, int(form)):
            found.append(item)
    return found


def looks_right(item: Item, limits: Limits, size: int = 0) -> bool:
    """Whether an entry of a damaged directory can be one."""
    if not item.name or item.length > limits.longest and not item.is_directory:
        return False
    length = (size or item.length) if item.is_directory else item.length
    has_place = not length or limits.can_be(item.address, length)
    if is_plain(item.name):
        return has_place or length <= limits.longest
    return has_place and 127 not in item.name


def is_plain(name: bytes) -> bool:
    """Whether a disc is written with such names."""
    return all(byte > 32 and byte not in NOT_PLAIN and not 127 <= byte < 160 for byte in name)


# ---- big directories


def read_big(block: bytes, size: int, limits: Limits) -> Listing:
    if size % 2048 or not 2048 <= size <= BIG_LIMIT:
        size = number(block, 12, 4) if block[4:8] == b"SBPr" else 2048
        if size % 2048 or not 2048 <= size <= BIG_LIMIT:
            return lost(WRONG_SIZE)
        listing = read_big(block[:size], size, limits)
        return listing._replace(fault=listing.fault or WRONG_SIZE)
    if block[4:8] == b"SBPr" and 2048 <= number(block, 12, 4) < size and number(block, 12, 4) % 2048 == 0:
        inner = block[:number(block, 12, 4)]
        if inner[-8:-4] == b"oven":  # the entry tells a size that is too large
            return read_big(inner, len(inner), limits)._replace(fault=WRONG_SIZE)
    block = block.ljust(size, b"\0")
    fault, form = big_fault(block)
    if fault == NO_WORDS:
        return lost(fault)
    if not fault:
        return Listing(big_items(block, *form), "", number(block, 24, 4), head_name(block))
    by_head = (big_items(block, *one) for one in forms(block, size))
    remains = best_remains(chain(by_head, headless(block, limits)), limits)
    has_head = block[4:8] == b"SBPr"
    return Listing(remains, fault, number(block, 24, 4) if has_head else 0, head_name(block) if has_head else b"")


def head_name(block: bytes) -> bytes:
    return cut_name(block[28:28 + min(number(block, 8, 4), 255)])


def forms(block: bytes, size: int) -> List[Tuple[int, int, int]]:
    """Where entries and heap begin and the heap ends, for each form of the head's name that fits."""
    name, count, heap = number(block, 8, 4), number(block, 16, 4), number(block, 20, 4)
    found = []
    for space in ((name + 4) // 4 * 4, (name + 3) // 4 * 4):
        first = 28 + space
        end = first + 28 * count + heap
        if heap % 4 == 0 and end <= size - 8:
            found.append((first, first + 28 * count, end))
    return found


def big_fault(block: bytes) -> Tuple[str, Tuple[int, int, int]]:
    """What is wrong, or the form that is right."""
    ends = block[4:8] == b"SBPr", block[-8:-4] == b"oven"
    none = (0, 0, 0)
    if not all(ends) or block[1:4] != bytes(3):
        return (WRONG_WORD if any(ends) else NO_WORDS), none
    if block[0] != block[-4]:
        return WRONG_NUMBERS, none
    fitting = forms(block, len(block))
    if number(block, 12, 4) != len(block) or not fitting:
        return WRONG_SIZE, none
    right = [form for form in fitting if big_check(block, form[2]) == block[-1]]
    return ("", right[0]) if right else (WRONG_CHECK, none)


def big_items(block: bytes, first: int, heap: int, end: int) -> List[Item]:
    return [big_item(block, at, heap, end) for at in range(first, heap, 28)]


def big_item(block: bytes, at: int, heap: int, end: int) -> Item:
    load, execution, length, address, attributes, size, place = (number(block, at + 4 * word, 4) for word in range(7))
    name = block[heap + place:heap + place + size] if size <= 255 and heap + place + size <= end else b""
    if name and (len(name) != size or min(name) < 32):
        name = b""
    return Item(name, attributes, load, execution, length, address)


def best_remains(readings: Iterable[List[Item]], limits: Limits) -> List[Item]:
    """Of the ways to read a damaged directory, the entries that look right of the one with most of them."""
    best: List[Item] = []
    for items in readings:
        good = [item for item in items if looks_right(item, limits)]
        if len(good) > len(best):
            best = good
    return best


def headless(block: bytes, limits: Limits) -> Iterator[List[Item]]:
    """The entries of a directory whose head is lost, for each place where its heap may begin: right after an entry."""
    if len(block) > LARGEST_SOUGHT:
        return
    for phase in range(32, 60, 4):
        places = [at for at in range(phase, len(block) - 35, 28) if can_be_entry(block, at, limits)]
        for last in places:
            heap, end = last + 28, len(block) - 8
            ends = [big_item(block, at, heap, end) for at in (places[0], last)]
            limits.tries -= 2
            if all(looks_right(item, limits) for item in ends):
                limits.tries -= len(places)
                yield [big_item(block, at, heap, end) for at in places if at <= last]
            if limits.tries < 0:
                return


def can_be_entry(block: bytes, at: int, limits: Limits) -> bool:
    length, address, attributes, size, place = (number(block, at + 4 * word, 4) for word in range(2, 7))
    return (1 <= size <= 255 and place < len(block) and place % 4 == 0 and attributes < 1 << 20
            and length <= limits.longest and bool(address or not length))


def has_words(block: bytes, form: str) -> bool:
    """Whether both ends have a directory's word."""
    if form == "big":
        return block[4:8] == b"SBPr" and block[-8:-4] == b"oven"
    return block[1:5] in WORDS and block[-5:-1] == block[1:5]


def size_told(head: bytes) -> Optional[int]:
    """The size that a big directory's head gives."""
    size = number(head, 12, 4)
    return size if size % 2048 == 0 and 2048 <= size <= BIG_LIMIT else None
