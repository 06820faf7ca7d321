# SPDX-License-Identifier: MIT
"""A disc as far as it can be read: its description, its objects, and how far each can be trusted."""
from __future__ import annotations

from bisect import bisect_left
from typing import BinaryIO, Iterator, List, NamedTuple, Optional, Tuple

from ..faults import IT_IS
from ..images import HEADER, L_SIZE, has_l_size, is_named_adl, read_at, size_of
from ..messages import Trouble, shown
from ..otherfiles import BEGINNINGS
from .claims import Claims
from .directories import NO_WORDS
from .discs import FOUND, SURE, Disc, discs_by_trust, sure_discs, wanted_discs
from .gaps import UNSURE, place_gap
from .layout import work_out
from .marks import Marks
from .source import Source, file_source, headless_source, turned_source
from .spaces import space_of
from .strays import Older, adopt_strays, older_disc
from .unchecked import FORM, doubt_unchecked
from .walk import Found, Walk
from .zones import ZoneSpace

NO_DISC = "nothing of a FileCore disc is found in it"
FLOPPY = 1 << 21  # bytes; a file on a larger disc may well be the image of a disc
OVERWRITTEN = "the disc was formatted anew since then: files that came later may have been written over it"
MIXED = "near to it lies what isn't of this disc: two discs may be mixed, or a wrong track was read"
TWO_MAPS = "the copies of the map are both right, and tell of different discs, or of one disc at different times"


class Options(NamedTuple):
    """What the user wants of a reading."""

    form: Optional[str] = None
    takes_deleted: bool = False
    takes_all: bool = False


class Reading:
    """All that is known of a disc by one of the descriptions that it may go by."""

    def __init__(self, disc: Disc, source: Source, options: Options, how: str):
        self.disc, self.how = disc, how
        self.source, self.unsure = place_gap(disc, source)
        self.space = space_of(disc, self.source)
        self.walk = Walk(disc, self.space, self.source)
        self.walk.run()
        is_emptied = options.takes_deleted and len(self.walk.directories) == 1 and not self.walk.files
        if isinstance(self.space, ZoneSpace) and work_out(self.walk, self.space, self.source, is_emptied):
            self.walk = Walk(disc, self.space, self.source)
            self.walk.run()
        self.claims = Claims(self.space, self.source, options.takes_all)
        self.claims.take([*self.walk.directories, *self.walk.files])
        self.is_whole = self.find_whole()
        known = {id(one) for one in (*self.walk.directories, *self.walk.files) if not one.listing.is_lost}
        self.foreign: List[int] = []
        self.older: Optional[Older] = None
        self.deleted = adopt_strays(self.walk, self.claims, options.takes_deleted, self.is_whole, self.foreign)
        self.claims.take(one for one in (*self.walk.directories, *self.walk.files) if id(one) not in known)
        if disc.directories == FORM and not self.is_whole:
            doubt_unchecked(self.walk)
        self.doubt_shifted()
        self.doubt_mixed()

    def find_whole(self) -> bool:
        """Whether nothing at all is damaged, missing or out of place."""
        return (self.disc.trust == SURE and self.space.is_right and self.source.length >= self.disc.size
                and not any(map(is_wrong, self.walk.directories)) and all(one.grade == "sound" for one in self.walk.files))

    @property
    def files(self) -> List[Found]:
        return self.walk.files

    def score(self) -> Tuple[int, ...]:
        """How well the description fits."""
        right = sum(not one.is_damaged and not one.is_homeless for one in self.walk.directories)
        grades = [one.grade for one in self.files]
        return (int(not self.walk.root.listing.is_lost), right, grades.count("sound"), grades.count("doubtful"),
                self.space.right_parts, -self.disc.trust)

    def finish(self) -> None:
        """Doubts files by the signs of bytes that weren't read, and looks for what is left of an older disc."""
        marks = Marks(self.disc, self.source)
        self.older = older_disc(self.source, self.disc) if self.disc.size <= FLOPPY else None
        for found in self.files:
            if found.there:
                marks.judge(found, bool(marks.plain.ranges) and self.is_whole and is_plain(self.source, found))

    def doubt_shifted(self) -> None:
        first, end = self.unsure
        for found in self.files:
            if any(start < end and start + length > first for start, length in found.place.extents):
                found.doubt(UNSURE)

    def doubt_mixed(self) -> None:
        """Doubts what lies nearest to signs of another disc: directories inside of files, and other bytes where one should be.

        All is doubtful if the copies of the map are of two discs, and anything is damaged.
        """
        for found in self.files if self.space.has_rivals and not self.is_whole else ():
            found.doubt(TWO_MAPS)
        signs = {place: False for place in self.foreign if self.disc.size <= FLOPPY}
        missing = [one.place for one in self.walk.directories if one.listing.fault == NO_WORDS and one.is_sure]
        for place in (*missing, *self.walk.displaced):
            if self.walk.has_other_bytes(place):
                signs[place.extents[0][0]] = False
        if not signs:
            return
        signs.update({one.place.extents[0][0]: True for one in self.walk.directories if not one.is_damaged and one.place.extents})
        places = sorted(signs)
        for found in self.files:
            if found.grade == "sound" and any(not signs[place] for extent in found.place.extents for place in near(places, extent)):
                found.doubt(MIXED)


def near(places: List[int], extent: Tuple[int, int]) -> List[int]:
    """The places in an extent, with the last one before it and the first one after it."""
    start, length = extent
    return places[max(0, bisect_left(places, start) - 1):bisect_left(places, start + length) + 1]


def is_wrong(directory: Found) -> bool:
    return directory.is_damaged or bool(directory.doubts)


def is_plain(source: Source, found: Found) -> bool:
    """Whether all bytes of a file are the same."""
    first = b""
    for piece in pieces_of(source, found):
        first = first or piece[:1]
        if piece.count(first) != len(piece):
            return False
    return True


def pieces_of(source: Source, found: Found) -> Iterator[bytes]:
    """The bytes of a file, up to the first that can't be read."""
    left = found.there
    for start, length in found.place.extents:
        end = start + min(length, left)
        for at in range(start, end, PIECE):
            piece = source.read(at, min(PIECE, end - at))
            left -= len(piece)
            yield piece
        if not left:
            return


PIECE = 1 << 20

# ---- the image


def read_image(file: BinaryIO, name: str, order: str, options: Options) -> Reading:
    """The best reading of an image that is open. Trouble if there is none."""
    best: Optional[Reading] = None
    for how, source in ways(file, name, order):
        for reading in readings_of(source, options, how):
            if reading.is_whole:
                reading.finish()
                return reading
            if best is None or reading.score() > best.score():
                best = reading
    headless = headless_source(file, name)
    if order == "auto" and headless.length > 0 and (best is None or best.disc.trust > FOUND):
        for discs in list(discs_by_trust(headless))[:2]:
            for disc in discs:
                reading = Reading(disc, headless, options, "without its header of %d bytes" % HEADER)
                if not reading.walk.root.listing.is_lost and (best is None or reading.score() > best.score()):
                    best = reading
    if best is None or not (best.files or len(best.walk.directories) > 1 or not best.walk.root.listing.is_lost):
        raise Trouble("%s: %s" % (shown(name), packed(read_at(file, 0, 16)) or NO_DISC))
    best.finish()
    return best


def packed(head: bytes) -> Optional[str]:
    """What a file is that begins so, if it is known to be no image as it is."""
    return next(("%s%s: %s" % (IT_IS, other.what, other.advice) for start, other in BEGINNINGS if head.startswith(start)), None)


def ways(file: BinaryIO, name: str, order: str) -> Iterator[Tuple[str, Source]]:
    """The orders that the image may be in, the likeliest first."""
    if order.isdigit():
        yield "from byte %s on" % order, file_source(file, name, int(order))
        return
    can_turn = order != "disc" and (has_l_size(file) or size_of(file) == L_SIZE)
    if order == "adl" and not can_turn:
        raise Trouble("%s: it has less than %d bytes, so it has no sides to put into order" % (shown(name), L_SIZE))
    turns_first = can_turn and (order == "adl" or is_named_adl(name))
    turned = "its two sides put into disc order"
    if turns_first:
        yield turned, turned_source(file)
    if order != "adl":
        yield "", file_source(file, name)
        if can_turn and not turns_first:
            yield turned, turned_source(file)


def readings_of(source: Source, options: Options, how: str) -> Iterator[Reading]:
    """Readings by the descriptions that the disc may go by. A guess is tried only where nothing better leads to a root."""
    if options.form:
        later = any(disc.form != options.form for disc in sure_discs(source))
        for disc in wanted_discs(source, options.form):
            reading = Reading(disc, source, options, how)
            for found in reading.files if later and disc.trust != SURE else ():
                found.doubt(OVERWRITTEN)
            yield reading
        return
    tried = set()
    for discs in discs_by_trust(source):
        has_root = False
        for disc in discs:
            shape = disc.form, disc.size, disc.record.raw if disc.record else b""
            if shape in tried:
                continue
            tried.add(shape)
            reading = Reading(disc, source, options, how)
            has_root = has_root or not reading.walk.root.listing.is_lost
            yield reading
        if has_root:
            return
