# SPDX-License-Identifier: MIT
"""Images as people have them: in disc order, with the two sides of an L disc track by track, or with a header before the disc."""
from __future__ import annotations

import errno
import os
import stat
from typing import BinaryIO, Callable, Dict, Iterator, List, Optional, Tuple, TypeVar

from .messages import Trouble, reason, shown, tell
from .program import READ_ONLY, BadImage, Run

TRACK = 4096  # bytes of a track of an L disc: 16 sectors of 256 bytes
TRACKS = 80  # on each of two sides
L_SIZE = 2 * TRACKS * TRACK
HEADER = 512
PIECE = 1 << 18  # small enough to stay in a processor's cache between reading and looking through
ZEROS = bytes(PIECE)
HEAD = 4096  # what tells the kind of a disc lies before this
ORDERS = ("auto", "disc", "adl")
MEMORY_LIMIT = 256 << 20  # bytes of the longest image of which a copy lies in memory

AS_IT_IS, SIDES, HEADED = "as it is", "sides", "header"
NOTES = {
    SIDES: "its two sides are interleaved, as in .adl files: read in disc order",
    HEADED: "it has a header of %d bytes: read without it" % HEADER,
}
Result = TypeVar("Result")


# ---- files that are images


def open_file(path: str, name: Optional[str] = None) -> BinaryIO:
    """The file, which has to be one: not a folder or a device. To open it doesn't wait, as for the other end of a pipe.

    `name` is its name for people, where that is another than its path.
    """
    name = path if name is None else name
    try:
        file = open(path, "rb", opener=lambda name, flags: os.open(name, flags | os.O_NONBLOCK))
        if stat.S_ISREG(os.fstat(file.fileno()).st_mode):
            return file
        file.close()
    except OSError as error:
        raise Trouble("%s: %s" % (shown(name), reason(error))) from None
    raise Trouble("%s: not a file; what lies on a device has to be copied into a file first" % shown(name))


def is_named_adl(path: str) -> bool:
    return path.lower().endswith(".adl")


def size_of(file: BinaryIO) -> int:
    return os.fstat(file.fileno()).st_size


def read_at(file: BinaryIO, at: int, length: int) -> bytes:
    try:
        return os.pread(file.fileno(), length, at)
    except OSError as error:
        # a file that was opened by a number, or has no name, is a copy
        name = file.name if isinstance(file.name, str) else "a copy of the image"
        raise Trouble("%s: %s" % (shown(name), reason(error))) from None


def pieces_from(file: BinaryIO, start: int, end: Optional[int] = None) -> Iterator[bytes]:
    """What is in the file from there on, or up to that byte. Pieces that take no room on the host aren't read."""
    end = size_of(file) if end is None else end
    for at in range(start, end, PIECE):
        length = min(PIECE, end - at)
        yield ZEROS[:length] if is_hole(file, at, length) else read_at(file, at, length)


def is_hole(file: BinaryIO, at: int, length: int) -> bool:
    """Whether the host says that nothing was ever written there."""
    try:
        return os.lseek(file.fileno(), at, os.SEEK_DATA) >= at + length
    except OSError as error:
        return error.errno == errno.ENXIO  # nothing from there on


def copy(source: BinaryIO, start: int, target: BinaryIO) -> None:
    """Copies from there to the end; pieces of zeros take no room in the copy."""
    for piece in pieces_from(source, start):
        if piece == ZEROS[:len(piece)]:
            target.seek(len(piece), os.SEEK_CUR)
        else:
            target.write(piece)
    target.truncate()


# ---- the sides of an L disc


def has_l_size(file: BinaryIO) -> bool:
    """Whether it is as long as an L disc, and its first sector, which is the same in both orders, says so too."""
    return size_of(file) >= L_SIZE and int.from_bytes(read_at(file, 252, 3), "little") * 256 == L_SIZE


def has_doubtful_order(image: Image, order: str, counts: Dict[str, int]) -> bool:
    """Whether it is an L disc with files and no directories, by the counts of `check`. It opens in either order of its sides."""
    return order == "auto" and counts["dirs"] == 1 and counts["files"] > 0 and has_l_size(image.file)


def to_disc_order(interleaved: bytes) -> bytes:
    """From track 0 of side 0, track 0 of side 1, track 1 of side 0 and so on to all of side 0, then all of side 1."""
    return b"".join(track_at(interleaved, 2 * track + side) for side in (0, 1) for track in range(TRACKS))


def to_interleaved(in_disc_order: bytes) -> bytes:
    """The other way of `to_disc_order`."""
    return b"".join(track_at(in_disc_order, side * TRACKS + track) for track in range(TRACKS) for side in (0, 1))


def track_at(content: bytes, place: int) -> bytes:
    return content[place * TRACK:(place + 1) * TRACK]


# ---- images for fcore


class Image:
    """A file that fcore reads: the one that the user named, or a copy in disc order, which has no name."""

    def __init__(self, path: str, file: BinaryIO, how: str, start: int = 0):
        self.path, self.file, self.how = path, file, how
        self.start = start  # the bytes before the disc, which the copy has not

    def run(self, program: str, script: bytes) -> Run:
        """A run that only reads. The name is that of an open file, so that every run of a job is over the same one."""
        number = self.file.fileno()
        return Run(program, self.path, [READ_ONLY, "--", "/dev/fd/%d" % number], script, [number])


def interleaved_image(path: str, file: BinaryIO) -> Image:
    turned = nameless_file(L_SIZE)
    turned.write(to_disc_order(read_at(file, 0, L_SIZE)))
    return Image(path, turned, SIDES)


def headed_image(path: str, file: BinaryIO, start: int = HEADER) -> Image:
    bare = nameless_file(size_of(file))
    copy(file, start, bare)
    return Image(path, bare, HEADED, start)


def head_alone(path: str, file: BinaryIO, start: int = HEADER) -> Image:
    """As `headed_image`, but zeros follow the head: that is enough to see whether a disc begins there."""
    bare = nameless_file(size_of(file))
    bare.write(read_at(file, start, HEAD))
    bare.truncate(size_of(file) - start)
    return Image(path, bare, HEADED, start)


def nameless_file(size: int, folder: Optional[str] = None) -> BinaryIO:
    """A file without a name for that many bytes: in memory; or, if it is long, in that folder or the host's for such files.

    It has no buffer here, since fcore may write it too.
    """
    if size <= MEMORY_LIMIT and hasattr(os, "memfd_create"):
        return open(os.memfd_create("fcdisc"), "w+b", buffering=0)
    from tempfile import TemporaryFile  # here, since it takes long to load, and few jobs need it
    return TemporaryFile(buffering=0, dir=folder)  # type: ignore[return-value]


def begins_disc(program: str, image: Image) -> bool:
    try:
        with image.run(program, b""):
            return True
    except BadImage as fault:
        return fault.words[0] != "NoKind"


def readings(program: str, path: str, file: BinaryIO, order: str, faults: List[BadImage]) -> Iterator[Image]:
    """The ways to read the file, the likeliest first. `faults` grows by the fault of each way that fails.

    `order` is one of ORDERS, or in digits the byte at which the disc begins.
    """
    if order.isdigit():
        if int(order) >= size_of(file):
            raise Trouble("%s: it has no more than %d bytes" % (shown(path), size_of(file)))
        yield headed_image(path, file, int(order))
        return
    can_turn = order != "disc" and has_l_size(file)
    if order == "adl" and not can_turn:
        raise Trouble("%s: no L disc of %d bytes begins here, so it has no sides to put into order" % (shown(path), L_SIZE))
    by_name = can_turn and is_named_adl(path)
    if by_name or order == "adl":
        yield interleaved_image(path, file)
    if order == "adl":
        return
    yield Image(path, file, AS_IT_IS)
    if can_turn and not by_name:
        yield interleaved_image(path, file)
    if faults[-1].words[0] == "NoKind" and size_of(file) > HEADER and begins_disc(program, head_alone(path, file)):
        yield headed_image(path, file)


def open_image(program: str, path: str, order: str, script: bytes, read: Callable[[Run], Result],
               name: Optional[str] = None) -> Tuple[Image, Result]:
    """Opens the image in the first way that fcore accepts, and says so where it isn't as it is.

    `read` reads the replies to the script. `name` is the image's name for people, where that is another than its path. Raises
    BadImage where none is accepted, with the fault of the likeliest way, or of the last one where a disc begins only there.
    """
    name = path if name is None else name
    file = open_file(path, name)
    tried: List[Image] = []
    faults: List[BadImage] = []
    kept = None
    try:
        for image in readings(program, name, file, order, faults):
            try:
                with image.run(program, script) as run:
                    result = read(run)
            except BadImage as fault:
                tried.append(image)
                faults.append(fault)
                continue
            tell_reading(image, order)
            kept = image.file
            return image, result
        told = -1 if faults[0].words[0] == "NoKind" else 0
        tell_reading(tried[told], order)
        raise faults[told]
    except OSError as error:
        from tempfile import gettempdir
        text = "%s: while a copy of it was made in %s: %s"
        raise Trouble(text % (shown(name), shown(gettempdir()), reason(error))) from None
    finally:
        for one in (file, *(image.file for image in tried)):
            if one is not kept:
                one.close()


def tell_reading(image: Image, order: str) -> None:
    """What was found out, and wasn't asked for."""
    if image.how == HEADED and not order.isdigit() or image.how == SIDES and order == "auto":
        tell("%s: %s" % (shown(image.path), NOTES[image.how]))
    elif image.how == AS_IT_IS and order == "auto" and is_named_adl(image.path) and has_l_size(image.file):
        tell("%s: its name says interleaved sides, but it is in disc order: read so" % shown(image.path))
