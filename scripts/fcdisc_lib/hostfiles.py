# SPDX-License-Identifier: MIT
"""Files of the host that go onto a disc, and what a file's name, time and contents can't say of an object on a disc.

`extract` keeps an object's load and exec words and its attributes in an extended attribute of the file or folder, where the host
has these. They count as long as the file wasn't written, and its name wasn't given another type, since then.
"""
from __future__ import annotations

import os
import re
import stat
from contextlib import suppress
from typing import NamedTuple, Optional, Tuple

from .contents import CHANGED, LARGE, Content, LargeFile
from .names import DiscName, has_type, type_of, unix_time, words_for

KEPT_NAME = "user.fcdisc"
KEPT = re.compile(rb"([0-9a-f]{8}) ([0-9a-f]{8}) ([0-9a-f]{8}) (-?[0-9]+)\Z")
TEXT = 0xFFF
NEW_FILE = 3  # the attributes of a new file: its owner may read and write
NEW_DIRECTORY = 8
TOO_LONG = "it has %d bytes, and no more than %d are read here"
OPEN_FILE = os.O_RDONLY | os.O_NONBLOCK  # to open it doesn't wait, as for the other end of a pipe


def system_attributes(attributes: int) -> int:
    """A disc's attributes as RISC OS and other filing systems number them: there 8 is locked."""
    return attributes & 0x33 | (attributes & 4) << 1


def disc_attributes(attributes: int) -> int:
    """The other way of `system_attributes`."""
    return attributes & 0x33 | (attributes & 8) >> 1


class Kept(NamedTuple):
    """What `extract` knew of an object, and the time that the file then had, in nanoseconds."""

    load: int
    execution: int
    attributes: int
    time: int


def keep(number: int, load: int, execution: int, attributes: int) -> bool:
    """Keeps an object's words and attributes with the open file or folder. Answers whether the host could."""
    if hasattr(os, "setxattr"):
        text = b"%08x %08x %08x %d" % (load, execution, attributes, os.fstat(number).st_mtime_ns)
        with suppress(OSError):
            os.setxattr(number, KEPT_NAME, text, os.XATTR_CREATE)
            return True
    return False


def is_told(number: int, load: int, execution: int, attributes: int) -> bool:
    """Whether a file's name, with a type or with words, and its time say all of the object that has these."""
    return attributes == NEW_FILE and (not has_type(load) or unix_time(load, execution) == os.fstat(number).st_mtime_ns)


def kept_with(number: int) -> Optional[Kept]:
    """What `keep` left with the open file or folder."""
    if not hasattr(os, "getxattr"):
        return None
    try:
        found = KEPT.match(os.getxattr(number, KEPT_NAME))
    except OSError:
        return None
    return Kept(int(found[1], 16), int(found[2], 16), int(found[3], 16), int(found[4])) if found else None


class HostFile(NamedTuple):
    """A file of the host: its bytes, or the open file if it is large."""

    content: Content
    time: int  # in nanoseconds since 1970
    kept: Optional[Kept]

    def words(self, named: DiscName, default: int = TEXT) -> Tuple[int, int]:
        """The load and exec words, from the type or the words of its name, its time, and what was kept."""
        kept = self.kept
        if kept and kept.time == self.time and agrees(kept, named):
            return kept.load, kept.execution
        if named.words:
            return named.words
        if named.file_type is not None:
            return words_for(named.file_type, self.time)
        number = type_of(kept.load) if kept else None
        return words_for(default if number is None else number, self.time)


def agrees(kept: Kept, named: DiscName) -> bool:
    """Whether the name says nothing, or the same type or words as what was kept."""
    if named.words:
        return named.words == (kept.load, kept.execution)
    return named.file_type in (None, type_of(kept.load))


def host_file(path: bytes, flags: int = 0) -> HostFile:
    """A file of any length, which has to be closed if it is large. With the flag O_NOFOLLOW a link isn't followed.

    Raises OSError, or ValueError with the reason where it isn't to be had as it is.
    """
    number = os.open(path, OPEN_FILE | flags)
    try:
        if is_plain(number).st_size <= LARGE:
            return read_open(number)
        large = LargeFile(open(os.dup(number), "rb", buffering=0))
        return HostFile(large, large.time, kept_with(number))
    finally:
        os.close(number)


def read_host_file(path: bytes, limit: int, flags: int = 0) -> bytes:
    """The bytes of a file that has at most so many; otherwise as `host_file`."""
    number = os.open(path, OPEN_FILE | flags)
    try:
        size = is_plain(number).st_size
        if size > limit:
            raise ValueError(TOO_LONG % (size, limit))
        content = read_open(number).content
        assert isinstance(content, bytes)
        return content
    finally:
        os.close(number)


def is_plain(number: int) -> os.stat_result:
    """What is known of an open file."""
    found = os.fstat(number)
    if not stat.S_ISREG(found.st_mode):
        raise ValueError("not a file")
    return found


def read_open(number: int) -> HostFile:
    before = os.fstat(number)
    content = read_all(number, before.st_size)
    after = os.fstat(number)
    if len(content) != before.st_size or (before.st_size, before.st_mtime_ns) != (after.st_size, after.st_mtime_ns):
        raise ValueError(CHANGED)
    return HostFile(content, before.st_mtime_ns, kept_with(number))


def read_all(number: int, size: int) -> bytes:
    """The bytes of the open file; one more than `size` if there are more. Most files come by one call of the system."""
    content = os.read(number, size + 1)
    while 0 < len(content) < size:
        piece = os.read(number, size + 1 - len(content))
        if not piece:
            break
        content += piece
    return content
