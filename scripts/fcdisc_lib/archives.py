# SPDX-License-Identifier: MIT
"""Zip archives with Acorn's extra field, as SparkFS and Info-ZIP have it: load and exec words and access of each object."""
from __future__ import annotations

import os
import struct
import zipfile
import zlib
from datetime import datetime
from typing import BinaryIO, Dict, List, NamedTuple, Optional, Tuple

from . import names
from .contents import LARGE, held
from .hostfiles import HostFile, Kept, disc_attributes, system_attributes
from .hostitems import Failures, Item, Namer, Source, Wishes, tell_fitted
from .listing import date_of
from .messages import Progress, Trouble, shown
from .program import Entry, Path, batches
from .tree import Tree

FIELD = struct.Struct("<HH4sIIII")  # tag, length, signature, load, exec, attributes, 0
TAG, SIGNATURE = 0x4341, b"ARC0"
EARLIEST, LATEST = datetime(1980, 1, 1), datetime(2107, 12, 31, 23, 59, 58)
BAD_ARCHIVE = (zipfile.BadZipFile, zlib.error, EOFError, NotImplementedError, RuntimeError, struct.error)
Parts = Tuple[str, ...]


# ---- out


def extra_field(entry: Entry) -> bytes:
    return FIELD.pack(TAG, FIELD.size - 4, SIGNATURE, entry.load, entry.execution, system_attributes(entry.attributes), 0)


def member(entry: Entry, name: str) -> zipfile.ZipInfo:
    """The object's entry of an archive. Its name has no type: the extra field tells it."""
    time = min(max(date_of(entry) or EARLIEST, EARLIEST), LATEST)
    info = zipfile.ZipInfo(name + "/" * entry.is_directory, time.timetuple()[:6])
    info.compress_type = zipfile.ZIP_STORED if entry.is_directory else zipfile.ZIP_DEFLATED
    info.external_attr = 0o40755 << 16 | 0x10 if entry.is_directory else 0o100644 << 16
    info.extra = extra_field(entry)
    info.file_size = entry.length
    return info


def write_archive(program: str, tree: Tree, file: BinaryIO) -> int:
    """All objects of the tree into the file; answers how many files that were."""
    files = tree.files()
    progress = Progress("bytes written", sum(entry.length for entry in files))
    with zipfile.ZipFile(file, "w") as archive:
        for entry in tree.walk():
            if entry.is_directory:
                archive.writestr(member(entry, path_in(entry, tree.start)), b"")
        for script, batch in batches("load", files):
            with tree.image.run(program, script) as run:
                for entry in batch:
                    info = member(entry, path_in(entry, tree.start))
                    with archive.open(info, "w") as made:
                        for piece in progress.passed(run.load(entry.length)):
                            made.write(piece)
    return len(files)


def path_in(entry: Entry, start: Path) -> str:
    return b"/".join(names.host_name(name, b"") for name in entry.path[len(start):]).decode("utf-8")


# ---- in


class Told(NamedTuple):
    """What an extra field tells."""

    load: int
    execution: int
    attributes: int


def told_by(extra: bytes) -> Optional[Told]:
    at = 0
    while at + 4 <= len(extra):
        tag, length = struct.unpack_from("<HH", extra, at)
        if tag == TAG and length >= 16 and extra[at + 4:at + 8] == SIGNATURE and at + 20 <= len(extra):
            load, execution, attributes = struct.unpack_from("<III", extra, at + 8)
            return Told(load, execution, disc_attributes(attributes))
        at += 4 + length
    return None


class MemberSource(Source):
    """A member of an archive."""

    def __init__(self, archive: zipfile.ZipFile, info: zipfile.ZipInfo):
        super().__init__(os.fsencode(info.filename), info.file_size)
        self.archive, self.info, self.field = archive, info, told_by(info.extra)

    def read(self) -> HostFile:
        try:
            with self.archive.open(self.info) as file:
                content, size = held(iter(lambda: file.read(LARGE), b""), self.info.file_size)
        except BAD_ARCHIVE as error:
            raise ValueError("the archive is damaged there: %s" % error) from None
        if size != self.info.file_size:
            raise ValueError("the archive is damaged there: it holds another length than it says")
        return HostFile(content, self.time(), self.kept())

    def time(self) -> int:
        """In nanoseconds since 1970. An archive doesn't say in which zone it counts: it is taken as the disc's."""
        try:
            return int((datetime(*self.info.date_time) - datetime(1970, 1, 1)).total_seconds()) * 1_000_000_000
        except ValueError:
            return 0

    def kept(self) -> Optional[Kept]:
        return Kept(*self.field, self.time()) if self.field else None


def archive_items(place: str, start: Path, fail: Failures, wishes: Wishes) -> List[Item]:
    """What is in the archive, a directory before what is in it. No name leads elsewhere: `..` becomes a name on the disc."""
    try:
        archive = zipfile.ZipFile(place)
    except BAD_ARCHIVE as error:
        raise Trouble("%s: not a zip archive that can be read: %s" % (shown(place), error)) from None
    unpacking = Unpacking(archive, start, fail, wishes)
    for info in sorted(archive.infolist(), key=lambda one: one.filename.split("/")):
        unpacking.meet(info)
    return unpacking.items


class Unpacking:
    """The members that were met so far. A directory that has no member of its own is made all the same."""

    def __init__(self, archive: zipfile.ZipFile, start: Path, fail: Failures, wishes: Wishes):
        self.archive, self.fail, self.wishes = archive, fail, wishes
        self.items: List[Item] = []
        self.places: Dict[Parts, Optional[Path]] = {(): start}  # of the directories; None for one that is left out
        self.namers: Dict[Parts, Namer] = {}

    def meet(self, info: zipfile.ZipInfo) -> None:
        parts = tuple(part for part in name_of(info).split("/") if part not in ("", "."))
        self.fail.files += not info.is_dir()
        if not parts:
            return
        for size in range(1, len(parts) + info.is_dir()):
            if parts[:size] not in self.places:
                is_own = info.is_dir() and size == len(parts)
                place = os.fsencode("/".join(parts[:size]))
                source = MemberSource(self.archive, info) if is_own else Source(place)
                self.places[parts[:size]] = self.add(parts[:size], source, True)
        if not info.is_dir():
            self.add(parts, MemberSource(self.archive, info), False)

    def add(self, parts: Parts, source: Source, is_directory: bool) -> Optional[Path]:
        """The path on the disc, if it can have one."""
        holder, host = self.places[parts[:-1]], os.fsencode(parts[-1])
        if holder is None:
            self.fail.inner += not is_directory
            return None
        namer = self.namers.setdefault(parts[:-1], Namer(self.wishes))
        try:
            named = namer.named(host, is_directory)
        except ValueError as error:
            self.fail.refuse(source.place, str(error))
            return None
        item = Item(source.place, (*holder, named.name), named, is_directory, source)
        tell_fitted(item, host, self.wishes)
        self.items.append(item)
        return item.path


def name_of(info: zipfile.ZipInfo) -> str:
    """The member's name. Without the mark of UTF-8 it is taken to be in Latin 1, as RISC OS writes it."""
    if info.flag_bits & 0x800:
        return info.filename
    return info.filename.encode("cp437", "surrogateescape").decode("latin-1")
