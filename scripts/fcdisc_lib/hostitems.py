# SPDX-License-Identifier: MIT
"""What of a folder of the host, or of a zip archive, goes onto a disc, and by which names."""
from __future__ import annotations

import os
from contextlib import suppress
from typing import Callable, Dict, Iterator, List, NamedTuple, Optional, Set, Tuple

from . import inf, names
from .complaints import Complaints
from .filetypes import Types
from .fitting import Fitting, Limits
from .hostfiles import HostFile, Kept, host_file, kept_with, read_host_file
from .leftovers import is_temporary
from .messages import Trouble, reason, shown
from .program import Path

NOT_ADDED = "not added"
ARCHIVE = ".zip"
FIT_HELP = " (--fit gives it another name)"


def is_archive(path: str) -> bool:
    return path.lower().endswith(ARCHIVE)


class Source:
    """A file or folder of the host, and what its .inf file tells of it."""

    def __init__(self, place: bytes, size: int = 0, told: Optional[inf.Inf] = None):
        self.place, self.size, self.told = place, size, told

    def read(self) -> HostFile:
        """Raises OSError, or ValueError with the reason where it isn't to be had as it is."""
        file = host_file(self.place, os.O_NOFOLLOW)
        return file._replace(kept=self.kept_at(file.time)) if self.told else file

    def kept(self) -> Optional[Kept]:
        """What is known of a folder."""
        return self.kept_at(0) if self.told else kept_of_folder(self.place)

    def kept_at(self, time: int) -> Kept:
        assert self.told
        return Kept(self.told.load, self.told.execution, self.told.attributes, time)


class Item(NamedTuple):
    """A file or folder of the host, and the path that it gets on the disc."""

    place: bytes
    path: Path
    named: names.DiscName
    is_directory: bool
    source: Source


class Wishes(NamedTuple):
    """How names are to be made: to fit a disc, or as they are; types by which endings; and what helps if a name can't be had."""

    limits: Optional[Limits] = None
    types: Optional[Types] = None
    say: Callable[[str], None] = print
    name_help: str = FIT_HELP


class Failures(Complaints):
    """What can't be added, named in a message as it is found. `files` counts all files that were met."""

    files = 0
    inner = 0  # files in what was refused

    def __init__(self, verbose: bool = False, failure: str = NOT_ADDED):
        super().__init__(verbose)
        self.failure = failure

    def refuse(self, place: bytes, text: str) -> None:
        self(shown(place), "%s: %s" % (self.failure, text))


class Namer:
    """The names of one directory, each once."""

    def __init__(self, wishes: Wishes):
        self.wishes = wishes
        self.taken: Dict[bytes, bytes] = {}
        self.fitting = Fitting(wishes.limits) if wishes.limits else None

    def named(self, host: bytes, is_directory: bool, told: Optional[inf.Inf] = None) -> names.DiscName:
        """The name on the disc, and the type. Raises ValueError with the reason where there is none."""
        if told and told.name:
            host, ending = names.host_name(told.name, b""), names.SUFFIX.search(host)
            host += ending[0] if ending else b""
        if self.fitting:
            named = self.fitted(self.fitting, host, is_directory)
        else:
            try:
                named = names.disc_name(host, is_directory)
            except ValueError as error:
                raise ValueError(str(error) + self.wishes.name_help) from None
            other = self.taken.setdefault(names.folded(named.name), host)
            if other != host:
                raise ValueError("on a disc it has the same name as %s%s" % (shown(other), self.wishes.name_help))
        if self.wishes.types and not is_directory and named.file_type is None and named.words is None:
            return named._replace(file_type=self.wishes.types.of_name(host))
        return named

    def fitted(self, fitting: Fitting, host: bytes, is_directory: bool) -> names.DiscName:
        base, told = names.split_suffix(host, is_directory)
        text = names.SPELLED_BYTE.sub(lambda found: chr(int(found[1], 16)), base.replace(".", "/"))
        return told._replace(name=fitting.name(text, host))

    def reserve(self, entries: List[os.DirEntry[bytes]]) -> None:
        """Names that need no fitting go to those that have them."""
        if self.fitting:
            for entry in entries:
                with suppress(ValueError):
                    self.fitting.reserve(names.disc_name(entry.name, entry.is_dir(follow_symlinks=False)).name, entry.name)


def items_of(folder: str, start: Path, fail: Failures, wishes: Wishes) -> List[Item]:
    if not os.path.isdir(folder):
        text = "not a folder: use put" if os.path.exists(folder) else "No such file or directory"
        raise Trouble("%s: %s" % (shown(folder), text))
    return list(scan(os.fsencode(folder), start, fail, wishes))


def scan(folder: bytes, start: Path, fail: Failures, wishes: Wishes) -> Iterator[Item]:
    """What is to be added, a folder before what is in it. What can't be added is named in a message."""
    waiting = [(folder, start)]
    while waiting:
        outer, path = waiting.pop()
        inner: List[Tuple[bytes, Path]] = []
        try:
            entries = sorted(os.scandir(outer), key=lambda entry: entry.name)
        except OSError as error:
            fail.refuse(outer, reason(error))
            continue
        (infs, used), namer = infs_among(entries), Namer(wishes)
        namer.reserve(entries)
        for entry in entries:
            if is_temporary(entry.name) or entry.name in used:
                continue
            item = item_of(entry, path, namer, infs.get(entry.name), fail)
            if item:
                tell_fitted(item, entry.name, wishes)
                yield item
                if item.is_directory:
                    inner.append((item.place, item.path))
        waiting += inner[::-1]


def tell_fitted(item: Item, host: bytes, wishes: Wishes) -> None:
    """The line of the list of old and new names, if the name is another than the host's."""
    if not wishes.limits:
        return
    try:
        is_same = names.disc_name(host, item.is_directory).name == item.named.name
    except ValueError:
        is_same = False
    if not is_same:
        wishes.say("%s -> %s" % (shown(item.place), names.spelled_path(item.path)))


def infs_among(entries: List[os.DirEntry[bytes]]) -> Tuple[Dict[bytes, inf.Inf], Set[bytes]]:
    """What the .inf files among these tell, by the names of what stands beside them; and their own names. Their ending is of any case."""
    found: Dict[bytes, inf.Inf] = {}
    used: Set[bytes] = set()
    candidates = [entry for entry in entries if entry.name.lower().endswith(inf.ENDING)]
    there = {entry.name for entry in entries} if candidates else set()
    for entry in candidates:
        base = entry.name[:-len(inf.ENDING)]
        if base in there and base not in found and entry.is_file(follow_symlinks=False):
            try:
                told = inf.read_inf(read_host_file(entry.path, inf.LONGEST, os.O_NOFOLLOW))
            except (OSError, ValueError):
                continue
            if told:
                found[base] = told
                used.add(entry.name)
    return found, used


def item_of(entry: os.DirEntry[bytes], path: Path, namer: Namer, told: Optional[inf.Inf], fail: Failures) -> Optional[Item]:
    """The entry of a folder with its path on the disc, if it can have one that no other of the folder has."""
    is_directory = entry.is_dir(follow_symlinks=False)
    fail.files += not is_directory
    if not is_directory and not entry.is_file(follow_symlinks=False):
        fail.refuse(entry.path, "it is a link" if entry.is_symlink() else "not a file")
        return None
    try:
        named = namer.named(entry.name, is_directory, told)
    except ValueError as error:
        inner = files_below(entry.path) if is_directory else 0
        fail.files += inner
        fail.inner += inner
        fail.refuse(entry.path, str(error) + ("; nor the files in it: %d" % inner if inner else ""))
        return None
    try:
        size = 0 if is_directory else entry.stat(follow_symlinks=False).st_size
    except OSError as error:
        fail.refuse(entry.path, reason(error))
        return None
    return Item(entry.path, (*path, named.name), named, is_directory, Source(entry.path, size, told))


def files_below(folder: bytes) -> int:
    return sum(len(files) for _, _, files in os.walk(folder))


def kept_of_folder(place: bytes) -> Optional[Kept]:
    """What `extract` kept of a directory."""
    try:
        number = os.open(place, os.O_RDONLY | os.O_DIRECTORY | os.O_NOFOLLOW)
    except OSError:
        return None
    try:
        return kept_with(number)
    finally:
        os.close(number)
