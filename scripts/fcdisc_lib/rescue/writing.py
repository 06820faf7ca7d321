# SPDX-License-Identifier: MIT
"""The files of a disc that was read, into a folder of the host, by the names and times of `extract`."""
from __future__ import annotations

import os
from contextlib import contextmanager
from typing import Dict, Iterable, Iterator, List, Set

from ..extraction import Extraction
from ..images import Image
from ..messages import Progress, Trouble, reason, shown
from ..output import Folder, NewFile, place_text
from ..program import Entry, Path
from ..tree import Tree
from .reading import Reading, pieces_of
from .report import json_of, text_of
from .walk import Found

SOUND, DOUBTFUL = b"sound", b"doubtful"


def entry_of(found: Found) -> Entry:
    """What a file of the host is to say of the object. A file that is cut off has the length of what is there."""
    item = found.item
    length = 0 if found.is_directory else found.there
    return Entry(found.path, item.attributes & 0xFFFFFFFF, item.load, item.execution, length)


def ancestors(path: Path) -> Iterator[Path]:
    return (path[:depth] for depth in range(len(path)))


def tree_of(reading: Reading, name: str, files: Iterable[Found], bare: Iterable[Found]) -> Tree:
    """A tree of these files, and of these directories even if they have none."""
    tree = Tree(Image(name, None, ""), ())  # type: ignore[arg-type]
    wanted: Set[Path] = {()}
    chosen: List[Found] = list(files)
    for found in (*chosen, *bare):
        wanted.update(ancestors(found.path))
        if found.is_directory:
            wanted.add(found.path)
    for path in wanted:
        tree.entries[path] = []
    for found in (*reading.walk.directories[1:], *chosen):
        if found.path in wanted or not found.is_directory:
            tree.entries[found.path[:-1]].append(entry_of(found))
    for entries in tree.entries.values():
        entries.sort(key=lambda entry: entry.name)
    return tree


def sound_tree(reading: Reading, name: str) -> Tree:
    """All sound files, and all right directories."""
    right = [one for one in reading.walk.directories if not one.doubts and not one.listing.fault]
    return tree_of(reading, name, (one for one in reading.files if one.grade == "sound"), right)


def doubtful_tree(reading: Reading, name: str) -> Tree:
    return tree_of(reading, name, (one for one in reading.files if one.grade in ("doubtful", "cut")), ())


class Writing(Extraction):
    """As `extract`, with the bytes that were found."""

    def __init__(self, reading: Reading, tree: Tree, folder: Folder):
        super().__init__("", tree, folder)
        self.reading = reading
        self.found: Dict[Path, Found] = {one.path: one for one in reading.files}

    def run(self) -> None:
        for entry in self.tree.walk():
            if entry.is_directory and entry.path[:-1] in self.places:
                self.make_folder(entry)
        progress = Progress("bytes written", sum(entry.length for entry in self.wanted))
        for entry in self.wanted:
            if entry.path[:-1] in self.places:
                self.write_one(entry, progress)

    def write_one(self, entry: Entry, progress: Progress) -> None:
        try:
            holder = self.folder.below(self.places[entry.path[:-1]])
        except OSError as error:
            self.fail(entry, error)
            return
        with holder:
            self.write(holder, entry, progress.passed(pieces_of(self.reading.source, self.found[entry.path])))


def empty_folder(path: str) -> Folder:
    """The folder for a rescue: a new one, or one with nothing in it."""
    try:
        try:
            os.mkdir(path)
        except FileExistsError:
            if os.listdir(path):
                raise Trouble("%s: there is something in it: rescue takes a new folder or an empty one" % shown(path)) from None
        return Folder.at(path)
    except OSError as error:
        raise Trouble("%s: %s" % (shown(path), reason(error))) from None


def write_all(reading: Reading, image: str, folder: Folder, place: str) -> bool:
    """Writes the files and both reports, and answers whether all that came out was written under its own name.

    `place` is the folder's path for people.
    """
    complete = True
    for name, tree in ((SOUND, sound_tree(reading, image)), (DOUBTFUL, doubtful_tree(reading, image))):
        if name == DOUBTFUL and not tree.files():
            continue
        with told_as(place, name):
            folder.make(name)
        with folder.below((name,)) as inner:
            writing = Writing(reading, tree, inner)
            writing.run()
            complete = writing.is_complete() and complete
    for name, data in ((b"report.txt", text_of(reading)), (b"report.json", json_of(reading, shown(image)))):
        with told_as(place, name), NewFile(folder, [data]) as temporary:
            folder.publish(temporary, name)
    return complete


@contextmanager
def told_as(place: str, name: bytes) -> Iterator[None]:
    """An error of the host is one of the file or folder of that name there."""
    try:
        yield
    except OSError as error:
        raise Trouble(place_text(place, name, error)) from None
