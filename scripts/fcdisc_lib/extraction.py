# SPDX-License-Identifier: MIT
"""All files of a disc into a folder of the host."""
from __future__ import annotations

from itertools import groupby
from typing import Callable, Dict, Iterator, List, NamedTuple, Optional, Set, Tuple, Union

from . import inf, names
from .filetypes import Types
from .hostfiles import NEW_DIRECTORY, is_told, keep
from .messages import Progress, Trouble, reason, shown, tell
from .output import HOPELESS, Folder, Inode, NewFile
from .program import Entry, Path, Run, batches
from .tree import Tree


class Taken(Exception):
    """The name on the host belongs to something that was there before."""


class Form(NamedTuple):
    """How a file's type, words and access are kept: in its name and beside it on the host; or in an .inf file; or its ending tells
    the type."""

    with_inf: bool = False
    types: Optional[Types] = None

    def suffix(self, entry: Entry) -> bytes:
        """What follows the name on the host."""
        if entry.is_directory or self.with_inf:
            return b""
        number = names.type_of(entry.load)
        if self.types and number is not None:
            ending = self.types.ending(names.host_name(entry.name, b""), number)
            if ending is not None:
                return ending
        return names.suffix_of(entry.load, entry.execution)

    def is_told(self, number: int, entry: Entry) -> bool:
        """Whether nothing has to be kept of the open file."""
        return self.suffix(entry) == names.suffix_of(entry.load, entry.execution) and is_told(number, *words_of(entry))


class Extraction:
    """What was written so far, and what couldn't be. Nothing that was there before is changed."""

    def __init__(self, program: str, tree: Tree, folder: Folder, form: Form = Form()):
        self.program, self.tree, self.folder, self.form = program, tree, folder, form
        self.places: Dict[Path, Tuple[bytes, ...]] = {tree.start: ()}  # the directories that have a folder, and where
        self.own: Set[Inode] = set()  # what this job made or used: a name that leads there again stands for something else
        self.numbers: Dict[Tuple[Path, bytes], int] = {}  # of names in a directory that become one: the last that was used
        self.wanted = tree.files()
        self.written = self.renamed = 0
        self.lost = 0  # objects whose access, words or time the host couldn't keep

    def run(self) -> None:
        """Makes the folders, and then writes all files, by one run of fcore."""
        for entry in self.tree.walk():
            if entry.is_directory and entry.path[:-1] in self.places:
                self.make_folder(entry)
        files = [entry for entry in self.wanted if entry.path[:-1] in self.places]
        progress = Progress("bytes written", sum(entry.length for entry in files))
        for script, batch in batches("load", files):
            with self.tree.image.run(self.program, script) as run:
                for path, group in groupby(batch, key=lambda entry: entry.path[:-1]):
                    self.write_group(run, path, list(group), progress)

    def is_complete(self) -> bool:
        """Whether all of the disc is on the host, under its own names."""
        made_all = all(path in self.places for path in self.tree.entries)
        return made_all and self.written == len(self.wanted) and not self.renamed and not self.lost and not self.tree.too_deep

    # names

    def take_name(self, holder: Folder, entry: Entry, suffix: bytes, take: Callable[[bytes], None]) -> bytes:
        """Finds a name that `take` can take. One that this job took before is passed over for a fresh spelling."""
        right = names.host_name(entry.name, suffix)
        first = right if len(right) <= holder.name_limit else names.fitted_name(entry.name, suffix, holder.name_limit)
        name, alike = first, (entry.path[:-1], first)
        while not self.took(holder, name, take):
            number = self.numbers[alike] = self.numbers.get(alike, 1) + 1
            name = names.fitted_name(entry.name, suffix, holder.name_limit, number)
        if name != right:
            self.renamed += 1
            self.tell(entry, "has another name here: " + shown(name))
        return name

    def took(self, holder: Folder, name: bytes, take: Callable[[bytes], None]) -> bool:
        """Whether `take` could take the name; if it can't, this job has it already. Raises Taken where something else has."""
        if self.form.with_inf and holder.has(name + inf.ENDING):
            if holder.inode(name + inf.ENDING) not in self.own:
                raise Taken
            return False
        try:
            take(name)
        except FileExistsError:
            if holder.inode(name) not in self.own:
                raise Taken from None
            return False
        self.own.add(holder.inode(name))
        return True

    # folders

    def make_folder(self, entry: Entry) -> None:
        """Gives the directory a folder, a new one or one that was there, if it can be."""
        outer = self.places[entry.path[:-1]]
        try:
            with self.folder.below(outer) as holder:
                name = self.take_name(holder, entry, b"", lambda name: self.take_folder(holder, name, entry))
                if self.form.with_inf and words_of(entry) != (0, 0, NEW_DIRECTORY):
                    self.write_inf(holder, name, entry)
            self.places[entry.path] = (*outer, name)
        except (OSError, Taken) as error:
            self.fail(entry, error)

    def take_folder(self, holder: Folder, name: bytes, entry: Entry) -> None:
        try:
            holder.make(name)
            if words_of(entry) != (0, 0, NEW_DIRECTORY) and not self.form.with_inf:
                with holder.below((name,)) as made:
                    self.lost += not keep(made.number, *words_of(entry))
        except FileExistsError:
            if holder.inode(name) in self.own or not holder.is_folder(name):
                raise

    # files

    def write_group(self, run: Run, path: Path, files: List[Entry], progress: Progress) -> None:
        """Writes files of one directory, in the order of the replies."""
        try:
            holder = self.folder.below(self.places[path])
        except OSError as error:
            for entry in files:
                self.fail(entry, error)
                pass_over(run.load(entry.length))
            return
        with holder:
            for entry in files:
                self.write(holder, entry, progress.passed(run.load(entry.length)))

    def write(self, holder: Folder, entry: Entry, pieces: Iterator[bytes]) -> None:
        try:
            time = names.unix_time(entry.load, entry.execution)
            with NewFile(holder, pieces, time, lambda number: self.keep(number, entry)) as temporary:
                try:
                    name = self.take_name(holder, entry, self.form.suffix(entry), lambda name: holder.publish(temporary, name))
                except Taken:
                    if not holder.are_alike(temporary, names.host_name(entry.name, self.form.suffix(entry))):
                        raise
                    self.written += 1  # by an earlier job
                    return
            if self.form.with_inf:
                self.write_inf(holder, name, entry)
            self.written += 1
        except (OSError, Taken) as error:
            self.fail(entry, error)
            pass_over(pieces)

    def keep(self, number: int, entry: Entry) -> None:
        """What the file's name and time don't say already."""
        if not self.form.with_inf and not self.form.is_told(number, entry):
            self.lost += not keep(number, *words_of(entry))

    def write_inf(self, holder: Folder, name: bytes, entry: Entry) -> None:
        with NewFile(holder, [inf.written(entry)]) as temporary:
            try:
                holder.publish(temporary, name + inf.ENDING)
            except FileExistsError:
                raise Taken from None
            self.own.add(holder.inode(name + inf.ENDING))

    # what goes wrong

    def fail(self, entry: Entry, error: Union[OSError, Taken]) -> None:
        """One object can't be written. An error that all others would meet too ends the job."""
        if isinstance(error, Taken):
            self.tell(entry, "not written: there is something of its name already")
            return
        self.tell(entry, "not written: " + reason(error))
        if error.errno in HOPELESS:
            raise Trouble("%s: %d of %d files written" % (shown(self.tree.image.path), self.written, len(self.wanted)))

    def tell(self, entry: Entry, text: str) -> None:
        tell("%s: %s: %s" % (shown(self.tree.image.path), names.spelled_path(entry.path), text))


def pass_over(pieces: Iterator[bytes]) -> None:
    """What is left of a reply, so that the next one can be read."""
    for _ in pieces:
        pass


def words_of(entry: Entry) -> Tuple[int, int, int]:
    """Load, exec and attributes."""
    return entry.load, entry.execution, entry.attributes
