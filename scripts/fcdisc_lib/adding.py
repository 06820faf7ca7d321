# SPDX-License-Identifier: MIT
"""Files and folders onto a disc: by the names, types and times that `extract` gives them."""
from __future__ import annotations

from typing import Dict, Iterator, List, Optional, Set

from . import names
from .editing import Step, save_step, set_line
from .hostfiles import NEW_FILE, HostFile
from .hostitems import NOT_ADDED, Failures, Item
from .messages import reason
from .program import DIRECTORY, Entry, Path, Refused, Run, command

SETTABLE = 7  # of attributes, those that fcore can set


class Present:
    """What the disc has already where something is to be added: the directories that were asked for, and their entries."""

    def __init__(self, start: Path, items: List[Item]):
        self.start = start
        self.asked = [start] + [item.path for item in items if item.is_directory]
        self.entries: Dict[Path, Optional[Dict[bytes, Entry]]] = {}
        self.refusal = ""  # of the start

    def script(self) -> bytes:
        return b"".join(command("cat", path) for path in self.asked)

    def read(self, run: Run) -> None:
        """None stands for a directory that isn't there."""
        for path in self.asked:
            try:
                self.entries[path] = {names.folded(entry.name): entry for entry in run.cat(path)}
            except Refused as refused:
                self.entries[path] = None
                self.refusal = refused.name if path == self.start else self.refusal

    def find(self, path: Path) -> Optional[Entry]:
        return (self.entries.get(path[:-1]) or {}).get(names.folded(path[-1]))


class Addition:
    """The steps that add a folder, and what came of its files."""

    def __init__(self, items: List[Item], present: Present, fail: Failures, replaces: bool):
        self.items, self.present, self.fail, self.replaces = items, present, fail, replaces
        self.lost_access = 0  # objects with access that can't be set
        self.left_out: Set[Path] = set()  # folders that can't be added
        self.saved: List[Path] = []

    def steps(self) -> Iterator[Step]:
        start = self.present.start
        if self.present.entries[start] is None:
            yield Step(command("cdir", start), start, NOT_ADDED)
        for item in self.items:
            if self.left_out and item.path[:-1] in self.left_out:
                self.left_out.add(item.path)
                continue
            yield from self.directory_steps(item) if item.is_directory else self.file_steps(item)

    def directory_steps(self, item: Item) -> Iterator[Step]:
        there = self.present.find(item.path)
        if there and not there.is_directory:
            self.left_out.add(item.path)
            self.fail.refuse(item.place, "a file of its name is on the disc; nor what is in it")
        elif not there:
            yield Step(command("cdir", item.path), item.path, NOT_ADDED)
            kept = item.source.kept()
            if kept and (kept.load or kept.execution or kept.attributes & SETTABLE):
                yield Step(set_line(item.path, kept.load, kept.execution, kept.attributes), item.path, "access and words not set")
            self.lost_access += bool(kept and loses_access(kept.attributes))

    def file_steps(self, item: Item) -> Iterator[Step]:
        there = self.present.find(item.path)
        if there and there.is_directory:
            self.fail.refuse(item.place, "a directory of its name is on the disc")
            return
        if there and not self.replaces:
            self.fail.refuse(item.place, "there is something of its name on the disc already (--replace puts files in its place)")
            return
        try:
            file = item.source.read()
        except (OSError, ValueError) as error:
            self.fail.refuse(item.place, reason(error) if isinstance(error, OSError) else str(error))
            return
        self.saved.append(item.path)
        yield from file_steps(item.path, file, item.named, NOT_ADDED, there)
        self.lost_access += bool(file.kept and not there and loses_access(file.kept.attributes))


def loses_access(attributes: int) -> bool:
    """Whether an object has access that can't be set."""
    return bool(attributes & ~(SETTABLE | DIRECTORY))


def file_steps(path: Path, file: HostFile, named: names.DiscName, failure: str, there: Optional[Entry] = None) -> Iterator[Step]:
    """The steps that save a file. One that is there keeps its access, and its type unless the new one tells a type."""
    default = names.type_of(there.load) if there else None
    load, execution = file.words(named) if default is None else file.words(named, default)
    yield save_step(path, load, execution, file.content, failure)
    attributes = file.kept.attributes if file.kept and not there else NEW_FILE
    if attributes & SETTABLE != NEW_FILE:
        yield Step(set_line(path, load, execution, attributes), path, "access not set")
