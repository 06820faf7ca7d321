# SPDX-License-Identifier: MIT
"""The objects of a disc, found from a directory down."""
from __future__ import annotations

from typing import Dict, Iterable, Iterator, List, Optional, Tuple

from . import names
from .images import AS_IT_IS, Image, has_doubtful_order, open_image
from .messages import Progress, shown, tell
from .program import Entry, Path, Refused, Run, batches, command

# RISC OS takes no path of more than 255 bytes. A disc that goes deeper was made to do harm, and each level costs a run.
MAX_DEPTH = 127


class Tree:
    """The directories below one, each with its entries in the order of names."""

    def __init__(self, image: Image, start: Path):
        self.image, self.start = image, start
        self.entries: Dict[Path, List[Entry]] = {}
        self.too_deep = 0  # directories that weren't read

    def walk(self) -> Iterator[Entry]:
        """All objects, a directory before what is in it."""
        waiting = self.entries[self.start][::-1]
        while waiting:
            entry = waiting.pop()
            yield entry
            waiting += self.entries.get(entry.path, [])[::-1]

    def files(self) -> List[Entry]:
        return [entry for entry in self.walk() if not entry.is_directory]


def read_tree(program: str, path: str, order: str, start: Path, deeper: str = "left out") -> Tree:
    """The tree from the directory `start`. fcore runs once to open the image, and once for each level of directories.

    `deeper` says what comes of too deep ones. Raises Refused where `start` is no directory of the disc.
    """
    def read(run: Run) -> Tuple[Dict[str, int], List[Entry]]:
        return run.check(), run.cat(start)

    image, (counts, entries) = open_image(program, path, order, b"check\n" + command("cat", start), read)
    tell_doubt(image, order, counts)
    tree = Tree(image, start)
    tree.entries[start] = entries
    read_below(program, tree, Progress("directories read", counts["dirs"]))
    if tree.too_deep:
        tell("%s: directories more than %d deep are %s" % (shown(path), MAX_DEPTH, deeper))
    return tree


def read_below(program: str, tree: Tree, progress: Progress) -> None:
    """Reads all below the start, whose entries are there already."""
    level = [entry for entry in tree.entries[tree.start] if entry.is_directory]
    while level:
        if len(level[0].path) > MAX_DEPTH:
            tree.too_deep = len(level)
            return
        level = read_level(program, tree, level, progress)


def read_level(program: str, tree: Tree, level: List[Entry], progress: Progress) -> List[Entry]:
    """Reads the directories of a level; those in them are the next one."""
    found: List[Entry] = []
    for script, directories in batches("cat", level):
        with tree.image.run(program, script) as run:
            for directory in directories:
                try:
                    entries = tree.entries[directory.path] = run.cat(directory.path)
                except Refused:  # it was listed
                    raise run.changed() from None
                found += [entry for entry in entries if entry.is_directory]
                progress.step()
    return found


def tell_doubt(image: Image, order: str, counts: Dict[str, int]) -> None:
    """Nothing shows whether it was the right order. That a name says .adl is said already."""
    if image.how == AS_IT_IS and has_doubtful_order(image, order, counts):
        tell("%s: taken to be in disc order; if files look wrong, its sides are interleaved: use --order adl" % shown(image.path))


def find_entry(program: str, path: str, order: str, place: Path) -> Tuple[Image, Entry]:
    """The object at a path that isn't the root's, by one run. Raises Refused where there is none."""
    def read(run: Run) -> Tuple[Dict[str, int], List[Entry]]:
        return run.check(), run.cat(place[:-1])

    image, (counts, entries) = open_image(program, path, order, b"check\n" + command("cat", place[:-1]), read)
    entry = named(entries, place[-1])
    if entry is None:
        raise Refused("NotFound")
    tell_doubt(image, order, counts)
    return image, entry


def named(entries: Iterable[Entry], name: bytes) -> Optional[Entry]:
    """The one of that name, if there is one."""
    wanted = names.folded(name)
    return next((entry for entry in entries if names.folded(entry.name) == wanted), None)
