# SPDX-License-Identifier: MIT
"""The part of a disc that paths mean: a directory, a file, or what paths with wildcards mean."""
from __future__ import annotations

from typing import Dict, List, Tuple

from . import names
from .images import Image, open_image
from .messages import WRONG_WORDS, Progress, Trouble, shown, tell
from .program import DIRECTORY, Entry, Path, Refused, Run
from .tree import MAX_DEPTH, Tree, find_entry, read_below, read_tree, tell_doubt
from .wildcards import found_objects, is_wild


def meant_tree(program: str, path: str, order: str, texts: List[str]) -> Tree:
    """The tree from the directory that the only path means; or from the root with what the paths mean alone.

    Raises Refused where the only path is that of nothing.
    """
    if len(texts) > 1 or is_wild(texts[0]):
        return chosen_tree(program, path, order, texts)
    start = path_of(texts[0])
    try:
        return read_tree(program, path, order, start)
    except Refused as refused:
        if refused.name != "NotDirectory":
            raise
    image, entry = find_entry(program, path, order, start)
    tree = Tree(image, start[:-1])
    tree.entries[start[:-1]] = [entry]
    return tree


def path_of(text: str) -> Path:
    try:
        return tuple(names.read_path(names.host_text(text)))
    except ValueError as error:
        raise Trouble("%s: %s" % (shown(text), error), WRONG_WORDS) from None


def chosen_tree(program: str, path: str, order: str, texts: List[str]) -> Tree:
    """What the paths mean, with all that is in it, in the directories where it lies."""
    image, counts, chosen = chosen_objects(program, path, order, texts)
    tree = Tree(image, ())
    tree.entries[()] = []
    for entry in chosen:
        add_holders(tree, entry.path)
    inner = [entry for entry in chosen if entry.is_directory]
    read_chosen(program, tree, inner, Progress("directories read", counts["dirs"]))
    for entry in chosen:
        put_in(tree, entry)
    if tree.too_deep:
        tell("%s: directories more than %d deep are left out" % (shown(path), MAX_DEPTH))
    return tree


def chosen_objects(program: str, path: str, order: str, texts: List[str]) -> Tuple[Image, Dict[str, int], List[Entry]]:
    """The objects that the paths mean alone; with the image, and the reply to `check`."""
    image, counts = open_image(program, path, order, b"check\n", Run.check)
    tell_doubt(image, order, counts)
    return image, counts, found_objects(program, image, texts)


def add_holders(tree: Tree, path: Path) -> None:
    """The directories that lead to an object, with nothing else in them."""
    for size in range(1, len(path)):
        if path[:size] not in tree.entries:
            tree.entries[path[:size]] = []
            put_in(tree, Entry(path[:size], DIRECTORY, 0, 0, 0))


def put_in(tree: Tree, entry: Entry) -> None:
    """An object into its directory, in the order of names, unless it is there."""
    holder = tree.entries[entry.path[:-1]]
    for at, other in enumerate(holder):
        if other.path == entry.path:
            holder[at] = entry
            return
    holder.append(entry)
    holder.sort(key=lambda one: names.folded(one.name))


def read_chosen(program: str, tree: Tree, directories: List[Entry], progress: Progress) -> None:
    """All that is in these directories."""
    below: Dict[Path, List[Entry]] = {}
    for directory in directories:
        part = Tree(tree.image, directory.path[:-1])
        part.entries[part.start] = [directory]
        read_below(program, part, progress)
        tree.too_deep |= part.too_deep
        del part.entries[part.start]
        below.update(part.entries)
    tree.entries.update(below)
