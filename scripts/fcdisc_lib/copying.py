# SPDX-License-Identifier: MIT
"""Copies of files and directories within a disc; and space that nothing owns given back."""
from __future__ import annotations

from argparse import Namespace
from typing import Iterator, List, Tuple

from . import names
from .adding import SETTABLE, loses_access
from .changes import Listing, found_in, meant_paths, read_listings, tell_lost_access
from .contents import held
from .editing import NO_COPY, Edit, Step, save_step, set_line, why
from .faults import refusal_explained
from .hostfiles import NEW_FILE
from .messages import FAILED, Progress, counted, say, shown
from .names import spelled_path
from .program import Entry, Path, Refused, Run, batches, command, find_program
from .selection import path_of
from .tree import MAX_DEPTH, Tree, named, read_below

Pair = Tuple[Entry, Path]  # an object, and the path of its copy


def copy_within(words: Namespace) -> int:
    """Each object to the new path, or into the directory that has it. Nothing is replaced."""
    target = path_of(words.target)
    with Edit(find_program(), words) as edit:
        sources = meant_paths(edit, words.source)
        there, beside, *holders = read_listings(edit, [target, target[:-1], *(source[:-1] for source in sources)])
        if len(sources) > 1 and there[0] is None:
            raise edit.trouble("%s: several objects need a directory of the disc: use mkdir first" % spelled_path(target))
        pairs: List[Pair] = []
        for source, holder in zip(sources, holders):
            pairs += copies_of(edit, found_in(edit, source, holder), target, there, beside, words.r)
        edit.change(copy_steps(edit, pairs))
        lost = sum(loses_access(entry.attributes) for entry, _ in pairs)
        tell_lost_access(words.image, lost)
        return edit.finish() or (FAILED if lost else 0)


def copies_of(edit: Edit, entry: Entry, target: Path, there: Listing, beside: Listing, is_deep: bool) -> Iterator[Pair]:
    """The object and all that is in it, each with the path of its copy."""
    place = target if there[0] is None else (*target, entry.name)
    if named((there if there[0] is not None else beside)[0] or [], place[-1]):
        raise edit.trouble("%s: %s" % (spelled_path(place), why(place, "Exists")))
    if not entry.is_directory:
        yield entry, place
        return
    if not is_deep:
        raise edit.trouble("%s: a directory: use cp -r" % spelled_path(entry.path))
    if list(map(names.folded, place[:len(entry.path)])) == list(map(names.folded, entry.path)):
        raise edit.trouble("%s: a directory can't be copied into itself" % spelled_path(place))
    tree = Tree(edit.image, entry.path[:-1])
    tree.entries[tree.start] = [entry]
    read_below(edit.program, tree, Progress("directories read", edit.counts["dirs"]))
    if tree.too_deep:
        raise edit.trouble("%s has directories more than %d deep" % (spelled_path(entry.path), MAX_DEPTH))
    for inner in tree.walk():
        yield inner, (*place, *inner.path[len(entry.path):])


def copy_steps(edit: Edit, pairs: List[Pair]) -> Iterator[Step]:
    for entry, place in pairs:
        if entry.is_directory:
            yield Step(command("cdir", place), place, NO_COPY)
    places = {entry.path: place for entry, place in pairs}
    for script, batch in batches("load", [entry for entry, _ in pairs if not entry.is_directory]):
        with edit.image.run(edit.program, script) as run:
            for entry in batch:
                content = held(run.load(entry.length), entry.length)[0]
                yield save_step(places[entry.path], entry.load, entry.execution, content, NO_COPY)
    for entry, place in pairs:
        usual = (0, 0, 0) if entry.is_directory else (entry.load, entry.execution, NEW_FILE)
        if (entry.load, entry.execution, entry.attributes & SETTABLE) != usual:
            yield Step(set_line(place, entry.load, entry.execution, entry.attributes), place, "access not set")


# ---- reclaim


def reclaim(words: Namespace) -> int:
    """Of each image the space that nothing owns becomes free."""
    program, status, images = find_program(), 0, words.image
    for image in images:
        words.image = image
        with Edit(program, words) as edit:
            read_listings(edit, [])
            try:
                given = edit.perform(b"reclaim\n", reclaimed)
            except Refused as refused:
                raise edit.trouble(refusal_explained(refused.name)) from None
            edit.changes = int(given > 0)
            status = max(status, edit.finish())
            say("%s: %s given back" % (shown(image), counted(given, "byte")))
    return status


def reclaimed(run: Run) -> int:
    """The reply to `reclaim`: the bytes that are free now and weren't."""
    (line,) = run.lines()
    return int(line.split()[1])
