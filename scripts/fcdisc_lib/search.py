# SPDX-License-Identifier: MIT
"""Files and directories that match a pattern, in all images of folders."""
from __future__ import annotations

from argparse import Namespace
from typing import List, Pattern, Set

from . import names
from .catalogue import disc_in
from .collection import Files, Found, over_files, status_of, tell_refused
from .listing import access, kind, minute
from .messages import counted, say, shown
from .program import Entry, Path, batches, find_program
from .tree import Tree
from .unread import digests
from .wildcards import matchers, matches


def find(words: Namespace) -> int:
    """A line for each that is found; the status is 1 if there is none, or an image isn't accepted."""
    program, files, patterns = find_program(), Files(words.folder), matchers(words.pattern)
    is_rooted = words.pattern.split(".")[0] == "$"
    failed, total, images = False, 0, 0
    for file, found in over_files(files, lambda file: found_in(program, file, words, patterns, is_rooted), "images"):
        failed |= found is None
        total, images = total + len(found or []), images + bool(found)
        for entry in found or []:
            size = "" if entry.is_directory else ", " + counted(entry.length, "byte")
            date = ", " + minute(entry) if minute(entry) else ""
            say("%s: %s: %s%s, %s%s" % (shown(file.path), names.spelled_path(entry.path), kind(entry), size, access(entry), date))
    say("%s in %s" % (counted(total, "object"), counted(images, "image")))
    tell_refused(files)
    return status_of(files, failed or not total)


def found_in(program: str, file: Found, words: Namespace, patterns: List[Pattern[str]], is_rooted: bool) -> List[Entry]:
    tree = disc_in(program, file, words.order)
    if tree is None:
        return []
    with tree.image.file:
        found = [entry for entry in tree.walk() if is_meant(entry.path, patterns, is_rooted)]
        if words.type is not None:
            found = [entry for entry in found if not entry.is_directory and names.type_of(entry.load) == words.type]
        if words.sha256 or words.holds is not None:
            kept = by_content(program, tree, [entry for entry in found if not entry.is_directory], words)
            found = [entry for entry in found if entry.path in kept]
        return found


def is_meant(path: Path, patterns: List[Pattern[str]], is_rooted: bool) -> bool:
    """Whether the pattern matches the whole path, or, without `$`, its last names."""
    if len(path) < len(patterns) or is_rooted and len(path) != len(patterns):
        return False
    return all(matches(pattern, name) for pattern, name in zip(patterns, path[len(path) - len(patterns):]))


def by_content(program: str, tree: Tree, files: List[Entry], words: Namespace) -> Set[Path]:
    """The files with that digest, or that hold those bytes."""
    if words.sha256:
        return {path for path, digest in digests(program, tree.image, files).items() if digest.startswith(words.sha256.lower())}
    kept: Set[Path] = set()
    for script, batch in batches("load", files):
        with tree.image.run(program, script) as run:
            for entry in batch:
                if words.holds in b"".join(run.load(entry.length)):
                    kept.add(entry.path)
    return kept
