# SPDX-License-Identifier: MIT
"""The subcommands that change a disc. Each answers the status with which the program ends."""
from __future__ import annotations

import gc
import os
from argparse import Namespace
from typing import Dict, List, Optional, Tuple

from . import names
from .adding import Addition, Present, file_steps
from .description import describe
from .editing import NOT_MADE, NOT_PUT, OTHER_NAME, Edit, Step, set_line, why
from .filetypes import Types, read_types
from .fitting import Limits
from .hostfiles import TEXT, HostFile, host_file
from .hostitems import NOT_ADDED, Failures, Item, Wishes, is_archive, items_of
from .messages import FAILED, WRONG_WORDS, Progress, Trouble, counted, reason, say, shown, tell
from .names import spelled_path
from .program import Entry, Path, Refused, Run, command, find_program
from .selection import path_of
from .tree import MAX_DEPTH, Tree, named, read_below
from .wildcards import found_objects, is_wild

Listing = Tuple[Optional[List[Entry]], str]


def listing(run: Run, path: Path) -> Listing:
    """The directory's entries; or None, and the name of the refusal."""
    try:
        return run.cat(path), ""
    except Refused as refused:
        return None, refused.name


def read_listings(edit: Edit, paths: List[Path]) -> List[Listing]:
    """Lists these directories, and opens the image before if it isn't open."""
    script = b"".join(command("cat", path) for path in paths)
    if edit.is_open:
        with edit.image.run(edit.program, script) as run:
            return [listing(run, path) for path in paths]
    return edit.open(script, lambda run: [listing(run, path) for path in paths])


def object_trouble(edit: Edit, path: Path, refusal: str) -> Trouble:
    return edit.trouble("%s: %s" % (spelled_path(path), why(path, refusal)))


def found_in(edit: Edit, path: Path, holder: Listing) -> Entry:
    """The object at a path whose holder was listed."""
    entry = named(holder[0] or [], path[-1])
    if entry is None:
        raise object_trouble(edit, path, holder[1] or "NotFound")
    return entry


def meant_paths(edit: Edit, texts: List[str]) -> List[Path]:
    """The paths of the objects that are meant, where some have wildcards. Opens the image then."""
    if not any(map(is_wild, texts)):
        return [not_root(text) for text in texts]
    read_listings(edit, [])
    paths: Dict[Path, None] = {}
    for text in texts:
        wanted = [entry.path for entry in found_objects(edit.program, edit.image, [text])] if is_wild(text) else [not_root(text)]
        paths.update(dict.fromkeys(wanted))
    return list(paths)


def not_root(text: str) -> Path:
    path = path_of(text)
    if not path:
        raise Trouble("$: " + why(path, "RootRefused"), WRONG_WORDS)
    return path


# ---- put


def put(words: Namespace) -> int:
    """One file onto a disc, or several into a directory. None is put there if one of them can't be."""
    program, path = find_program(), path_of(words.path)
    for file in words.file:
        if os.path.isdir(file):
            raise Trouble("%s: a folder: use add" % shown(file))
    with Edit(program, words) as edit:
        there, holder = read_listings(edit, [path, path[:-1]])
        if there[0] is None and len(words.file) > 1:
            raise edit.trouble("%s: several files need a directory of the disc: use mkdir first" % spelled_path(path))
        if there[0] is None and holder[0] is None:
            raise edit.trouble("%s: there is no such directory on the disc" % spelled_path(path[:-1]))
        types = read_types(words.types) if words.types else None
        steps: List[Step] = []
        for file in words.file:
            given = os.fsencode(os.path.basename(file))
            place, present = path, named(holder[0] or [], path[-1]) if path else None
            if there[0] is not None:
                place = (*path, name_of(given))
                present = named(there[0], place[-1])
            steps += put_steps(edit, words, file, place, present, named_for(given, words.type, types))
        edit.change(steps)
        return edit.finish()


def put_steps(edit: Edit, words: Namespace, file: str, path: Path, present: Optional[Entry], told: names.DiscName) -> List[Step]:
    if present and present.is_directory:
        raise object_trouble(edit, path, "IsDirectory")
    if present and not words.replace:
        raise edit.trouble("%s: %s: --replace puts the new file in its place" % (spelled_path(path), why(path, "Exists")))
    try:
        found = host_file(os.fsencode(file))
    except (OSError, ValueError) as error:
        raise Trouble("%s: %s" % (shown(file), reason(error) if isinstance(error, OSError) else error)) from None
    steps = list(file_steps(path, found, told, NOT_PUT, present))
    kept = names.type_of(present.load) if present else None
    if kept is not None and kept != TEXT and not tells_type(found, told):
        tell("%s: %s: it has the type %03x of the file whose place it takes (--type gives another)" % (
            shown(words.image), spelled_path(path), kept))
    return steps


def tells_type(file: HostFile, told: names.DiscName) -> bool:
    """Whether a file has a type or words of its own."""
    return bool(told.words or told.file_type is not None or file.kept and names.has_type(file.kept.load))


def name_of(given: bytes) -> bytes:
    """The disc's name of a file that goes into a directory under its own."""
    try:
        return names.disc_name(given, False).name
    except ValueError as error:
        raise Trouble("%s: %s%s" % (shown(given), error, OTHER_NAME)) from None


def named_for(given: bytes, wanted_type: Optional[int], types: Optional[Types]) -> names.DiscName:
    """The type or words of a file, by its name or as they were asked for. It needs no name that a disc could have."""
    if wanted_type is not None:
        return names.DiscName(b"", file_type=wanted_type)
    told = names.split_suffix(given, False)[1]
    if types and told.file_type is None and told.words is None:
        return told._replace(file_type=types.of_name(given))
    return told


# ---- add


def add(words: Namespace) -> int:
    gc.disable()  # what is made of a folder stays to the end, and to look through it again and again takes time
    program, start, fail = find_program(), path_of(words.path), Failures(words.verbose)
    types = read_types(words.types) if words.types else None
    with Edit(program, words) as edit:
        read_listings(edit, [])
        limits = Limits.of_disc(describe(edit.image.file)) if words.fit else None
        items = source_items(words.folder, start, fail, Wishes(limits, types, say))
        present = Present(start, items)
        with edit.image.run(program, present.script()) as run:
            present.read(run)
        if present.entries[start] is None and present.refusal != "NotFound":
            raise object_trouble(edit, start, present.refusal)
        tell_need(words, items, edit.counts["free"])
        addition = Addition(items, present, fail, words.replace)
        edit.change(addition.steps())
        fail.sum_up()
        status = edit.finish(words.verbose)
        refused = {failure.step.path for failure in edit.failures if failure.step.failure == NOT_ADDED}
        done = sum(path not in refused for path in addition.saved)
        tell_lost_access(words.image, addition.lost_access)
        say("%d of %s added to %s" % (done, counted(fail.files, "file"), shown(words.image)))
        return FAILED if fail.count or addition.lost_access else status


def source_items(place: str, start: Path, fail: Failures, wishes: Wishes) -> List[Item]:
    """What is in a folder, or in a zip archive."""
    if is_archive(place) and not os.path.isdir(place):
        from .archives import archive_items  # here, since zipfile takes long to load
        return archive_items(place, start, fail, wishes)
    return items_of(place, start, fail, wishes)


def tell_need(words: Namespace, items: List[Item], free: int) -> None:
    """Says before the work begins that it can't all be done. What a file takes on the disc is at least its length."""
    need = sum(item.source.size for item in items)
    if need > free:
        tell("%s: the files need %.1f MB, and the disc has %.1f MB free" % (shown(words.image), need / 1e6, free / 1e6))


def tell_lost_access(image: str, count: int) -> None:
    if count:
        tell("%s: %s lost what others than the owner may do: fcore can't set that" % (shown(image), counted(count, "object")))


# ---- mkdir, rm, mv


def mkdir(words: Namespace) -> int:
    paths = [path_of(text) for text in words.path]
    with Edit(find_program(), words) as edit:
        if words.p:
            wanted = dict.fromkeys(path[:size] for path in paths for size in range(1, len(path) + 1))
            holders = read_listings(edit, list(wanted))
            paths = [path for path, (entries, _) in zip(wanted, holders) if entries is None]
        else:
            read_listings(edit, [])
        edit.change(Step(command("cdir", path), path, NOT_MADE) for path in paths)
        return edit.finish()


def remove(words: Namespace) -> int:
    with Edit(find_program(), words) as edit:
        paths = meant_paths(edit, words.path)
        listings = read_listings(edit, paths)
        progress = Progress("directories read", edit.counts["dirs"])
        gone: Dict[Path, None] = {}
        for path, (entries, _) in zip(paths, listings):
            inner = entries_below(edit, path, entries, progress) if words.r and entries else []
            gone.update(dict.fromkeys(entry.path for entry in inner[::-1]))
            gone[path] = None
        edit.change(Step(command("delete", path), path, "not removed") for path in gone)
        return edit.finish()


def entries_below(edit: Edit, path: Path, entries: List[Entry], progress: Progress) -> List[Entry]:
    """All that is in a directory, each object after the directory that holds it."""
    tree = Tree(edit.image, path)
    tree.entries[path] = entries
    read_below(edit.program, tree, progress)
    if tree.too_deep:
        raise edit.trouble("%s has directories more than %d deep" % (spelled_path(path), MAX_DEPTH))
    return list(tree.walk())


def move(words: Namespace) -> int:
    """Each object to the new path, or into the directory that has it. Several need a directory."""
    target = path_of(words.target)
    with Edit(find_program(), words) as edit:
        sources = meant_paths(edit, words.source)
        there, *holders = read_listings(edit, [target, *(source[:-1] for source in sources)])
        if len(sources) > 1 and there[0] is None:
            raise edit.trouble("%s: several objects need a directory of the disc: use mkdir first" % spelled_path(target))
        edit.change([move_step(edit, source, holder, target, there) for source, holder in zip(sources, holders)])
        return edit.finish()


def move_step(edit: Edit, source: Path, holder: Listing, target: Path, there: Listing) -> Step:
    entry = found_in(edit, source, holder)
    if there[0] is not None and list(map(names.folded, target)) != list(map(names.folded, source)):
        target = (*target, entry.name)
    line = b"rename %s %s\n" % (names.path_bytes(source), names.path_bytes(target))
    return Step(line, target, "%s not moved there" % spelled_path(source))


# ---- access, compact


def access(words: Namespace) -> int:
    with Edit(find_program(), words) as edit:
        paths = meant_paths(edit, words.path)
        holders = read_listings(edit, [path[:-1] for path in paths])
        entries = [found_in(edit, path, holder) for path, holder in zip(paths, holders)]
        edit.change(Step(set_line(entry.path, entry.load, entry.execution, words.access), entry.path, "access not set")
                    for entry in entries)
        return edit.finish()


def compact(words: Namespace) -> int:
    program = find_program()
    with Edit(program, words) as edit:
        read_listings(edit, [])
        before, after = edit.perform(b"free\ncompact\nfree\n", lambda run: (run.free(), list(run.lines()), run.free())[::2])
        edit.changes = 1
        status = edit.finish()
        say("%s free, the largest piece %d; before, it was %d" % (counted(after[0], "byte"), after[1], before[1]))
        return status
