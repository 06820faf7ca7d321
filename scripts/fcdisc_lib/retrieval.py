# SPDX-License-Identifier: MIT
"""Files of discs onto the host: `get`, and `extract`, of one image or of each in a folder."""
from __future__ import annotations

import gc
import os
import sys
from argparse import Namespace
from typing import Iterator, List, NamedTuple, Optional

from . import names
from .collection import Files, Found, over_files, status_of
from .extraction import Extraction, Form, words_of
from .faults import refusal_explained
from .filetypes import read_types
from .hostfiles import is_told, keep
from .hostitems import is_archive
from .images import nameless_file, pieces_from
from .jobs import refusal, write_new
from .messages import FAILED, WRONG_WORDS, Progress, Trouble, counted, reason, say, shown, tell
from .output import Folder, NewFile, new_folder, place_text, refuse_if_taken, split_path
from .program import BadImage, Entry, Refused, batches, command, find_program
from .selection import chosen_objects, meant_tree, path_of
from .tree import Tree, find_entry
from .verdicts import fault_of, is_no_disc
from .wildcards import is_wild

UNKEPT = "%s lost access, words or time: this host can't keep them; extract --inf or a zip archive does"

NO_FOLDER = "several files need a folder of the host as the last word"


# ---- get


def get(words: Namespace) -> int:
    """`IMAGE PATH [FILE]`; of several words after IMAGE the last one says where to."""
    program, paths = find_program(), words.path[:1] if len(words.path) == 1 else words.path[:-1]
    wanted = words.path[-1] if len(words.path) > 1 else None
    if wanted and is_disc_path(wanted) and not os.path.isdir(wanted):
        raise Trouble("%s: %s" % (shown(wanted), NO_FOLDER), WRONG_WORDS)
    if len(paths) > 1 or is_wild(paths[0]):
        return get_several(program, words, paths, wanted)
    path = path_of(paths[0])
    if not path:
        raise Trouble("$ is a directory: use extract")
    words.path = paths[0]
    try:
        image, entry = find_entry(program, words.image, words.order, path)
    except Refused as refused:
        raise refusal(refused, words) from None
    if entry.is_directory:
        raise Trouble("%s: %s: a directory: use extract" % (shown(words.image), shown(words.path)))
    with image.run(program, command("load", entry.path)) as run:
        pieces = run.load(entry.length)
        if wanted == "-":
            sys.stdout.buffer.writelines(pieces)
            return 0
        return save(entry, Progress("bytes written", entry.length).passed(pieces), wanted)


def is_disc_path(text: str) -> bool:
    """Whether a word begins as a path of a disc does: then it isn't meant as a file of the host."""
    return text == "$" or text.startswith("$.")


def get_several(program: str, words: Namespace, paths: List[str], wanted: Optional[str]) -> int:
    """The files that the paths mean, into a folder. Directories are passed over, and named."""
    if wanted is not None and wanted != "-" and not os.path.isdir(wanted):
        raise Trouble("%s: %s" % (shown(wanted), NO_FOLDER))
    image, _, found = chosen_objects(program, words.image, words.order, paths)
    chosen = [entry for entry in found if not entry.is_directory]
    for entry in found:
        if entry.is_directory:
            tell("%s: %s: a directory: passed over; use extract" % (shown(words.image), names.spelled_path(entry.path)))
    status = 0
    for script, batch in batches("load", chosen):
        with image.run(program, script) as run:
            for entry in batch:
                pieces = run.load(entry.length)
                if wanted == "-":
                    sys.stdout.buffer.writelines(pieces)
                    continue
                try:
                    status = max(status, save(entry, pieces, wanted))
                except Trouble as trouble:
                    tell(str(trouble))
                    status = FAILED
                    for _ in pieces:
                        pass
    return max(status, FAILED * (len(chosen) < len(found)))


def save(entry: Entry, pieces: Iterator[bytes], wanted: Optional[str]) -> int:
    """Writes the file under the name that is wanted, or, in a folder, under the name that it has on the host."""
    folder, name = (wanted or ".", b"") if wanted is None or os.path.isdir(wanted) else split_path(wanted)
    suffix = names.suffix_of(entry.load, entry.execution)
    chosen, kept = bool(name), [True]

    def mark(number: int) -> None:
        kept[0] = keep(number, *words_of(entry)) or not chosen and is_told(number, *words_of(entry))

    try:
        with Folder.at(folder) as holder:
            name = name or names.fitted_name(entry.name, suffix, holder.name_limit)
            time = names.unix_time(entry.load, entry.execution)
            with NewFile(holder, pieces, time, mark) as temporary:
                holder.publish(temporary, name)
    except OSError as error:
        raise Trouble(place_text(folder, name, error)) from None
    if not kept[0]:
        tell(UNKEPT % names.spelled_path(entry.path))
    if not chosen and name != names.host_name(entry.name, suffix):
        tell("%s: has another name here: %s" % (names.spelled_path(entry.path), shown(name)))
        return FAILED
    return 0 if kept[0] else FAILED


# ---- extract


class Outcome(NamedTuple):
    """What came of one image: so many of its files were written, and whether that is all of it."""

    written: int
    wanted: int
    is_complete: bool


def extract(words: Namespace) -> int:
    program, form = find_program(), Form(words.inf, read_types(words.types) if words.types else None)
    if words.each:
        return extract_each(program, words, form)
    if is_archive(words.folder) and not os.path.isdir(words.folder):
        return extract_to_archive(program, words)
    outcome = extract_one(program, words, words.image, words.folder, form)
    say("%d of %s written to %s" % (outcome.written, counted(outcome.wanted, "file"), shown(words.folder)))
    return 0 if outcome.is_complete else FAILED


def wanted_tree(program: str, words: Namespace, image: str) -> Tree:
    texts = words.path or ["$"]
    try:
        return meant_tree(program, image, words.order, texts)
    except Refused as refused:
        raise Trouble("%s: %s: %s" % (shown(image), shown(texts[0]), refusal_explained(refused.name))) from None


def extract_one(program: str, words: Namespace, image: str, folder: str, form: Form) -> Outcome:
    tree = wanted_tree(program, words, image)
    with tree.image.file:
        try:
            made = new_folder(folder)
        except OSError as error:
            raise Trouble("%s: %s" % (shown(folder), reason(error))) from None
        gc.disable()  # what is made of a disc's listing stays to the end, and to look through it again and again takes time
        with made:
            extraction = Extraction(program, tree, made, form)
            extraction.run()
    if extraction.lost:
        tell("%s: %s" % (shown(image), UNKEPT % counted(extraction.lost, "object")))
    return Outcome(extraction.written, len(extraction.wanted), extraction.is_complete())


def extract_to_archive(program: str, words: Namespace) -> int:
    refuse_if_taken(words.folder)
    from .archives import write_archive  # here, since zipfile takes long to load
    tree = wanted_tree(program, words, words.image)
    with tree.image.file, nameless_file(sum(entry.length for entry in tree.files())) as file:
        count = write_archive(program, tree, file)
        write_new(words.folder, pieces_from(file, 0))
    say("%s written to %s" % (counted(count, "file"), shown(words.folder)))
    return FAILED if tree.too_deep else 0


def extract_each(program: str, words: Namespace, form: Form) -> int:
    """Each image below a folder into a folder of its own, which has the image's name. What is no disc is passed over."""
    if words.path:
        raise Trouble("extract --each takes no PATH", WRONG_WORDS)
    files, done, discs, failed = Files([words.image]), 0, 0, False

    def job(file: Found) -> Optional[Outcome]:
        inner = os.path.basename(file.path) if file.is_named else os.path.relpath(file.path, words.image)
        place = os.path.join(words.folder, inner)
        try:
            os.makedirs(os.path.dirname(place) or ".", exist_ok=True)
            return extract_one(program, words, file.path, place, form)
        except OSError as error:
            raise Trouble("%s: %s" % (shown(place), reason(error))) from None
        except BadImage as bad:
            fault = fault_of(program, file.path, bad)
            if is_no_disc(file.path, fault):
                return None
            from .rescue.job import advice  # loaded for a damaged disc alone
            raise Trouble("%s: not accepted: %s%s" % (shown(file.path), fault, advice(file.path, words.order))) from None

    count = 0
    for file, outcome in over_files(files, lambda file: (job(file),), "images"):
        count += 1
        failed |= outcome is None
        if outcome and outcome[0]:
            written = outcome[0]
            discs, done, failed = discs + 1, done + written.written, failed or not written.is_complete
            say("%s: %d of %s" % (shown(file.path), written.written, counted(written.wanted, "file")))
    say("%s of %s written to %s" % (counted(done, "file"), counted(discs, "disc"), shown(words.folder)))
    return status_of(files, failed)
