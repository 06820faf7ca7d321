# SPDX-License-Identifier: MIT
"""A disc of another format with the tree of a disc: the program fconvert makes it, and it is kept only if it is whole."""
from __future__ import annotations

import os
import subprocess
from argparse import Namespace
from typing import BinaryIO, Dict, Iterator, List, Tuple

from .complaints import Complaints
from .description import describe
from .editing import NOT_COPIED, Failure, Step, name_fault, set_line, step_scripts, tell_failures
from .faults import refusal_explained
from .fitting import Fitting, Limits
from .fresh import made_disc
from .hostitems import FIT_HELP
from .images import copy, nameless_file, pieces_from, size_of
from .jobs import refusal, write_new
from .messages import FAILED, Trouble, counted, reason, say, shown
from .names import path_bytes, spelled_path
from .output import refuse_if_taken
from .program import OPEN_FILES, BadImage, Entry, Path, Refused, Run, find_program
from .tree import Tree, read_tree

PLACES, L_PLACES = 77, 47  # entries of a small directory
LOCKED = 4
NOT_MADE = "it isn't made"
# Why fconvert ended, by its status. 0, 1, 3 and 8 come with a line of their own.
ENDS = {
    2: "fconvert doesn't know these words: is it of another version?", 4: "I/O error while fconvert read the disc",
    5: "I/O error while fconvert made the disc in FOLDER (is the host full?)", 6: "fconvert couldn't write its line",
    7: "fconvert ran out of memory", 9: "fconvert can't open the disc", 10: "another program made a file in FOLDER meanwhile",
    11: "what fconvert made in FOLDER doesn't read as it was written",
}


def convert(words: Namespace) -> int:
    program, converter = find_program(), find_program("fconvert")
    refuse_if_taken(words.out)
    words.path = "$"
    try:
        tree = read_tree(program, words.image, words.order, (), "not looked through")
    except Refused as refused:
        raise refusal(refused, words) from None
    disc = tree.image.file
    limits = Limits.of_format(words.format)
    places = fitted_places(tree, common_limits(limits, Limits.of_disc(describe(disc)))) if words.fit else {}
    refuse_misfits(words, tree, limits, places)
    if any(path != place for path, place in places.items()):
        disc = renamed_copy(program, words, tree, places)
    count = 0

    def make(place: str) -> None:
        nonlocal count
        count = run_converter(converter, words, disc.fileno(), place)

    with made_disc(words.out, make) as file:
        write_new(words.out, pieces_from(file, 0))
    say("%d of %s copied to %s" % (count, counted(count, "file"), shown(words.out)))
    return 0


def run_converter(converter: str, words: Namespace, number: int, place: str) -> int:
    """Makes that file of the disc that is open under that number. Answers how many files were copied."""
    try:
        ran = subprocess.run([converter, words.format, "%s/%d" % (OPEN_FILES, number), place], stdin=subprocess.DEVNULL,
                             stdout=subprocess.PIPE, pass_fds=[number], check=False)
    except OSError as error:
        raise Trouble("%s can't be run: %s" % (shown(converter), reason(error))) from None
    told = ran.stdout.decode("ascii", "replace").split()
    if ran.returncode == 0 and len(told) == 5:
        return int(told[2])
    raise end(words, ran.returncode, told, os.path.dirname(place))


def end(words: Namespace, status: int, told: List[str], folder: str) -> Exception:
    """Why there is no new disc."""
    if status == 3 and len(told) > 1:
        return BadImage(" ".join(told[1:]))
    if status == 1 and len(told) == 3:
        text = "%s: %s: its %s doesn't fit" % (told[2], NOT_COPIED, told[1].lower())
    elif status == 8 and len(told) == 4:
        text = "%s: %s: %s" % (told[3], NOT_COPIED, refusal_explained(told[2]))
    elif status < 0:
        text = "fconvert was ended by signal %d" % -status
    else:
        text = ENDS.get(status, "fconvert ended with status %d" % status).replace("FOLDER", shown(folder))
    return Trouble("%s: %s; %s" % (shown(words.out), text, NOT_MADE))


# ---- what doesn't fit


def refuse_misfits(words: Namespace, tree: Tree, limits: Limits, places: Dict[Path, Path]) -> None:
    """Names all that doesn't fit, before anything is made."""
    complain = Complaints(words.verbose)
    for path, text in misfits(tree, words.format, limits, places):
        complain("%s: %s" % (shown(words.out), spelled_path(path)), "%s: %s" % (NOT_COPIED, text))
    complain.sum_up()
    if complain.count:
        raise Trouble("%s: %s; %s" % (shown(words.out), "1 object doesn't fit" if complain.count == 1 else "%d objects don't fit" % complain.count,
                                      NOT_MADE))


def misfits(tree: Tree, form: str, limits: Limits, places: Dict[Path, Path]) -> Iterator[Tuple[Path, str]]:
    fitting, places_in, most = Fitting(limits), L_PLACES if form == "L" else PLACES, 1024 if form == "L" else 256
    for entry in tree.walk():
        if not fitting.takes(places.get(entry.path, entry.path)[-1]):
            yield entry.path, name_fault(entry.name) + FIT_HELP
        elif not form.endswith("+") and entry.attributes >= most:
            yield entry.path, "what may be done with it (%x) has more bits than there are on such a disc" % entry.attributes
    for path, entries in tree.entries.items():
        if not form.endswith("+") and len(entries) > places_in:
            yield path, "it has %d entries, and a directory of such a disc takes no more than %d" % (len(entries), places_in)


# ---- other names


def common_limits(one: Limits, other: Limits) -> Limits:
    """What both discs take: names are changed on a copy of the disc, which then is converted."""
    return Limits(min(one.longest, other.longest), one.is_ascii or other.is_ascii)


def fitted_places(tree: Tree, limits: Limits) -> Dict[Path, Path]:
    """Each object's path by names that fit. Those that are others are said."""
    places: Dict[Path, Path] = {(): ()}
    fittings: Dict[Path, Fitting] = {}
    for entry in tree.walk():
        outer = entry.path[:-1]
        if outer not in fittings:
            fittings[outer] = Fitting(limits)
            for other in tree.entries[outer]:
                fittings[outer].reserve(other.name, other.name)
        name = fittings[outer].name(entry.name.decode("latin-1"), entry.name)
        places[entry.path] = (*places[outer], name)
        if name != entry.name:
            say("%s -> %s" % (spelled_path(entry.path), spelled_path(places[entry.path])))
    return places


def renamed_copy(program: str, words: Namespace, tree: Tree, places: Dict[Path, Path]) -> BinaryIO:
    """A copy of the disc, in which the objects have these paths."""
    try:
        file = nameless_file(size_of(tree.image.file))
        copy(tree.image.file, 0, file)
    except OSError as error:
        from tempfile import gettempdir
        raise Trouble("%s: while a copy of it was made in %s: %s" % (shown(words.image), shown(gettempdir()), reason(error))) from None
    failures: List[Failure] = []
    for script, batch in step_scripts(step for entry in tree.walk() for step in renaming(entry, places[entry.path])):
        with Run(program, words.image, ["--", "%s/%d" % (OPEN_FILES, file.fileno())], script, [file.fileno()]) as run:
            for step in batch:
                try:
                    run.done()
                except Refused as refused:
                    failures.append(Failure(step, refused.name))
    if failures:
        tell_failures(words.image, failures, words.verbose)
        raise Trouble("%s: %s" % (shown(words.out), NOT_MADE), FAILED)
    return file


def renaming(entry: Entry, place: Path) -> Iterator[Step]:
    """Gives an object of a directory that has its new path already another name. One that is locked is unlocked meanwhile."""
    if place[-1] == entry.name:
        return
    old, failure = (*place[:-1], entry.name), "not renamed"
    if entry.attributes & LOCKED:
        yield Step(set_line(old, entry.load, entry.execution, entry.attributes & ~LOCKED), entry.path, failure)
    yield Step(b"rename %s %s\n" % (path_bytes(old), path_bytes(place)), entry.path, failure)
    if entry.attributes & LOCKED:
        yield Step(set_line(place, entry.load, entry.execution, entry.attributes), entry.path, failure)
