# SPDX-License-Identifier: MIT
"""The job `rescue`, and what `check` says of it."""
from __future__ import annotations

import os
from argparse import Namespace
from typing import Optional

from ..collection import Files
from ..images import open_file, open_image, read_at
from ..jobs import not_accepted
from ..messages import FAILED, WRONG_WORDS, Trouble, counted, say, shown, tell
from ..output import Folder
from ..program import BadImage, find_program
from .fresh import put_onto_fresh
from .reading import Options, Reading, packed, read_image
from .report import counts, lines, summary
from .writing import empty_folder, told_as, write_all


def rescue(words: Namespace) -> int:
    options = Options(words.form, words.deleted, words.all)
    if words.each:
        if words.folder is None or words.to or words.report:
            raise Trouble("--each takes a folder of images and a folder to make, and neither --to nor --report", WRONG_WORDS)
        return rescue_each(words, options)
    if (words.folder is None) != bool(words.report or words.to):
        raise Trouble("say the folder for the files, or --report, or --to FORMAT NEW", WRONG_WORDS)
    with open_file(words.image) as file:
        reading = read_image(file, words.image, words.order, options)
        if words.report:
            for line in lines(reading):
                say(line)
            return status_of(reading)
        if words.to:
            return put_onto_fresh(reading, words)
        with empty_folder(words.folder) as folder:
            complete = write_all(reading, words.image, folder, words.folder)
    tell_fault(words)
    say("%s: see %s" % (summary(reading), shown(os.path.join(words.folder, "report.txt"))))
    return status_of(reading) if complete else FAILED


def status_of(reading: Reading) -> int:
    """Whether all that was found is sound, and anything was."""
    return 0 if counts(reading)["sound"] == len(reading.files) and (reading.files or reading.is_whole) else FAILED


def tell_fault(words: Namespace) -> None:
    """What fcore has against the image, if there is an fcore here."""
    try:
        image, _ = open_image(find_program(), words.image, words.order, b"", lambda run: None)
        image.file.close()
    except BadImage as fault:
        tell(not_accepted(words.image, fault).partition(". What to do:")[0])
    except Trouble:
        pass


# ---- a folder of images


def rescue_each(words: Namespace, options: Options) -> int:
    """Each file below a folder into a folder of its own, with a line for each."""
    if not os.path.isdir(words.image):
        raise Trouble("%s: not a folder" % shown(words.image))
    failed = 0
    files = Files([words.image])
    with empty_folder(words.folder) as out:
        for found in list(files):
            try:
                failed += rescue_one(words, options, found.path, out)
            except Trouble as trouble:
                failed += 1
                say(str(trouble))
    return FAILED if failed or files.failed else 0


def rescue_one(words: Namespace, options: Options, path: str, out: Folder) -> bool:
    """One image of several; whether something of it didn't come out."""
    with open_file(path) as file:
        reading = read_image(file, path, words.order, options)
        name = free_name(out, os.path.relpath(path, words.image))
        place = os.path.join(words.folder, os.fsdecode(name))
        with told_as(words.folder, name):
            out.make(name)
        with out.below((name,)) as folder:
            complete = write_all(reading, path, folder, place)
    say("%s: %s: see %s" % (shown(path), summary(reading), shown(os.path.join(place, "report.txt"))))
    return bool(status_of(reading)) or not complete


def free_name(out: Folder, path: str) -> bytes:
    """The name of an image's folder: its path with `_` for `/`, and a number if another has it."""
    wanted = os.fsencode(path).replace(b"/", b"_")[:out.name_limit - 8]
    taken = set(os.listdir(out.number))
    name, count = wanted, 1
    while os.fsdecode(name) in taken:
        count += 1
        name = wanted + b"~%d" % count
    return name


# ---- what check says


def advice(path: str, order: str) -> str:
    """The end of what `check` says of an image that isn't accepted."""
    found: Optional[str]
    try:
        with open_file(path) as file:
            is_other = packed(read_at(file, 0, 16)) is not None
            found = None if is_other else promise(read_image(file, path, order, Options()))
    except Trouble:
        found = None
    return "; " + found if found else ""


def promise(reading: Reading) -> Optional[str]:
    found = counts(reading)
    if not reading.files:
        return None
    out = found["sound"] + found["doubtful"]
    doubtful = ", %d of them doubtful" % found["doubtful"] if found["doubtful"] else ""
    return "fcdisc rescue can take out %d of %s%s" % (out, counted(len(reading.files), "file"), doubtful)
