# SPDX-License-Identifier: MIT
"""A list of all objects of all images in folders, with the digests of the files: CSV or JSON."""
from __future__ import annotations

import csv
import json
import sys
from argparse import Namespace
from typing import Dict, List, Optional, Tuple

from .collection import Files, Found, NotAccepted, over_files, status_of, tell_refused
from .description import describe
from .images import open_image
from .listing import Row, disc_row, object_row
from .messages import Progress, say, shown, tell
from .program import BadImage, Entry, Run, command, find_program
from .tree import MAX_DEPTH, Tree, read_below
from .unread import digests
from .verdicts import fault_of, is_no_disc

COLUMNS = ("image", "disc_name", "format", "path", "type", "date", "length", "access", "sha256")


def catalogue(words: Namespace) -> int:
    program, files, failed = find_program(), Files(words.folder), False
    writer = csv.DictWriter(sys.stdout, COLUMNS, extrasaction="ignore", lineterminator="\n")
    kept: List[Row] = []
    if not words.json:
        writer.writeheader()
    for _, rows in over_files(files, lambda file: rows_of(program, file, words.order), "images"):
        failed |= rows is None
        if words.json:
            kept += rows or []
        else:
            writer.writerows(rows or [])
    if words.json:
        json.dump(kept, sys.stdout, indent=1)
        say("")
    tell_refused(files)
    return status_of(files, failed)


def rows_of(program: str, file: Found, order: str) -> List[Row]:
    """A row for each object; none for a file that is no disc."""
    tree = disc_in(program, file, order)
    if tree is None:
        return []
    with tree.image.file:
        disc = disc_row(describe(tree.image.file))
        sums = digests(program, tree.image, tree.files())
        return [{"image": shown(file.path), **disc, **object_row(entry), "sha256": sums.get(entry.path, "")}
                for entry in tree.walk()]


def disc_in(program: str, file: Found, order: str) -> Optional[Tree]:
    """All of a disc; None for a file in a folder that is none. A disc that isn't accepted is NotAccepted."""
    def read(run: Run) -> Tuple[Dict[str, int], List[Entry]]:
        return run.check(), run.cat(())

    try:
        image, (counts, entries) = open_image(program, file.path, order, b"check\n" + command("cat", ()), read)
    except BadImage as bad:
        fault = fault_of(program, file.path, bad)
        if not file.is_named and is_no_disc(file.path, fault):
            return None
        raise NotAccepted("%s: not accepted: %s" % (shown(file.path), fault)) from None
    tree = Tree(image, ())
    tree.entries[()] = entries
    read_below(program, tree, Progress("directories read", counts["dirs"]))
    if tree.too_deep:
        tell("%s: directories more than %d deep are left out" % (shown(file.path), MAX_DEPTH))
    return tree
