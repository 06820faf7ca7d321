# SPDX-License-Identifier: MIT
"""The subcommands. Each answers the status with which the program ends."""
from __future__ import annotations

import os
import sys
from argparse import Namespace
from typing import Iterable, Tuple

from .description import Description, describe
from .faults import refusal_explained
from .filetypes import TABLE
from .fresh import fresh_disc
from .images import HEADER, L_SIZE, open_file, open_image, pieces_from, read_at, size_of, to_disc_order, to_interleaved
from .listing import heading, rows, tree_row
from .messages import FAILED, Trouble, say, shown, tell
from .output import NewFile, published
from .program import BadImage, Refused, Run, find_program
from .selection import meant_tree
from .tree import Tree
from .verdicts import fault_of



def refusal(refused: Refused, words: Namespace) -> Trouble:
    return Trouble("%s: %s: %s" % (shown(words.image), shown(words.path), refusal_explained(refused.name)))


def not_accepted(path: str, fault: BadImage) -> str:
    """The fault in words."""
    return "%s: not accepted: %s" % (shown(path), fault_of(find_program(), path, fault))


# ---- list


def list_disc(words: Namespace) -> int:
    program = find_program()
    tree, disc = read_listing(program, words)
    if words.json:
        import json  # here, since few ask for it, and it takes long to load
        json.dump(tree_row(tree, disc), sys.stdout, indent=1)
        say("")
    else:
        for line in rows(tree, heading(disc) if words.path == "$" else ""):
            say(line)
    return FAILED if tree.too_deep else 0


def read_listing(program: str, words: Namespace) -> Tuple[Tree, Description]:
    """The directory of the path, the file, or what a path with wildcards means."""
    try:
        tree = meant_tree(program, words.image, words.order, [words.path])
    except Refused as refused:
        raise refusal(refused, words) from None
    return tree, describe(tree.image.file)


# ---- types


def print_types(_: Namespace) -> int:
    say(TABLE.rstrip())
    return 0


# ---- new, adl, strip


def new(words: Namespace) -> int:
    with fresh_disc(find_program(), words.image, words.format) as file:
        write_new(words.image, pieces_from(file, 0))
    return 0


def adl(words: Namespace) -> int:
    program = find_program()
    with open_file(words.image) as file:
        if size_of(file) != L_SIZE:
            text = "%s: it has %d bytes, and an L disc of two sides has %d"
            raise Trouble(text % (shown(words.image), size_of(file), L_SIZE))
        content = read_at(file, 0, L_SIZE)
    write_new(words.out, [to_interleaved(content) if words.back else to_disc_order(content)])
    return verdict(program, words.image if words.back else words.out)


def strip(words: Namespace) -> int:
    program = find_program()
    with open_file(words.image) as file:
        if size_of(file) <= HEADER:
            raise Trouble("%s: it has no more than %d bytes" % (shown(words.image), HEADER))
        write_new(words.out, pieces_from(file, HEADER))
    return verdict(program, words.out)


def write_new(path: str, pieces: Iterable[bytes]) -> None:
    """A new file of the host; nothing may have its name yet."""
    with published(path, lambda holder: NewFile(holder, pieces, mark=os.fsync, sparse=True)):
        pass


def verdict(program: str, path: str) -> int:
    """The image that is in disc order should be whole: where it isn't, the conversion may have been the wrong one."""
    try:
        open_image(program, path, "disc", b"check\n", Run.check)
    except BadImage as fault:
        tell("the new image is there, but " + not_accepted(path, fault))
        return FAILED
    return 0
