# SPDX-License-Identifier: MIT
"""Words that several jobs have."""
from __future__ import annotations

import argparse
import re
from importlib import import_module
from typing import TYPE_CHECKING, Callable, Sequence

from . import names
from .images import ORDERS

if TYPE_CHECKING:
    Jobs = argparse._SubParsersAction[argparse.ArgumentParser]  # what jobs are added to

Job = Callable[[argparse.Namespace], int]
BACKUPS = ("first", "each")  # what is kept of an image that is changed; the first is the default
FORMATS = ("E", "F", "D", "L", "E+", "F+")
EPILOG = "Status: 0 all went well, 1 something failed or was refused, 2 wrong arguments. See fcdisc(1)."
WILD_HELP = "a path, as $.Docs.Letter; * stands for any letters of a name and # for one"
PATH_HELP = "a path, as $.Docs.Letter; a byte that the list shows as %%XX is written so"


def later(part: str, name: str) -> Job:
    """A job whose part of fcdisc is loaded when it is asked for: to load all parts takes longer than most jobs."""
    def run(words: argparse.Namespace) -> int:
        status: int = getattr(import_module("." + part, __package__), name)(words)
        return status
    return run


def add_job(added: Jobs, name: str, run: Job, text: str, aliases: Sequence[str] = ()) -> argparse.ArgumentParser:
    """A subcommand. The first sentence of its text stands in the list of them."""
    first = text.split(". ")[0].rstrip(".")
    job = added.add_parser(name, help=first[0].lower() + first[1:], description=text, epilog=EPILOG, allow_abbrev=False, aliases=aliases)
    job.set_defaults(run=run)
    return job


def add_types(job: argparse.ArgumentParser) -> None:
    job.add_argument("--types", metavar="TABLE", help="file types by the endings in that file, or, with `default`, in the table "
                     "that `fcdisc types` prints")


def offset(text: str) -> str:
    """The byte at which a disc begins, in digits."""
    value = int(text, 0)
    if value < 0:
        raise ValueError(text)
    return str(value)


def add_order(job: argparse.ArgumentParser) -> None:
    job.add_argument("--offset", metavar="N", type=offset, dest="order", default=argparse.SUPPRESS,
                     help="the byte of the image at which the disc begins: it is read from a copy")
    job.add_argument("--order", choices=ORDERS, default="auto", help="the order of the bytes in an L disc's image: `disc`, or "
                     "`adl` for interleaved sides; else fcdisc finds it out, and says so if the image isn't in disc order")


# ---- what words may be


def file_type(text: str) -> int:
    """Three hexadecimal digits, with `&` before them or without."""
    if not re.fullmatch("&?[0-9A-Fa-f]{3}", text):
        raise argparse.ArgumentTypeError("a file type is three hexadecimal digits, not %r" % text)
    return int(text[-3:], 16)


def access_bits(text: str) -> int:
    """The attributes of `LWR`, in any order and case; `/` with nothing after it may follow, and `-` or `/` alone is none."""
    letters = text.upper().rstrip("/") if text != "-" else ""
    if not set(letters) <= set("LWR") or len(set(letters)) != len(letters) or not text:
        raise argparse.ArgumentTypeError("ACCESS has letters of LWR, or is -, and is not %r" % text)
    return sum({"R": 1, "W": 2, "L": 4}[letter] for letter in letters)


def looked_for(text: str) -> bytes:
    """The bytes of a text as a disc has them, in Latin 1."""
    try:
        return names.latin_bytes(names.host_text(text))
    except ValueError as error:
        raise argparse.ArgumentTypeError(str(error)) from None


def digest(text: str) -> str:
    if not re.fullmatch("[0-9A-Fa-f]{1,64}", text):
        raise argparse.ArgumentTypeError("a digest is up to 64 hexadecimal digits, not %r" % text)
    return text
