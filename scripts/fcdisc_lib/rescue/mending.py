# SPDX-License-Identifier: MIT
"""The job `mend`: a copy of a damaged image, in which is put right what can be."""
from __future__ import annotations

import hashlib
from argparse import Namespace
from typing import BinaryIO, Iterable, Iterator, List

from ..faults import explained
from ..images import nameless_file, open_file, pieces_from, read_at, size_of
from ..jobs import write_new
from ..messages import FAILED, Trouble, say, shown
from ..names import spelled_path
from ..program import BadImage, Run, command, find_program, scripts
from .reading import Options, Reading, pieces_of, read_image
from .repairs import Repair, repairs
from .walk import Found

PIECE = 1 << 20


def mend(words: Namespace) -> int:
    """What has one right value is put right. With --guess also what may have others, and then the status is 1."""
    program = find_program()
    with open_file(words.image) as file:
        reading = read_image(file, words.image, words.order, Options())
        if reading.how:
            raise Trouble("%s: only an image in disc order and without a header can be mended: use adl or strip first"
                          % shown(words.image))
        every = list(repairs(reading))
        wanted = [repair for repair in every if words.guess or not repair.is_guess]
        guesses = {repair.text: None for repair in every if repair not in wanted}
        if not wanted:
            nothing = "nothing is damaged" if reading.is_whole else "nothing that is damaged can be put right"
            raise Trouble("%s: %s: nothing written%s" % (shown(words.image), nothing, hint(guesses)))
        with nameless_file(size_of(file)) as made:
            for piece in mended(file, wanted):
                made.write(piece)
            judge(program, reading, words, made.fileno(), hint(guesses))
            write_new(words.out, pieces_from(made, 0))
    for repair in wanted:
        say("%s: put right: %s" % (shown(words.out), repair.text))
    return FAILED if any(repair.is_guess for repair in wanted) else 0


def mended(file: BinaryIO, wanted: List[Repair]) -> Iterator[bytes]:
    """The image with its repairs."""
    for at in range(0, size_of(file), PIECE):
        piece = bytearray(read_at(file, at, PIECE))
        for place, data, *_ in wanted:
            start, end = max(place, at), min(place + len(data), at + len(piece))
            if start < end:
                piece[start - at:end - at] = data[start - place:end - place]
        yield bytes(piece)


def hint(guesses: Iterable[str]) -> str:
    """What --guess would put right besides."""
    return "; with --guess it puts right: " + "; ".join(guesses) if guesses else ""


def judge(program: str, reading: Reading, words: Namespace, number: int, more: str) -> None:
    """The copy, an open file, has to be whole, with the same bytes in every file that was sound. Else Trouble, and it isn't kept."""
    sound, place = [found for found in reading.files if found.grade == "sound"], "/dev/fd/%d" % number
    try:
        with Run(program, words.image, ["--read-only", "--", place], b"", [number]):
            pass
        for script, batch in scripts((command("digest", found.path), found) for found in sound):
            with Run(program, words.image, ["--read-only", "--", place], script, [number]) as run:
                for found in batch:
                    compare(reading, found, list(run.lines()), words.image)
    except BadImage as fault:
        text = "%s: with what can be put right the disc still isn't accepted: %s: nothing written%s"
        raise Trouble(text % (shown(words.image), explained(fault.words).meaning, more)) from None


def compare(reading: Reading, found: Found, lines: List[bytes], image: str) -> None:
    digest = hashlib.sha256()
    for piece in pieces_of(reading.source, found):
        digest.update(piece)
    if lines != [digest.hexdigest().encode("ascii")]:
        text = "%s: %s would have other bytes than it has now: nothing written"
        raise Trouble(text % (shown(image), spelled_path(found.path)))
