# SPDX-License-Identifier: MIT
"""What fcdisc says to people: messages on standard error, a line of progress, and text that can't upset a terminal."""
from __future__ import annotations

import os
import sys
import threading
import time
from contextlib import contextmanager
from typing import Iterable, Iterator, List, Optional, Union

FAILED = 1
WRONG_WORDS = 2
FIRST_PROGRESS = 1.0  # seconds; a shorter job says nothing
BETWEEN_PROGRESS = 0.2


class Trouble(Exception):
    """Why a job can't go on: its text for people, and the status with which the program ends."""

    def __init__(self, text: str, status: int = FAILED):
        super().__init__(text)
        self.status = status


def shown(name: Union[str, bytes]) -> str:
    """A name of the host as it may be printed: what doesn't print is written as `\\xNN` or `\\uNNNN`."""
    text = os.fsencode(name).decode("utf-8", "surrogateescape")
    return "".join(one if one.isprintable() else escaped(one) for one in text)


def escaped(character: str) -> str:
    code = ord(character)
    if 0xDC80 <= code <= 0xDCFF:  # a byte that is no UTF-8
        code -= 0xDC00
    return "\\x%02x" % code if code < 256 else "\\u%04x" % code


def reason(error: OSError) -> str:
    """What the system says, without the name: that stands before it."""
    return error.strerror or str(error)


def counted(number: int, what: str) -> str:
    """`1 file`, `2 files`, `2 directories`."""
    if number == 1:
        return "1 " + what
    return "%d %s" % (number, what[:-1] + "ies" if what.endswith("y") else what + "s")


class Progress:
    """A line on standard error that is written anew, where this is a terminal and the job takes its time."""

    line_is_there = False

    def __init__(self, what: str, total: int):
        self.what, self.total, self.done = what, total, 0
        is_shown = sys.stderr.isatty() and collected.lines is None
        self.next = time.monotonic() + FIRST_PROGRESS if is_shown else float("inf")

    def step(self, count: int = 1) -> None:
        self.done += count
        if self.next == float("inf"):
            return
        now = time.monotonic()
        if now >= self.next:
            self.next = now + BETWEEN_PROGRESS
            Progress.line_is_there = True
            print("\r%s: %d of %d" % (self.what, self.done, self.total), end="", file=sys.stderr, flush=True)

    def passed(self, pieces: Iterable[bytes]) -> Iterator[bytes]:
        """The pieces, as they come by; the line counts bytes."""
        for piece in pieces:
            self.step(len(piece))
            yield piece


def clear_progress() -> None:
    if Progress.line_is_there:
        Progress.line_is_there = False
        print("\r\033[K", end="", file=sys.stderr, flush=True)


def say(text: str) -> None:
    """A line of what was asked for, on standard output."""
    clear_progress()
    print(text)


class Collected(threading.local):
    """The messages of one of several jobs that run at once: they are told together, when the job has ended."""

    lines: Optional[List[str]] = None


collected = Collected()


@contextmanager
def collecting() -> Iterator[List[str]]:
    """What is told meanwhile, in this thread, is put into the list."""
    lines: List[str] = []
    collected.lines = lines
    try:
        yield lines
    finally:
        collected.lines = None


def tell(text: str) -> None:
    """A message on standard error."""
    if collected.lines is not None:
        collected.lines.append(text)
        return
    clear_progress()
    print("fcdisc: " + text, file=sys.stderr, flush=True)
