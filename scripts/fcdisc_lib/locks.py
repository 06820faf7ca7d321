# SPDX-License-Identifier: MIT
"""Images that no other fcdisc changes meanwhile, and moments that no signal breaks."""
from __future__ import annotations

import fcntl
import os
import signal
from contextlib import contextmanager, suppress
from typing import BinaryIO, Iterator

from .images import open_file
from .leftovers import held
from .messages import Trouble, shown

SIGNALS = (signal.SIGINT, signal.SIGTERM, signal.SIGHUP)


def is_same(before: os.stat_result, now: os.stat_result) -> bool:
    """Whether nobody replaced or wrote the file meanwhile."""
    return ((before.st_dev, before.st_ino, before.st_size, before.st_mtime_ns)
            == (now.st_dev, now.st_ino, now.st_size, now.st_mtime_ns))


@contextmanager
def locked_file(path: str, name: str) -> Iterator[BinaryIO]:
    """The open file, which no other fcdisc changes meanwhile."""
    while True:
        with open_file(path, name) as file:
            found = os.fstat(file.fileno())
            inode = found.st_dev, found.st_ino
            try:
                fcntl.flock(file, fcntl.LOCK_EX | fcntl.LOCK_NB)
                held.add(inode)
            except BlockingIOError:
                raise Trouble("%s: another fcdisc is changing it: try again when that has ended" % shown(name)) from None
            except OSError:
                pass  # a host without locks
            try:
                if names(path, found):
                    yield file
                    return
            finally:
                held.discard(inode)


def names(path: str, found: os.stat_result) -> bool:
    """Whether the path still leads to that file."""
    with suppress(FileNotFoundError):
        return os.path.samestat(found, os.stat(path))
    return False


@contextmanager
def unbroken() -> Iterator[None]:
    """Signals wait while an image is changed in place or takes its name, for fcdisc and for the fcore that it starts."""
    before = signal.pthread_sigmask(signal.SIG_BLOCK, SIGNALS)
    try:
        yield
    finally:
        signal.pthread_sigmask(signal.SIG_SETMASK, before)
