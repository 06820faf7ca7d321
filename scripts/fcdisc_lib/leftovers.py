# SPDX-License-Identifier: MIT
"""Temporary names of files, and those that a killed job left: the next job in their folder removes them.

A file that a job is writing is locked, so a leftover is one that nobody has locked. On a host without locks nothing is removed.
"""
from __future__ import annotations

import fcntl
import itertools
import os
import stat
from contextlib import suppress
from typing import Set, Tuple

BEGINNING, ENDING = b".fcdisc-", b".tmp"
# Nobody else can know the names of this run's temporary files
OWN_WORD = os.urandom(8).hex().encode("ascii")
NUMBERS = itertools.count(1)
unfinished: Set[Tuple[int, bytes]] = set()  # the files that have a temporary name: a folder's descriptor, and the name
held: Set[Tuple[int, int]] = set()  # images that this run has locked: a leftover can be another name of one
looked_through: Set[Tuple[int, int]] = set()  # the folders in which leftovers were looked for


def fresh_name() -> bytes:
    return b"%s%s-%d%s" % (BEGINNING, OWN_WORD, next(NUMBERS), ENDING)


def is_temporary(name: bytes) -> bool:
    return name.startswith(BEGINNING) and name.endswith(ENDING)


def remove_unfinished() -> None:
    """For a signal, which can come at any moment, also when a file is about to be removed."""
    for number, name in list(unfinished):
        with suppress(OSError):
            os.unlink(name, dir_fd=number)


def remove_leftovers(folder: int) -> None:
    """Removes what killed jobs left in the open folder. A job looks through each folder once."""
    found = os.fstat(folder)
    if (found.st_dev, found.st_ino) in looked_through:
        return
    looked_through.add((found.st_dev, found.st_ino))
    with suppress(OSError):
        for name in map(os.fsencode, os.listdir(folder)):
            if is_temporary(name) and OWN_WORD not in name:
                remove_unlocked(folder, name)


def remove_unlocked(folder: int, name: bytes) -> None:
    with suppress(OSError):
        number = os.open(name, os.O_RDONLY | os.O_NOFOLLOW | os.O_NONBLOCK, dir_fd=folder)
        try:
            found = os.fstat(number)
            if stat.S_ISREG(found.st_mode):
                if (found.st_dev, found.st_ino) not in held:
                    fcntl.flock(number, fcntl.LOCK_EX | fcntl.LOCK_NB)
                os.unlink(name, dir_fd=folder)
        finally:
            os.close(number)


def is_locked_here(number: int, folder: int, name: bytes) -> bool:
    """Locks the new file; False where another fcdisc took it for a leftover before."""
    try:
        fcntl.flock(number, fcntl.LOCK_EX | fcntl.LOCK_NB)
    except BlockingIOError:
        return False
    except OSError:
        return True  # a host without locks: nobody removes it
    try:
        return os.path.samestat(os.fstat(number), os.stat(name, dir_fd=folder, follow_symlinks=False))
    except FileNotFoundError:
        return False
