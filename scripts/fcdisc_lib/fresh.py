# SPDX-License-Identifier: MIT
"""A disc that a program makes as a file, before it gets its name on the host."""
from __future__ import annotations

import fcntl
import os
import stat
from contextlib import contextmanager, suppress
from typing import BinaryIO, Callable, Iterator, Tuple

from .images import copy, nameless_file, size_of
from .leftovers import is_locked_here
from .locks import unbroken
from .messages import Trouble, reason, shown
from .output import Folder
from .program import Run

BEGINNING, NEW = "fcdisc-", "new"
IN_MEMORY = "/dev/shm"


@contextmanager
def fresh_disc(program: str, name: str, form: str) -> Iterator[BinaryIO]:
    """The image of an empty disc, as an open file without a name. `name` is the image's name for people."""
    def make(place: str) -> None:
        with Run(program, name, ["--new", form, "--", place], b"", []):
            pass

    with made_disc(name, make) as file:
        yield file


@contextmanager
def made_disc(name: str, make: Callable[[str], None]) -> Iterator[BinaryIO]:
    """What a program makes under a name that it is given: the programs make no image that is there already."""
    place = folder_for_discs()
    try:
        with own_folder(place) as folder:
            path = os.path.join(folder, NEW)
            make(path)
            with open(path, "rb") as made:
                file = nameless_file(size_of(made))
                copy(made, 0, file)
    except OSError as error:
        raise Trouble("%s: it can't be made in %s: %s" % (shown(name), shown(place), reason(error))) from None
    with file:
        yield file


def folder_for_discs() -> str:
    """A folder in memory, if there is one and no other is named: fconvert syncs what it makes after each step."""
    from tempfile import gettempdir  # here, since it takes long to load, and other jobs are beside those that need it
    is_told = any(os.environ.get(name) for name in ("TMPDIR", "TEMP", "TMP"))
    return gettempdir() if is_told or not os.access(IN_MEMORY, os.W_OK | os.X_OK) else IN_MEMORY


@contextmanager
def own_folder(place: str) -> Iterator[str]:
    """A new folder there for one file. It is locked, so that the next job knows it from those that killed jobs left, and clears these."""
    made = None
    with Folder.at(place) as holder:
        for name in os.listdir(place):
            if name.startswith(BEGINNING):
                clear_unlocked(holder, name)
        try:
            with unbroken():
                made = locked_folder(place, holder)
            yield made[0]
        finally:
            with unbroken():
                if made:
                    clear(*made)


def locked_folder(place: str, holder: Folder) -> Tuple[str, int]:
    """Makes it again if another fcdisc cleared it away before it was locked."""
    from tempfile import mkdtemp
    while True:
        path = mkdtemp(prefix=BEGINNING, dir=place)
        with suppress(FileNotFoundError):
            number = os.open(path, os.O_RDONLY | os.O_DIRECTORY)
            if is_locked_here(number, holder.number, os.fsencode(os.path.basename(path))):
                return path, number
            os.close(number)


def clear_unlocked(holder: Folder, name: str) -> None:
    """Clears the folder away if it is ours and nobody has it locked. A host without locks keeps it."""
    with suppress(OSError):
        found = os.stat(name, dir_fd=holder.number, follow_symlinks=False)
        if not stat.S_ISDIR(found.st_mode) or found.st_uid != os.geteuid():
            return
        number = os.open(name, os.O_RDONLY | os.O_DIRECTORY | os.O_NOFOLLOW, dir_fd=holder.number)
        try:
            fcntl.flock(number, fcntl.LOCK_EX | fcntl.LOCK_NB)
            with suppress(FileNotFoundError):
                os.unlink(NEW, dir_fd=number)
            os.rmdir(name, dir_fd=holder.number)
        finally:
            os.close(number)


def clear(path: str, number: int) -> None:
    with suppress(FileNotFoundError):
        os.unlink(NEW, dir_fd=number)
    with suppress(OSError):
        os.rmdir(path)
    os.close(number)
