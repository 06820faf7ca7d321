# SPDX-License-Identifier: MIT
"""The image as it was before a change: IMAGE~ is it before the first change, and stays until the keeper removes it.

With `--backup each` every change keeps the image as it was before: IMAGE~1~, IMAGE~2~ and so on. `undo` gives an image the state
of IMAGE~ again; what it was before `undo` is IMAGE~undone then. (If the two changed places, the next change would keep no first
state.)
"""
from __future__ import annotations

import os
import re
import stat
from argparse import Namespace
from contextlib import ExitStack, suppress
from typing import BinaryIO, Callable

from .images import pieces_from
from .leftovers import remove_leftovers
from .locks import locked_file, unbroken
from .messages import Trouble, reason, shown
from .output import NO_LINKS, TAKEN, Folder, NewFile, TemporaryName, split_path

FIRST, EACH = "first", "each"
UNDONE = b"undone"
BACKUP_ENDING = re.compile(r"~(?:undone|[0-9]+~)?\Z")
NOTHING_CHANGED = "%s: %s: nothing was changed"


def backed_up(name: str) -> str:
    """The name of the image of which a file of that name would be a backup; else nothing."""
    found = BACKUP_ENDING.search(name)
    return name[:found.start()] if found else ""


class Backup:
    """The second name of an image while it is changed. `name` is the image's name for people."""

    def __init__(self, name: str, file_name: bytes, kind: str):
        self.name, self.file_name, self.kind = name, file_name, kind
        self.target = file_name + b"~"
        self.is_wanted = True
        self.temporary = b""

    def refuse_if_unfit(self, folder: str, before: os.stat_result) -> None:
        """What has the name IMAGE~ and can't be an earlier state of the image would stay as its backup, so nothing is changed."""
        if self.kind == EACH:
            return
        try:
            found = os.stat(os.path.join(os.fsencode(folder), self.target), follow_symlinks=False)
        except FileNotFoundError:
            return
        if stat.S_ISDIR(found.st_mode):
            raise self.trouble("Is a directory")
        if not stat.S_ISREG(found.st_mode) or found.st_size != before.st_size:
            raise self.trouble("it has another length than the image, so it is no earlier state of it: give it another name, or "
                               "say --backup each")
        self.is_wanted = False

    def trouble(self, text: str) -> Trouble:
        return Trouble(NOTHING_CHANGED % (shown(self.name) + "~", text))

    def prepare(self, stack: ExitStack, holder: Folder, original: BinaryIO, before: os.stat_result,
                make_alike: Callable[[int], None]) -> None:
        """Gives the image as it was a temporary name; or a copy of it, if a file can't have two names here."""
        if not self.is_wanted:
            return
        try:
            self.temporary = stack.enter_context(TemporaryName(holder))
            os.link(self.file_name, self.temporary, src_dir_fd=holder.number, dst_dir_fd=holder.number, follow_symlinks=False)
        except OSError as error:
            if error.errno not in NO_LINKS:
                raise self.trouble(reason(error)) from None
            self.temporary = self.copied(stack, holder, original, before, make_alike)

    def copied(self, stack: ExitStack, holder: Folder, original: BinaryIO, before: os.stat_result,
               make_alike: Callable[[int], None]) -> bytes:
        try:
            return stack.enter_context(NewFile(holder, pieces_from(original, 0), before.st_mtime_ns, make_alike, sparse=True))
        except OSError as error:
            raise self.trouble(reason(error)) from None

    def publish(self, holder: Folder) -> None:
        """The image as it was gets its second name for good."""
        if not self.is_wanted:
            return
        number = 0
        while True:
            if self.kind == EACH:
                number += 1
                self.target = b"%s~%d~" % (self.file_name, number)
            try:
                holder.publish(self.temporary, self.target)
                return
            except FileExistsError as error:
                if self.kind == FIRST:
                    raise self.trouble(TAKEN) from error
            except OSError as error:
                raise self.trouble(reason(error)) from None

    def remark(self) -> str:
        """For a message: which file is the same as the image now."""
        return ", and %s is the same now" % shown(self.target) if self.is_wanted else ""


def undo(words: Namespace) -> int:
    """Gives an image its state before the first change again, or, with `--back`, the one before `undo`."""
    path = os.path.realpath(words.image)
    folder, name = split_path(path)
    first, undone = name + b"~", name + b"~" + UNDONE
    source, kept = (undone, first) if words.back else (first, undone)
    with locked_file(path, words.image) as file, Folder.at(folder) as holder:
        remove_leftovers(holder.number)
        if not is_file(holder, source):
            raise Trouble("%s: there is no %s, so there is nothing to %s" % (
                shown(words.image), shown(source), "bring back" if words.back else "undo"))
        if words.back and holder.has(kept):
            raise Trouble("%s: it was changed since undo: its state before that is %s" % (shown(words.image), shown(kept)))
        try:
            exchange(holder, file, name, source, kept)
        except OSError as error:
            raise Trouble(NOTHING_CHANGED % (shown(words.image), reason(error))) from None
    return 0


def is_file(holder: Folder, name: bytes) -> bool:
    with suppress(FileNotFoundError):
        return stat.S_ISREG(os.stat(name, dir_fd=holder.number, follow_symlinks=False).st_mode)
    return False


def exchange(holder: Folder, file: BinaryIO, name: bytes, source: bytes, kept: bytes) -> None:
    """The image is called `kept` then, and `source` has its name. At each moment a whole image has its name."""
    both = {"src_dir_fd": holder.number, "dst_dir_fd": holder.number}
    with ExitStack() as stack:
        second = stack.enter_context(TemporaryName(holder))
        try:
            os.link(name, second, follow_symlinks=False, **both)
        except OSError as error:
            if error.errno not in NO_LINKS:
                raise
            time = os.fstat(file.fileno()).st_mtime_ns
            second = stack.enter_context(NewFile(holder, pieces_from(file, 0), time, os.fsync, sparse=True))
        stack.enter_context(unbroken())
        os.replace(second, kept, **both)
        os.replace(source, name, **both)
        with suppress(OSError):
            os.fsync(holder.number)
