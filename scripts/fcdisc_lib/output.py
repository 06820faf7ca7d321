# SPDX-License-Identifier: MIT
"""New files on the host: written under a name of their own, and given the right one only when they are whole.

A name is looked up in a folder that is open, and no symbolic link is followed below it, so nothing that a disc's names say leads
outside. Nothing that is there is replaced.
"""
from __future__ import annotations

import errno
import os
import stat
from contextlib import ExitStack, contextmanager, suppress
from typing import Callable, Iterable, Iterator, Optional, Sequence, Tuple, TypeVar

from .images import PIECE, ZEROS
from .leftovers import fresh_name, is_locked_here, remove_leftovers, unfinished
from .messages import Trouble, reason, shown

Inode = Tuple[int, int]
AnyFolder = TypeVar("AnyFolder", bound="Folder")
NAME_LIMIT = 255
TAKEN = "there is something of this name already"
# A system that has no hard links says one of these
NO_LINKS = (errno.EPERM, errno.EOPNOTSUPP, errno.ENOSYS, errno.EMLINK)
NEW_FILE = os.O_WRONLY | os.O_CREAT | os.O_EXCL | os.O_NOFOLLOW
# After these no other file can be written either
HOPELESS = (errno.ENOSPC, errno.EDQUOT, errno.EROFS, errno.EIO)


class Folder:
    """An open folder of the host."""

    def __init__(self, number: int):
        self.number = number
        self.name_limit = name_limit(number)  # the bytes that a name in it may have

    @classmethod
    def at(cls, path: str) -> Folder:
        """The folder that the user named: links in that name are the user's."""
        return cls(os.open(path, os.O_RDONLY | os.O_DIRECTORY))

    def __enter__(self) -> Folder:
        return self

    def __exit__(self, *_: object) -> None:
        os.close(self.number)

    def below(self: AnyFolder, names: Sequence[bytes]) -> AnyFolder:
        """A folder in it, by the names that lead there. A symbolic link on the way is an error."""
        number = os.dup(self.number)
        for name in names:
            outer = number
            try:
                number = os.open(name, os.O_RDONLY | os.O_DIRECTORY | os.O_NOFOLLOW, dir_fd=outer)
            finally:
                os.close(outer)
        return type(self)(number)

    def is_folder(self, name: bytes) -> bool:
        """Whether the name is that of a folder itself, not of a link to one."""
        return stat.S_ISDIR(os.stat(name, dir_fd=self.number, follow_symlinks=False).st_mode)

    def has(self, name: bytes) -> bool:
        """Whether anything has the name."""
        with suppress(FileNotFoundError):
            os.stat(name, dir_fd=self.number, follow_symlinks=False)
            return True
        return False

    def inode(self, name: bytes) -> Inode:
        found = os.stat(name, dir_fd=self.number, follow_symlinks=False)
        return found.st_dev, found.st_ino

    def are_alike(self, one: bytes, other: bytes) -> bool:
        """Whether both are files of the same bytes."""
        flags = os.O_RDONLY | os.O_NOFOLLOW | os.O_NONBLOCK
        with suppress(OSError), ExitStack() as stack:
            first, second = (stack.enter_context(open(os.open(name, flags, dir_fd=self.number), "rb")) for name in (one, other))
            piece = b"x"
            while piece and all(stat.S_ISREG(os.fstat(file.fileno()).st_mode) for file in (first, second)):
                piece = first.read(PIECE)
                if piece != second.read(PIECE):
                    return False
            return not piece
        return False

    def place(self, name: bytes) -> str:
        """The path of a file in it for a program that has the folder open too, under the same number."""
        return "/dev/fd/%d/%s" % (self.number, os.fsdecode(name))

    def make(self, name: bytes) -> None:
        """Makes a folder in it. FileExistsError if the name is there, whatever has it."""
        os.mkdir(name, dir_fd=self.number)

    def publish(self, temporary: bytes, name: bytes) -> None:
        """Gives a whole file its name. FileExistsError if the name is there, whatever has it: then nothing changes."""
        try:
            os.link(temporary, name, src_dir_fd=self.number, dst_dir_fd=self.number, follow_symlinks=False)
        except OSError as error:
            if error.errno not in NO_LINKS:
                raise
            self.publish_without_links(temporary, name)

    def publish_without_links(self, temporary: bytes, name: bytes) -> None:
        os.close(os.open(name, os.O_WRONLY | os.O_CREAT | os.O_EXCL, dir_fd=self.number))
        try:
            os.rename(temporary, name, src_dir_fd=self.number, dst_dir_fd=self.number)
        except BaseException:
            os.unlink(name, dir_fd=self.number)
            raise


class TemporaryName:
    """A name for a file while it is written. The file is away afterwards, whatever happens."""

    def __init__(self, folder: Folder):
        self.folder = folder
        self.name = fresh_name()

    def __enter__(self) -> bytes:
        remove_leftovers(self.folder.number)
        unfinished.add((self.folder.number, self.name))
        return self.name

    def __exit__(self, *_: object) -> None:
        try:
            os.unlink(self.name, dir_fd=self.folder.number)
        except FileNotFoundError:
            pass
        unfinished.discard((self.folder.number, self.name))


class NewFile(TemporaryName):
    """A file of these pieces under a temporary name, to be published. `time` is in nanoseconds since 1970.

    It stays open and locked as long as it has that name, so that no other fcdisc takes it for a leftover. `mark` is called with the
    file's descriptor once it is whole. Of a sparse file pieces of zeros take no room.
    """

    def __init__(self, folder: Folder, pieces: Iterable[bytes], time: Optional[int] = None,
                 mark: Optional[Callable[[int], None]] = None, sparse: bool = False):
        super().__init__(folder)
        self.pieces, self.time, self.mark, self.sparse = pieces, time, mark, sparse
        self.number = -1

    def __enter__(self) -> bytes:
        super().__enter__()
        try:
            self.open()
            self.write()
        except BaseException:
            self.__exit__()
            raise
        return self.name

    def __exit__(self, *_: object) -> None:
        try:
            super().__exit__()
        finally:
            if self.number >= 0:
                os.close(self.number)
                self.number = -1

    def open(self) -> None:
        """Makes the file and locks it, again if another fcdisc removed it before it was locked."""
        while True:
            self.number = os.open(self.name, NEW_FILE, 0o666, dir_fd=self.folder.number)
            if is_locked_here(self.number, self.folder.number, self.name):
                return
            super().__exit__()
            os.close(self.number)
            self.number = -1
            self.name = fresh_name()
            super().__enter__()

    def write(self) -> None:
        for piece in self.pieces:
            if self.sparse and piece == ZEROS[:len(piece)]:
                os.lseek(self.number, len(piece), os.SEEK_CUR)
            else:
                write_all(self.number, piece)
        if self.sparse:
            os.ftruncate(self.number, os.lseek(self.number, 0, os.SEEK_CUR))
        set_time(self.number, self.time)
        if self.mark:
            self.mark(self.number)


@contextmanager
def published(path: str, make: Callable[[Folder], TemporaryName] = TemporaryName) -> Iterator[Tuple[Folder, bytes]]:
    """A folder and a temporary name in it, for a file that gets the path's name at the end. Trouble if it can't."""
    folder, name = split_path(path)
    try:
        with Folder.at(folder) as holder, make(holder) as temporary:
            yield holder, temporary
            holder.publish(temporary, name)
    except OSError as error:
        raise Trouble(place_text(folder, name, error)) from None


def refuse_if_taken(path: str) -> None:
    """Trouble if anything has the name already. What a killed job left beside it goes all the same."""
    if os.path.lexists(path):
        with suppress(OSError), Folder.at(split_path(path)[0]) as holder:
            remove_leftovers(holder.number)
        raise Trouble("%s: %s" % (shown(path), TAKEN))


def place_text(folder: str, name: bytes, error: OSError) -> str:
    """Which file couldn't be made, and why."""
    text = TAKEN if isinstance(error, FileExistsError) else reason(error)
    place = name if folder == "." and name else os.path.join(os.fsencode(folder), name)
    return "%s: %s" % (shown(place), text)


def write_all(number: int, piece: bytes) -> None:
    done = os.write(number, piece)
    while done < len(piece):
        done += os.write(number, piece[done:])


def set_time(number: int, time: Optional[int]) -> None:
    """A time that the host can't have is left out: it is a courtesy."""
    if time is not None:
        try:
            os.utime(number, ns=(time, time))
        except (OSError, OverflowError):
            pass


def name_limit(number: int) -> int:
    with suppress(OSError, ValueError):
        return min(NAME_LIMIT, os.fpathconf(number, "PC_NAME_MAX"))
    return NAME_LIMIT


def new_folder(path: str) -> Folder:
    """The folder of that name, made if it isn't there."""
    with suppress(FileExistsError):
        os.mkdir(path)
    return Folder.at(path)


def split_path(path: str) -> Tuple[str, bytes]:
    """The folder of a path, and the name in it."""
    folder, name = os.path.split(path)
    return folder or ".", os.fsencode(name)
