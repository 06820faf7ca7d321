# SPDX-License-Identifier: MIT
"""Runs of the program fcore: a script goes in, and its replies are read one by one."""
from __future__ import annotations

import os
import subprocess
import sys
from binascii import Error as NoHex
from binascii import unhexlify
from typing import BinaryIO, Callable, Dict, Iterable, Iterator, List, NamedTuple, Optional, Sequence, Tuple, TypeVar

from . import names
from .messages import Trouble, reason, shown

SCRIPT_LIMIT = 1 << 24  # bytes; fcore takes no longer script
BUFFER = 1 << 20
DIRECTORY = 8  # of an object's attributes
READ_ONLY, SAFE = "--read-only", "--safe"
UNSUITED = (9, 10)  # the statuses of a disc that --safe doesn't serve, and of an fcore that hasn't it: nothing was done
DONE = b"ok\n"  # the last line of a reply
OPEN_FILES = "/dev/fd"  # the files that a program has open, by their numbers
Path = Tuple[bytes, ...]
Subject = TypeVar("Subject")

# Why a run ended, by its status. 0 and 1 are good ends, and 3 comes with a line of its own.
ENDS = {
    2: "fcore doesn't know these words: is it of another version?", 4: "I/O error while fcore read it",
    5: "fcore couldn't read its script", 6: "fcore couldn't write its replies", 7: "fcore ran out of memory",
    8: "fcore's script is too long", 9: "this fcore can't do that: it isn't built in",
    11: "a file for it changed or couldn't be read", 12: "fcore can't open it",
}
WRITING_ENDS = {**ENDS, 4: "I/O error while fcore read or wrote it (is the host full?)"}


class BadImage(Exception):
    """fcore doesn't accept the image: the words of its line, the first of which names the fault."""

    def __init__(self, line: str):
        super().__init__(line)
        self.words = line.split(" ")


class Refused(Exception):
    """fcore answered a line of the script by an error: its name, as NotFound."""

    def __init__(self, name: str):
        super().__init__(name)
        self.name = name


class NotSafe(Exception):
    """The safe mode doesn't serve the disc; nothing was done."""


class Entry(NamedTuple):
    """An object, as a directory lists it."""

    path: Path
    attributes: int
    load: int
    execution: int
    length: int

    @property
    def name(self) -> bytes:
        return self.path[-1]

    @property
    def is_directory(self) -> bool:
        return bool(self.attributes & DIRECTORY)


def find_program(name: str = "fcore") -> str:
    """The fcore or fconvert to use: $FCORE, else the one beside this program, else one on PATH, else the one that was built here."""
    told = os.environ.get(name.upper())
    if told:
        if not os.access(told, os.X_OK):
            raise Trouble("$%s is %s, and that can't be run" % (name.upper(), shown(told)))
        return os.path.abspath(told)
    here = os.path.dirname(os.path.realpath(sys.argv[0]))
    folders = [here, *os.get_exec_path(), os.path.join(here, "..", "crates", name, "out")]
    for place in (os.path.join(folder, name) for folder in folders):
        if os.path.isfile(place) and os.access(place, os.X_OK):
            return os.path.abspath(place)
    raise Trouble("there is no program %s beside this one or on the PATH: install it, or name it by $%s" % (name, name.upper()))


class Run:
    """A run of fcore. Used by `with`: at the end the program has ended, and all that it wrote was read, or an error says why not.

    `image` is the image's name for people. The files `kept_open` can be opened by fcore as /dev/fd/N, and its `put` takes the file N of `given`.
    """

    def __init__(self, program: str, image: str, words: Sequence[str], script: bytes, kept_open: Iterable[int], given: Sequence[int] = ()):
        try:
            self.process = subprocess.Popen([program, *words], stdin=subprocess.PIPE, stdout=subprocess.PIPE, bufsize=BUFFER,
                                            pass_fds=(*kept_open, *given), cwd=OPEN_FILES if given else None)
        except OSError as error:
            raise Trouble("%s can't be run: %s" % (shown(program), reason(error))) from None
        assert self.process.stdin and self.process.stdout
        self.replies: BinaryIO = self.process.stdout  # type: ignore[assignment]
        self.image, self.script, self.is_safe = image, script, SAFE in words
        self.ends = ENDS if READ_ONLY in words else WRITING_ENDS

    def __enter__(self) -> Run:
        try:
            self.send_script()
        except BaseException:
            self.stop()
            raise
        return self

    def __exit__(self, kind: Optional[type], *_: object) -> None:
        try:
            if kind is None:
                self.end()
        finally:
            self.stop()

    def send_script(self) -> None:
        """fcore reads the whole script before it writes a byte, so this can't get stuck."""
        stdin = self.process.stdin
        assert stdin
        try:
            stdin.write(self.script)
            stdin.close()
        except BrokenPipeError:
            pass  # its status will say why it didn't want the script

    def stop(self) -> None:
        if self.process.poll() is None:
            self.process.kill()
        self.process.wait()
        for stream in (self.process.stdin, self.process.stdout):
            try:
                assert stream
                stream.close()
            except BrokenPipeError:
                pass

    def end(self) -> None:
        """After the last reply: nothing may follow."""
        line = self.replies.readline(BUFFER)
        if line or self.process.wait() not in (0, 1):
            raise self.cause(line)

    def cause(self, line: bytes) -> Exception:
        """Why there is another line, or none, in a reply's place."""
        changed = self.changed()
        if self.replies.peek(1):  # type: ignore[attr-defined]
            return changed
        status = self.process.wait()
        if status == 3 and is_fault(line):
            return BadImage(line.decode("ascii").rstrip("\n").partition(" ")[2])
        if self.is_safe and status in UNSUITED:
            return NotSafe()
        if status < 0:
            return self.trouble("fcore was ended by signal %d" % -status)
        return changed if status in (0, 1) else self.trouble(self.ends.get(status, "fcore ended with status %d" % status))

    def changed(self) -> Trouble:
        return self.trouble("fcore's answer isn't what was asked for: did the image change meanwhile?")

    def trouble(self, text: str) -> Trouble:
        return Trouble("%s: %s" % (shown(self.image), text))

    # the replies, in the order of the script's lines

    def line(self) -> bytes:
        """The next line without its end. A reply that is an error line raises Refused."""
        line = self.replies.readline(BUFFER)
        if line == DONE:
            return line[:-1]
        words = line.split()
        if len(words) == 3 and words[0] == b"error":
            raise Refused(words[2].decode("ascii"))
        if not line.endswith(b"\n") or is_fault(line):
            raise self.cause(line)
        return line[:-1]

    def lines(self) -> Iterator[bytes]:
        """The lines of a reply, without its last, `ok`."""
        while True:
            line = self.line()
            if line == DONE[:-1]:
                return
            yield line

    def done(self) -> None:
        """The reply to a line that only does something."""
        if self.line() != DONE[:-1]:
            raise self.changed()

    def free(self) -> Tuple[int, int]:
        """The reply to `free`: the free bytes, and those of the largest piece."""
        (line,) = self.lines()
        total, largest = map(int, line.split()[1:])
        return total, largest

    def check(self) -> Dict[str, int]:
        """The reply to `check`: the counts by their names."""
        words = b" ".join(self.lines()).decode("ascii").split()
        return dict(zip(words[::2], map(int, words[1::2])))

    def cat(self, path: Path) -> List[Entry]:
        """The reply to `cat` of that directory."""
        return [read_entry(path, line) for line in self.lines()]

    def load(self, length: int) -> Iterator[bytes]:
        """The reply to `load` of a file of that length, in pieces. All pieces have to be taken before the next reply is read."""
        left = length
        while left:
            digits = self.replies.read(2 * min(left, BUFFER))
            try:
                piece = unhexlify(digits)
            except NoHex:
                raise self.cause(digits) from None
            if not piece:
                raise self.cause(b"")
            left -= len(piece)
            yield piece
        ending = self.replies.read(4)
        if ending != b"\n" + DONE:
            raise self.cause(ending)


def is_fault(line: bytes) -> bool:
    """Whether the line says why an image isn't accepted. An object named `bad-image` has its attributes there, in lower case."""
    return line.startswith(b"bad-image ") and line[10:11].isupper()


def read_entry(directory: Path, line: bytes) -> Entry:
    """An entry from a line of `cat`."""
    name, attributes, load, execution, length = line.decode("ascii").split(" ")
    size = 0 if length == "dir" else int(length)
    return Entry((*directory, names.read_spelled(name)), int(attributes, 16), int(load, 16), int(execution, 16), size)


def command(word: str, path: Path) -> bytes:
    """A line of a script."""
    return b"%s %s\n" % (word.encode("ascii"), names.path_bytes(path))


def batches(word: str, entries: Iterable[Entry]) -> Iterator[Tuple[bytes, List[Entry]]]:
    """The objects with scripts that have that command for each."""
    return scripts((command(word, entry.path), entry) for entry in entries)


def scripts(lines: Iterable[Tuple[bytes, Subject]],
            more: Callable[[Subject], int] = lambda subject: 0) -> Iterator[Tuple[bytes, List[Subject]]]:
    """The lines as scripts, in as few as fcore's limit allows, each with what its lines are about. No line is longer than that.

    A line may count for more bytes than it has.
    """
    script: List[bytes] = []
    batch: List[Subject] = []
    size = 0
    for line, subject in lines:
        added = len(line) + more(subject)
        if batch and size + added > SCRIPT_LIMIT:
            yield b"".join(script), batch
            script, batch, size = [], [], 0
        script.append(line)
        batch.append(subject)
        size += added
    if batch:
        yield b"".join(script), batch
