# SPDX-License-Identifier: MIT
"""An image that is changed. The changes are made to a copy, which takes its name when all is done; or in place.

The copy lies in memory, and is written once, at the end; that of a long image lies where the host keeps files without a name.
"""
from __future__ import annotations

import errno
import os
import stat
from argparse import Namespace
from binascii import hexlify
from contextlib import ExitStack, contextmanager, nullcontext, suppress
from typing import BinaryIO, Callable, Dict, Iterable, Iterator, List, NamedTuple, Optional, Sequence, Set, Tuple, TypeVar

from . import names
from .backups import Backup
from .complaints import Complaints
from .description import describe
from .contents import CHANGED, Content, LargeFile
from .faults import refusal_explained
from .fitting import SHORT_NAME
from .hostitems import FIT_HELP, NOT_ADDED
from .images import (AS_IT_IS, L_SIZE, SIDES, Image, copy, has_doubtful_order, nameless_file, open_image,
                     pieces_from, read_at, size_of, to_interleaved)
from .leftovers import remove_leftovers
from .locks import is_same, locked_file, unbroken
from .messages import FAILED, Trouble, counted, reason, shown, tell
from .output import Folder, NewFile, split_path
from .program import SAFE, SCRIPT_LIMIT, BadImage, NotSafe, Path, Refused, Run, scripts

Result = TypeVar("Result")
MOST_FILES, MOST_BYTES = 64, 1 << 28  # large files that one run takes, and their bytes if they are several
NOT_COPIED, NOT_MADE, NOT_PUT, NO_COPY = "not copied", "not made", "not put there", "no copy made"
OTHER_NAME = "; give a name for it in PATH, such as $.MyText"
# What helps where a disc doesn't take a name
NAME_HELP = {NOT_ADDED: FIT_HELP, NOT_COPIED: FIT_HELP, NOT_PUT: OTHER_NAME}


class Step(NamedTuple):
    """A line that changes the disc; the object that a refusal is about, what then wasn't done, and the file that fcore reads for it."""

    line: bytes
    path: Path
    failure: str
    file: Optional[LargeFile] = None


class Failure(NamedTuple):
    """A step that was refused, and fcore's name of the refusal."""

    step: Step
    name: str


# ---- lines of scripts


def save_step(path: Path, load: int, execution: int, content: Content, failure: str) -> Step:
    """A file's bytes stand in the line; a large one fcore itself reads, by the number under which it is open."""
    place = names.path_bytes(path)
    if isinstance(content, bytes):
        return Step(b"save %s %08x %08x %s\n" % (place, load, execution, hexlify(content) or b"-"), path, failure)
    return Step(b"put %d %s %08x %08x\n" % (content.number, place, load, execution), path, failure, content)


def step_scripts(steps: Iterable[Step]) -> Iterator[Tuple[bytes, List[Step]]]:
    """The steps as scripts. The large files of a script are open at once, and may lie in memory: so they are few."""
    return scripts(((step.line, step) for step in steps),
                   lambda step: max(SCRIPT_LIMIT // MOST_FILES, step.file.size * SCRIPT_LIMIT // MOST_BYTES) if step.file else 0)


@contextmanager
def given_files(batch: List[Step]) -> Iterator[List[int]]:
    """The large files of these steps, by their numbers. They are closed afterwards."""
    files = [step.file for step in batch if step.file]
    try:
        yield [file.number for file in files]
    finally:
        for file in files:
            file.close()


def set_line(path: Path, load: int, execution: int, attributes: int) -> bytes:
    access = "".join(letter for bit, letter in ((1, "R"), (2, "W"), (4, "L")) if attributes & bit)
    return b"set %s %08x %08x %s\n" % (names.path_bytes(path), load, execution, access.encode("ascii") or b"-")


def why(path: Path, name: str) -> str:
    """A refusal in words."""
    if name == "BadName":
        return name_fault(path[-1])
    return refusal_explained(name)


def name_fault(name: bytes) -> str:
    """What a disc may have against a name; fcore says only that it has something."""
    wrong = [byte for byte in name if byte in names.NOT_PLAIN or byte <= 32 or byte == 127]
    if wrong:
        return "no name that is written to a disc may have %s in it" % " ".join(dict.fromkeys(map(names.spelled_byte, wrong)))
    if len(name) > SHORT_NAME:
        return "its name has %d letters, and this disc takes no more than %d" % (len(name), SHORT_NAME)
    return "this disc takes only plain letters in a name"


# ---- images


class Edit:
    """An image while it is changed. Used by `with`; without `finish` it stays as it was, unless it is changed in place."""

    image: Image
    counts: Dict[str, int]  # the reply to `check`

    def __init__(self, program: str, words: Namespace):
        self.program, self.name, self.order, self.in_place = program, words.image, words.order, words.in_place
        self.is_safe = words.in_place and not words.no_safe  # each line whole or not at all, if the disc suits
        self.path = os.path.realpath(words.image)
        self.folder, self.file_name = split_path(self.path)
        self.backup = Backup(self.name, self.file_name, words.backup)
        self.changes = 0
        self.failures: List[Failure] = []
        self.is_open = False
        self.working: Optional[BinaryIO] = None  # what fcore changes: the copy, or the image itself
        self.stack = ExitStack()

    def __enter__(self) -> Edit:
        with self.stack:
            self.original = self.stack.enter_context(locked_file(self.path, self.name))
            self.before = os.fstat(self.original.fileno())
            if not self.before.st_mode & 0o222 or not os.access(self.path, os.W_OK):
                raise self.trouble("it is write-protected on this host")
            with suppress(OSError), Folder.at(self.folder) as holder:
                remove_leftovers(holder.number)  # also if nothing comes of this job
            self.stack = self.stack.pop_all()
        return self

    def __exit__(self, *_: object) -> None:
        self.stack.close()

    def trouble(self, text: str) -> Trouble:
        return Trouble("%s: %s" % (shown(self.name), text))

    def open(self, script: bytes, read: Callable[[Run], Result]) -> Result:
        """Opens the image, and reads the replies to a script that changes nothing."""
        self.image, (self.counts, result) = open_image(self.program, self.path, self.order, b"check\n" + script,
                                                       lambda run: (run.check(), read(run)), self.name)
        self.stack.callback(self.image.file.close)
        self.is_open = True
        # the name doesn't decide here, as it does if the disc is only read
        if has_doubtful_order(self.image, self.order, self.counts):
            raise self.trouble("nothing shows whether its sides are interleaved, and in the wrong order a change would spoil "
                               "files: say --order disc or --order adl")
        return result

    # changes

    def begin(self) -> BinaryIO:
        """What fcore is to change."""
        if self.in_place:
            if self.image.how != AS_IT_IS:
                raise self.trouble("only an image in disc order and without a header can be changed in place")
            return self.image.file
        self.backup.refuse_if_unfit(self.folder, self.before)
        if not os.access(self.folder, os.W_OK):
            raise self.trouble("nothing can be written to its folder; --in-place does without")
        try:
            file = self.stack.enter_context(nameless_file(size_of(self.image.file), self.folder))
            copy(self.image.file, 0, file)
        except OSError as error:
            raise self.no_copy(error) from None
        return file

    def no_copy(self, error: OSError) -> Trouble:
        """Why there is no changed copy. A full host is no reason to change the image in place: that may fail half-way."""
        if error.errno in (errno.ENOSPC, errno.EDQUOT):
            with suppress(OSError):
                room = os.statvfs(self.folder)
                lack = (self.before.st_size - room.f_bavail * room.f_frsize) / 1e6
                return self.trouble("its changed copy can't be written beside it (%s): %.1f MB more are needed; nothing was changed"
                                    % (reason(error), max(lack, 0.1)))
        return self.trouble("no copy of it can be made (%s); --in-place does without" % reason(error))

    def perform(self, script: bytes, read: Callable[[Run], Result], given: Sequence[int] = ()) -> Result:
        """Runs a script that changes the disc."""
        if self.working is None:
            self.working = self.begin()
        try:
            return self.perform_once(script, read, given)
        except NotSafe:
            self.is_safe = False
            return self.perform_once(script, read, given)

    def perform_once(self, script: bytes, read: Callable[[Run], Result], given: Sequence[int]) -> Result:
        assert self.working
        number = self.working.fileno()
        self.is_safe = self.is_safe and describe(self.image.file).form.endswith("+")
        with unbroken() if self.in_place else nullcontext():
            run = Run(self.program, self.name, [*[SAFE] * self.is_safe, "--", "/dev/fd/%d" % number], script, [number], given)
            try:
                with run:
                    return read(run)
            except (Trouble, BadImage) as error:
                text = str(error) if isinstance(error, Trouble) else "%s: not accepted: %s" % (shown(self.name), error)
                raise Trouble("%s: %s" % (text, self.left())) from None

    def left(self) -> str:
        """What a job that broke off leaves."""
        if not self.in_place:
            return "nothing was changed"
        if self.is_safe:
            return "it was changed in place, in whole steps: what was done stands, and nothing is damaged"
        return "it was changed in place, and may be damaged: use check"

    def change(self, steps: Iterable[Step]) -> None:
        """Makes the changes, by one run of fcore or as few as there can be."""
        for script, batch in step_scripts(steps):
            with given_files(batch) as given:
                self.perform(script, lambda run, batch=batch: self.read_replies(run, batch), given)  # type: ignore[misc]

    def read_replies(self, run: Run, batch: List[Step]) -> None:
        for step in batch:
            try:
                run.done()
                self.changes += 1
            except Refused as refused:
                self.failures.append(Failure(step, refused.name))
        for step in batch:
            if step.file and step.file.is_changed():
                raise self.trouble("%s: %s: %s" % (names.spelled_path(step.path), step.failure, CHANGED))

    # the end

    def finish(self, verbose: bool = False) -> int:
        """Makes the changes stand, and tells which were refused. Answers the status."""
        if self.changes and not self.in_place:
            try:
                with Folder.at(self.folder) as holder:
                    self.replace(holder)
            except OSError as error:
                raise self.no_copy(error) from None
        tell_failures(self.name, self.failures, verbose)
        if self.is_safe and any(failure.name == "DiscFull" for failure in self.failures):
            tell("%s: each directory that changes is written anew, which needs room: --no-safe does without" % shown(self.name))
        return FAILED if self.failures else 0

    def replace(self, holder: Folder) -> None:
        """The copy takes the image's name, and the image as it was has another one then. Its name is always a whole one's."""
        with ExitStack() as stack:
            new = stack.enter_context(NewFile(holder, self.pieces_back(), mark=self.make_alike, sparse=True))
            self.backup.prepare(stack, holder, self.original, self.before, self.make_alike)
            stack.enter_context(unbroken())
            if not is_same(self.before, os.stat(self.path)):
                raise self.trouble("another program changed it meanwhile: it stays as it is now")
            self.backup.publish(holder)
            self.take_name(holder, new)

    def take_name(self, holder: Folder, new: bytes) -> None:
        try:
            os.replace(new, self.file_name, src_dir_fd=holder.number, dst_dir_fd=holder.number)
        except OSError as error:
            raise self.trouble("its changed copy can't take its name (%s): it stays as it was%s"
                               % (reason(error), self.backup.remark())) from None
        with suppress(OSError):
            os.fsync(holder.number)

    def make_alike(self, number: int) -> None:
        """A new file gets the image's owner and mode, and is written to the host's disk."""
        with suppress(OSError):
            os.fchown(number, self.before.st_uid, self.before.st_gid)
        os.fchmod(number, stat.S_IMODE(self.before.st_mode))
        os.fsync(number)

    def pieces_back(self) -> Iterator[bytes]:
        """The changed disc in the form that the image has."""
        assert self.working
        if self.image.how == SIDES:
            yield to_interleaved(read_at(self.working, 0, L_SIZE))
            yield from pieces_from(self.original, L_SIZE)
            return
        if self.image.how != AS_IT_IS:
            yield from pieces_from(self.original, 0, self.image.start)
        yield from pieces_from(self.working, 0)


def tell_failures(name: str, failures: List[Failure], verbose: bool = False) -> None:
    """Names the objects that were refused, with the reason. What is in a directory that isn't there is only counted."""
    unmade = {step.path for step, refusal in failures if step.line.startswith(b"cdir ") and refusal != "Exists"}
    complain = Complaints(verbose)
    inner: Dict[Path, int] = {}
    told: Set[Path] = set()
    first: List[Failure] = []
    for failure in failures:
        path = failure.step.path
        outer = next((path[:size] for size in range(1, len(path)) if path[:size] in unmade), None)
        if outer is not None and failure.name in ("NotFound", "BadName"):
            inner[outer] = inner.get(outer, 0) + (path not in told)
        elif path not in told:
            first.append(failure)
        told.add(path)
    for step, refusal in first:
        rest = "; nor what is in it: %s" % counted(inner[step.path], "object") if step.path in inner else ""
        text = reason_of(step, refusal, failures) + rest
        complain("%s: %s" % (shown(name), names.spelled_path(step.path)), "%s: %s" % (step.failure, text))
    complain.sum_up()


def reason_of(step: Step, refusal: str, failures: List[Failure]) -> str:
    if refusal == "NotFound" and not step.line.startswith(b"delete"):
        return "there is no directory for it on the disc" + (" (mkdir -p makes it)" if step.failure == NOT_MADE else "")
    if refusal == "NotEmpty" and any(is_below(other.path, step.path) for other, _ in failures):
        return "something in it is left"
    text = why(step.path, refusal)
    if refusal == "BadName":
        text += NAME_HELP.get(step.failure, "")
    return text


def is_below(path: Path, holder: Path) -> bool:
    return len(path) > len(holder) and path[:len(holder)] == holder
