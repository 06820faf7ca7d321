# SPDX-License-Identifier: MIT
"""The files of a keeper's folders, and one job over all of them, several at once."""
from __future__ import annotations

import os
import resource
from typing import TYPE_CHECKING, Callable, Iterator, List, NamedTuple, Optional, Tuple, TypeVar

from .backups import backed_up
from .complaints import FIRST
from .leftovers import is_temporary
from .messages import FAILED, Progress, Trouble, collecting, counted, reason, shown, tell
from .program import BadImage, Refused

if TYPE_CHECKING:
    from concurrent.futures import Future

Answer = TypeVar("Answer")
DESCRIPTORS = 10  # that a job needs at once; the program itself has some more
AHEAD = 4  # jobs that wait for each that runs, so that results don't pile up


class Found(NamedTuple):
    """A file, and whether it was named itself or lies in a folder that was."""

    path: str
    is_named: bool


class NotAccepted(Trouble):
    """A file that isn't accepted as a disc. It is named at the end, with the others."""


class Files:
    """The files that are named, and those in the folders that are named, in the order of their names.

    Files that fcdisc left beside an image aren't looked at. What isn't a file is passed over, with a message.
    """

    def __init__(self, paths: List[str]):
        self.paths = paths
        self.failed = False  # whether a folder couldn't be read
        self.refused: List[str] = []  # what isn't accepted as a disc, in any order

    def __iter__(self) -> Iterator[Found]:
        for path in self.paths:
            if not os.path.isdir(path):
                yield Found(path, True)
                continue
            for folder, inner, names in os.walk(path, onerror=self.not_read):
                inner.sort()
                for name in inner:
                    if os.path.islink(os.path.join(folder, name)):
                        tell("%s: a link to a folder: passed over" % shown(os.path.join(folder, name)))
                yield from self.files_of(folder, sorted(names))

    def files_of(self, folder: str, names: List[str]) -> Iterator[Found]:
        there = set(names)
        for name in names:
            place = os.path.join(folder, name)
            if is_temporary(os.fsencode(name)) or backed_up(name) in there:
                continue
            if os.path.isfile(place):
                yield Found(place, False)
            else:
                tell("%s: %s: passed over" % (shown(place), "a link that leads nowhere" if os.path.islink(place) else "not a file"))

    def not_read(self, error: OSError) -> None:
        self.failed = True
        tell("%s: %s" % (shown(error.filename), reason(error)))


def workers() -> int:
    """As many jobs at once as there are processors and descriptors for them."""
    open_files = resource.getrlimit(resource.RLIMIT_NOFILE)[0]
    return max(1, min(os.cpu_count() or 1, (open_files - DESCRIPTORS) // DESCRIPTORS))


def over_files(files: Files, job: Callable[[Found], Answer], what: str) -> Iterator[Tuple[Found, Optional[Answer]]]:
    """What the job answers for each file, in the order of the files; None where it ended by Trouble. Its messages come before."""
    found = list(files)
    progress = Progress(what, len(found))
    for file, (answer, lines) in outcomes(found, job, files.refused):
        for line in lines:
            tell(line)
        progress.step()
        yield file, answer


def outcomes(found: List[Found], job: Callable[[Found], Answer], refused: List[str]) -> Iterator[Tuple[Found, Tuple[Optional[Answer], List[str]]]]:
    """What comes of each file, and the messages; several jobs at once, if there are several."""
    if len(found) < 2:
        yield from ((one, told_together(job, one, refused)) for one in found)
        return
    from concurrent.futures import ThreadPoolExecutor  # here, since it takes long to load
    count = workers()
    with ThreadPoolExecutor(count) as pool:
        waiting: List[Tuple[Found, Future[Tuple[Optional[Answer], List[str]]]]] = []
        try:
            for one in found:
                waiting.append((one, pool.submit(told_together, job, one, refused)))
                if len(waiting) > AHEAD * count:
                    file, future = waiting.pop(0)
                    yield file, future.result()
            while waiting:
                file, future = waiting.pop(0)
                yield file, future.result()
        finally:
            for _, future in waiting:
                future.cancel()


def told_together(job: Callable[[Found], Answer], file: Found, refused: List[str]) -> Tuple[Optional[Answer], List[str]]:
    with collecting() as lines:
        try:
            return job(file), lines
        except NotAccepted:
            refused.append(file.path)
            return None, lines
        except Trouble as trouble:
            return None, [*lines, str(trouble)]
        except (BadImage, Refused):  # after it was opened
            return None, [*lines, "%s: it changed while it was read" % shown(file.path)]


def tell_refused(files: Files) -> None:
    """The files that aren't accepted as discs, in one line: what is wrong with each is the job of `check`."""
    if files.refused:
        first = ", ".join(map(shown, sorted(files.refused)[:FIRST]))
        more = " and %d more" % (len(files.refused) - FIRST) if len(files.refused) > FIRST else ""
        text = "%s not accepted: %s%s: fcdisc check says what is wrong, and what to do"
        tell(text % (counted(len(files.refused), "image"), first, more))


def status_of(files: Files, failed: bool) -> int:
    return FAILED if files.failed or failed else 0
