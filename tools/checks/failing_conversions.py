#!/usr/bin/env python3
# SPDX-License-Identifier: MIT
"""Converts discs with the built program where the system fails it: each call of either image and of the output, memory, streams, kills.

usage: tools/run checks/failing_conversions FCONVERT

Each run has a folder with the source and with images beside it that no run may touch. Which call is about which image is known from a
run that nothing disturbs, which makes the same calls. Status, text, and what is left of the target are compared with what they have to
be; the source keeps its bytes, whatever fails. A C compiler ($CC, or cc) makes outside.c; without one these runs are left out.
"""
from __future__ import annotations

import collections
import errno
import itertools
import os
import signal
import sys
import tempfile
from typing import Counter, Dict, Iterator, List, NamedTuple, Optional, Sequence, Tuple, Union

from tools.checks.outside import BROKEN, DENIED, EVERY, FULL, INTERRUPTED, MISSING, fault, some_of
from tools.files import built_shim, compiler, has_compiler, read
from tools.images import sources
from tools.images.volumes import FRESH
from tools.reference.conversion import SIZES

FROM, TO, FOLDER, OUT, ANY = "source", "target", "target's folder", "output", "any"
ABSENT, PART, WHOLE = "absent", "part", "whole"
STATUS = {FROM: 4, TO: 5, FOLDER: 5, OUT: 6}
How = Union[int, str]
Same = Optional[int]  # a status; None stands for that of the run that nothing disturbs


class Call(NamedTuple):
    """A call: its kind, its number among those of its kind, what it is about, and whether the fresh target is made already."""

    kind: str
    number: int
    about: str
    is_after_making: bool


class Ended(NamedTuple):
    status: int
    text: bytes
    errors: bytes
    left: str  # of the target
    calls: List[List[str]]


class Place:
    """A folder with the source `from`, images beside it, and perhaps the target `to`."""

    def __init__(self, program: str, shim: str, folder: str) -> None:
        self.program, self.shim, self.root = program, shim, folder
        self.folder = os.path.join(folder, "images")
        os.mkdir(self.folder)
        self.kept: Dict[str, bytes] = {}
        self.whole = b""  # what the target is if nothing fails
        self.passed: Counter[str] = collections.Counter()
        self.failures: List[str] = []

    def begin(self, source: bytes) -> None:
        self.kept = {"from": source, "victim": bytes(FRESH["L"]().image()), "to.old": b"kept"}
        for name, data in self.kept.items():
            with open(os.path.join(self.folder, name), "wb") as file:
                file.write(data)

    def clear(self) -> None:
        for path in (os.path.join(self.folder, "to"), os.path.join(self.root, "log")):
            if os.path.lexists(path):
                os.unlink(path)

    def run(self, words: Sequence[str], faults: str = "", closed: Tuple[int, ...] = (), output: str = "answer") -> Ended:
        self.clear()
        environment = {"LD_PRELOAD": self.shim, "OUTSIDE_LOG": os.path.join(self.root, "log"), "OUTSIDE_FAULTS": faults}
        answer = output if output.startswith("/") else os.path.join(self.root, output)
        errors = os.path.join(self.root, "errors")
        for path in (answer, errors):
            if not path.startswith("/dev/full"):
                open(path, "wb").close()
        streams = [(0, os.devnull, os.O_RDONLY), (1, answer, os.O_WRONLY), (2, errors, os.O_WRONLY)]
        actions = [(os.POSIX_SPAWN_CLOSE, at) if at in closed else (os.POSIX_SPAWN_OPEN, at, path, how, 0) for at, path, how in streams]
        here = os.getcwd()
        os.chdir(self.folder)
        try:
            child = os.posix_spawn(self.program, ["fconvert", *words], environment, file_actions=actions, setsigdef=[signal.SIGPIPE])
        finally:
            os.chdir(here)
        status = os.waitpid(child, 0)[1]
        log = os.path.join(self.root, "log")
        lines = read(log).decode(errors="replace").splitlines() if os.path.exists(log) else []
        return Ended(-os.WTERMSIG(status) if os.WIFSIGNALED(status) else os.WEXITSTATUS(status), b"" if output.startswith("/") else read(answer),
                     read(errors), self.left(), [line.split(" ", 3) for line in lines])

    def left(self) -> str:
        """What is left of the target; or the name of a file that isn't what it has to be."""
        names = set(os.listdir(self.folder))
        for name in sorted(names | set(self.kept)):
            if name != "to" and (name not in self.kept or name not in names or read(os.path.join(self.folder, name)) != self.kept[name]):
                return name
        if "to" not in names:
            return ABSENT
        return WHOLE if read(os.path.join(self.folder, "to")) == self.whole else PART

    def expect(self, case: str, ended: Ended, status: Sequence[int], left: Sequence[str], text: Optional[bytes] = None) -> None:
        """`text` is the line of a run that nothing disturbs: another has a part of it, from its front."""
        right = ended.status in status and ended.left in left and not ended.errors
        if text is not None:
            right = right and (ended.text == text if ended.status in (0, 1, 3, 8) else ended.status in (6, -signal.SIGKILL) or not ended.text)
            right = right and text.startswith(ended.text)
        if right:
            self.passed[case.split(":")[0]] += 1
        else:
            self.failures.append("%s: status %d, wanted %s; target %s, wanted %s; text %r, errors %r" % (
                case, ended.status, list(status), ended.left, list(left), ended.text, ended.errors[:80]))


# ---- which call is about what


def calls_of(ended: Ended) -> Iterator[Call]:
    """The calls but those for memory. Files are known by the numbers under which they were opened."""
    files, numbers, syncs = {1: OUT}, collections.Counter(), 0
    for kind, answer, _, about in ended.calls[:-1]:
        numbers[kind] += 1
        if kind == "open":
            subject = {"from": FROM, "to": TO, ".": FOLDER}[about.split(" ", 1)[1]]
            files[int(answer)] = subject
        elif kind in ("pread", "pwrite", "truncate", "write"):
            subject = files[int(about.split()[0])]
        else:
            subject = {"fsync": FOLDER if about == "folder" else TO, "statx": FROM}.get(kind, ANY)
        syncs += kind == "fsync"
        yield Call(kind, numbers[kind], subject, syncs > 2 or syncs == 2 and kind != "fsync")


# For each kind of call: how it is disturbed, and the status that comes. Of an image -1 stands for the status that goes with it
DISTURBED: Dict[str, List[Tuple[How, Same]]] = {
    "dup": [(errno.EINVAL, None), (errno.EMFILE, None), (INTERRUPTED, None)],
    "open " + FROM: [(INTERRUPTED, None), (BROKEN, 4), (DENIED, 4), (errno.EMFILE, 4), (errno.ELOOP, 4), (MISSING, 9)],
    "open " + TO: [(INTERRUPTED, None), (errno.EEXIST, 10), (FULL, 5), (DENIED, 5), (errno.EROFS, 5)],
    "open " + FOLDER: [(INTERRUPTED, None), (DENIED, None), (errno.EMFILE, 5), (BROKEN, 5)],
    "statx": [(INTERRUPTED, None), (BROKEN, 4)],
    "truncate": [(INTERRUPTED, None), (FULL, 5), (errno.EFBIG, 5)],
    "pread": [(INTERRUPTED, None), (BROKEN, -1), ("short", None), ("one", None), ("none", -1)],
    "pwrite": [(INTERRUPTED, None), (BROKEN, 5), (FULL, 5), ("short", None), ("one", None), ("none", 5)],
    "fsync " + TO: [(INTERRUPTED, None), (BROKEN, 5), (FULL, 5)],
    "fsync " + FOLDER: [(INTERRUPTED, None), (errno.EINVAL, None), (BROKEN, 5)],
    "seek": [(INTERRUPTED, None), (errno.ESPIPE, None)],
    "write": [(INTERRUPTED, None), (BROKEN, 6), (FULL, 6), (errno.EPIPE, 6), ("short", None), ("one", None), ("none", 6)],
}


def chosen(calls: List[Call]) -> Iterator[Call]:
    """All calls if they are few of their kind; of the many that write the fresh target some, and of those that follow some."""
    groups: Dict[Tuple[str, str, bool], List[Call]] = {}
    for call in calls:
        groups.setdefault((call.kind, call.about, call.is_after_making), []).append(call)
    for (kind, _, is_after), group in groups.items():
        most = 5 if kind == "pwrite" and not is_after else 30
        yield from (group[number - 1] for number in some_of(len(group), most))


def left_after(call: Call, good: Ended) -> Tuple[str, ...]:
    """What may be left of the target if the call fails: it isn't kept while it is made, and isn't taken away afterwards."""
    if call.kind == "write":
        return (good.left,)
    return (PART, WHOLE) if call.is_after_making else (ABSENT,)


def disturbed(place: Place, name: str, words: List[str], good: Ended) -> None:
    calls = list(calls_of(good))
    for call in chosen(calls):
        for how, told in DISTURBED.get(call.kind) or DISTURBED["%s %s" % (call.kind, call.about)]:
            status = STATUS[call.about] if told == -1 else told
            faults = fault(call.kind, call.number, how)
            left = (good.left,) if status is None else left_after(call, good)
            place.expect("%s of the %s: %s, %s" % (call.kind, call.about, name, faults), place.run(words, faults),
                         (good.status if status is None else status,), left, good.text)
    for number in some_of(int(good.calls[-1][3]), 60):
        faults = fault("memory", number, errno.ENOMEM)
        ended = place.run(words, faults)
        left = (good.left,) if ended.status == good.status else (ABSENT, PART, WHOLE)
        place.expect("memory: %s, %s" % (name, faults), ended, (7, good.status), left, good.text)
    for kind in ("pread", "write"):
        place.expect("one byte at a time: %s, %s" % (name, kind), place.run(words, fault(kind, 1, "one", EVERY)), (good.status,), (good.left,), good.text)


def killed(place: Place, name: str, words: List[str], good: Ended) -> None:
    """Killed before and after calls: whatever is left of the target, nothing else is touched, and it isn't made anew."""
    for call in [one for one in chosen(list(calls_of(good))) if one.kind not in ("dup", "statx")][::3]:
        for how in ("kill", "killed"):
            faults = fault(call.kind, call.number, how)
            place.expect("kills: %s, %s" % (name, faults), place.run(words, faults), (-signal.SIGKILL,), (ABSENT, PART, WHOLE), good.text)


def opened(ended: Ended) -> List[str]:
    return [call[3] for call in ended.calls if call[0] == "open"]


def asked(place: Place, name: str, good: Ended) -> None:
    """Nothing but the two names is opened, the source for reading alone, and the target only if all fits; nothing is pending at the end."""
    wanted = ["r from"] if good.status in (1, 3) else ["r from", "wcx to", "r ."]
    if opened(good) != wanted:
        place.failures.append("%s: opens %s, and not %s" % (name, opened(good), wanted))
    changes = [call for call in calls_of(good) if call.kind in ("pwrite", "fsync", "truncate")]
    if any(call.about == FROM for call in changes) or changes and changes[-1].kind != "fsync":
        place.failures.append("%s: the source is written, or something is pending at the end" % name)


# ---- conversions, and streams


def conversions() -> Iterator[Tuple[str, bytes, str, int]]:
    """A name, the source, the format, and the status."""
    long_name = FRESH["E+"]()
    long_name.root.insert(long_name.file(b"Notes_of_the_second_year", b"AB"))
    big = FRESH["E"]()
    big.root.insert(big.file(b"A", b"before"))
    big.root.insert(big.file(b"Big", bytes(700000), attributes=51))
    yield "unfit", bytes(long_name.image()), "E", 1
    yield "no room", bytes(big.image()), "L", 8
    yield "not accepted", bytes(4096), "E", 3
    yield "E to D", bytes(sources.filled("E").image()), "D", 0
    yield "L to E+", bytes(sources.filled("L").image()), "E+", 0
    yield "D to F", bytes(sources.filled("D").image()), "F", 0


def streams(place: Place, words: List[str], good: Ended) -> None:
    """Closed streams: the line isn't written into an image, and is missed only where there is one. And an output that is full."""
    for closed in (subset for count in range(4) for subset in itertools.combinations(range(3), count)):
        status = 6 if 1 in closed and good.text else good.status
        place.expect("streams: closed %s" % (closed,), place.run(words, closed=closed), (status,), (good.left,))
    taken = [(["D", "from", "victim"], 10)] if good.status in (0, 8) else []
    for other, wanted in ((["D", "from"], 2), (["D", "none", "to"], 9), *taken):
        for closed in ((0,), (1,), (0, 1, 2)):
            place.expect("streams: closed %s, %s" % (closed, other), place.run(other, closed=closed), (wanted,), (ABSENT,))
    place.expect("streams: full", place.run(words, output="/dev/full"), (6 if good.text else good.status,), (good.left,))


def one(place: Place, name: str, source: bytes, form: str, status: int) -> None:
    place.begin(source)
    place.whole = b""
    words = [form, "from", "to"]
    good = place.run(words)
    if good.left == PART:
        place.whole = read(os.path.join(place.folder, "to"))
        good = good._replace(left=WHOLE)
    wanted = ABSENT if status in (1, 3) else WHOLE
    if status in (0, 8) and len(place.whole) != SIZES[form]:
        place.failures.append("%s: a target of %d bytes" % (name, len(place.whole)))
    place.expect("undisturbed: " + name, good, (status,), (wanted,), good.text)
    asked(place, name, good)
    streams(place, words, good)
    disturbed(place, name, words, good)
    killed(place, name, words, good)


def main(program: str) -> bool:
    if not has_compiler():
        print("failing_conversions: left out, no C compiler here (%s)" % compiler()[0])
        return True
    with tempfile.TemporaryDirectory() as folder:
        place = Place(os.path.realpath(program), built_shim(folder), folder)
        for row in conversions():
            one(place, *row)
    for failure in place.failures[:60]:
        print("failing_conversions: " + failure)
    print("; ".join("%s %d" % pair for pair in sorted(place.passed.items())))
    print("failing_conversions: %d passed, %d failed" % (sum(place.passed.values()), len(place.failures)))
    return not place.failures


if __name__ == "__main__":
    if len(sys.argv) != 2:
        sys.exit(__doc__)
    sys.exit(0 if main(sys.argv[1]) else 1)
