# SPDX-License-Identifier: MIT
"""What a job of fcdisc has to keep to in each condition, whatever the job: the rows are in fcdisc_table.py.

In each condition it is compared with its run where all is well: files that were there are as they were, or, if the job changes the
image, the image is as it is after the job; a new file is there whole or not at all.
"""
from __future__ import annotations

import contextlib
import ctypes
import fnmatch
import os
import re
import shutil
import signal
import subprocess
import sys
from typing import Dict, Iterator, List, Mapping, NamedTuple, Optional, Tuple, Union

from tools.checks.selection import shortened
from tools.checks.work_folders import Content, snapshot
from tools.files import TOOLS

GOOD, FULL, READ_ONLY, INTERRUPT, KILL, HOSTILE = CONDITIONS = ("good", "full", "read-only", "interrupt", "kill", "hostile")
STOPS = os.path.join(TOOLS, "checks", "fcdisc_stops.py")
IMAGE = b"a.adf"  # what a job that changes an image changes
EVIL = b"-h\n\x1b[31m'$(x)"  # before each name of the host
EACH_STOP = os.environ.get("STOPS") == "each"  # before each change of the host, which takes many minutes; else before one or two
ROOM = 4096  # that a full host still has: what is written first fits
PAUSED = '#!/bin/sh\n%s\nkill -%d 0\nexec "%s" "$@"\n'  # in fcore's place
ONLY_IF_IT_CHANGES = 'case "$*" in *read-only*) exec "%s" "$@";; esac'


class Row(NamedTuple):
    """A job, or a form of it. `before`: what it needs in its folder. `out` and `err`: `...` stands for any text."""

    name: str
    before: str
    options: List[str]
    operands: List[str]
    out: str = ""
    err: str = ""
    status: int = 0
    makes: str = ""  # what is new in the folder; patterns as of a shell
    changes: bool = False  # the image that is called a.adf
    hostile: Optional[List[str]] = None  # operands over the disc with hostile names
    hostile_status: int = 0
    again: Optional[List[str]] = None  # operands after a kill, if the same ones are refused then: the name x is y
    except_for: Mapping[str, str] = {}  # why a condition can't apply, by its name

    @property
    def writes(self) -> bool:
        return self.changes or bool(self.makes)

    @property
    def words(self) -> List[str]:
        return [*self.options, *self.operands]

    @property
    def words_again(self) -> List[str]:
        return [*self.options, *(self.again or self.operands)]


class Ran(NamedTuple):
    out: str
    err: str
    status: int
    left: Content


def agrees(wanted: str, got: str) -> bool:
    return re.fullmatch(".*".join(map(re.escape, wanted.split("..."))), got, re.DOTALL) is not None


def is_temporary(name: bytes) -> bool:
    return os.path.basename(name).startswith(b".fcdisc-")


class Bench:
    """A folder of its own for a row: `work` is anew for each run; `tmp` is the host's place for temporary files."""

    def __init__(self, row: Row, folder: str, fcdisc: str, fcore: str, before: Content, hostile: Content) -> None:
        self.row, self.folder, self.fcdisc, self.fcore = row, os.fsencode(folder), fcdisc, fcore
        self.before, self.hostile = before, hostile
        self.good: Optional[Ran] = None
        self.changes = 0  # of the host, in the good run
        for name in (b"room", b"tmp", b"fake"):
            os.mkdir(self.place(name))

    def place(self, name: bytes) -> bytes:
        return os.path.join(self.folder, name)

    # runs

    def fill(self, before: Content) -> None:
        shutil.rmtree(self.place(b"room/work"), ignore_errors=True)
        os.mkdir(self.place(b"room/work"))
        for name, data in before.items():
            path = self.place(b"room/work/" + name)
            if data is None:
                os.mkdir(path)
                continue
            assert isinstance(data, bytes)
            with open(path, "wb") as file:
                file.write(data)
            os.utime(path, (10 ** 9, 10 ** 9))  # jobs give files of discs the times of the host

    def run(self, words: List[str], stop: Tuple[int, int] = (0, 0), fcore: Optional[str] = None, full: bool = False) -> Ran:
        """`stop`: a signal, and before which change of the host it is to come."""
        command = [sys.executable, "-S", STOPS, *map(str, stop), os.fsdecode(self.place(b"told")), self.fcdisc, *words] if fcore is None else [
            self.fcdisc, *words]
        environment = {**os.environ, "FCORE": fcore or self.fcore, "COLUMNS": "80", "LC_ALL": "C.UTF-8", "TMPDIR": os.fsdecode(self.place(b"tmp"))}
        with open("/dev/full" if full else os.devnull, "wb") as nowhere:
            done = subprocess.run(command, cwd=self.place(b"room/work"), env=environment, stdin=subprocess.DEVNULL, stderr=subprocess.PIPE,
                                  stdout=nowhere if full else subprocess.PIPE, timeout=600, check=False, start_new_session=True)
        return Ran((done.stdout or b"").decode("utf-8", "replace"), done.stderr.decode("utf-8", "replace"), done.returncode,
                   snapshot(self.place(b"room/work")))

    def stopped(self, number: int, at: int) -> Ran:
        self.fill(self.before)
        return self.run(self.row.words, (number, at))

    def stopped_in_fcore(self, number: int) -> Ran:
        """The signal comes when fcore has begun: of a job that changes an image, the fcore that changes it."""
        self.fill(self.before)
        fake = self.place(b"fake/fcore")
        with open(fake, "w") as file:
            file.write(PAUSED % (ONLY_IF_IT_CHANGES % self.fcore if self.row.changes else "", number, self.fcore))
        os.chmod(fake, 0o755)
        return self.run(self.row.words, fcore=os.fsdecode(fake))

    # the conditions

    def differences(self, condition: str) -> Iterator[str]:
        """What isn't as it has to be. The good run comes first."""
        yield from {GOOD: self.well, FULL: self.full, READ_ONLY: self.read_only, INTERRUPT: self.interrupted, KILL: self.killed,
                    HOSTILE: self.with_hostile_names}[condition]()
        yield from ("%s is left among temporary files" % os.fsdecode(name) for name in sorted(os.listdir(self.place(b"tmp"))))
        shutil.rmtree(self.place(b"tmp"))
        os.mkdir(self.place(b"tmp"))

    def well(self) -> Iterator[str]:
        self.fill(self.before)
        self.good = ran = self.run(self.row.words)
        with open(self.place(b"told")) as file:
            self.changes = int(file.read())
        yield from told("output", self.row.out, ran.out)
        yield from told("errors", self.row.err, ran.err)
        yield from told("status", str(self.row.status), str(ran.status))
        new = {name.decode("utf-8", "replace") for name in ran.left if name not in self.before}
        patterns = self.row.makes.split()
        yield from ("%s wasn't to be made" % name for name in sorted(new) if not any(fnmatch.fnmatchcase(name, one) for one in patterns))
        yield from ("%s wasn't made" % one for one in patterns if not fnmatch.filter(new, one))
        yield from self.old_ones(ran, self.row.changes)
        if self.row.changes and ran.left.get(IMAGE) == self.before[IMAGE]:
            yield "the image isn't changed"

    def old_ones(self, ran: Ran, may_be_done: bool) -> Iterator[str]:
        """What was there is there, as it was, or as after the job; of backups that are moved by it too."""
        assert self.good
        for name, data in self.before.items():
            now = ran.left.get(name, b"gone")
            if now != data and not (may_be_done and now == self.good.left.get(name, b"gone")):
                yield "%s %s" % (os.fsdecode(name), "is gone" if name not in ran.left else "is changed")

    def new_ones(self, ran: Ran, may_be_left: bool = False) -> Iterator[str]:
        """A new file is as after the good run; one that is written is cleared away."""
        assert self.good
        for name, data in ran.left.items():
            if is_temporary(name):
                if not may_be_left:
                    yield "%s is left" % os.fsdecode(name)
            elif name not in self.before and (name not in self.good.left or data not in (self.good.left[name], self.before.get(IMAGE, b""))):
                yield "%s is left, and isn't whole" % os.fsdecode(name)

    def full(self) -> Iterator[str]:
        """A host without room for what is made, or for what is printed."""
        assert self.good
        if not self.row.writes:
            self.fill(self.before)
            ran = self.run(self.row.words, full=True)
            yield from told("errors", "...fcdisc: standard output: No space left on device\n", ran.err)
        else:
            size = sum(len(data) for data in self.before.values() if data) + (1 << 20)
            with self.mounted(["-t", "tmpfs", "-o", "size=%d" % size, "none"]):
                self.fill(self.before)
                self.leave(ROOM)
                ran = self.run(self.row.words)
            if not re.search(r"No space left on device|\bthe files need\b", ran.err):
                yield "it doesn't say what is wrong: " + ran.err
            if self.row.out and ran.out == self.good.out:
                yield "it says that all was done"
        yield from told("status", "1", str(ran.status))
        yield from odd_words(ran)
        yield from self.old_ones(ran, False)
        yield from self.new_ones(ran)

    def leave(self, room: int) -> None:
        """Fills the host but for so many bytes."""
        with open(self.place(b"room/pad"), "wb", buffering=0) as file:
            size = 0
            with contextlib.suppress(OSError):
                while True:
                    size += file.write(bytes(65536)) or 0
            file.truncate(max(0, (size - room) // 4096 * 4096))

    def read_only(self) -> Iterator[str]:
        assert self.good
        self.fill(self.before)
        with self.mounted(["--bind", os.fsdecode(self.place(b"room"))]):
            subprocess.run(["mount", "-o", "remount,bind,ro", self.place(b"room")], check=True)
            ran = self.run(self.row.words)
        if not self.row.writes:
            yield from ("%s is another than where all is well" % what for what, one, other in zip(Ran._fields, self.good, ran) if one != other)
            return
        if not re.search("Read-only file system|write-protected on this host", ran.err):
            yield "it doesn't say what is wrong: " + ran.err
        yield from odd_words(ran)
        yield from told("status", "1", str(ran.status))
        yield from (() if ran.left == self.before else ["something was changed"])

    def interrupted(self) -> Iterator[str]:
        for at, ran in self.each_stop(signal.SIGINT, [(self.changes + 1) // 2]):
            yield from told("status, interrupted %s" % at, str(-signal.SIGINT), str(ran.status))
            yield from ("interrupted %s: %s" % (at, line) for line in [
                *("it says: " + line for line in ran.err.splitlines() if not agrees(self.row.err, line + "\n")),
                *self.old_ones(ran, self.row.changes), *self.new_ones(ran)])

    def each_stop(self, number: int, changes: List[int]) -> Iterator[Tuple[str, Ran]]:
        if "fcore" not in self.row.except_for:
            yield "in fcore", self.stopped_in_fcore(number)
        for at in range(1, self.changes + 1) if EACH_STOP else sorted({*changes} - {0}):
            yield "before change %d of %d" % (at, self.changes), self.stopped(number, at)

    def killed(self) -> Iterator[str]:
        """A kill leaves whole files and those that nobody has locked; the same job again clears these away, and does the rest."""
        assert self.good
        for at, ran in self.each_stop(signal.SIGKILL, [(self.changes + 1) // 2, self.changes]):
            yield from told("status, killed %s" % at, str(-signal.SIGKILL), str(ran.status))
            wrong = [*self.old_ones(ran, self.row.changes), *self.new_ones(ran, True)]
            if ran.left != self.before or os.listdir(self.place(b"tmp")):  # else the next run is as the good one
                again = self.run(self.row.words_again)
                if self.row.again:
                    again = again._replace(left=renamed(again.left))
                wrong += ["then, " + line for line in (*self.new_ones(again), *self.not_done(ran, again))]
            yield from ("killed %s: %s" % (at, line) for line in wrong)

    def not_done(self, killed: Ran, again: Ran) -> Iterator[str]:
        """After the second run all is there. A change that was made before the kill may be made once more."""
        assert self.good
        if self.row.changes and killed.left.get(IMAGE) != self.before[IMAGE]:
            return
        yield from self.old_ones(again, self.row.changes)
        if again.left != self.good.left:
            lacks = sorted(set(self.good.left) ^ set(again.left))
            yield "status %d: not all is done: %s" % (again.status, b" ".join(lacks).decode("utf-8", "replace") or "other bytes")
            yield from again.err.splitlines()

    def with_hostile_names(self) -> Iterator[str]:
        """Names of the host and of a disc that would be options, lead elsewhere, or upset a terminal."""
        plain = {name.split(b"/")[0] for name in (*self.before, *(pattern.encode() for pattern in self.row.makes.split()))}
        self.fill({EVIL + name: data for name, data in self.hostile.items()})
        beside = snapshot(self.place(b"fake")), sorted(os.listdir(self.folder))
        operands = []
        for word in self.row.hostile or self.row.operands:
            head = os.fsencode(word).split(b"/")[0]
            operands.append(os.fsdecode(EVIL) + word if head in plain else word)
        ran = self.run([*self.row.options, "--", *operands])
        if ran.status != self.row.hostile_status:
            yield "status %d: %s" % (ran.status, ran.err)
        yield from odd_words(ran)
        if beside != (snapshot(self.place(b"fake")), sorted(os.listdir(self.folder))):
            yield "something was made elsewhere"
        for name in ran.left:
            if is_temporary(name) or min(name) < 32 and not name.startswith(EVIL):
                yield "%r was made" % name

    @contextlib.contextmanager
    def mounted(self, words: List[str]) -> Iterator[None]:
        subprocess.run(["mount", *words, self.place(b"room")], check=True)
        try:
            yield
        finally:
            subprocess.run(["umount", "-l", self.place(b"room")], check=True)


def renamed(left: Content) -> Content:
    """What was made under the name y is compared with what the good run made under the name x. What a kill left under x stays."""
    return {re.sub(b"^y(?=/|$)", b"x", name): data for name, data in left.items() if not re.match(b"x(/|$)", name)}


def told(what: str, wanted: str, got: str) -> List[str]:
    return [] if agrees(wanted, got) else [what + ": wanted", *shortened(wanted, 1500), "got", *shortened(got, 1500)]


def odd_words(ran: Ran) -> Iterator[str]:
    """What no message of fcdisc may have: Python's words, names of temporary files, and letters that a terminal obeys."""
    for line in (ran.out + "\n" + ran.err).split("\n"):
        if re.search(r"Traceback|\.fcdisc-|Errno|[\x00-\x08\x0b-\x1f\x7f-\x9f\u202e]", line):
            yield "it says: " + ascii(line)


def own_mounts() -> bool:
    """Gives this process a view of its own of what is mounted, so that nothing that it mounts is left. False without the right to."""
    try:
        if ctypes.CDLL(None, use_errno=True).unshare(0x20000):
            return False
    except AttributeError:
        return False
    return subprocess.run(["mount", "--make-rprivate", "/"], capture_output=True, check=False).returncode == 0
