# SPDX-License-Identifier: MIT
"""`put` of the built program: the files of the host that it saves on a disc, what refuses it, and where host, disc or system fail it.

The discs are read by the reference afterwards, and `get` has to give back what `put` saved. No file of the host may change. The suite
is that of tools/checks/host_files.py, which is run by tools/checks/run.py.
"""
from __future__ import annotations

import errno
import hashlib
import os
import random
import subprocess
import threading
from typing import Callable, Dict, Iterator, List, NamedTuple, Optional, Tuple

from tools.checks.outside import fault, some_of
from tools.checks.selection import Suite, shortened
from tools.checks.work_folders import Content, fill, snapshot
from tools.files import read
from tools.images.fragmented import hard_disc
from tools.images.large import SparseFile
from tools.reference.change_state import State
from tools.reference.filecore import IS_DIRECTORY, NOT_FOUND

SECONDS = 120
ZEROS = "00000000 00000000"
SIZES = (0, 1, 255, 256, 4095, 4096, 4097, 65_535, 65_536, 65_537, 70_000)
LONGEST = 4_294_967_295
LONG = 20_000_000
Tree = Dict[bytes, Tuple[int, int, bytes]]  # of files: load word, execution word, bytes
Run = Callable[..., "subprocess.CompletedProcess[bytes]"]


class Case(NamedTuple):
    """A script over a disc, what stands beside it, what is answered, and the files that the disc then has more or has changed."""

    script: str
    status: int
    answer: str
    before: Content = {}
    files: Tree = {}
    words: Tuple[str, ...] = ()


def bytes_of(length: int) -> bytes:
    return random.Random(length).randbytes(length)


def refused(line: str, error: str, before: Content = {}, words: Tuple[str, ...] = ()) -> Case:
    return Case(line + "\n", 1, error, before, {}, words)


def fails(before: Content, name: str = "a") -> Case:
    """A name that is no plain file ends the run, after the replies to the lines before."""
    return Case("load $.Hello\nput %s $.A %s\nfree\n" % (name, ZEROS), 11, "48656c6c6f\nok\n", before)


OWN: Content = {b"a": b"AB"}
CASES: Dict[str, Case] = {
    "put-a-file": Case("put a $.A fffffd00 12345678\n", 0, "ok\n", OWN, {b"A": (0xFFFFFD00, 0x12345678, b"AB")}),
    "put-into-a-directory": Case("put a $.D.A %s\n" % ZEROS, 0, "ok\n", OWN, {b"D.A": (0, 0, b"AB")}),
    "put-over-a-file": Case("put a $.hello %s\n" % ZEROS, 0, "ok\n", OWN, {b"Hello": (0, 0, b"AB")}),
    "put-twice": Case("put a $.A %s\nput a $.A %s\n" % (ZEROS, ZEROS), 0, "ok\nok\n", OWN, {b"A": (0, 0, b"AB")}),
    "put-into-slack": Case("save $.D.X %s 41\nput a $.D.Y %s\nput a $.D.Z %s\n" % (ZEROS, ZEROS, ZEROS), 0, "ok\n" * 3, OWN,
                           {b"D.X": (0, 0, b"A"), b"D.Y": (0, 0, b"AB"), b"D.Z": (0, 0, b"AB")}),
    "put-between-other-lines": Case("cdir $.E\nput a $.E.A %s\nload $.E.A\nrename $.E.A $.A\ndelete $.E\n" % ZEROS, 0, "ok\nok\n4142\nok\nok\nok\n",
                                    OWN, {b"A": (0, 0, b"AB")}),
    "put-what-was-got": Case("get $.Hello b\nput b $.A %s\n" % ZEROS, 0, "ok\nok\n", {}, {b"A": (0, 0, b"Hello")}),
    "put-a-link": Case("put b $.A %s\n" % ZEROS, 0, "ok\n", {**OWN, b"b": "-> a"}, {b"A": (0, 0, b"AB")}),
    "put-no-file": refused("put none $.A " + ZEROS, "error 18 NoHostFile\n"),
    "put-a-link-to-nothing": refused("put b $.A " + ZEROS, "error 18 NoHostFile\n", {b"b": "-> none"}),
    # the path is judged before the host is asked: none of these files is there
    "put-no-directory": refused("put none $.None.A " + ZEROS, NOT_FOUND),
    "put-over-a-directory": refused("put none $.D " + ZEROS, IS_DIRECTORY),
    "put-over-the-root": refused("put none $ " + ZEROS, IS_DIRECTORY),
    "put-into-a-file": refused("put none $.Hello.A " + ZEROS, "error 4 NotDirectory\n"),
    "put-a-long-name": refused("put none $.ElevenBytes " + ZEROS, "error 2 BadName\n"),
    "put-no-path": refused("put none A " + ZEROS, "error 2 BadName\n"),
    "put-over-a-locked-file": Case("set $.Hello %s RL\nput none $.Hello %s\n" % (ZEROS, ZEROS), 1, "ok\nerror 9 Locked\n", {},
                                   {b"Hello": (0, 0, b"Hello")}),
    "put-read-only": refused("put none $.A " + ZEROS, "error 11 ReadOnly\n", words=("--read-only",)),
    "put-words": Case("put\nput a\nput a $.A\nput a $.A 0 0\nput a $.A %s 1\nPUT a $.A %s\nput .a $.A %s\nput a/b $.A %s\n" % ((ZEROS,) * 4), 1,
                      "error 1 BadCommand\n" * 8, OWN),
    # the disc is asked after the host
    "put-more-than-the-disc-holds": refused("put a $.A " + ZEROS, "error 14 DiscFull\n", {b"a": bytes(900_000)}),
    "put-a-folder": fails({b"a": None}),
    "put-a-link-to-a-folder": fails({b"a": "-> b", b"b": None}),
    "put-a-link-to-itself": fails({b"a": "-> a"}),
    "put-a-device": fails({b"a": "-> /dev/zero"}),
    "put-the-image": fails({}, "hello.adf"),
    "put-a-link-to-the-image": fails({b"a": "-> hello.adf"}),
}


def tree_of(image: bytes) -> Tree:
    """The files of a disc, by their paths."""
    state = State(image)
    return {b".".join(entry.path): (entry.load, entry.execution, bytes(state.content(entry)))
            for key, entry in state.objects.items() if key and not entry.is_directory()}


class Discs:
    """A folder with a disc, in which the program is run."""

    def __init__(self, folder: str, image: bytes, run: Run) -> None:
        self.folder, self.image, self.run, self.files = folder, image, run, tree_of(image)

    def start(self, before: Content) -> None:
        os.makedirs(self.folder, exist_ok=True)
        for name in os.listdir(self.folder):
            subprocess.run(["rm", "-rf", os.path.join(self.folder, name)], check=True)
        fill(os.fsencode(self.folder), {b"hello.adf": self.image, **before})

    def found(self) -> bytes:
        return read(os.path.join(self.folder, "hello.adf"))

    def differences(self, ran: "subprocess.CompletedProcess[bytes]", case: Case) -> Iterator[str]:
        """What differs from what has to be: the end, the text, the disc, and the files of the host."""
        text = ran.stdout.decode("utf-8", "replace")
        if (ran.returncode, text) != (case.status, case.answer) or ran.stderr:
            yield "wanted status %d, got %d, and errors %r" % (case.status, ran.returncode, ran.stderr[:80])
            yield from ["wanted", *shortened(case.answer), "got", *shortened(text)]
        if tree_of(self.found()) != {**self.files, **case.files}:
            yield "the disc doesn't hold what it has to"
        if not case.files and case.status and self.found() != self.image:
            yield "the disc was changed"
        left = snapshot(os.fsencode(self.folder))
        yield from ("%r was changed" % name for name, content in case.before.items() if left.get(name, ...) != content)


def put_cases(suite: Suite, discs: Discs) -> None:
    for name, case in CASES.items():
        if suite.wants(name):
            discs.start(case.before)
            suite.note(name, list(discs.differences(discs.run(case.script, case.words), case)))
    for size in SIZES:
        name = "put-and-get-%d-bytes" % size
        if suite.wants(name):
            content = bytes_of(size)
            case = Case("put a $.A %s\nget $.A b\nput b $.D.B %s\n" % (ZEROS, ZEROS), 0, "ok\n" * 3, {b"a": content},
                        {b"A": (0, 0, content), b"D.B": (0, 0, content)})
            discs.start(case.before)
            wrong = list(discs.differences(discs.run(case.script), case))
            suite.note(name, wrong if read(os.path.join(discs.folder, "b")) == content else [*wrong, "`get` gave other bytes"])
    if suite.wants("put-a-pipe"):
        discs.start({})
        os.mkfifo(os.path.join(discs.folder, "a"))
        ran = discs.run(fails({}).script)
        os.unlink(os.path.join(discs.folder, "a"))
        suite.note("put-a-pipe", list(discs.differences(ran, fails({}))))
    fresh_discs(suite, discs)
    too_long(suite, discs)
    growing_file(suite, discs)
    long_file(suite, discs)


def fresh_discs(suite: Suite, discs: Discs) -> None:
    """Scripts over discs of each format, which are worked out by hand."""
    for form in ("E", "F", "D", "L", "E+", "F+"):
        name = "put-onto-a-fresh-%s" % form
        if suite.wants(name):
            discs.start({b"a.txt": b"AB"})
            os.unlink(os.path.join(discs.folder, "hello.adf"))
            ran = discs.run("put a.txt $.A %s\nget $.A b.txt\nget $.A b.txt\nput c.txt $.C %s\n" % (ZEROS, ZEROS), ("--new", form))
            wanted = (1, b"ok\nok\nerror 20 HostExists\nerror 18 NoHostFile\n")
            made = read(os.path.join(discs.folder, "b.txt"))
            suite.note(name, [] if (ran.returncode, ran.stdout) == wanted and made == b"AB" and tree_of(discs.found()) == {b"A": (0, 0, b"AB")}
                       else ["status %d, %r, %r" % (ran.returncode, ran.stdout, made)])


def too_long(suite: Suite, discs: Discs) -> None:
    """Files of more bytes than an entry can say, which have none on the host."""
    for name, size, error in (("put-4-gb", LONGEST + 1, "error 19 HostTooLong\n"), ("put-almost-4-gb", LONGEST, "error 14 DiscFull\n")):
        if suite.wants(name):
            discs.start({b"a": b""})
            os.truncate(os.path.join(discs.folder, "a"), size)
            case = Case("put a $.A %s\n" % ZEROS, 1, error)
            ran = discs.run(case.script)
            os.truncate(os.path.join(discs.folder, "a"), 0)
            suite.note(name, list(discs.differences(ran, case)))


def growing_file(suite: Suite, discs: Discs) -> None:
    """A file to which another program adds: the disc gets what it had when it was looked for."""
    if not suite.wants("put-a-file-that-grows"):
        return
    first, done = bytes_of(300_000), threading.Event()
    discs.start({b"a": first})

    def grow() -> None:
        with open(os.path.join(discs.folder, "a"), "ab", buffering=0) as file:
            for _ in range(2000):
                if not done.wait(0.0005):
                    file.write(b"more" * 25)

    other = threading.Thread(target=grow)
    other.start()
    ran = discs.run("put a $.A %s\n" % ZEROS)
    done.set()
    other.join()
    whole, got = read(os.path.join(discs.folder, "a")), tree_of(discs.found()).get(b"A", (0, 0, b""))[2]
    suite.note("put-a-file-that-grows", [] if ran.returncode == 0 and len(got) >= len(first) and whole.startswith(got)
               else ["status %d, %r, %d bytes" % (ran.returncode, ran.stdout, len(got))])


def long_file(suite: Suite, discs: Discs) -> None:
    """A file of 20 MB onto a hard disc and back, without memory of its size."""
    if not suite.wants("put-20-mb"):
        return
    discs.start({b"a": bytes_of(LONG)})
    volume = hard_disc(10, 15, 10, 62, big=True)
    with open(os.path.join(discs.folder, "hello.adf"), "wb") as file:
        volume.write(SparseFile(file, volume.shape.record.size))
    ran = discs.run("put a $.A %s\nget $.A b\ndigest $.A\ncheck\n" % ZEROS)
    digest, wrong = hashlib.sha256(bytes_of(LONG)).hexdigest(), []
    if ran.returncode or not ran.stdout.decode().startswith("ok\nok\n%s\nok\n" % digest):
        wrong.append("status %d, %r" % (ran.returncode, ran.stdout[:200]))
    elif hashlib.sha256(read(os.path.join(discs.folder, "b"))).hexdigest() != digest:
        wrong.append("`get` gave other bytes")
    suite.note("put-20-mb", wrong)


# ---- calls that fail

# How the calls of each kind are disturbed, and how the run may end. None: as if nothing had been.
DISTURBED: Dict[str, List[Tuple[object, Tuple[Optional[int], ...]]]] = {
    "open": [(errno.EINTR, (None,)), (errno.EIO, (4, 11, 12)), (errno.EMFILE, (4, 11, 12))],
    "statx": [(errno.EINTR, (None,)), (errno.EIO, (4, 11, None))],
    "pread": [(errno.EINTR, (None,)), (errno.EIO, (4, 11)), ("short", (None,)), ("one", (None,)), ("none", (4, 11))],
    "pwrite": [(errno.EINTR, (None,)), (errno.EIO, (4,)), (errno.ENOSPC, (4,)), ("short", (None,)), ("one", (None,)), ("none", (4,))],
    "fsync": [(errno.EINTR, (None,)), (errno.EIO, (4,))],
    "memory": [(errno.ENOMEM, (7, None))],
}
DISTURBED_SCRIPT = "load $.Hello\nput a $.D.New %s\nput none $.N %s\n" % (ZEROS, ZEROS)
UNDISTURBED = "48656c6c6f\nok\nok\nerror 18 NoHostFile\n"


def puts_that_fail(suite: Suite, discs: Discs, shim: str, log: str) -> None:
    """Each call in turn. A disc that the host failed holds what it held; one that it failed itself opens, or its own check says why not."""
    if not suite.wants("puts-that-fail"):
        return
    wrong, content = [], bytes_of(200_000)
    whole = {**discs.files, b"D.New": (0, 0, content)}

    def disturbed(faults: str) -> Tuple[int, str, Tree, List[str]]:
        discs.start({b"a": content})
        if os.path.exists(log):
            os.unlink(log)
        ran = discs.run(DISTURBED_SCRIPT, (), {"LD_PRELOAD": shim, "OUTSIDE_FAULTS": faults, "OUTSIDE_LOG": log})
        with open(log, errors="replace") as file:
            return ran.returncode, ran.stdout.decode(), tree_of(discs.found()), file.read().splitlines()

    status, text, tree, calls = disturbed("")
    if (status, text, tree) != (1, UNDISTURBED, whole):
        wrong.append("undisturbed: status %d, %r" % (status, text))
    counts: Dict[str, int] = {"memory": int(calls[-1].split(" ", 3)[3])}
    for call in calls[:-1]:
        counts[call.split(" ")[0]] = counts.get(call.split(" ")[0], 0) + 1
    for kind, ways in DISTURBED.items():
        for how, statuses in ways:
            for number in some_of(counts.get(kind, 0), 20):
                faults = fault(kind, number, how)  # type: ignore[arg-type]
                status, text, tree, _ = disturbed(faults)
                left = (discs.files,) if status in (7, 11, 12) and text.count("ok\n") < 2 else (discs.files, whole) if status == 4 else (whole,)
                if (None if status == 1 else status) not in statuses or not UNDISTURBED.startswith(text) or tree not in left:
                    wrong.append("%s: status %d, %r" % (faults, status, text))
    suite.note("puts-that-fail", wrong)
