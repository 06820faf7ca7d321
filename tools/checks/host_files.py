# SPDX-License-Identifier: MIT
"""`get` and `put` of the built program: here the files of the host that `get` makes, what it leaves alone, and where the system fails it.

No case may change anything in its folder but the file that it is to make. The suite is run by tools/checks/run.py.
"""
from __future__ import annotations

import errno
import os
import resource
import shutil
import signal
import subprocess
import tempfile
from typing import Callable, Dict, Iterator, List, NamedTuple, Optional, Sequence, Tuple

from tools.checks.host_puts import Discs, put_cases, puts_that_fail
from tools.checks.outside import EVERY, NOBODY, fault, some_of
from tools.checks.selection import Suite, shortened
from tools.checks.work_folders import Content, fill, snapshot
from tools.files import built_shim, compiler, has_compiler
from tools.images import table
from tools.reference.filecore import IS_DIRECTORY, NOT_FOUND

SECONDS = 120
BIG = bytes(at * 7 % 251 for at in range(200_000))  # four blocks of the program
NAMES = ("a" * 64, "0", "A-b_c.D", "z..", "9.tar.gz")
NO_NAMES = ("." * 3, ".b", "-b", "_b", "a/b", "/b", "..", "a%20b", "a" * 65, "b\\c", "b:c", "b*", "b\tc", "b\x7f")
IN_OWN_FOLDER = "hello.adf"


class Case(NamedTuple):
    """A script over the image, what stands beside it, and what comes of it."""

    script: str
    status: int
    answer: str
    made: Content = {}
    before: Content = {}
    words: Tuple[str, ...] = ()


def exists(before: Content) -> Case:
    """A name that a file has is refused, and the script goes on."""
    return Case("get $.Hello b.txt\nget $.Hello c.txt\n", 1, "error 20 HostExists\nok\n", {b"c.txt": b"Hello"}, before)


def fails(before: Content, name: str = "b.txt") -> Case:
    """A name that can be no file ends the run, after the replies to the lines before."""
    return Case("load $.Hello\nget $.Hello %s\nfree\n" % name, 11, "48656c6c6f\nok\n", {}, before)


CASES: Dict[str, Case] = {
    "a-file": Case("get $.hello b.txt\n", 0, "ok\n", {b"b.txt": b"Hello"}),
    "read-only": Case("get $.Hello b.txt\n", 0, "ok\n", {b"b.txt": b"Hello"}, words=("--read-only",)),
    "an-empty-file": Case("get $.Empty b\n", 0, "ok\n", {b"b": b""}),
    "several-blocks": Case("get $.D.Big b\n", 0, "ok\n", {b"b": BIG}),
    "between-other-lines": Case("cdir $.E\nget $.Hello b\ndelete $.E\n", 0, "ok\nok\nok\n", {b"b": b"Hello"}),
    "what-was-just-saved": Case("save $.N 00000000 00000000 4142\nget $.N b\ndelete $.N\n", 0, "ok\nok\nok\n", {b"b": b"AB"}),
    "twice": Case("get $.Hello b.txt\nget $.Hello b.txt\n", 1, "ok\nerror 20 HostExists\n", {b"b.txt": b"Hello"}),
    "path-first": Case("get $.None b\nget $ b\nget $.Hello c\n", 1,
                       NOT_FOUND + IS_DIRECTORY + "ok\n", {b"c": b"Hello"}, {b"b": b"own"}),
    "no-path": Case("get Hello b\nget $..A b\n", 1, "error 2 BadName\nerror 2 BadName\n"),
    "names": Case("".join("get $.Hello %s\n" % name for name in NAMES), 0, "ok\n" * len(NAMES),
                  {name.encode(): b"Hello" for name in NAMES}),
    "no-names": Case("".join("get $.Hello %s\n" % name for name in NO_NAMES), 1, "error 1 BadCommand\n" * len(NO_NAMES)),
    "words": Case("get\nget $.Hello\nget $.Hello b c\nGET $.Hello b\n", 1, "error 1 BadCommand\n" * 4),
    "bad-image": Case("get $.Hello b\n", 3, "bad-image NoKind\n", {}, {b"hello.adf": bytes(819200)}),
    "a-file-is-there": exists({b"b.txt": b"own"}),
    "an-empty-file-is-there": exists({b"b.txt": b""}),
    "a-link-to-a-file": exists({b"b.txt": "-> own", b"own": b"own"}),
    "a-link-to-nothing": fails({b"b.txt": "-> none"}),
    "a-link-to-itself": fails({b"b.txt": "-> b.txt"}),
    "a-link-to-a-device": fails({b"b.txt": "-> /dev/full"}),
    "a-folder": fails({b"b.txt": None}),
    "a-link-to-a-folder": fails({b"b.txt": "-> own", b"own": None}),
    "the-image": fails({}, IN_OWN_FOLDER),
    "a-link-to-the-image": fails({b"b.txt": "-> hello.adf"}),
}


def image() -> bytes:
    volume = table.hello()
    volume.root.insert(volume.file(b"Empty", b""))
    inner = volume.root.insert(volume.directory(volume.root, b"D"))
    inner.insert(volume.file(b"Big", BIG))
    return bytes(volume.image())


class Place:
    """A folder with the image, in which the program is run."""

    def __init__(self, program: str, folder: str, content: bytes) -> None:
        self.program, self.root, self.content = program, folder, content
        self.folder = os.path.join(folder, "place")

    def fill(self, before: Content) -> None:
        shutil.rmtree(self.folder, ignore_errors=True)
        os.makedirs(self.folder)
        fill(os.fsencode(self.folder), {b"hello.adf": self.content, **before})

    def run(self, script: str, words: Sequence[str] = (), environment: Optional[Dict[str, str]] = None,
            begin: Optional[Callable[[], None]] = None) -> subprocess.CompletedProcess[bytes]:
        return subprocess.run([self.program, *words, "hello.adf"], cwd=self.folder, input=script.encode(), capture_output=True,
                              timeout=SECONDS, check=False, env=environment, preexec_fn=begin)

    def differences(self, ran: subprocess.CompletedProcess[bytes], status: int, answer: str, before: Content, made: Content) -> Iterator[str]:
        """What differs from what has to be: the end, the text, and what is in the folder."""
        found, text = snapshot(os.fsencode(self.folder)), ran.stdout.decode("utf-8", "replace")
        if (ran.returncode, text) != (status, answer) or ran.stderr:
            yield "wanted status %d, got %d, and errors %r" % (status, ran.returncode, ran.stderr[:80])
            yield from ["wanted", *shortened(answer), "got", *shortened(text)]
        wanted = {b"hello.adf": self.content, **before, **made}
        for name in sorted(set(found) | set(wanted)):
            if name != b"hello.adf" and found.get(name, ...) != wanted.get(name, ...):
                yield "%r isn't what it has to be" % name


def plain_cases(suite: Suite, place: Place) -> None:
    for name, case in CASES.items():
        if suite.wants(name):
            place.fill(case.before)
            ran = place.run(case.script, case.words)
            suite.note(name, list(place.differences(ran, case.status, case.answer, case.before, case.made)))


# ---- names that only some systems have, and hosts that take no file


def host_cases(suite: Suite, place: Place) -> None:
    text = "load $.Hello\nget $.D.Big b\nfree\n"
    if suite.wants("a-pipe"):
        place.fill({})
        os.mkfifo(os.path.join(place.folder, "b"))
        ran = place.run(text)
        os.unlink(os.path.join(place.folder, "b"))
        suite.note("a-pipe", list(place.differences(ran, 11, "48656c6c6f\nok\n", {}, {})))
    if suite.wants("the-image-by-another-name"):
        place.fill({})
        os.link(os.path.join(place.folder, "hello.adf"), os.path.join(place.folder, "b"))
        ran = place.run(text)
        suite.note("the-image-by-another-name", list(place.differences(ran, 11, "48656c6c6f\nok\n", {b"b": place.content}, {})))
    if suite.wants("a-read-only-folder"):
        place.fill({})
        os.chmod(place.folder, 0o555)
        ran = place.run(text, begin=be_nobody if os.getuid() == 0 else None)
        os.chmod(place.folder, 0o755)
        suite.note("a-read-only-folder", list(place.differences(ran, 11, "48656c6c6f\nok\n", {}, {})))
    if suite.wants("files-have-a-limit"):
        place.fill({})
        ran = place.run(text, begin=limited)
        suite.note("files-have-a-limit", list(place.differences(ran, 11, "48656c6c6f\nok\n", {}, {})))
    if suite.wants("a-full-host"):
        full_host(suite, place, text)


def be_nobody() -> None:
    os.setgroups([])
    os.setgid(NOBODY)
    os.setuid(NOBODY)


def limited() -> None:
    """No file can have more than some of the bytes."""
    resource.setrlimit(resource.RLIMIT_FSIZE, (100_000, 100_000))
    resource.setrlimit(resource.RLIMIT_CORE, (0, 0))
    signal.signal(signal.SIGXFSZ, signal.SIG_IGN)


def full_host(suite: Suite, place: Place, text: str) -> None:
    """A small file system of its own, which only some systems allow to make. What is written there has no room."""
    words = ("mount -t tmpfs -o size=128k tmpfs full || exit 99; cd full; \"$0\" ../hello.adf; status=$?; "
             "[ -z \"$(ls -A)\" ] || exit 98; echo left | cat > file && rm file || exit 97; exit $status")
    place.fill({b"full": None})
    try:
        ran = subprocess.run(["unshare", "-m", "sh", "-c", words, place.program], cwd=place.folder, input=text.encode(), capture_output=True,
                             timeout=SECONDS, check=False)
    except FileNotFoundError:
        suite.leave_out("a-full-host", "there is no unshare here")
        return
    if ran.returncode == 99 or b"unshare" in ran.stderr:
        suite.leave_out("a-full-host", "no file system can be mounted here")
        return
    suite.note("a-full-host", list(place.differences(ran, 11, "48656c6c6f\nok\n", {b"full": None}, {})))


# ---- calls that fail

# How the calls of each kind are disturbed, and how the run may end. None: as if nothing had been.
DISTURBED: Dict[str, List[Tuple[object, Tuple[Optional[int], ...]]]] = {
    "open": [(errno.EINTR, (None,)), (errno.EIO, (4, 11)), (errno.ENOSPC, (4, 11)), (errno.EMFILE, (4, 11))],
    "statx": [(errno.EINTR, (None,)), (errno.EIO, (4, 11, None))],
    "read": [(errno.EINTR, (None,)), (errno.EIO, (5,)), ("short", (None,)), ("one", (None,))],
    "pread": [(errno.EINTR, (None,)), (errno.EIO, (4,)), ("short", (None,)), ("one", (None,)), ("none", (4,))],
    "write": [(errno.EINTR, (None,)), (errno.EIO, (6, 11)), (errno.ENOSPC, (6, 11)), ("short", (None,)), ("one", (None,)), ("none", (6, 11))],
    "memory": [(errno.ENOMEM, (7, None))],
}
DISTURBED_SCRIPT = "load $.Hello\nget $.D.Big b\nget $.D.Big b\n"
UNDISTURBED = "48656c6c6f\nok\nok\nerror 20 HostExists\n"


def disturbed(place: Place, shim: str, faults: str) -> Tuple[int, str, Optional[bytes], List[str]]:
    """Status, text, the file that was to be made, and the calls."""
    place.fill({b"own": b"own"})
    log = os.path.join(place.root, "log")
    if os.path.exists(log):
        os.unlink(log)
    ran = place.run(DISTURBED_SCRIPT, environment={"LD_PRELOAD": shim, "OUTSIDE_FAULTS": faults, "OUTSIDE_LOG": log})
    found = snapshot(os.fsencode(place.folder))
    made = found.pop(b"b", None)
    if found != {b"hello.adf": place.content, b"own": b"own"} or isinstance(made, str):
        return ran.returncode, "another file was changed", None, []
    with open(log, errors="replace") as file:
        return ran.returncode, ran.stdout.decode(), made, file.read().splitlines()


def is_right(status: int, text: str, made: Optional[bytes]) -> bool:
    """A file that was made is whole, and is there once its line is done: it then has its reply, or the output failed."""
    if not UNDISTURBED.startswith(text):
        return False
    if status == 1:
        return text == UNDISTURBED and made == BIG
    if status == 6:
        return made in (None, BIG)
    return made == (BIG if text.count("ok\n") > 1 else None)


def calls_that_fail(suite: Suite, place: Place) -> None:
    if not suite.wants("calls-that-fail"):
        return
    if not has_compiler():
        suite.leave_out("calls-that-fail", "no C compiler here (%s)" % compiler()[0])
        return
    shim, wrong = built_shim(place.root), []
    status, text, made, calls = disturbed(place, shim, "")
    if (status, text, made) != (1, UNDISTURBED, BIG):
        wrong.append("undisturbed: status %d, %r" % (status, text))
    counts: Dict[str, int] = {"memory": int(calls[-1].split(" ", 3)[3])}
    for call in calls[:-1]:
        counts[call.split(" ")[0]] = counts.get(call.split(" ")[0], 0) + 1
    for kind, ways in DISTURBED.items():
        for how, statuses in ways:
            for number in some_of(counts.get(kind, 0), 30):
                faults = fault(kind, number, how)  # type: ignore[arg-type]
                status, text, made, _ = disturbed(place, shim, faults)
                if (None if status == 1 else status) not in statuses or not is_right(status, text, made):
                    wrong.append("%s: status %d, %r, %s" % (faults, status, text, "no file" if made is None else "%d bytes" % len(made)))
    wrong.extend(not_taken_back(place, shim, counts))
    suite.note("calls-that-fail", wrong)


def not_taken_back(place: Place, shim: str, counts: Dict[str, int]) -> Iterator[str]:
    """Where the file can't be removed either, a part of it stays, and no more; a call that is only interrupted comes again."""
    for number in range(3, counts["write"]):
        for how in (errno.EACCES, errno.EIO, errno.EINTR):
            faults = fault("write", number, errno.ENOSPC) + "," + fault("unlink", 1, how, 3 if how == errno.EINTR else EVERY)
            status, _, made, _ = disturbed(place, shim, faults)
            is_gone = made is None or made == BIG and status in (1, 6)
            if status not in (6, 11) or not (is_gone if how == errno.EINTR else made is None or BIG.startswith(made)):
                yield "%s: status %d, %s" % (faults, status, "no file" if made is None else "%d bytes" % len(made))


# ---- all


def host_files(suite: Suite, program: str) -> None:
    with tempfile.TemporaryDirectory() as folder:
        os.chmod(folder, 0o755)
        own = shutil.copy(program, os.path.join(folder, "fcore"))  # anybody can run this one
        os.chmod(own, 0o755)
        place = Place(own, folder, image())
        plain_cases(suite, place)
        host_cases(suite, place)
        calls_that_fail(suite, place)
        discs = Discs(place.folder, place.content, place.run)
        put_cases(suite, discs)
        if has_compiler():
            puts_that_fail(suite, discs, built_shim(folder), os.path.join(folder, "log"))
