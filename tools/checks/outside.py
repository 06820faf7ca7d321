#!/usr/bin/env python3
# SPDX-License-Identifier: MIT
"""Runs the built program where the system fails it: streams that are closed, no /dev, calls that fail, are interrupted or move a
part of their bytes, no memory, limits, kills. It also looks at what is read: kept sectors once, and no directory of a wrong length.

usage: tools/run checks/outside PROGRAM

Each run has a folder with an image, with the new one where it makes one, and with images beside them that no run may touch. Its
status and output are compared with what they have to be, and so is every byte of that folder. A C compiler ($CC, or cc) makes
check_outside.c into the object that stands between the program and the system; without one, or where the system allows no
chroot, what needs it is left out, and a line says so.
"""
from __future__ import annotations

import errno
import itertools
import os
import resource
import shutil
import signal
import subprocess
import sys
import tempfile
from typing import Dict, List, Optional, Set, Tuple, Union

from tools.files import TOP, built_shim, compiler, has_compiler, read
from tools.images.damaged import sized
from tools.images.volumes import FRESH

HELLO = os.path.join(TOP, "crates", "fcore", "data", "hello.adf")
SECONDS = 600
SCRIPT = "load $.hello\nfree\ncheck\ncat $\ndigest $.hello\n"
FOUND = b"48656c6c6f\nok\n"
ANY = "whole", "absent"
NOBODY = 65534
EVERY = 1 << 30


class Ended:
    """How a run ended: status (or the signal that ended it, negative), output, and the calls that it made."""

    def __init__(self, status: int, output: bytes, errors: bytes, calls: List[List[str]]) -> None:
        self.status, self.output, self.errors, self.calls = status, output, errors, calls

    def kind(self, *kinds: str) -> List[List[str]]:
        return [call for call in self.calls if call[0] in kinds]


def write(path: str, content: bytes) -> None:
    with open(path, "wb") as file:
        file.write(content)


class Place:
    """A folder with the image disc.adf, images beside it, and perhaps fresh.adf, which the program makes."""

    def __init__(self, program: str, shim: str) -> None:
        self.program, self.shim = program, shim
        self.root = tempfile.mkdtemp()
        self.folder = os.path.join(self.root, "images")
        os.mkdir(self.folder)
        self.fresh = {form: make().image() for form, make in FRESH.items()}
        hello = read(HELLO)
        self.kept = {"disc.adf": hello, "victim.adf": hello, "another.adf": self.fresh["L"], "zeros.adf": bytes(819200),
                     "fresh.adf.old": self.fresh["E"], "short.adf": b"fresh.adf"}
        for name, content in self.kept.items():
            write(os.path.join(self.folder, name), content)
        for name, content in (("script", SCRIPT.encode()), ("empty", b""),
                              ("refused", b"load $.none\n"), ("long", bytes([10]) * ((1 << 24) + 1))):
            write(os.path.join(self.root, name), content)
        self.passed = 0
        self.failures: List[str] = []
        self.seen: Set[int] = set()

    def path(self, name: str) -> str:
        return os.path.join(self.root, name)

    def ended(self, status: int) -> Ended:
        log = self.path("log")
        lines = read(log).decode(errors="replace").splitlines() if os.path.exists(log) else []
        calls = [line.split(" ", 3) for line in lines]
        return Ended(status, read(self.path("answer")), read(self.path("errors")), calls)

    def clear(self) -> None:
        for name in (self.path("log"), os.path.join(self.folder, "fresh.adf")):
            if os.path.lexists(name):
                os.unlink(name)
        for name in ("answer", "errors"):
            write(self.path(name), b"")

    def environment(self, faults: str, root: Optional[str] = None) -> Dict[str, str]:
        root = self.root if root is None else root
        return {"LD_PRELOAD": os.path.join(root, "shim.so"), "OUTSIDE_LOG": os.path.join(root, "log"), "OUTSIDE_FAULTS": faults}

    def run(self, words: List[str], script: str = "script", closed: Tuple[int, ...] = (), faults: str = "",
            keep: bool = False) -> Ended:
        """A run in the folder, with the streams of these numbers closed, and with these calls disturbed."""
        if not keep:
            self.clear()
        here = os.getcwd()
        os.chdir(self.folder)
        streams = [(0, script, os.O_RDONLY), (1, "answer", os.O_WRONLY), (2, "errors", os.O_WRONLY)]
        actions = [(os.POSIX_SPAWN_CLOSE, at) if at in closed else (os.POSIX_SPAWN_OPEN, at, self.path(name), how, 0)
                   for at, name, how in streams]
        child = os.posix_spawn(self.program, ["fcore", *words], self.environment(faults), file_actions=actions,
                               setsigdef=[signal.SIGPIPE, signal.SIGXFSZ])
        status = os.waitpid(child, 0)[1]
        os.chdir(here)
        return self.ended(-os.WTERMSIG(status) if os.WIFSIGNALED(status) else os.WEXITSTATUS(status))

    def left(self) -> str:
        """What is left of fresh.adf: absent, whole or part. A file that isn't what it has to be is named instead."""
        names = sorted(os.listdir(self.folder))
        for name in sorted(set(names) | set(self.kept)):
            path = os.path.join(self.folder, name)
            if name != "fresh.adf" and (name not in self.kept or name not in names or read(path) != self.kept[name]):
                return name
        if "fresh.adf" not in names:
            return "absent"
        return "whole" if read(os.path.join(self.folder, "fresh.adf")) in self.fresh.values() else "part"

    def expect(self, case: str, ended: Ended, status: Union[int, Tuple[int, ...]], left: Union[str, Tuple[str, ...]] = "absent",
               output: Optional[bytes] = None) -> None:
        """Notes whether a run ended so; `output` is the whole text, of which any other end has a part from its front."""
        wanted = status if isinstance(status, tuple) else (status,)
        states = left if isinstance(left, tuple) else (left,)
        state = self.left()
        right = ended.status in wanted and state in states and not ended.errors
        if output is not None:
            is_whole = ended.status in (0, 1, 3)
            right = right and (ended.output == output if is_whole else output.startswith(ended.output))
        self.seen.add(ended.status)
        self.note(case, right, "status %s, wanted %s; fresh.adf %s, wanted %s; %d bytes of output, and errors %s"
                  % (ended.status, status, state, left, len(ended.output), ended.errors[:80]))

    def note(self, case: str, right: bool, what: object = "") -> None:
        if right:
            self.passed += 1
        else:
            self.failures.append("%s: %s" % (case, what))


# ---- runs that nothing disturbs, and the calls that they make


def opened(ended: Ended) -> List[str]:
    return [call[3] for call in ended.kind("open")]


def undisturbed(place: Place) -> Tuple[bytes, bytes]:
    """Which files are opened and how, and what is synced when. Answers the outputs of a run that reads and of one that makes."""
    for words in (["disc.adf"], ["--read-only", "disc.adf"]):
        ended = place.run(words)
        reading = ended.output
        place.expect("reads", ended, 0, output=reading)
        place.note("reads", reading.startswith(FOUND), "another output")
        place.note("reads: opens the image alone, for reading alone", opened(ended) == ["r disc.adf"], opened(ended))
        place.note("reads: changes nothing", not ended.kind("pwrite", "fsync", "truncate", "unlink"))
    for form in FRESH:
        ended = place.run(["--new", form, "fresh.adf"])
        making = ended.output
        place.expect("makes " + form, ended, 1, "whole", making)
        place.note("makes: opens it and the folder alone", opened(ended) == ["wcx fresh.adf", "r ."], opened(ended))
        changes = ended.kind("pwrite", "fsync", "truncate", "unlink")
        order = [call[0] + (" " + call[3] if call[0] == "fsync" else "") for call in changes]
        sectors = len(ended.kind("pwrite"))
        place.note("makes: the length, each sector, one sync of the file, one of the folder",
                   order == ["truncate"] + ["pwrite"] * sectors + ["fsync file", "fsync folder"], order[-4:])
    return reading, making


def reads(place: Place) -> None:
    """What is read how often: sectors are kept, and what can't be a directory by its length isn't read."""
    volume = FRESH["F"]()
    volume.root.insert(volume.file(b"A", b"A" * 1000))
    for name, content in (("thousand.adf", volume.image()), ("loads", b"load $.A\n" * 100), ("size-0.adf", sized(0)),
                          ("size-4096.adf", sized(4096))):
        write(place.path(name), content)
    ended = place.run([place.path("thousand.adf")], "loads")
    place.expect("loads 1,000 bytes a hundred times", ended, 0, output=(b"41" * 1000 + b"\nok\n") * 100)
    count = len(ended.kind("pread"))
    place.note("loads 1,000 bytes a hundred times: fewer than a hundred reads", count < 100, "%d reads" % count)
    for name, word, is_read in (("size-0.adf", b"Size", False), ("size-4096.adf", b"Magic", True)):
        ended = place.run([place.path(name)])
        place.expect("a directory of " + name, ended, 3, output=b"bad-image Directory $.D %s\n" % word)
        spans = [[int(number) for number in call[3].split()] for call in ended.kind("pread")]
        # before it lie the map and the root, of 2048 bytes each
        place.note("a directory of " + name + ": whether it is read", is_read == any(at + length > 4096 for fd, at, length in spans), spans)


STATUSES = [
    (0, ["disc.adf"], "empty"), (1, ["disc.adf"], "refused"), (2, ["--unknown", "disc.adf"], "script"),
    (3, ["zeros.adf"], "script"), (3, ["/dev/null"], "script"), (4, ["."], "script"),
    (8, ["disc.adf"], "long"), (10, ["--safe", "disc.adf"], "script"), (12, ["none.adf"], "script"),
    (12, ["--new", "E", "disc.adf"], "script"), (12, ["--new", "E", "victim.adf"], "script"),
    (8, ["--new", "E", "fresh.adf"], "long"), (4, ["--new", "E", "none/fresh.adf"], "script"),
    (12, ["--safe", "none.adf"], "script"), (3, ["--safe", "zeros.adf"], "script"),
    (2, [b"d\xffsc.adf"], "script"), (2, ["--new", "E", b"fresh\xff.adf"], "script"), (2, [""], "script"),
    (12, ["n" * 300], "script"), (12, ["n" * 5000], "script"), (12, ["disc.adf/"], "script"),
    (4, ["--new", "E", "n" * 300], "script"), (4, ["--new", "E", "n" * 5000], "script"),
]


def statuses(place: Place) -> None:
    for status, words, script in STATUSES:
        place.expect("words %s" % words, place.run(words, script), status)
    path = os.path.join(place.root, "pipe")
    os.mkfifo(path)
    place.expect("the image is a pipe that nobody writes", place.run([path]), 3)
    for target, status in (("disc.adf", 0), ("none.adf", 12)):
        link = place.path("link")
        os.symlink(os.path.join(place.folder, target), link)
        place.expect("the image is a link to " + target, place.run([link]), status)
        place.expect("a new image in the place of a link", place.run(["--new", "E", link]), 12)
        os.unlink(link)


# ---- closed streams

STREAM_WORDS = [
    (["disc.adf"], "script"), (["--read-only", "disc.adf"], "script"), (["--new", "L", "fresh.adf"], "script"),
    (["none.adf"], "script"), (["--unknown"], "script"), (["disc.adf"], "empty"), (["--safe", "disc.adf"], "script"),
    (["zeros.adf"], "script"),
]
SUBSETS = [subset for count in range(4) for subset in itertools.combinations(range(3), count)]


def wanted_of_closed(words: List[str], script: str, closed: Tuple[int, ...]) -> Tuple[int, str]:
    """Status and what is left of fresh.adf: the words come first, then the script, the image, the replies."""
    if "--unknown" in words:
        return 2, "absent"
    if 0 in closed:
        return 5, "absent"
    if "--safe" in words:
        return 10, "absent"  # the disc doesn't suit
    if "none.adf" in words:
        return 12, "absent"
    left = "whole" if "--new" in words else "absent"
    if script == "empty":
        return 0, left
    if 1 in closed:
        return 6, left
    return (1 if "--new" in words else 3 if "zeros.adf" in words else 0), left


def closed_streams(place: Place) -> None:
    for closed in SUBSETS:
        for words, script in STREAM_WORDS:
            status, left = wanted_of_closed(words, script, closed)
            place.expect("closed %s, %s < %s" % (closed, words, script), place.run(words, script, closed), status, left)


def root_without_dev(place: Place) -> None:
    """Puts program, libraries and images into a folder that can be the root."""
    root = place.root
    listed = subprocess.run(["ldd", place.program], capture_output=True, text=True, check=False).stdout
    for library in {word for line in listed.splitlines() for word in line.split() if word.startswith("/")}:
        os.makedirs(root + os.path.dirname(library), exist_ok=True)
        shutil.copy(library, root + library)
    shutil.copy(place.program, root + "/fcore")
    shutil.copy(place.shim, root + "/shim.so")
    for path in (root, root + "/fcore", root + "/shim.so"):
        os.chmod(path, 0o755)


def run_in_root(place: Place, words: List[str], script: str, closed: Tuple[int, ...], nobody: bool) -> Ended:
    """A run in which the folder is the root, so that there is no /dev. Nobody may not read a folder of the mode 0711."""
    place.clear()

    def begin() -> None:
        os.chroot(place.root)
        os.chdir("/images")
        resource.setrlimit(resource.RLIMIT_CORE, (0, 0))
        if nobody:
            os.setgroups([])
            os.setgid(NOBODY)
            os.setuid(NOBODY)
        for at in closed:
            os.close(at)

    with open(place.path(script), "rb") as source, open(place.path("answer"), "ab") as answer:
        with open(place.path("errors"), "ab") as errors:
            child = subprocess.run(["/fcore", *words], stdin=source, stdout=answer, stderr=errors, preexec_fn=begin,
                                   env=place.environment("", "/"), check=False)
    return place.ended(child.returncode)


def no_dev(place: Place) -> None:
    """Every stream closed in turn and together, where /dev/null isn't there to be opened in its place."""
    try:
        root_without_dev(place)
        run_in_root(place, ["disc.adf"], "script", (), False)
    except (OSError, subprocess.SubprocessError) as error:
        print("outside: left out, no chroot here: the runs without /dev (%s)" % error)
        return
    for closed in SUBSETS:
        for words, script in STREAM_WORDS:
            status, left = wanted_of_closed(words, script, closed)
            ended = run_in_root(place, words, script, closed, False)
            place.expect("no /dev, closed %s, %s < %s" % (closed, words, script), ended, status, left)
    write(place.path("log"), b"")
    for path in (place.root, place.folder):
        os.chmod(path, 0o711)
    for closed in SUBSETS:
        for words, script in STREAM_WORDS[:2]:
            write(place.path("log"), b"")
            os.chmod(place.path("log"), 0o666)
            status = 4 if closed else 0
            ended = run_in_root(place, words, script, closed, True)
            case = "folders that can't be held, closed %s, %s" % (closed, words)
            place.expect(case, ended, status)
            place.note(case, not closed or not any("disc.adf" in name for name in opened(ended)), "the image was opened")
    for path in (place.root, place.folder):
        os.chmod(path, 0o755)


# ---- calls that are disturbed

INTERRUPTED, BROKEN, FULL, DENIED, MISSING = errno.EINTR, errno.EIO, errno.ENOSPC, errno.EACCES, errno.ENOENT
# For each kind of call in a run that reads: how it is disturbed, and the status that comes. None: that of a run that isn't
# disturbed. Without memory for a sector that would be kept, the run goes on.
READING = {
    "dup": [(errno.EINVAL, None), (errno.EMFILE, None), (INTERRUPTED, None)],
    "open": [(INTERRUPTED, None), (BROKEN, 4), (DENIED, 4), (errno.EMFILE, 4), (errno.ELOOP, 4), (MISSING, 12)],
    "statx": [(INTERRUPTED, None), (BROKEN, 4)],
    "read": [(INTERRUPTED, None), (BROKEN, 5), ("short", None), ("one", None)],
    "pread": [(INTERRUPTED, None), (BROKEN, 4), ("short", None), ("one", None), ("none", 4)],
    "write": [(INTERRUPTED, None), (BROKEN, 6), (FULL, 6), (errno.EPIPE, 6), ("short", None), ("one", None), ("none", 6)],
    "seek": [(INTERRUPTED, None), (errno.ESPIPE, None)],
    "memory": [(errno.ENOMEM, (7, 0))],
}
# In a run that makes an image: the same, and what is left of it.
MAKING = {
    "open 1": [(INTERRUPTED, None, "whole"), (errno.EEXIST, 12, "absent"), (FULL, 4, "absent"), (DENIED, 4, "absent")],
    "open 2": [(INTERRUPTED, None, "whole"), (DENIED, None, "whole"), (errno.EMFILE, 4, "absent"), (BROKEN, 4, "absent")],
    "truncate": [(INTERRUPTED, None, "whole"), (FULL, 4, "absent"), (errno.EFBIG, 4, "absent")],
    "pwrite": [(BROKEN, 4, "absent")],
    "fsync 1": [(INTERRUPTED, None, "whole"), (BROKEN, 4, "absent"), (FULL, 4, "absent"), (errno.EINVAL, 4, "absent")],
    "fsync 2": [(INTERRUPTED, None, "whole"), (errno.EINVAL, None, "whole"), (BROKEN, 4, "absent")],
    "pread": [(INTERRUPTED, None, "whole"), (BROKEN, 4, "whole"), ("short", None, "whole")],
    "write": [(INTERRUPTED, None, "whole"), (BROKEN, 6, "whole"), (FULL, 6, "whole"), ("none", 6, "whole")],
    "read": [(INTERRUPTED, None, "whole"), (BROKEN, 5, "absent")],
    "memory": [(errno.ENOMEM, (7, 1), ANY)],
}
# At some of the many calls that write sectors.
SECTORS = [
    (INTERRUPTED, None, "whole"), ("short", None, "whole"), ("one", None, "whole"), ("none", 4, "absent"), (FULL, 4, "absent"),
]


def counts(ended: Ended) -> Dict[str, int]:
    numbers: Dict[str, int] = {}
    for call in ended.calls[:-1]:
        numbers[call[0]] = numbers.get(call[0], 0) + 1
    numbers["memory"] = int(ended.calls[-1][3])
    return numbers


def fault(kind: str, first: int, how: Union[int, str], last: Optional[int] = None) -> str:
    return "%s:%d:%d:%s" % (kind, first, last or first, how)


def some_of(count: int, most: int = 44) -> Union[List[int], range]:
    """Numbers from 1 to count: all if they are few, else about so many, with the first and the last."""
    if count <= most:
        return range(1, count + 1)
    return sorted({1 + at * (count - 1) // (most - 1) for at in range(most)})


def disturbed_reading(place: Place, output: bytes) -> None:
    for words in (["disc.adf"], ["--read-only", "disc.adf"]):
        numbers = counts(place.run(words))
        for kind, disturbances in READING.items():
            for how, status in disturbances:
                for number in some_of(numbers.get(kind, 0)):
                    faults = fault(kind, number, how)
                    place.expect("reads, " + faults, place.run(words, faults=faults), status or 0, output=output)
                if status is None and how != INTERRUPTED:
                    faults = fault(kind, 1, how, EVERY)
                    place.expect("reads, " + faults, place.run(words, faults=faults), 0, output=output)
        for kind in ("open", "statx", "read", "pread", "write"):
            faults = fault(kind, 1, INTERRUPTED, 40)
            place.expect("reads, " + faults, place.run(words, faults=faults), 0, output=output)
    place.expect("no file has the name", place.run(["disc.adf"], faults=fault("statx", 1, MISSING)), 12)


def disturbed_making(place: Place, output: bytes) -> None:
    words = ["--new", "E", "fresh.adf"]
    numbers = counts(place.run(words))
    for name, disturbances in MAKING.items():
        kind, _, only = name.partition(" ")
        for how, status, left in disturbances:
            for number in [int(only)] if only else some_of(numbers.get(kind, 0)):
                faults = fault(kind, number, how)
                place.expect("makes, " + faults, place.run(words, faults=faults), status or 1, left)
    sectors = numbers["pwrite"]
    for number in sorted({1, 2, 3, sectors // 2, sectors - 1, sectors}):
        for how, status, left in SECTORS:
            faults = fault("pwrite", number, how)
            place.expect("makes, " + faults, place.run(words, faults=faults), status or 1, left)
        faults = fault("pwrite", number, "short") + "," + fault("pwrite", number + 1, FULL, EVERY)
        place.expect("makes, " + faults, place.run(words, faults=faults), 4 if number < sectors else (1, 4), ANY)
        for how in (DENIED, BROKEN):
            for second in (fault("unlink", 1, how), fault("statx", 1, how), fault("statx", 2, how)):
                faults = fault("pwrite", number, BROKEN) + "," + second
                place.expect("makes, and can't take it away, " + faults, place.run(words, faults=faults), 4, ("part", "whole"))
        again = fault("unlink", 1, INTERRUPTED, 3) + "," + fault("statx", 1, INTERRUPTED, 3)
        faults = fault("pwrite", number, BROKEN) + "," + again
        place.expect("makes, and takes it away in the end, " + faults, place.run(words, faults=faults), 4, "absent")
    place.expect("makes, each call moves one byte", place.run(words, faults=fault("write", 1, "one", EVERY)), 1, "whole", output)


def kills(place: Place) -> None:
    """Killed before and after each call: whatever is left of the new image, no other file is touched, and it isn't made anew."""
    words = ["--new", "E", "fresh.adf"]
    numbers = counts(place.run(words))
    for kind in ("open", "truncate", "pwrite", "fsync", "pread", "write"):
        last = numbers[kind]
        for number in sorted({1, 2, last // 2, last} & set(range(1, last + 1))):
            for how in ("kill", "killed"):
                faults = fault(kind, number, how)
                place.expect("makes, " + faults, place.run(words, faults=faults), -signal.SIGKILL, ("absent", "part", "whole"))
                left = place.left()
                wanted = (1, "whole") if left == "absent" else (12, left)
                place.expect("makes again after " + faults, place.run(words, keep=True), *wanted)


# ---- limits and signals


def limited(place: Place, words: List[str], limit: int, ignored: bool, output_to_file: bool = True) -> Ended:
    """A run under a limit of the bytes of a file. The signal that goes with it is ignored, or ends the program."""
    place.clear()

    def begin() -> None:
        resource.setrlimit(resource.RLIMIT_FSIZE, (limit, limit))
        resource.setrlimit(resource.RLIMIT_CORE, (0, 0))
        signal.signal(signal.SIGXFSZ, signal.SIG_IGN if ignored else signal.SIG_DFL)

    with open(place.path("script"), "rb") as source, open(place.path("answer"), "ab") as answer:
        output = answer if output_to_file else subprocess.DEVNULL
        child = subprocess.run([place.program, *words], cwd=place.folder, stdin=source, stdout=output,
                               stderr=subprocess.DEVNULL, preexec_fn=begin, restore_signals=False, check=False)
    return place.ended(child.returncode)


def limits(place: Place) -> None:
    making = ["--new", "E", "fresh.adf"]
    place.expect("a limit below the image", limited(place, making, 4096, True, False), 4)
    place.expect("a limit below the image, by a signal", limited(place, making, 4096, False, False),
                 (4, -signal.SIGXFSZ), ("absent", "part"))
    place.expect("a limit below the output", limited(place, ["disc.adf"], 20, True), 6)
    place.expect("a limit below the output, by a signal", limited(place, ["disc.adf"], 20, False), (6, -signal.SIGXFSZ))
    reader, writer = os.pipe()
    os.close(reader)
    place.clear()
    with open(place.path("script"), "rb") as source:
        for restored in (True, False):
            child = subprocess.run([place.program, "disc.adf"], cwd=place.folder, stdin=source, stdout=writer,
                                   restore_signals=restored, check=False)
            place.expect("nobody reads the output", place.ended(child.returncode), 6)
            source.seek(0)
    os.close(writer)


def main(program: str) -> Optional[bool]:
    signal.alarm(SECONDS)
    if not has_compiler():
        print("outside: left out, no C compiler here (%s): all runs in which the system fails" % compiler()[0])
        return True
    with tempfile.TemporaryDirectory() as folder:
        shim = built_shim(folder)
        place = Place(os.path.realpath(program), shim)
        try:
            shutil.copy(shim, place.path("shim.so"))
            reading, making = undisturbed(place)
            reads(place)
            statuses(place)
            closed_streams(place)
            no_dev(place)
            disturbed_reading(place, reading)
            disturbed_making(place, place.run(["--new", "E", "fresh.adf"]).output)
            kills(place)
            limits(place)
            wanted = {0, 1, 2, 3, 4, 5, 6, 7, 8, 10, 12}
            place.note("statuses", wanted <= place.seen, "never seen: %s" % sorted(wanted - place.seen))
        finally:
            shutil.rmtree(place.root)
    for failure in place.failures[:60]:
        print("outside: " + failure)
    print("outside: %d passed, %d failed" % (place.passed, len(place.failures)))
    return not place.failures


if __name__ == "__main__":
    sys.exit(0 if main(sys.argv[1]) else 1)
