#!/usr/bin/env python3
# SPDX-License-Identifier: MIT
"""Runs fcdisc over images of all kinds: its cases, each disc that fcore accepts, each that it refuses, and its names alone.

These suites are run by tools/checks/run.py: `tools/run checks/run 'fcdisc/get*'`.
"""
from __future__ import annotations

import contextlib
import os
import random
import re
import shutil
import signal
import subprocess
import sys
import tempfile
from types import ModuleType
from typing import TYPE_CHECKING, Callable, Collection, Dict, Iterable, Iterator, List, Optional, Sequence, Tuple, TypeVar, Union

from tools.checks import (examples, fcdisc_backups, fcdisc_cases, fcdisc_changes, fcdisc_collections, fcdisc_conversions, fcdisc_everyday,
                          fcdisc_exchange, fcdisc_safe, fcdisc_table)
from tools.checks.selection import Suite, shortened
from tools.checks.work_folders import fill, snapshot, wait_for
from tools.files import TOP
from tools.images import damaged, table
from tools.images.volumes import Directory, Entry, Volume
from tools.reference.filecore import folded, spelled

if TYPE_CHECKING:
    from fcdisc_lib.output import Folder, Inode

Row = Tuple[str, str, str, int, str]  # of `list`: the kind's first word, size, access, depth and name
Subject = TypeVar("Subject")
LONGEST = 255
FCDISC = os.path.join(TOP, "scripts", "fcdisc")


# ---- folders and runs


def agrees(wanted: str, got: str) -> bool:
    """`...` stands for any text."""
    return re.fullmatch(".*".join(map(re.escape, wanted.split("..."))), got, re.DOTALL) is not None


class Checks:
    """A folder with `images` and, for each case anew, `work` and `fake`; what comes of the cases goes to the suite."""

    def __init__(self, folder: str, fcore: str, suite: Suite) -> None:
        self.folder, self.fcdisc, self.fcore = os.fsencode(folder), FCDISC, os.path.abspath(fcore)
        self.suite = suite
        self.files = table.table()[0]
        self.extra = fcdisc_cases.extra_images(self.files)

    def place(self, name: bytes) -> bytes:
        return os.path.join(self.folder, name)

    def fresh(self, name: bytes) -> bytes:
        shutil.rmtree(self.place(name), ignore_errors=True)
        os.mkdir(self.place(name))
        return self.place(name)

    def run(self, words: List[str], fcore: Optional[str] = None, within: Optional[str] = None) -> Tuple[str, str, int]:
        command = [self.fcdisc, *words]
        if within:
            command = ["bash", "-c", within, "bash", *command]
        done = subprocess.run(command, cwd=self.place(b"work"), env=self.environment(fcore), stdin=subprocess.DEVNULL,
                              capture_output=True, timeout=600, check=False)
        return done.stdout.decode("utf-8", "replace"), done.stderr.decode("utf-8", "replace"), done.returncode

    def environment(self, fcore: Optional[str] = None) -> Dict[str, str]:
        return {**os.environ, "FCORE": fcore or self.fcore, "COLUMNS": "80", "LC_ALL": "C.UTF-8"}

    def expect(self, name: str, **pairs: Tuple[object, object]) -> None:
        """Each pair is what was wanted and what came."""
        wrong = [key for key, (wanted, got) in pairs.items() if wanted != got]
        self.suite.note(name, [line for key in wrong for line in (
            key + ": wanted", *shortened(str(pairs[key][0]), 3000), "got", *shortened(str(pairs[key][1]), 3000))])

    def case(self, case: fcdisc_cases.Case) -> None:
        fill(self.fresh(b"work"), case.before)
        self.fresh(b"fake")
        fake = None
        if case.fcore is not None:
            fake = "../fake/fcore"
            if case.fcore:
                fill(self.place(b"fake"), {b"fcore": case.fcore.replace("FCORE", self.fcore).encode()})
                os.chmod(self.place(b"fake/fcore"), 0o755)
        out, err, status = self.run(case.words, fake, case.within)
        self.expect(case.name, output=texts(case.out, out), errors=texts(case.err, err), status=(case.status, status),
                    left=(case.left, snapshot(self.place(b"work"))))


def texts(wanted: str, got: str) -> Tuple[str, str]:
    """A pair for `expect`, equal where they agree."""
    return (got, got) if agrees(wanted, got) else (wanted, got)


# ---- discs that are accepted


def host_name(entry: Entry) -> bytes:
    """A name on the host, as fcdisc(1) says, for the names of tools/images/table.py."""
    base = "".join("." if byte == 47 else "%%%02X" % byte if 127 <= byte < 160 or byte in b'.%\\:*?"<>|' else chr(byte)
                   for byte in entry.name).encode()
    if entry.is_directory:
        return base
    suffix = b"," + kind_of(entry).encode()
    return base[:LONGEST - len(suffix)] + suffix


def kind_of(entry: Entry) -> str:
    """A file's type, or its load and exec words."""
    if entry.load >> 20 == 0xFFF:
        return "%03x" % (entry.load >> 8 & 0xFFF)
    return "%08x-%08x" % (entry.load, entry.execution)


def host_tree(volume: Volume, holder: Directory, place: bytes) -> Tuple[Dict[bytes, Optional[bytes]], Dict[bytes, int]]:
    """What has to stand in a folder after `extract`, and the times of files with a type."""
    left: Dict[bytes, Optional[bytes]] = {place: None}
    times: Dict[bytes, int] = {}
    for entry in holder.entries:
        path = place + b"/" + host_name(entry)
        if isinstance(entry, Directory):
            inner, inner_times = host_tree(volume, entry, path)
            left.update(inner)
            times.update(inner_times)
        else:
            left[path] = bytes(entry.data)
            time_told = ((entry.load & 0xFF) << 32 | entry.execution) // 100 - 2208988800
            if entry.load >> 20 == 0xFFF and time_told >= -1 << 31:  # not every host has times before 1901
                times[path] = time_told
    return left, times


def list_rows(holder: Directory, depth: int = 0) -> Iterator[Row]:
    """The rows of `list`."""
    for entry in sorted(holder.entries, key=lambda one: folded(one.name)):
        bits = entry.attributes
        access = "".join(letter for bit, letter in ((4, "L"), (2, "W"), (1, "R")) if bits & bit) + "/"
        access += "".join(letter for bit, letter in ((32, "w"), (16, "r")) if bits & bit)
        if isinstance(entry, Directory):
            yield "directory", "", access, depth, spelled(entry.name)
            yield from list_rows(entry, depth + 1)
        else:
            yield kind_of(entry), str(len(entry.data)), access, depth, spelled(entry.name)


def read_row(line: str) -> Union[Row, str]:
    found = re.fullmatch(r"(.{17}) (.{10})  (.{6})  .{16}  ((?: {2})*)(\S+)", line)
    return (found[1].split()[0], found[2].strip(), found[3].strip(), len(found[4]) // 2, found[5]) if found else line


def accepted_disc(checks: Checks, name: str, volume: Volume) -> None:
    """All jobs over a disc, compared with its description."""
    path = fcdisc_cases.image(name + ".adf")
    long_names = sum(len(entry.name) > 245 for directory in volume.directories() for entry in directory.entries)
    left, times = host_tree(volume, volume.root, b"o")
    checks.fresh(b"work")
    out, err, status = checks.run(["extract", path, "o"])
    count = sum(data is not None for data in left.values())
    checks.expect("extract of " + name, left=(left, snapshot(checks.place(b"work"))), status=(int(long_names > 0), status),
                  output=("%d of %d file%s written to o\n" % (count, count, "" if count == 1 else "s"), out),
                  errors=(long_names, err.count("has another name here")),
                  times=(times, {one: int(os.stat(checks.place(b"work/" + one)).st_mtime // 1) for one in times}))
    out, err, status = checks.run(["list", path])
    checks.expect("list of " + name, rows=(list(list_rows(volume.root)), list(map(read_row, out.splitlines()[1:-1]))),
                  status=(0, status))


# ---- all images at once


def found_lines() -> Iterator[Tuple[str, str]]:
    """What `check` has to say of the images that aren't damaged: a beginning, by their names."""
    refused = {name for name, data, line in damaged.damaged()}
    for name, volume, data in table.accepted():
        if name not in refused:
            counted = len(volume.objects()) - len(volume.directories()), len(volume.directories()) - 1
            yield name + ".adf", ": %d file%s, %d director%s, %d byte" % (
                counted[0], "s" * (counted[0] != 1), counted[1], "y" if counted[1] == 1 else "ies", sum(volume.hole_lengths()))


def folder_of_images(checks: Checks, files: Collection[str]) -> None:
    """One `check` of the folder: a line for each image, with the fault that the table says."""
    out, err, status = checks.run(["check", "../images"])
    lines = dict(line[len("../images/"):].split(": ", 1) for line in out.splitlines() if line.startswith("../images/"))
    listed = {name for name in files if name.endswith((".adf", ".adl", ".hdf"))}
    checks.expect("check of a folder", status=(1, status), names=([], sorted(listed - set(lines))),
                  sums=("%d files: " % len(files), out.splitlines()[-1][:len("%d files: " % len(files))]))
    for name, text in found_lines():
        line = lines.get(name, "")
        checks.expect("check of " + name, line=(True, line.startswith("whole: ") and text in line))
    kinds = set()
    for name, data, fault in damaged.damaged():
        line, words = lines.get(name + ".adf", ""), fault.split(" ")
        kinds.add(" ".join(words[0:3:2]) if words[0] == "Directory" else words[0])
        checks.expect("check of " + name, line=(True, line.startswith("not accepted: ") and "[%s]" % fault in line), braces=(False, "{" in line))
    told = [re.match(r"What to do about (.*?) \(", line) for line in out.splitlines() if line.startswith("What to do")]
    checks.expect("advice once for each kind", kinds=([], sorted(kinds - {one[1] for one in told if one})), some=(True, len(told) < 40))


# ---- the examples of the man pages

EXAMPLE_IMAGES = {b"f-user.adf": "f-user.adf", b"d-twin.adf": "d-twin.adf", b"old.adl": "sides.adl", b"disc.hdf": "header.hdf",
                  **{name: name.decode() for name in (b"named.adf", b"hello.adf", b"e-plus-grown.adf")}}


def examples_of(page: str) -> Iterator[Tuple[str, List[str]]]:
    """The literal text of a page of mdoc, indented as readme_examples.py wants it."""
    with open(page) as file:
        blocks = re.findall(r"^\.Bd -literal.*?\n(.*?)^\.Ed", file.read(), re.DOTALL | re.MULTILINE)
    text = "".join(blocks).replace("\\e", "\\")
    return examples.examples("".join("    %s\n" % line for line in text.splitlines()))


def page_examples(checks: Checks, page: str) -> None:
    work = checks.fresh(b"work")
    for name, source in EXAMPLE_IMAGES.items():
        shutil.copy(checks.place(b"images/" + source.encode()), os.path.join(work, name))
    found = list(examples_of(page))
    checks.expect("examples of " + page, some=(True, len(found) > 1))
    environment = {**checks.environment(), "PATH": "%s:%s" % (os.fsdecode(checks.place(b"bin")), os.environ["PATH"])}
    for command, lines in found:
        run = subprocess.run(["bash", "-c", command], cwd=work, env=environment, capture_output=True, text=True, check=False)
        checks.expect("example " + command, output=texts("".join(line + "\n" for line in lines), run.stdout))


# ---- names alone


def random_name(source: random.Random) -> bytes:
    common = b",./%ffb-0" if source.random() < 0.5 else bytes(range(32, 256))
    return bytes(source.choice(common) for _ in range(source.choice((1, 2, 3, 4, 5, 12, 30))))


def name_is_kept(names: ModuleType, source: random.Random) -> bool:
    """Whether a random name comes back from the host, and can't lead out of its folder."""
    name, is_directory = random_name(source), source.random() < 0.3
    load = source.choice((0xFFF00000 | source.randrange(1 << 20), source.randrange(1 << 32)))
    execution = source.randrange(1 << 32)
    host = names.host_name(name, b"" if is_directory else names.suffix_of(load, execution))
    found = names.disc_name(host, is_directory)
    words = (None, None) if is_directory else (load >> 8 & 0xFFF, None) if load >> 20 == 0xFFF else (None, (load, execution))
    return (found == (name, *words) and b"/" not in host and host not in (b".", b"..") and min(host) >= 32
            and names.read_spelled(names.spelled(name)) == name
            and names.read_path(names.spelled_path([name, name])) == [name, name]
            and names.spelled(name) == spelled(name))


def fits(names: ModuleType, source: random.Random) -> bool:
    """Whether a shortened name has room, and others of that name differ from it."""
    name, limit = random_name(source) * 9, source.randrange(40, 256)
    found = [names.fitted_name(name, b",fff", limit, number) for number in (1, 2, 3, 10)]
    return len(set(found)) == 4 and all(len(one) <= limit and one.endswith(b",fff") and one.decode() for one in found)


def unit_checks(checks: Checks) -> None:
    from fcdisc_lib import images as parts, names
    source = random.Random(25)
    checks.expect("names both ways", kept=([], [at for at in range(20000) if not name_is_kept(names, source)]))
    checks.expect("names that fit", kept=([], [at for at in range(2000) if not fits(names, source)]))
    sides = bytes(at // 4096 for at in range(160 * 4096))
    checks.expect("sides both ways", back=(sides, parts.to_interleaved(parts.to_disc_order(sides))),
                  there=(fcdisc_cases.interleaved_back(sides), parts.to_disc_order(sides)))
    publish_without_links(checks)
    unread_copy(checks)
    for host, is_directory, wanted in (
            (b"README.txt", False, (b"README/txt", None, None)), (b"Prog,FFB", False, (b"Prog", 0xFFB, None)),
            (b"a,0000ABCD-12345678", False, (b"a", None, (0xABCD, 0x12345678))), (b"a,ffb", True, (b"a,ffb", None, None)),
            (b"caf\xc3\xa9", True, (b"caf\xe9", None, None)), (b"raw\xe9", True, (b"raw\xe9", None, None)),
            (b"100%", True, (b"100%", None, None)), (b"a%2ea", True, (b"a.a", None, None))):
        checks.expect("the disc's name of %r" % host, found=(wanted, tuple(names.disc_name(host, is_directory))))
    for host in (b"\xd0\x96", b"tab\t", b"n" * 256, b",fff", b"%0A"):
        try:
            checks.expect("the disc's name of %r" % host, found=("ValueError", names.disc_name(host, False)))
        except ValueError:
            checks.suite.passed += 1


def publish_without_links(checks: Checks) -> None:
    """On a host without hard links a file gets its name all the same, and doesn't replace another."""
    from fcdisc_lib import output

    def no_link(*_: object, **__: object) -> None:
        raise PermissionError(1, "no links here")

    made, link = checks.fresh(b"work"), os.link
    os.link = no_link
    try:
        with output.Folder.at(os.fsdecode(made)) as folder:
            for content in (b"first", b"second"):
                try:
                    with output.NewFile(folder, [content]) as temporary:
                        folder.publish(temporary, b"name")
                except FileExistsError:
                    checks.suite.passed += 1
    finally:
        os.link = link
    checks.expect("no hard links", left=({b"name": b"first"}, snapshot(made)))


def unread_copy(checks: Checks) -> None:
    """A copy that can't be read has no name for the message."""
    from fcdisc_lib import images as parts, messages
    told = ""
    with open(os.open(os.path.join(checks.fresh(b"work"), b"x"), os.O_WRONLY | os.O_CREAT), "rb") as file:
        try:
            parts.read_at(file, 0, 1)
        except messages.Trouble as trouble:
            told = str(trouble)
    checks.expect("a copy that can't be read", told=("a copy of the image: Bad file descriptor", told))


# ---- a host that takes capitals for small letters


def folding_folder(number: int) -> Folder:
    """The open folder as on such a host: every name is used in small letters."""
    from fcdisc_lib import output

    class FoldingFolder(output.Folder):

        def inode(self, name: bytes) -> Inode:
            return super().inode(small(name))

        def is_folder(self, name: bytes) -> bool:
            return super().is_folder(small(name))

        def make(self, name: bytes) -> None:
            super().make(small(name))

        def publish(self, temporary: bytes, name: bytes) -> None:
            super().publish(temporary, small(name))

        def below(self, names: Sequence[bytes]) -> FoldingFolder:
            return super().below(list(map(small, names)))

    return FoldingFolder(number)


def folding_host(checks: Checks) -> None:
    """Two names that such a host takes for one: both files are there, and one has another name."""
    from fcdisc_lib import extraction, tree
    volume = table.fresh_e(big=True)
    for name in (b"\xe9t\xe9", b"\xc9t\xe9"):
        volume.root.insert(volume.file(name, b"file " + name, load=0xFFFFFF00))
    for name in (b"\xe8", b"\xc8"):
        volume.root.insert(volume.directory(volume.root, name)).insert(volume.file(b"in", b"in " + name, load=0xFFFFFF00))
    table.write_image(checks.place(b"images/folding.adf"), volume.image())
    made = checks.fresh(b"work")
    told: List[str] = []
    extraction.tell = told.append
    found = tree.read_tree(checks.fcore, os.fsdecode(checks.place(b"images/folding.adf")), "auto", ())
    with folding_folder(os.open(made, os.O_RDONLY)) as folder:
        job = extraction.Extraction(checks.fcore, found, folder)
        job.run()
    left = {small(name.encode()): data for name, data in (
        ("è", None), ("è/in,fff", b"in \xc8"), ("è~2", None), ("è~2/in,fff", b"in \xe8"), ("été,fff", b"file \xc9t\xe9"),
        ("été~2,fff", b"file \xe9t\xe9"))}
    checks.expect("two names that become one", left=(left, snapshot(made)), complete=(False, job.is_complete()),
                  told=(2, len(told)))


def small(name: bytes) -> bytes:
    return name.decode().lower().encode()


# ---- an interrupt


SLOW = """#!/usr/bin/env python3
import sys, time
script = sys.stdin.read()
if script.startswith("load"):
    print("41" * 600000, end="", flush=True)
    time.sleep(60)
print("files 1 dirs 1 lost 0 holes 1 free 0 unsorted 0 parents 0\\nok\\nA 00000003 fffff000 00000000 1000000\\nok")
"""


def interrupted(checks: Checks) -> None:
    """A signal in the middle of a file: nothing of it is left, and the program ends by the signal."""
    for number in (signal.SIGINT, signal.SIGTERM):
        work = checks.fresh(b"work")
        fill(checks.fresh(b"fake"), {b"fcore": SLOW.encode()})
        os.chmod(checks.place(b"fake/fcore"), 0o755)
        words = [checks.fcdisc, "extract", fcdisc_cases.image("hello.adf"), "o"]
        run = subprocess.Popen(words, cwd=work, env=checks.environment("../fake/fcore"), stderr=subprocess.PIPE)
        wait_for(lambda: any(name.endswith(b".tmp") for name in snapshot(work)))
        run.send_signal(number)
        errors = run.communicate(timeout=60)[1]
        checks.expect("interrupted by %d" % number, left=({b"o": None}, snapshot(work)), status=(-number, run.returncode),
                      errors=(b"", errors))


# ---- all of it


def can_mount() -> bool:
    run = subprocess.run(["unshare", "-m", "sh", "-c", "mount -t tmpfs none /mnt"], capture_output=True, check=False)
    return run.returncode == 0


@contextlib.contextmanager
def prepared(suite: Suite, fcore: str) -> Iterator[Checks]:
    """The checks over a folder that has all images."""
    sys.dont_write_bytecode = True
    signal.signal(signal.SIGINT, signal.default_int_handler)  # a shell without job control has it ignored in the background
    if os.path.dirname(FCDISC) not in sys.path:
        sys.path.insert(0, os.path.dirname(FCDISC))
    with tempfile.TemporaryDirectory() as folder:
        checks = Checks(folder, fcore, suite)
        for name in (b"images", b"bin"):
            os.mkdir(checks.place(name))
        os.symlink(checks.fcdisc, checks.place(b"bin/fcdisc"))
        os.symlink(checks.fcore, checks.place(b"bin/fcore"))
        for name, data in {**checks.files, **checks.extra}.items():
            path = os.path.join(checks.place(b"images"), os.fsencode(name))
            os.makedirs(os.path.dirname(path), exist_ok=True)
            table.write_image(path, data)
        yield checks


def reading(suite: Suite, fcore: str) -> None:
    """Jobs that read, the examples of the man pages, and parts of fcdisc alone."""
    with prepared(suite, fcore) as checks:
        mounts = can_mount()
        for case in fcdisc_cases.all_cases(checks.files, checks.extra):
            if suite.wants(case.name):
                if mounts or not case.name.endswith("-full-disk"):
                    checks.case(case)
                else:
                    suite.leave_out(case.name, "since nothing can be mounted here")
        if suite.wants("folder"):
            folder_of_images(checks, {**checks.files, **checks.extra})
        for page in ("fcore.1", "fcdisc.1"):
            if suite.wants(page):
                page_examples(checks, os.path.join(TOP, "man", page))
        for name, part in (("units", unit_checks), ("folding", folding_host), ("interrupted", interrupted)):
            if suite.wants(name):
                part(checks)


def discs(suite: Suite, fcore: str) -> None:
    """All jobs that read, over each disc that is accepted."""
    with prepared(suite, fcore) as checks:
        for name, volume, data in table.accepted():
            if suite.wants(name):
                accepted_disc(checks, name, volume)


def changing(suite: Suite, fcore: str) -> None:
    """Jobs that change a disc."""
    with prepared(suite, fcore) as checks:
        fcdisc_changes.run_parts(checks, can_mount())


def run_parts(checks: Checks, subject: Subject, parts: Iterable[Callable[[Subject], None]]) -> None:
    for part in parts:
        if checks.suite.wants(part.__name__):
            part(subject)


def collections(suite: Suite, fcore: str) -> None:
    """Jobs over many images."""
    with prepared(suite, fcore) as checks:
        run_parts(checks, checks, fcdisc_collections.PARTS)


def keeping(suite: Suite, fcore: str) -> None:
    """What is kept of an image and of its files: backups, archives, .inf files, names; and what people do every day."""
    with prepared(suite, fcore) as checks:
        mounts = can_mount()
        for module in (fcdisc_backups, fcdisc_exchange, fcdisc_everyday):
            run_parts(checks, fcdisc_changes.Changes(checks), (*module.PARTS, *(module.MOUNTED if mounts else ())))
        run_parts(checks, fcdisc_changes.Changes(checks), fcdisc_safe.PARTS)


def conversions(suite: Suite, fcore: str) -> None:
    """`convert`, under which fconvert works, in its own cases and over each disc."""
    with prepared(suite, fcore) as checks:
        run_parts(checks, fcdisc_changes.Changes(checks), (*fcdisc_conversions.PARTS, *(fcdisc_conversions.MOUNTED if can_mount() else ())))
        fcdisc_conversions.each_disc(checks)


def by_conditions(suite: Suite, fcore: str) -> None:
    """Every job by every condition."""
    with prepared(suite, fcore) as checks:
        fcdisc_table.run(checks)


def rounds(suite: Suite, fcore: str) -> None:
    """`extract` and `add` of each disc; and by archives and .inf files."""
    with prepared(suite, fcore) as checks:
        fcdisc_changes.run_rounds(checks)
        for name, _, data in fcdisc_changes.whole_discs(checks):
            if suite.wants("exchange-" + name):
                fcdisc_exchange.round_trip(fcdisc_changes.Changes(checks), name, data)
