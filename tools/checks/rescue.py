#!/usr/bin/env python3
# SPDX-License-Identifier: MIT
"""Runs `fcdisc rescue` and `fcdisc mend` over whole discs, discs with one fault, usual damages, and images made to do harm.

usage: tools/run checks/rescue FCORE [long]    `long`: 10,000 random damages, and images cut at each sector
       tools/run checks/rescue --table         prints the table of docs/RESCUE.md

What should come out is known from the volumes that the images were built from. A file is right if it has its own name and bytes.
"""
from __future__ import annotations

import collections
import hashlib
import io
import json
import os
import resource
import shutil
import sys
import tempfile
import time
from typing import TYPE_CHECKING, Callable, Dict, Iterator, Optional, Tuple, Union

from tools.checks import rescue_cases
from tools.checks.fcdisc import FCDISC, Checks, host_tree, snapshot
from tools.checks.selection import Selection, Suite
from tools.files import read
from tools.images import damaged as damaged_images, rescue_hostile, rescue_images, table as images
from tools.images.rescue_images import FORMATS
from tools.images.volumes import AnyVolume
from tools.reference import format_reader, rescue_reader

if TYPE_CHECKING:
    from fcdisc_lib.rescue.reading import Reading

# Most sound files may be wrong in 1 of these; and at least so many of 100 files have to be right
SOUND_PER_WRONG, RIGHT = 1000, 85
UNSEEN = "two discs mixed"  # in a part of another disc without a directory or a map nothing shows it
FLOPPY_SECONDS, LARGE_SECONDS = 10, 60  # of a processor's time
LARGE_MEMORY = 1 << 30
WRITTEN_EACH = 10  # of random damages: one of so many is written to a folder


class Rescue:
    """The package of fcdisc, called in this process: a run for each image would take most of the time."""

    def __init__(self, folder: str) -> None:
        sys.path.insert(0, os.path.dirname(os.path.realpath(FCDISC)))
        from fcdisc_lib import messages, names
        from fcdisc_lib.rescue import reading, report, writing
        self.reading, self.report, self.writing, self.messages, self.names = reading, report, writing, messages, names
        self.place, self.file = os.path.join(folder, "image.adf"), None

    def read(self, data: bytes, **options: Union[str, bool, None]) -> Optional[Reading]:
        """The reading, or None if nothing of a disc was found."""
        with open(self.place, "wb") as file:
            file.write(data)
        self.file = open(self.place, "rb")  # it stays open until the next image: files can still be written
        try:
            found = self.reading.read_image(self.file, self.place, "auto", self.reading.Options(**options))
        except self.messages.Trouble:
            return None
        contents = {id(one): b"".join(self.reading.pieces_of(found.source, one)) for one in found.files}
        found.rows = [(self.names.spelled_path(one.path), one.grade, contents[id(one)], one) for one in found.files]
        return found


# ---- whole discs


def whole_discs(checks: Checks, rescue: Rescue) -> None:
    """Exactly what `extract` gives, all sound."""
    for name, volume, data in images.accepted():
        found = rescue.read(bytes(data))
        rows = {path: (grade, content) for path, grade, content, _ in found.rows}
        wanted = {path: ("sound", content) for path, content in rescue_images.files_of(volume).items()}
        checks.expect("rescue of " + name, files=(wanted, rows), whole=(True, found.is_whole))
    for name, volume in (("f-user", images.user_disc()), ("l-files", images.old_volume("L", 2560)), ("hello", images.hello())):
        image = b"../images/%s.adf" % name.encode()
        write(checks.place(b"images/%s.adf" % name.encode()), volume.image())
        checks.fresh(b"work")
        out, err, status = checks.run(["rescue", image, "o"])
        left, _ = host_tree(volume, volume.root, b"o/sound")
        reports = {b"o/report.txt", b"o/report.json"}
        got = {path: data for path, data in snapshot(checks.place(b"work")).items() if path not in reports}
        count = len(rescue_images.files_of(volume))
        text = "%d of %d file%s sound: see o/report.txt\n" % (count, count, "s" * (count != 1))
        checks.expect("rescue of %s into a folder" % name, left=({b"o": None, **left}, got), status=(0, status), errors=("", err),
                      output=(text, out))


def write(path: bytes, data: bytes) -> None:
    with open(path, "wb") as file:
        file.write(data)


# ---- one fault


def single_faults(checks: Checks, rescue: Rescue) -> None:
    """The damaged images of the table: how many files are sound, doubtful, cut off and lost."""
    outcomes = {name: counts for counts, names in rescue_cases.OUTCOMES.items() for name in names.split()}
    for name, data, _ in damaged_images.damaged():
        found = rescue.read(data)
        counts = tuple(rescue.report.counts(found).values()) if found else ()
        checks.expect("rescue of " + name, counts=(outcomes.get(name), counts))
        if found:
            compare(checks, name, data, found)


# ---- usual damages


class Tally:
    """What came out of the images of one kind of damage."""

    def __init__(self) -> None:
        self.images = self.files = self.sound = self.doubtful = self.wrong = self.doubted = 0

    def add(self, volume: AnyVolume, found: Optional[Reading]) -> None:
        truth = rescue_images.files_of(volume)
        by_name = collections.defaultdict(set)
        for path, content in truth.items():
            by_name[path.rpartition(".")[2]].add(content)
        self.images += 1
        self.files += len(truth)
        right = set()
        for path, grade, content, _ in found.rows if found else ():
            name = path.rpartition(".")[2]
            is_right = truth.get(path) == content or content in by_name[name]
            if grade == "sound" and not is_right:
                self.wrong += 1
            elif grade in ("sound", "doubtful") and is_right and (name, content) not in right:
                right.add((name, content))
                self.sound += grade == "sound"
                self.doubtful += grade == "doubtful"
            elif grade == "doubtful":
                self.doubted += 1

    def __add__(self, other: Tally) -> Tally:
        made = Tally()
        for key in vars(made):
            setattr(made, key, getattr(self, key) + getattr(other, key))
        return made

    def row(self, kind: str) -> str:
        part = 100 * (self.sound + self.doubtful) / max(1, self.files)
        return "| %s | %d | %d | %d | %d | %d | %d | %.1f %% |" % (
            kind, self.images, self.files, self.sound, self.doubtful, self.wrong, self.doubted, part)


def tallies(checks: Optional[Checks], rescue: Rescue) -> Tuple[Dict[str, Tally], Dict[str, Tally]]:
    """The damages of each kind in each format; on the way, the second reading is compared."""
    kinds, forms = collections.defaultdict(Tally), collections.defaultdict(Tally)
    for form in FORMATS:
        volume, other = rescue_images.floppy(form), bytes(rescue_images.floppy(form, 2).image())
        for kind, data in rescue_images.damages(volume, form, other):
            found = rescue.read(data)
            tally = Tally()
            tally.add(volume, found)
            kinds[kind] += tally
            forms[form] += tally
            if checks and found:
                compare(checks, "%s: %s" % (form, kind), data, found)
    return kinds, forms


def usual_damages(checks: Checks, rescue: Rescue) -> None:
    kinds, forms = tallies(checks, rescue)
    total = sum(kinds.values(), Tally())
    right = 100 * (total.sound + total.doubtful) / total.files
    checks.expect("files that are right", part=(True, right >= RIGHT))
    checks.expect("sound files that are wrong", part=(True, total.wrong * SOUND_PER_WRONG <= total.sound))
    print("rescue: %d images, %.1f %% of %d files right; of %d sound files %d wrong, %d of them where two discs are mixed" % (
        total.images, right, total.files, total.sound + total.wrong, total.wrong, kinds[UNSEEN].wrong))


def table(rescue: Rescue) -> None:
    kinds, forms = tallies(None, rescue)
    print("| Damage | Images | Files | Right, sound | Right, doubtful | Wrong, sound | Wrong, doubtful | Right in all |")
    print("|---" * 8 + "|")
    for kind, tally in sorted(kinds.items()):
        print(tally.row(kind))
    for form, tally in forms.items():
        print(tally.row("all of " + form))
    print(sum(kinds.values(), Tally()).row("all"))


# signs of the bytes, of two maps, and in directories without a check, which the second reading doesn't look for
SIGNS = ("bytes", "discs may be mixed", "different discs", "whole track", "with its mark", "signs of damage", "lies below may have",
         "lies in may have")


def compare(checks: Checks, name: str, data: bytes, found: Reading) -> None:
    """The second reading has the same files, bytes and grades, where it reads the disc at all."""
    try:
        second = rescue_reader.Reading(data).rows
    except (rescue_reader.Beyond, format_reader.Bad):
        return
    if any("no directory leads to it" in one.doubts for one in found.walk.directories):
        return
    wanted, got = {}, {}
    for path, grade, content, one in found.rows:
        whole = grade in ("sound", "doubtful")
        by_signs = any(sign in doubt for sign in SIGNS for doubt in one.doubts)
        sound = second.get(path, (None,))[0] if by_signs else grade == "sound"
        got[path] = sound, hashlib.sha256(content).hexdigest() if whole else ""
    for path, (sound, digest) in second.items():
        wanted[path] = sound, digest
    checks.expect("second reading of " + name, rows=(wanted, got))


# ---- the image stays as it is


def untouched(checks: Checks) -> None:
    """The image is write-protected, opened for reading alone, and has its bytes and its time afterwards."""
    work = checks.fresh(b"work")
    data = rescue_hostile.broken_root(rescue_images.floppy("E"))
    path = os.path.join(work, b"a.adf")
    write(path, data)
    os.chmod(path, 0o400)
    before = os.stat(path)
    within = 'exec strace -f -qq -o calls -e trace=openat,open,creat,truncate,unlink,unlinkat,rename,renameat2 "$@"'
    out, err, status = checks.run(["rescue", "a.adf", "o"], within=within if shutil.which("strace") else None)
    after = os.stat(path)
    checks.expect("an image that is only read", bytes=(True, data == read(path)), status=(1, status),
                  output=(True, "see o/report.txt" in out),
                  time=((before.st_mtime_ns, before.st_mode), (after.st_mtime_ns, after.st_mode)))
    if shutil.which("strace"):
        calls = [line for line in read(os.path.join(work, b"calls")).decode().splitlines() if '"a.adf"' in line]
        checks.expect("calls on the image", some=(True, len(calls) > 0),
                      wrong=([], [line for line in calls if "O_RDONLY" not in line]))
    checks.run(["rescue", "a.adf", "o"])
    out, err, status = checks.run(["rescue", "a.adf", "o"])
    checks.expect("a folder with something in it", status=(1, status), errors=(True, "there is something in it" in err))


# ---- harm


def hostile_images() -> Iterator[Tuple[str, bytes]]:
    for form in FORMATS:
        yield "names of " + form, rescue_hostile.broken_root(rescue_hostile.names(form))
        yield "loop of " + form, rescue_hostile.loop(form)
    for form in "DL":
        yield "entries of the whole disc of " + form, rescue_hostile.whole_disc_entries(form)
        yield "directories everywhere of " + form, rescue_hostile.many_directories(form)
        yield "directories everywhere of a short " + form, rescue_hostile.many_directories(form)[:-8192]
    yield "big directories", rescue_hostile.big_directories()
    yield "many zones", rescue_hostile.many_zones()
    yield "deep", bytes(rescue_hostile.deep().image())


def hostile(checks: Checks, rescue: Rescue) -> None:
    for name, data in hostile_images():
        start = time.process_time()
        found = rescue.read(data)
        left = written(checks, rescue, name, found, 8 * len(data))
        checks.expect(name + ", time", quick=(True, time.process_time() - start < FLOPPY_SECONDS))
        if name.startswith("names"):
            wanted = sum(one.grade != "lost" for one in found.files)
            count = sum(data is not None for path, data in left.items() if not path.startswith(b"out/report"))
            checks.expect(name + ", files", count=(wanted, count))
        json.loads(left[b"out/report.json"])


def written(checks: Checks, rescue: Rescue, name: str, found: Reading, most: int) -> Dict[bytes, Union[bytes, str, None]]:
    """Writes all files, none of them outside of the folder, and no more than so many bytes; answers what is there then."""
    work = checks.fresh(b"work")
    with rescue.writing.empty_folder(os.fsdecode(os.path.join(work, b"out"))) as folder:
        quietly(lambda: rescue.writing.write_all(found, "x", folder, "o"))
    left = snapshot(work)
    size = sum(len(data) for path, data in left.items() if data and not path.startswith(b"out/report"))
    checks.expect(name, outside=([b"out"], [path for path in left if b"/" not in path]), bounded=(True, size <= most),
                  links=(0, sum(isinstance(one, str) for one in left.values())))
    return left


def quietly(run: Callable[[], object]) -> str:
    """What the run tells people."""
    kept, sys.stderr = sys.stderr, io.StringIO()
    try:
        run()
        return sys.stderr.getvalue()
    finally:
        sys.stderr = kept


def large(checks: Checks) -> None:
    """A hard disc of 512 MB with the shortest runs and directories everywhere, in bounded time and memory."""
    path = checks.place(b"images/large.adf")
    rescue_hostile.write_large(path)
    checks.fresh(b"work")
    before = resource.getrusage(resource.RUSAGE_CHILDREN)
    out, err, status = checks.run(["rescue", "--report", path], within="ulimit -v %d; exec \"$@\"" % (LARGE_MEMORY // 1024))
    after = resource.getrusage(resource.RUSAGE_CHILDREN)
    os.unlink(path)
    spent = after.ru_utime + after.ru_stime - before.ru_utime - before.ru_stime
    checks.expect("a hard disc of 512 MB", status=(1, status), errors=("", err), quick=(True, spent < LARGE_SECONDS))


# ---- random damages


def random_damages(checks: Checks, rescue: Rescue, count: int) -> None:
    """It ends, what comes out is bounded, and hardly a file is sound that has other bytes than its places. Of some all is written."""
    slowest = 0
    wrong, sound = collections.Counter(), collections.Counter()
    for form in FORMATS:
        for number, (volume, data) in enumerate(rescue_hostile.random_damages(form, count // len(FORMATS) + 1, 46)):
            start = time.process_time()
            found = rescue.read(data)
            slowest = max(slowest, time.process_time() - start)
            truth = where_they_lie(volume, data)
            rows = found.rows if found else ()
            checks.expect("a random damage", bounded=(True, sum(len(content) for _, _, content, _ in rows) <= 8 * len(data)))
            if found and number % WRITTEN_EACH == 0:
                written(checks, rescue, "a random damage, written", found, 8 * len(data))
            sound[form] += sum(grade == "sound" for _, grade, _, _ in rows)
            wrong[form] += sum(grade == "sound" and truth.get(path) != content for path, grade, content, _ in rows)
    many = [form for form in FORMATS if wrong[form] * SOUND_PER_WRONG > sound[form]]
    checks.expect("random damages", quick=(True, slowest < FLOPPY_SECONDS), wrong=([], many))
    print("rescue: %d random damages: of %d sound files %d are wrong, of %d on L discs %d; the slowest took %.1f s" % (
        count, sum(sound.values()), sum(wrong.values()), sound["L"], wrong["L"], slowest))


def where_they_lie(volume: AnyVolume, data: bytes) -> Dict[str, bytes]:
    """What each file's own places have in the damaged image: damage of these bytes leaves no trace."""
    found = {}
    for holder in volume.directories():
        for entry in holder.entries:
            if not entry.is_directory:
                extents = rescue_images.extents_of(volume, entry)
                found[volume.path_of(holder, entry)] = b"".join(data[start:start + length] for start, length in extents)
    return found


def cut_images(rescue: Rescue, checks: Checks, step: int) -> None:
    """Images cut at every so manyth sector: nothing fails, and no file is sound and wrong."""
    for form in FORMATS:
        volume = rescue_images.floppy(form)
        image, truth = bytes(volume.image()), rescue_images.files_of(volume)
        size = 256 if form == "L" else 1024
        wrong = []
        for length in range(0, len(image), size * step):
            found = rescue.read(image[:length])
            wrong += [(length, path) for path, grade, content, _ in found.rows if grade == "sound" and truth.get(path) != content] \
                if found else []
        checks.expect("images of %s that are cut off" % form, wrong=([], wrong))


# ---- all of it


def run_all(checks: Checks, rescue: Rescue, is_long: bool) -> None:
    for name in (b"images", b"work", b"fake"):
        os.makedirs(checks.place(name), exist_ok=True)
    whole_discs(checks, rescue)
    single_faults(checks, rescue)
    usual_damages(checks, rescue)
    untouched(checks)
    rescue_cases.run(checks)
    hostile(checks, rescue)
    large(checks)
    random_damages(checks, rescue, 10000 if is_long else 240)
    cut_images(rescue, checks, 1 if is_long else 40)


def main(fcore: str, *more: str) -> bool:
    sys.dont_write_bytecode = True
    memory = "/dev/shm" if os.access("/dev/shm", os.W_OK) else None
    with tempfile.TemporaryDirectory(dir=memory) as folder:
        rescue = Rescue(folder)
        if fcore == "--table":
            table(rescue)
            return True
        suite = Suite("rescue", Selection())
        run_all(Checks(folder, fcore, suite), rescue, more == ("long",))
    print(suite.told())
    return suite.failed == 0


if __name__ == "__main__":
    if len(sys.argv) not in (2, 3):
        sys.exit(__doc__)
    sys.exit(0 if main(*sys.argv[1:]) else 1)


