# SPDX-License-Identifier: MIT
"""Every job of fcdisc by every condition: where all is well, on a full host, in a folder that is only read, interrupted, killed, and
with hostile names. A job that is new gets a row here; what the conditions ask for is in fcdisc_conditions.py.

A case is ROW:CONDITION; `tools/run checks/run 'fcdisc-table/put*'` runs some. Where a condition can't apply, the row says why.
"""
from __future__ import annotations

import concurrent.futures
import hashlib
import io
import os
import tempfile
import zipfile
from typing import TYPE_CHECKING, Callable, Dict, Iterator, List, Mapping, Optional, Tuple, Union

from tools.checks import jobs
from tools.checks.fcdisc_conditions import CONDITIONS, FULL, HOSTILE, KILL, READ_ONLY, Bench, Row, own_mounts
from tools.images.volumes import fresh_e

if TYPE_CHECKING:
    from tools.checks.fcdisc import Checks

AT_ONCE = 3  # rows; most of a row's time is that of Python's start
NEEDS_MOUNTS = (FULL, READ_ONLY)
FCORE = "fcore"  # of `except_for`: no signal comes while it runs
NO_FCORE = "it runs no fcore"
LISTED = "E disc\n...5 files, 2 directories, 20501 bytes\n"
WHOLE = "whole: E disc: 5 files, 2 directories, 782336 bytes free, newest file of 2015-12-17\n"
WRITTEN, COPIED, ADDED = "%d of %d files written to x\n", "5 of 5 files copied to n.adf\n", "%d of %d files added to a.adf\n"
FITTED = "f/%2E%2E -> $.__\nf/a long file's name.txt -> $.a%A0long%A0f~1\nf/ctl\\x1b[31m -> $.ctl_[31m\nf/nl\\x0ax -> $.nl_x\n"
RESCUED = "4 of 5 files sound, 1 doubtful"


def plain() -> bytes:
    """A disc with names that each format takes, and nothing that a host may be unable to keep."""
    volume = fresh_e()
    root = volume.root
    docs = root.insert(volume.directory(root, b"Docs"))
    for at in (1, 2):
        docs.insert(volume.file(b"Note%d" % at, b"note %d\n" % at, load=0xFFFFFF55, execution=0x11111111))
    random = b"".join(hashlib.sha256(b"%d" % at).digest() for at in range(640))  # no archive makes it shorter
    docs.insert(volume.file(b"Big", random, load=0xFFFFFD55, execution=0x22222222))
    root.insert(volume.directory(root, b"Empty"))
    root.insert(volume.file(b"Prog", b"\r\xff", load=0xFFFFFB55, execution=0x33333333))
    root.insert(volume.file(b"Words", b"words", load=0x8000, execution=0x8023))
    return bytes(volume.image())


def archive() -> bytes:
    made = io.BytesIO()
    with zipfile.ZipFile(made, "w") as file:
        for name, data in (("Read/Me", b"read"), ("In/x", b"x" * 5000)):
            file.writestr(zipfile.ZipInfo(name), data)
    return made.getvalue()


FOLDER = {b"": None, b"/Read.Me,fff": b"read", b"/In": None, b"/In/x,ffb": b"x" * 9000}
ODD_FOLDER = {b"": None, b"/a long file's name.txt": b"read", b"/caf\xc3\xa9": b"c", b"/ctl\x1b[31m": b"x", b"/-rf": b"x", b"/nl\nx": b"x",
              b"/%2E%2E": None, b"/%2E%2E/up": b"x" * 9000}
INF_FOLDER = {b"": None, b"/Prog": b"\r\xff", b"/Prog.inf": b"$.Prog FFFF1900 FFFF8023 000002 0B\n"}
Source = Callable[["Checks"], Dict[bytes, Union[bytes, None]]]


def image(name: str) -> Source:
    return lambda checks: {b"": bytes({**checks.files, **checks.extra}[name])}


def collection(one: Source, other: Source) -> Source:
    """A folder of images, one of which lies deeper."""
    return lambda checks: {b"": None, b"/a.adf": one(checks)[b""], b"/in": None, b"/in/b.adf": other(checks)[b""]}


def given(content: Dict[bytes, Union[bytes, None]]) -> Source:
    return lambda _: content


PLAIN: Source = lambda _: {b"": plain()}
# What a row may have in its folder: what it is, and what it is with hostile names
SOURCES: Dict[str, Tuple[Source, Source]] = {
    "a.adf": (PLAIN, image("hostile.adf")), "b.adf": (image("hello.adf"), image("one.adf")),
    "u.adf": (image("f-user.adf"), image("hostile.adf")), "d.adf": (image("d-twin.adf"), image("big-twin.adf")),
    "s.adf": (image("d-sequence.adf"), image("big-sequence.adf")), "k.adf": (image("d-check.adf"), image("big-check.adf")),
    "l.adl": (image("sides.adl"),) * 2, "l.adf": (image("l-files.adf"),) * 2, "h.adf": (image("header.hdf"),) * 2,
    "note": (given({b"": b"Hello"}),) * 2, "more": (given({b"": b"more " * 2000}),) * 2,
    "o": (given(FOLDER), given(ODD_FOLDER)), "f": (given(ODD_FOLDER),) * 2, "i": (given(INF_FOLDER),) * 2,
    "t": (given({b"": None}),) * 2, "o.zip": (given({b"": archive()}),) * 2,
    "c": (collection(PLAIN, image("hello.adf")), collection(image("hostile.adf"), image("one.adf"))),
    "e": (collection(image("d-twin.adf"), image("d-sequence.adf")), collection(image("big-twin.adf"), image("d-twin.adf"))),
}
# Images of a row that stand under the name a.adf, and the state before a change
OTHER_IMAGES = {"compact": "e-files.adf", "reclaim": "lost-identifier.adf"}
BACKUPS = {"undo": b"a.adf~", "undo --back": b"a.adf~undone"}


def reading() -> Iterator[Row]:
    yield Row("list", "a.adf", ["list"], ["a.adf"], LISTED)
    yield Row("list --json", "a.adf", ["list", "--json"], ["a.adf"], '{\n "image": "a.adf",\n..."path": "$.Words",...}\n')
    yield Row("get", "a.adf", ["get"], ["a.adf", "$.Docs.Big"], makes="Big,ffd", hostile=["a.adf", "$.%2E%2E.passwd"])
    yield Row("get of several", "a.adf t", ["get"], ["a.adf", "$.Docs.*", "t"], makes="t/*,ff?", hostile=["a.adf", "*", "t"], hostile_status=1)
    yield Row("get, printed", "a.adf", ["get"], ["a.adf", "$.Docs.Note1", "-"], "note 1\n", hostile=["a.adf", "$.two%20words", "-"])
    yield Row("extract", "a.adf", ["extract"], ["a.adf", "x"], WRITTEN % (5, 5), makes="x x/*")
    yield Row("extract of a path", "a.adf", ["extract"], ["a.adf", "x", "$.Docs"], WRITTEN % (3, 3), makes="x x/*",
              hostile=["a.adf", "x", "$.//"])
    yield Row("extract --inf", "a.adf", ["extract", "--inf"], ["a.adf", "x"], WRITTEN % (5, 5), makes="x x/*")
    yield Row("extract to a zip", "a.adf", ["extract"], ["a.adf", "x.zip"], "5 files written to x.zip\n", makes="x.zip")
    yield Row("extract --each", "c", ["extract", "--each"], ["c", "x"],
              "c/a.adf: 5 of 5 files\nc/in/b.adf: 1 of 1 file\n6 files of 2 discs written to x\n", makes="x x/*", hostile_status=1)
    yield Row("check", "a.adf", ["check"], ["a.adf"], "a.adf: " + WHOLE)
    yield Row("check of a folder", "c", ["check"], ["c"], "c/a.adf: " + WHOLE + "c/in/b.adf: whole: E disc: 1 file, ...\n2 files: 2 whole\n")
    yield Row("check --json", "c", ["check", "--json"], ["c"], '[\n {\n  "image": "c/a.adf",\n  "state": "whole",...\n]\n')
    yield Row("check of damaged ones", "e", ["check"], ["e"],
              "e/a.adf: not accepted: ...[Directory $.D Twin 3]; fcdisc rescue can ...\nWhat to do ...\n2 files: 2 damaged\n", status=1,
              hostile_status=1)


def making() -> Iterator[Row]:
    yield Row("new", "", ["new"], ["E", "n.adf"], makes="n.adf")
    yield Row("adl", "l.adl", ["adl"], ["l.adl", "n.adf"], makes="n.adf")
    yield Row("adl --back", "l.adf", ["adl", "--back"], ["l.adf", "n.adl"], makes="n.adl")
    yield Row("strip", "h.adf", ["strip"], ["h.adf", "n.adf"], makes="n.adf")
    yield Row("convert", "a.adf", ["convert"], ["F", "a.adf", "n.adf"], COPIED, makes="n.adf", hostile_status=1)
    yield Row("convert --fit", "a.adf", ["convert", "--fit"], ["L", "a.adf", "n.adf"], COPIED, makes="n.adf")


def change(name: str, before: str, options: List[str], operands: List[str], out: str = "", makes: str = "a.adf~",
           hostile: Optional[List[str]] = None, hostile_status: int = 0, except_for: Mapping[str, str] = {}) -> Row:
    """A job that changes the image."""
    return Row(name, before, options, operands, out, makes=makes, changes=True, hostile=hostile, hostile_status=hostile_status,
               except_for=except_for)


def putting() -> Iterator[Row]:
    yield change("put", "a.adf note", ["put"], ["a.adf", "note", "$.N"])
    yield change("put of several", "a.adf note more", ["put"], ["a.adf", "note", "more", "$.Docs"], hostile_status=1,
                 hostile=["a.adf", "note", "more", "$.//"])
    yield change("put --replace", "a.adf more", ["put", "--replace"], ["a.adf", "more", "$.Docs.Note1"], hostile=["a.adf", "more", "$.-rf"])
    yield change("put --in-place", "a.adf more", ["put", "--in-place"], ["a.adf", "more", "$.N"], makes="",
                 except_for={FULL: "it makes no file", KILL: "a kill while the image itself is changed may damage the disc: its help says so"})
    yield change("put --backup each", "a.adf more", ["put", "--backup", "each"], ["a.adf", "more", "$.N"], makes="a.adf~1~")
    yield change("add", "a.adf o", ["add"], ["a.adf", "o"], ADDED % (2, 2), hostile_status=1)
    yield change("add of a zip", "a.adf o.zip", ["add"], ["a.adf", "o.zip"], ADDED % (2, 2))
    yield change("add --fit", "a.adf f", ["add", "--fit"], ["a.adf", "f"], FITTED + ADDED % (6, 6), hostile_status=1)
    yield change("add of .inf files", "a.adf i", ["add"], ["a.adf", "i", "$.New"], "1 of 1 file added to a.adf\n")


def moving() -> Iterator[Row]:
    yield change("mkdir", "a.adf", ["mkdir"], ["a.adf", "$.N", "$.M"])
    yield change("mkdir -p", "a.adf", ["mkdir", "-p"], ["a.adf", "$.N.M"])
    yield change("rm", "a.adf", ["rm"], ["a.adf", "$.Words"], hostile=["a.adf", "$./etc/x"])
    yield change("rm -r", "a.adf", ["rm", "-r"], ["a.adf", "$.Docs"], hostile=["a.adf", "*"])
    yield change("mv", "a.adf", ["mv"], ["a.adf", "$.Docs.*", "$.Empty"], hostile=["a.adf", "-rf", "$.//"])
    yield change("cp", "a.adf", ["cp"], ["a.adf", "$.Docs.Big", "$.Empty"], hostile=["a.adf", "-rf", "$.//"])
    yield change("cp -r", "a.adf", ["cp", "-r"], ["a.adf", "$.Docs", "$.Empty"], hostile=["a.adf", "$.//", "$.New"])
    yield change("access", "a.adf", ["access"], ["a.adf", "LR", "$.Docs.*"], hostile=["a.adf", "LR", "*"])
    yield change("compact", "a.adf", ["compact"], ["a.adf"], "662528 bytes free, the largest piece 656384; before, it was 654336\n")
    yield change("reclaim", "a.adf", ["reclaim"], ["a.adf"], "a.adf: 2048 bytes given back\n")
    no_file = {FULL: "it makes no file: names change", FCORE: NO_FCORE}
    yield change("undo", "a.adf", ["undo"], ["a.adf"], makes="a.adf~undone", except_for=no_file)
    yield change("undo --back", "a.adf", ["undo", "--back"], ["a.adf"], except_for=no_file)


def collecting() -> Iterator[Row]:
    yield Row("catalogue", "c", ["catalogue"], ["c"], "image,disc_name,...\nc/a.adf,,E,$.Docs,directory,,0,/,\n...c/in/b.adf,,E,$.Hello,...\n")
    yield Row("catalogue --json", "c", ["catalogue", "--json"], ["c"], '[\n {\n  "image": "c/a.adf",\n..."path": "$.Hello",...\n]\n')
    yield Row("find", "c", ["find"], ["c", "$.Docs.*"], "c/a.adf: $.Docs.Big: ffd Data, 20480 bytes, WR/, ...\n3 objects in 1 image\n",
              hostile=["c", "*"])
    yield Row("find --holds", "c", ["find", "--holds", "note"], ["c", "*"], "c/a.adf: $.Docs.Note1: ...\n2 objects in 1 image\n",
              hostile_status=1)
    for name, other, only in (("diff", "b.adf", 1), ("diff with a folder", "o", 3), ("diff with a zip", "o.zip", 4)):
        yield Row(name, "a.adf " + other, ["diff"], ["a.adf", other], status=1, hostile_status=1,
                  out="only in a.adf: $.Docs (directory)\n...0 objects differ; 7 only in a.adf; %d only in %s\n" % (only, other))
    yield Row("types", "", ["types"], [], "# ending  type: ...\ntex   2a8\n", except_for={HOSTILE: "it takes no names", FCORE: NO_FCORE})


def rescuing() -> Iterator[Row]:
    fault = "fcdisc: d.adf: not accepted: ...[Directory $.D Twin 3]\n"
    yield Row("rescue", "d.adf", ["rescue"], ["d.adf", "x"], RESCUED + ": see x/report.txt\n", fault, 1, "x x/*", hostile_status=1,
              again=["d.adf", "y"])
    yield Row("rescue --each", "e", ["rescue", "--each"], ["e", "x"], "e/a.adf: " + RESCUED + ": see ...\ne/in/b.adf: 1 of 5 files sound, ...\n",
              status=1, makes="x x/*", hostile_status=1, again=["e", "y"], except_for={FCORE: NO_FCORE})
    yield Row("rescue --to", "d.adf", ["rescue", "--to", "E", "n.adf"], ["d.adf"], RESCUED + "; 4 files put onto n.adf\n", status=1,
              makes="n.adf", hostile_status=1)
    yield Row("rescue --report", "d.adf", ["rescue", "--report"], ["d.adf"], RESCUED + "\n\ndisc: D, ...", status=1, hostile_status=1,
              except_for={FCORE: NO_FCORE})
    yield Row("mend", "s.adf", ["mend"], ["s.adf", "n.adf"], "n.adf: put right: directory $.D\n", makes="n.adf")
    yield Row("mend --guess", "k.adf", ["mend", "--guess"], ["k.adf", "n.adf"], "n.adf: put right: directory $.D: its check, a guess: ...\n",
              status=1, makes="n.adf", hostile_status=1)


ROWS = (*reading(), *making(), *putting(), *moving(), *collecting(), *rescuing())


def content(checks: Checks, row: Row, hostile: bool) -> Dict[bytes, Union[bytes, None]]:
    """What stands in the row's folder before."""
    found = {name.encode() + below: data for name in row.before.split() for below, data in SOURCES[name][hostile](checks).items()}
    if row.name in OTHER_IMAGES and not hostile:
        found[b"a.adf"] = image(OTHER_IMAGES[row.name])(checks)[b""]
    if row.name in BACKUPS:
        found[BACKUPS[row.name]] = bytes(checks.files["named.adf"])
    return found


def run_row(checks: Checks, row: Row, wanted: List[str]) -> List[Tuple[str, List[str]]]:
    """What came of each condition. The good run is always made, since the others are compared with it."""
    with tempfile.TemporaryDirectory(dir=checks.folder) as folder:
        bench = Bench(row, os.fsdecode(folder), checks.fcdisc, checks.fcore, content(checks, row, False), content(checks, row, True))
        conditions = [one for one in CONDITIONS if one not in row.except_for]
        return [(one, list(bench.differences(one))) for one in conditions if one in wanted or one == conditions[0]]


def every_job_has_a_row() -> Iterator[str]:
    there = {row.options[0] for row in ROWS}
    for names in jobs.names():
        if not there & set(names):
            yield "%s has no row" % names[0]


def run(checks: Checks) -> None:
    suite, mounts = checks.suite, own_mounts()
    if suite.wants("rows"):
        suite.note("rows", list(every_job_has_a_row()))
    wanted = {row.name: [one for one in CONDITIONS if one not in row.except_for and suite.wants("%s:%s" % (row.name, one))] for row in ROWS}
    for row in ROWS if not mounts else ():
        for one in set(NEEDS_MOUNTS) & set(wanted[row.name]):
            suite.leave_out("%s:%s" % (row.name, one), "since nothing can be mounted here")
            wanted[row.name].remove(one)
    with concurrent.futures.ThreadPoolExecutor(AT_ONCE) as pool:
        waiting = [pool.submit(run_row, checks, row, wanted[row.name]) for row in ROWS if wanted[row.name]]
        rows = [row for row in ROWS if wanted[row.name]]
        for row, done in zip(rows, waiting):
            for condition, differences in done.result():
                if condition in wanted[row.name]:
                    suite.note("%s:%s" % (row.name, condition), differences)
