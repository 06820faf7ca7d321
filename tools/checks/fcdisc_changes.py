# SPDX-License-Identifier: MIT
"""Checks of the jobs of fcdisc that change a disc.

The trees are read by tools/reference/read_image.py; what has to be on a disc is written here, or follows from the disc that was extracted.
"""
from __future__ import annotations

import fcntl
import hashlib
import os
import random
import re
import shutil
import signal
import stat
import subprocess
from typing import TYPE_CHECKING, Dict, Iterable, Iterator, List, Mapping, Optional, Tuple, Union

from tools.checks import fcdisc_cases
from tools.checks.fcdisc_hosts import on_host
from tools.checks.work_folders import wait_for
from tools.files import read
from tools.images import table
from tools.images.fragmented import hard_disc
from tools.images.large import SparseFile
from tools.images.volumes import Volume
from tools.reference.change_state import State
from tools.reference.filecore import NOT_SPELLED, spelled_path

if TYPE_CHECKING:
    from tools.checks.fcdisc import Checks

Node = Tuple[int, int, int, Optional[bytes]]  # attributes, words, and bytes; None for a directory
ShortTree = Dict[str, Union[Tuple[int, bytes], int]]  # by spelled paths: a file's access and bytes, a directory's access
SETTABLE = 15
LOST = "lost what others than the owner may do: fcore can't set that"


def tree_of(data: bytes) -> Dict[Tuple[bytes, ...], Node]:
    """Each object of an image."""
    state = State(data)
    return {tuple(entry.path): (entry.attributes, entry.load, entry.execution,
                                None if entry.is_directory() else bytes(state.content(entry)))
            for key, entry in state.objects.items() if key}


def short_tree(data: bytes) -> ShortTree:
    """As `tree_of`, without words."""
    return {spelled_path(path): (node[0], node[3]) if node[3] is not None else node[0] & ~8 for path, node in tree_of(data).items()}


class Changes:
    """The checks, over the folders of those of checks/fcdisc.py."""

    def __init__(self, checks: Checks) -> None:
        self.checks, self.work = checks, b""

    # a disc in the work folder

    def start(self, name: str = "named.adf", image: str = "a.adf", files: Optional[Mapping[str, Optional[bytes]]] = None) -> bytes:
        """A fresh work folder with a copy of an image, and files of the host by name."""
        self.work = self.checks.fresh(b"work")
        shutil.copy(self.checks.place(b"images/" + os.fsencode(name)), self.at(image))
        for path, content in (files or {}).items():
            os.makedirs(os.path.dirname(self.at(path)), exist_ok=True)
            if content is None:
                os.mkdir(self.at(path))
            else:
                with open(self.at(path), "wb") as file:
                    file.write(content)
        return read(self.at(image))

    def at(self, name: str) -> bytes:
        return os.path.join(self.work, os.fsencode(name))

    def run(self, *words: str, fcore: Optional[str] = None, within: Optional[str] = None) -> Tuple[str, str, int]:
        return self.checks.run(list(words), fcore, within)

    def fake(self, text: str) -> str:
        """A program in fcore's place."""
        path = os.path.join(self.checks.fresh(b"fake"), b"fcore")
        with open(path, "w") as file:
            file.write(text.replace("FCORE", self.checks.fcore))
        os.chmod(path, 0o755)
        return "../fake/fcore"

    def names(self) -> List[str]:
        return sorted(map(os.fsdecode, os.listdir(self.work)))

    def good(self, name: str, words: List[str], tree: Mapping[str, Union[Tuple[int, bytes], int]], out: str = "", image: str = "a.adf",
             **more: Optional[str]) -> None:
        """A job that does all: the tree afterwards, and the image as it was before the first change beside it."""
        before, first = self.both(image)
        got = self.run(*words, **more)
        backup = before if first is None else first
        self.checks.expect(name, result=((out, "", 0), got), tree=(tree, short_tree(read(self.at(image)))),
                           backup=(True, backup == self.both(image)[1]))

    def refused(self, name: str, words: List[str], error: str, status: int = 1, out: str = "", image: str = "a.adf", notes: int = 0,
                **more: Optional[str]) -> None:
        """A job that does nothing: image and folder stay as they were. `notes`: lines that may come before the error."""
        before, names = self.both(image), self.names()
        got = self.run(*words, **more)
        if notes and got[1].count("\n") > 1:
            got = (got[0], "".join(got[1].splitlines(True)[-1:]), got[2])
        error = "fcdisc: %s\n" % error if error and not error.startswith("usage") else error
        if "..." in error:
            got = (got[0], error if got[1].startswith(error.split("...")[0]) else got[1], got[2])
        self.checks.expect(name, result=((out, error, status), got), same=(True, self.both(image) == before),
                           left=(names, self.names()))

    def both(self, image: str) -> List[Optional[bytes]]:
        """The image, and what is kept beside it."""
        return [read(self.at(name)) if os.path.isfile(self.at(name)) else None for name in (image, image + "~")]


NAMED: ShortTree = {"$.A%20B": (3, b"A B!"), "$.Ab": (3, b"\2"), "$.D": 0, "$.D.error": (3, b"")}


OTHER_NAME = "; give a name for it in PATH, such as $.MyText"


def putting(c: Changes) -> None:
    file = {"note.txt": b"Hello\n", "Prog,ffb": b"\r\xff", "big": bytes(900000), "p": b"", "100%é?,fff": b"x", "my text.txt": b"m", "\u0416": b"z"}
    c.start(files=file)
    os.chmod(c.at("a.adf"), 0o640)
    c.good("put", ["put", "a.adf", "note.txt", "$.Note"], {**NAMED, "$.Note": (3, b"Hello\n")})
    c.checks.expect("put keeps the mode", mode=(0o640, stat.S_IMODE(os.stat(c.at("a.adf")).st_mode)), left=(
        sorted([*file, "a.adf", "a.adf~"]), c.names()))
    c.good("put into a directory", ["put", "a.adf", "Prog,ffb", "d"], {
        **NAMED, "$.Note": (3, b"Hello\n"), "$.D.Prog": (3, b"\r\xff")})
    load = {path: node[1] >> 8 for path, node in tree_of(read(c.at("a.adf"))).items()}
    c.checks.expect("put gives types", types=((0xFFFFFF >> 8 << 8 | 0xFF, 0xFFFFFB), (load[(b"Note",)], load[(b"D", b"Prog")])))
    c.refused("put there", ["put", "a.adf", "note.txt", "$.Ab"],
              "a.adf: $.Ab: there is something of this name on the disc already: --replace puts the new file in its place")
    c.run("access", "a.adf", "R", "$.Ab")
    c.good("put --replace", ["put", "--replace", "a.adf", "note.txt", "$.AB"], {
        **NAMED, "$.Note": (3, b"Hello\n"), "$.D.Prog": (3, b"\r\xff"), "$.Ab": (1, b"Hello\n")})
    c.start(files=file)
    c.good("put --type", ["put", "--type", "&feb", "a.adf", "Prog,ffb", "$.Run"], {**NAMED, "$.Run": (3, b"\r\xff")})
    c.checks.expect("put --type gives it", type=(0xFFFFEB, tree_of(read(c.at("a.adf")))[(b"Run",)][1] >> 8))
    for name, words, error in (
            ("no directory", ["note.txt", "$.X.Y"], "a.adf: $.X: there is no such directory on the disc"),
            ("below a file", ["note.txt", "$.Ab.Y"], "a.adf: $.Ab: there is no such directory on the disc"),
            ("a long name", ["note.txt", "$.ElevenBytes"],
             "a.adf: $.ElevenBytes: not put there: its name has 11 letters, and this disc takes no more than 10" + OTHER_NAME),
            ("a bad name", ["note.txt", "$.a*"],
             "a.adf: $.a%2A: not put there: no name that is written to a disc may have %2A in it" + OTHER_NAME),
            ("a name of the host with a space", ["my text.txt", "$"],
             "a.adf: $.my%20text/txt: not put there: no name that is written to a disc may have %20 in it" + OTHER_NAME),
            ("a name of the host in other letters", ["\u0416", "$"],
             "\u0416: a disc's names have no letters but those of Latin 1" + OTHER_NAME),
            ("a file that isn't there", ["none", "$.Y"], "none: No such file or directory"),
            ("a folder", [".", "$.Y"], ".: a folder: use add"),
            ("more than the disc holds", ["big", "$.Big"], "a.adf: $.Big: not put there: the disc is full")):
        c.refused("put " + name, ["put", "a.adf", *words], error)
    os.truncate(c.at("big"), 9000000)
    c.refused("put more than a script holds", ["put", "a.adf", "big", "$.Big"], "a.adf: $.Big: not put there: the disc is full")
    c.refused("put no image", ["put", "none.adf", "note.txt", "$.N"], "none.adf: No such file or directory")
    c.refused("put a type that is none", ["put", "--type", "xyz", "a.adf", "note.txt", "$.N"], "usage: fcdisc put...", 2)
    os.symlink("note.txt", c.at("link"))
    c.good("put by a link", ["put", "a.adf", "link", "$.Link"], {
        **NAMED, "$.Run": (3, b"\r\xff"), "$.Link": (3, b"Hello\n")})


def moving(c: Changes) -> None:
    """mkdir and mv."""
    c.start()
    c.good("mkdir", ["mkdir", "a.adf", "E", "$.E.F"], {**NAMED, "$.E": 0, "$.E.F": 0})
    got = c.run("mkdir", "a.adf", "G", "D", "x.y", "Ab.y")
    told = ("D: not made: there is something of this name on the disc already",
            "x.y: not made: there is no directory for it on the disc (mkdir -p makes it)", "Ab.y: not made: a file stands where a directory has to")
    c.checks.expect("mkdir in part", result=(("", "".join("fcdisc: a.adf: $.%s\n" % text for text in told), 1), got),
                    there=(True, "$.G" in short_tree(read(c.at("a.adf")))))
    c.start()
    moved = {"$.A%20B": (3, b"A B!"), "$.D": 0, "$.D.error": (3, b""), "$.D.Ab": (3, b"\2")}
    c.good("mv into a directory", ["mv", "a.adf", "AB", "D"], moved)
    c.good("mv to another case", ["mv", "a.adf", "d", "$.d"], {
        "$.A%20B": (3, b"A B!"), "$.d": 0, "$.d.error": (3, b""), "$.d.Ab": (3, b"\2")})
    for name, words, error in (
            ("nothing", ["x", "y"], "a.adf: $.x: there is no such object on the disc"),
            ("over another", ["d.Ab", "d.error"],
             "a.adf: $.d.error: $.d.Ab not moved there: there is something of this name on the disc already"),
            ("into itself", ["d", "d.x"], "a.adf: $.d.x: $.d not moved there: a directory can't be moved into itself"),
            ("to nowhere", ["d.Ab", "x.y"], "a.adf: $.x.y: $.d.Ab not moved there: there is no directory for it on the disc")):
        c.refused("mv " + name, ["mv", "a.adf", *words], error)
    c.refused("mv the root", ["mv", "a.adf", "$", "y"], "$: the root directory stays as it is", 2)


def removing(c: Changes) -> None:
    """access and rm."""
    c.start()
    locked = {**NAMED, "$.Ab": (5, b"\2"), "$.D": 4}
    c.good("access", ["access", "a.adf", "lr/", "ab", "D"], {**locked, "$.D": 5})
    c.good("access none", ["access", "a.adf", "-", "D"], {**locked, "$.D": 0})
    c.refused("access of nothing", ["access", "a.adf", "WR", "D", "x"], "a.adf: $.x: there is no such object on the disc")
    c.refused("access of others", ["access", "a.adf", "WR/R", "D"], "usage: fcdisc access...", 2)
    c.refused("rm locked", ["rm", "a.adf", "ab"], "a.adf: $.ab: not removed: it is locked: use access first")
    c.refused("rm a directory", ["rm", "a.adf", "D"], "a.adf: $.D: not removed: there is something in the directory: use rm -r")
    c.refused("rm the root", ["rm", "-r", "a.adf", "$"], "$: the root directory stays as it is", 2)
    c.good("rm", ["rm", "a.adf", "A B", "D.error"], {"$.Ab": (5, b"\2"), "$.D": 0})
    c.start()
    c.run("access", "a.adf", "L", "D.error")
    got = c.run("rm", "-r", "a.adf", "D", "Ab")
    c.checks.expect("rm -r in part", result=(("", "fcdisc: a.adf: $.D.error: not removed: it is locked: use access first\n"
                                              "fcdisc: a.adf: $.D: not removed: something in it is left\n", 1), got),
                    tree=({"$.A%20B": (3, b"A B!"), "$.D": 0, "$.D.error": (4, b"")}, short_tree(read(c.at("a.adf")))))
    c.run("access", "a.adf", "WR", "D.error")
    c.good("rm -r", ["rm", "-r", "a.adf", "D", "D.error"], {"$.A%20B": (3, b"A B!")})


def over_old_maps(c: Changes) -> None:
    before = short_tree(c.start("l-files.adf"))
    c.run("access", "a.adf", "-", "Outer.Inner.Innermost")  # it is locked
    c.good("rm -r of several levels", ["rm", "-r", "a.adf", "Outer"], {
        path: node for path, node in before.items() if not (path + ".").startswith("$.Outer.")})


def over_big_directories(c: Changes) -> None:
    """Directories that grow by what is added to them and moved into them."""
    names = ["%02d" % at + "n" * 200 for at in range(12)]
    content = {name: (3, name[:2].encode()) for name in names}
    c.start(files={"o/" + name: data for name, (_, data) in content.items()})
    c.run("new", "E+", "b.adf")
    old = {"$.Old": 0, **{"$.Old." + name: node for name, node in content.items()}}
    c.good("add to a directory that grows", ["add", "b.adf", "o", "Old"], old, "12 of 12 files added to b.adf\n", image="b.adf")
    c.run("mkdir", "b.adf", "New")
    for name in names[:-1]:
        c.run("mv", "b.adf", "Old." + name, "New")
    new = {"$.Old": 0, "$.New": 0, **{"$.New." + name: node for name, node in content.items()}}
    c.good("mv into a directory that grows", ["mv", "b.adf", "Old." + names[-1], "New"], new, image="b.adf")
    c.good("mv a directory that has grown", ["mv", "b.adf", "New", "Old.Newer"], {
        "$.Old": 0, "$.Old.Newer": 0, **{"$.Old.Newer." + name: node for name, node in content.items()}}, image="b.adf")


def squashing(c: Changes) -> None:
    c.start("d-files.adf")
    before = short_tree(read(c.at("a.adf")))
    c.good("compact", ["compact", "a.adf"], before, "620544 bytes free, the largest piece 615424; before, it was 615424\n")


def forms(c: Changes) -> None:
    """Images that aren't in disc order, links, and changes in place."""
    from fcdisc_lib import images as parts
    file = {"note": b"Hello"}
    for image, back in (("sides.adl", parts.to_disc_order), ("header.hdf", lambda data: data[512:])):
        before = c.start(image, image, file)
        with open(c.at(image), "ab") as added:
            added.write(b"after the end")
        got = c.run("put", image, "note", "$.Note")
        after = read(c.at(image))
        tree = {**short_tree(back(before)), "$.Note": (3, b"Hello")}
        c.checks.expect("put onto " + image, result=(("", 0), (got[0], got[2])), told=(1, got[1].count("\n")),
                        tree=(tree, short_tree(back(after))), end=(True, after.endswith(b"after the end")),
                        size=(len(before) + 13, len(after)), head=(True, image == "sides.adl" or after[:512] == before[:512]),
                        backup=(before + b"after the end", read(c.at(image + "~"))))
        c.refused("in place of " + image, ["put", "--in-place", image, "note", "$.N"], "%s: ..." % image, image=image)
    for image in ("flat.adf", "flat.adl"):
        c.start(image, image, file)
        c.refused("either order of " + image, ["put", image, "note", "$.N"],
                  image + ": nothing shows whether its sides are interleaved, and in the wrong order a change would spoil files: "
                  "say --order disc or --order adl", image=image, notes=1)
    before = c.start("flat.adl", "a.adf", file)
    c.run("put", "--order", "adl", "a.adf", "note", "$.N")
    c.checks.expect("put in the order that is asked for", tree=(
        {**short_tree(parts.to_disc_order(before)), "$.N": (3, b"Hello")}, short_tree(parts.to_disc_order(read(c.at("a.adf"))))))
    c.start(files=file)
    os.symlink("a.adf", c.at("link.adf"))
    c.good("put by an image's link", ["put", "link.adf", "note", "$.N"], {**NAMED, "$.N": (3, b"Hello")})
    c.checks.expect("the link stays", link=("a.adf", os.fsdecode(os.readlink(c.at("link.adf")))))
    c.start(files=file)
    inode = os.stat(c.at("a.adf")).st_ino
    got = c.run("put", "--in-place", "a.adf", "note", "$.N")
    tree = {**NAMED, "$.N": (3, b"Hello")}
    c.checks.expect("put --in-place", result=(("", "", 0), got), tree=(tree, short_tree(read(c.at("a.adf")))),
                    left=(["a.adf", "note"], c.names()), same=(inode, os.stat(c.at("a.adf")).st_ino))


def adding(c: Changes) -> None:
    files = {"o/Read.Me,fff": b"read", "o/In/x,ffb": b"x", "o/In/X,fff": b"y", "o/n": b"n", "o/.fcdisc-1.tmp": b"",
             "o/Eleven.bytes/in/deep": b"", "o/Eleven.bytes/b": b"", "o/p\u0416": b"", "o/D/error,fff": b"mine", "o/Ab/x": b"z"}
    c.start(files=files)
    os.symlink("n", c.at("o/link"))
    os.symlink("../o", c.at("o/loop"))
    os.mkfifo(c.at("o/pipe"))
    got = c.run("add", "a.adf", "o")
    told = ["o/link: not added: it is a link", "o/loop: not added: it is a link", "o/pipe: not added: not a file",
            "o/p\u0416: not added: a disc's names have no letters but those of Latin 1 (--fit gives it another name)",
            "o/In/x,ffb: not added: on a disc it has the same name as X,fff (--fit gives it another name)",
            "o/Ab: not added: a file of its name is on the disc; nor what is in it",
            "o/D/error,fff: not added: there is something of its name on the disc already (--replace puts files in its place)",
            "a.adf: $.Eleven/bytes: not added: its name has 12 letters, and this disc takes no more than 10 "
            "(--fit gives it another name); nor what is in it: 3 objects"]
    tree = {**NAMED, "$.Read/Me": (3, b"read"), "$.In": 0, "$.In.X": (3, b"y"), "$.n": (3, b"n")}
    c.checks.expect("add", out=("3 of 12 files added to a.adf\n", got[0]), status=(1, got[2]),
                    told=(sorted("fcdisc: " + text for text in told), sorted(got[1].splitlines())),
                    tree=(tree, short_tree(read(c.at("a.adf")))))


def adding_somewhere(c: Changes) -> None:
    c.start(files={"o/error": b"new", "o/x,00008000-0000abcd": b"x"})
    c.good("add --replace", ["add", "--replace", "a.adf", "o", "D"], {**NAMED, "$.D.error": (3, b"new"), "$.D.x": (3, b"x")},
           "2 of 2 files added to a.adf\n")
    c.good("add to a new directory", ["add", "a.adf", "o", "$.D.New"], {
        **NAMED, "$.D.error": (3, b"new"), "$.D.x": (3, b"x"), "$.D.New": 0, "$.D.New.error": (3, b"new"), "$.D.New.x": (3, b"x")},
           "2 of 2 files added to a.adf\n")
    c.checks.expect("add gives words", words=((0x8000, 0xABCD), tree_of(read(c.at("a.adf")))[(b"D", b"x")][1:3]))
    for name, words, error in (("to a file", ["o", "Ab"], "a.adf: $.Ab: a file stands where a directory has to"),
                               ("to nowhere", ["o", "x.y"], "a.adf: $.x.y: not added: there is no directory for it on the disc; "
                                "nor what is in it: 2 objects"),
                               ("no folder", ["none"], "none: No such file or directory"),
                               ("a file", ["o/error"], "o/error: not a folder: use put")):
        c.refused("add " + name, ["add", "a.adf", *words], error, out="0 of 2 files added to a.adf\n" if "nowhere" in name else "")


def adding_much(c: Changes) -> None:
    c.start(files={"o/%02d" % at: b"%d" % at * 40000 for at in range(30)})
    got = c.run("add", "a.adf", "o")
    count = len(short_tree(read(c.at("a.adf")))) - len(NAMED)
    c.checks.expect("add to a full disc", status=(1, got[2]), out=("%d of 30 files added to a.adf\n" % count, got[0]),
                    told=(6, got[1].count("not added: the disc is full")), some=(True, 5 < count < 25))
    c.start(files={"o/%d" % at: bytes([at]) * 5000000 for at in range(3)})
    os.chmod(c.at("o/2"), 0o600)
    watched = c.fake('#!/bin/sh\necho run >> runs; exec FCORE "$@"\n')
    got = c.run("add", "a.adf", "o", fcore=watched)
    c.checks.expect("add large files in one script", runs=(2, read(c.at("runs")).count(b"\n")), status=(1, got[2]),
                    out=("0 of 3 files added to a.adf\n", got[0]))


def long_files(c: Changes) -> None:
    """Files that fcore itself reads: onto a disc, within it, from an archive, onto another disc, and back."""
    long, half = random.Random(1).randbytes(20_000_000), random.Random(2).randbytes(1_200_000)
    c.start(files={"long,ffd": long, "o/half,ffd": half, "o/small,ffd": b"s"})
    volume = hard_disc(10, 15, 10, 62, big=True)
    with open(c.at("h.hdf"), "wb") as file:
        volume.write(SparseFile(file, volume.shape.record.size))
    for words in (["put", "h.hdf", "long,ffd", "$.Long"], ["cp", "h.hdf", "$.Long", "$.Copy"], ["put", "--replace", "h.hdf", "o/half,ffd", "$.Long"],
                  ["put", "--in-place", "--replace", "h.hdf", "long,ffd", "o/half,ffd", "$"]):
        c.checks.expect(" ".join(words), result=(("", "", 0), c.run(*words)))
    for path, content in (("$.Copy", long), ("$.Long", long), ("$.half", half)):
        c.run("get", "h.hdf", path, "got")
        c.checks.expect("get " + path, bytes=(True, read(c.at("got")) == content))
        os.unlink(c.at("got"))
    shutil.make_archive(os.fsdecode(c.at("z")), "zip", c.at("o").decode())
    for place, disc in (("z.zip", "z.adf"), ("o", "f.adf")):
        c.run("new", "F", disc)
        c.checks.expect("add long files of " + place, result=(("2 of 2 files added to %s\n" % disc, "", 0), c.run("add", disc, place)),
                        tree=({"$.half": (3, half), "$.small": (3, b"s")}, short_tree(read(c.at(disc)))))
    c.checks.expect("convert a long file", result=(("2 of 2 files copied to g.adf\n", "", 0), c.run("convert", "F+", "f.adf", "g.adf")),
                    tree=({"$.half": (3, half), "$.small": (3, b"s")}, short_tree(read(c.at("g.adf")))))
    c.checks.expect("diff of a long file", result=(("", "", 0), c.run("diff", "f.adf", "o")))


def troubles(c: Changes) -> None:
    """What can go wrong outside: no room, no rights, other programs, signals."""
    words, file = ["put", "a.adf", "note", "$.N"], {"note": b"Hello"}
    c.start(files=file)
    os.chmod(c.at("a.adf"), 0o444)
    c.refused("a protected image", words, "a.adf: it is write-protected on this host")
    os.chmod(c.at("a.adf"), 0o644)
    with open(c.at("a.adf"), "rb") as other:
        fcntl.flock(other, fcntl.LOCK_EX)
        c.refused("another job", words, "a.adf: another fcdisc is changing it: try again when that has ended")
    os.mkdir(c.at("a.adf~"))
    c.refused("a folder of the copy's name", words, "a.adf~: Is a directory: nothing was changed")
    os.rmdir(c.at("a.adf~"))
    touching = c.fake('#!/bin/sh\ncase "$*" in *read-only*) ;; *) printf x >> a.adf;; esac\nexec FCORE "$@"\n')
    got = c.run(*words, fcore=touching)
    text = "fcdisc: a.adf: another program changed it meanwhile: it stays as it is now\n"
    c.checks.expect("changed meanwhile", result=(("", text, 1), got),
                    left=(["a.adf", "note"], c.names()), tree=(NAMED, short_tree(read(c.at("a.adf")))))
    c.start(files={"o/gone": b"", "o/stays": b"s"})
    removing_it = c.fake('#!/bin/sh\n[ -e ran ] && rm -f o/gone\ntouch ran\nexec FCORE "$@"\n')
    got = c.run("add", "a.adf", "o", fcore=removing_it)
    text = "fcdisc: o/gone: not added: No such file or directory\n"
    c.checks.expect("a file that vanishes", result=(("1 of 2 files added to a.adf\n", text, 1), got),
                    tree=({**NAMED, "$.stays": (3, b"s")}, short_tree(read(c.at("a.adf")))))


def other_programs(c: Changes) -> None:
    """Programs in fcore's place."""
    words = ["put", "a.adf", "note", "$.N"]
    c.start(files={"note": b"Hello"})
    failing = '#!/bin/sh\ncase "$*" in *read-only*) exec FCORE "$@";; esac\ncat > /dev/null; %s\n'
    for name, end, error in (("fails", "exit 4", fcdisc_cases.WRITE_FAILED),
                             ("dies", "kill -9 $$", "fcore was ended by signal 9"),
                             ("says less", "exit 0", fcdisc_cases.CHANGED)):
        fcore = c.fake(failing % end)
        c.refused("fcore " + name, words, "a.adf: %s: nothing was changed" % error, fcore=fcore)
        c.refused("fcore %s in place" % name, [words[0], "--in-place", *words[1:]],
                  "a.adf: %s: it was changed in place, and may be damaged: use check" % error, fcore=fcore)


def programs_that_go(c: Changes) -> None:
    """fcore can't be run any more when the disc is to be changed."""
    c.start(files={"note": b"Hello"})
    for place in ([], ["--in-place"]):
        gone = c.fake('#!/bin/sh\nrm "$0"\nexec FCORE "$@"\n')
        c.refused("fcore can't be run a second time %s" % place, ["put", *place, "a.adf", "note", "$.N"],
                  "%s can't be run: No such file or directory" % os.fsdecode(c.checks.place(b"fake/fcore")), fcore=gone)


def removing_levels(c: Changes) -> None:
    """What is said while the levels of directories are read."""
    c.start("l-files.adf")
    c.refused("rm -r of a directory that is gone when it is read", ["rm", "-r", "a.adf", "Outer"],
              "a.adf: " + fcdisc_cases.CHANGED, fcore=c.fake(fcdisc_cases.GONE))
    c.run("access", "a.adf", "-", "Outer.Inner.Innermost")  # it is locked
    got = c.run("rm", "-r", "a.adf", "Outer", within=on_host("terminal"))
    c.checks.expect("progress of rm -r", status=(0, got[2]), steps=(
        ["directories read: %d of 6" % at for at in (1, 2)], re.findall("directories[^\r]*", got[1])))


def little_room(files: str) -> str:
    """A disk that holds these files, one of which is an image, and no copy of it."""
    return ('mkdir ../room; unshare -m sh -c \'mount -t tmpfs -o size=1200k none ../room && cp %s ../room && '
            'cd ../room && head -c 300000 /dev/zero > pad; "$@"; status=$?; echo $(find . | sort); exit $status\' sh "$@"; '
            'status=$?; rmdir ../room; exit $status') % files


def no_room(c: Changes) -> None:
    c.start(files={"note": b"Hello"})
    within = little_room("a.adf note")
    c.refused("no room for a copy", ["put", "a.adf", "note", "$.N"],
              "a.adf: its changed copy can't be written beside it (No space left on device): 0.7 MB more are needed; nothing was changed",
              out=". ./a.adf ./note ./pad\n", within=within)


# Hosts of tools/checks/fcdisc_hosts.py; how the job ends, whether the image is changed then, and whether the backup is the image as it was
HOSTS = (
    ("no-links", 0, True, True), ("signal", -signal.SIGTERM, True, True), ("no-links,signal", -signal.SIGTERM, True, True),
    ("early-signal", -signal.SIGTERM, False, False), ("no-links,early-signal", -signal.SIGTERM, False, False),
    ("denied", 1, False, True), ("no-links,denied", 1, False, True))
DENIED = "fcdisc: a.adf: its changed copy can't take its name (Permission denied): it stays as it was, and a.adf~ is the same now\n"


def other_hosts(c: Changes) -> None:
    """Whatever the host can't do and whenever a signal comes, the image's name leads to a whole image, and so does the backup's."""
    for host, status, is_changed, is_backed in HOSTS:
        before, seen = c.start(files={"note": b"Hello"}), c.checks.place(b"seen")
        os.chmod(c.at("a.adf"), 0o640)
        with open(seen, "wb"):
            pass  # what other jobs left
        time = os.stat(c.at("a.adf")).st_mtime_ns
        got = c.run("put", "a.adf", "note", "$.N", within=on_host(host))
        after, backup = c.both("a.adf")
        allowed = {hashlib.sha256(one).hexdigest() for one in (before, after)}
        looks = read(seen).decode().split("\n")[:-1]
        c.checks.expect("put on the host " + host, result=(("", DENIED if "denied" in host else "", status), got),
                        tree=({**NAMED, "$.N": (3, b"Hello")} if is_changed else NAMED, short_tree(after)),
                        same=(not is_changed, after == before), backup=(True, backup == (before if is_backed else None)),
                        seen=([], [one for one in looks if one not in allowed]), some=(is_backed, bool(looks)),
                        left=(["a.adf", *["a.adf~"][:is_backed], "note"], c.names()), mode=(0o640, stat.S_IMODE(os.stat(c.at("a.adf")).st_mode)))
        if is_backed:
            found = os.stat(c.at("a.adf~"))
            c.checks.expect("the backup on the host " + host, kept=((0o640, time), (stat.S_IMODE(found.st_mode), found.st_mtime_ns)))
    c.start(files={"note": b"Hello"})
    os.mkdir(c.at("a.adf~"))
    c.refused("a folder of the copy's name without links", ["put", "a.adf", "note", "$.N"],
              "a.adf~: Is a directory: nothing was changed", within=on_host("no-links"))


SLOW = '#!/bin/sh\ncase "$*" in *read-only*) exec FCORE "$@";; esac\ntouch begun; sleep 2; exec FCORE "$@"\n'


def signals(c: Changes) -> None:
    """A signal leaves the image as it was; if it is changed in place, it waits for the end."""
    for number in (signal.SIGINT, signal.SIGTERM):
        for place in ([], ["--in-place"]):
            before = c.start(files={"note": b"Hello"})
            words = [c.checks.fcdisc, "put", *place, "a.adf", "note", "$.N"]
            run = subprocess.Popen(words, cwd=c.work, env=c.checks.environment(c.fake(SLOW)), stderr=subprocess.PIPE)
            wait_for(lambda: os.path.exists(c.at("begun")))
            second = c.run("mkdir", "a.adf", "E")
            run.send_signal(number)
            errors = run.communicate(timeout=60)[1]
            tree = {**NAMED, "$.N": (3, b"Hello")} if place else NAMED
            c.checks.expect("signal %d %s" % (number, place), status=(-number, run.returncode), errors=(b"", errors),
                            left=(["a.adf", "begun", "note"], c.names()), tree=(tree, short_tree(read(c.at("a.adf")))),
                            same=(not place, read(c.at("a.adf")) == before), second=(1, second[2]))


# ---- whole discs


def is_writable(path: Iterable[bytes], big: bool, seven: bool = False) -> bool:
    return all(len(name) <= (255 if big else 10) and not any(
        byte <= 32 or byte == 127 or byte in NOT_SPELLED or seven and byte > 126 for byte in name) for name in path)


def wanted_tree(tree: Dict[Tuple[bytes, ...], Node], form: str) -> Dict[Tuple[bytes, ...], Node]:
    """What of a tree can be on a disc of that format, with the attributes that can be set."""
    return {path: (node[0] & SETTABLE, *node[1:]) for path, node in tree.items()
            if is_writable(path, form.endswith("+"), form == "L")}


def own_format(data: bytes, volume: Optional[Volume]) -> str:
    """The format of a fresh disc like this one."""
    big = "+" * (getattr(volume, "big", False) is True)
    return {819200: "E", 1638400: "F", 655360: "L"}.get(len(data), "F") + big


def round_trip(c: Changes, name: str, data: bytes, forms: Iterable[str]) -> None:
    """`extract`, and `add` to fresh discs."""
    tree, checks = tree_of(data), c.checks
    loses = any(node[0] & ~SETTABLE for node in tree.values())
    for form in dict.fromkeys(forms):
        wanted = wanted_tree(tree, form)
        long_names = any(len(part) > 245 for path in tree for part in path)
        c.start(name + ".adf")
        c.run("extract", "a.adf", "o")
        c.run("new", form, "b.adf")
        got = c.run("add", "b.adf", "o")
        found = tree_of(read(c.at("b.adf")))
        if long_names:  # the host cut these
            found, wanted = ({path: node for path, node in one.items() if max(map(len, path)) < 230} for one in (found, wanted))
        checks.expect("extract %s, add to %s" % (name, form), same=([], differing(wanted, found)),
                      status=(wanted_tree(tree, form) != tree, bool(got[2])), told=(loses, LOST in got[1]))


def kept_words(c: Changes) -> None:
    """A file that is taken out, written or not, and put back keeps its type; and its words if it wasn't written."""
    c.start("f-user.adf")
    c.run("get", "a.adf", "$.!Boot.!Run", "run")
    c.run("put", "--replace", "a.adf", "run", "$.!Boot.!Run")
    words = tree_of(read(c.at("a.adf")))[(b"!Boot", b"!Run")][1:3]
    with open(c.at("run"), "ab") as file:
        file.write(b"more")
    c.run("put", "a.adf", "run", "$.Other")
    other = tree_of(read(c.at("a.adf")))[(b"Other",)]
    c.checks.expect("words are kept", words=((0xFFFFEB12, 0x5A5A5A5A), words), type=(0xFEB, other[1] >> 8 & 0xFFF),
                    time=(True, other[2] != 0x5A5A5A5A), content=(b"| boots\nmore", other[3]))


def differing(wanted: Dict[Tuple[bytes, ...], Node], found: Dict[Tuple[bytes, ...], Node]) -> List[Tuple[object, ...]]:
    """The first objects that aren't alike, without their bytes."""
    paths = [path for path in {**wanted, **found} if wanted.get(path) != found.get(path)]
    return [(path, wanted.get(path, ())[:3], found.get(path, ())[:3]) for path in paths[:5]]


PARTS = (putting, moving, removing, over_big_directories, over_old_maps, squashing, forms, adding, adding_somewhere, adding_much, long_files,
         troubles, other_programs, programs_that_go, removing_levels, other_hosts, signals)


def run_parts(checks: Checks, mounts: bool) -> None:
    c = Changes(checks)
    for part in [*PARTS, *([no_room] if mounts else []), kept_words]:
        if checks.suite.wants(part.__name__):
            part(c)


def run_rounds(checks: Checks) -> None:
    c = Changes(checks)
    for name, volume, data in whole_discs(checks):
        if checks.suite.wants(name):
            round_trip(c, name, data, (own_format(data, volume), "F+"))


def whole_discs(checks: Checks) -> Iterator[Tuple[str, Optional[Volume], bytes]]:
    """The discs of the table that differ in more than their maps: name, volume, image."""
    seen = []
    discs = [(name, volume, data) for name, volume, data in table.accepted() if len(data) < 2000000]
    for name in ("hostile", "one"):
        discs.append((name, None, read(checks.place(b"images/%s.adf" % name.encode()))))
    for name, volume, data in discs:
        tree = tree_of(data)
        if tree and (len(data), tree) not in seen:  # many discs differ in their maps alone
            seen.append((len(data), tree))
            yield name, volume, data
