# SPDX-License-Identifier: MIT
"""Checks of `fcdisc convert`, under which fconvert works: what it names before anything is made, what it keeps, and what it leaves.

Which objects have to be named follows from the disc alone (tools/reference/conversion.py).
"""
from __future__ import annotations

import os
import shutil
import signal
import subprocess
from typing import TYPE_CHECKING, Iterator, List, Tuple

from tools.checks import fcdisc_cases
from tools.checks.fcdisc_cases import FULL_DISK
from tools.checks.fcdisc_changes import Changes, differing, tree_of, whole_discs
from tools.checks.work_folders import wait_for
from tools.files import read
from tools.images import sources
from tools.images.volumes import FRESH, AnyVolume
from tools.reference.change_state import State
from tools.reference.conversion import misfits, objects_of, spelled

if TYPE_CHECKING:
    from tools.checks.fcdisc import Checks

NOT_MADE = "; it isn't made\n"
FAKE = 'FCONVERT=../fake/fcore exec "$@"'  # `Changes.fake` gives its program this name
READ_ONLY = ("mkdir ../room; unshare -m sh -c 'mount --bind . ../room && cd ../room && mount -o remount,bind,ro . && cd \"$PWD\" && "
             "exec \"$@\"' sh \"$@\"; status=$?; rmdir ../room; exit $status")
SMALL = ("mkdir ../small; unshare -m sh -c 'mount -t tmpfs -o size=64k none ../small; TMPDIR=$PWD/../small exec \"$@\"' sh \"$@\"; status=$?; "
         "rmdir ../small; exit $status")
LONG, SPACE = "its name has %d letters, and this disc takes no more than 10", "no name that is written to a disc may have %s in it"
FIT = " (--fit gives it another name)"


def put(c: Changes, volume: AnyVolume, name: str = "a.adf") -> None:
    """The disc in place of the one that a work folder begins with."""
    with open(c.at(name), "wb") as file:
        file.write(volume.image())


def converting(c: Changes) -> None:
    c.start("f-user.adf", files={"there": b"mine"})
    c.refused("convert over a file", ["convert", "E", "a.adf", "there"], "there: there is something of this name already")
    c.refused("convert over itself", ["convert", "E", "a.adf", "a.adf"], "a.adf: there is something of this name already")
    c.refused("convert nothing", ["convert", "E", "none", "b.adf"], "none: No such file or directory")
    c.refused("convert into no folder", ["convert", "E", "a.adf", "none/b.adf"], "none/b.adf: No such file or directory", image="a.adf")
    put(c, sources.filled("L"), "l.adf")
    c.run("adl", "--back", "l.adf", "a.adl")
    got = c.run("convert", "F+", "a.adl", "b.adf")
    c.checks.expect("convert an .adl", status=(0, got[2]), told=(True, got[1].startswith("fcdisc: a.adl: " + fcdisc_cases.SIDES)),
                    tree=([], differing(tree_of(read(c.at("l.adf"))), tree_of(read(c.at("b.adf"))))))
    with open(c.at("h.adf"), "wb") as file:
        file.write(bytes(512) + sources.filled("E").image())
    got = c.run("convert", "F", "h.adf", "c.adf")
    c.checks.expect("convert behind a header", status=(0, got[2]), same=(True, tree_of(read(c.at("h.adf"))[512:]) == tree_of(read(c.at("c.adf")))))


def kept_attributes(c: Changes) -> None:
    """All bits of access are kept, of directories too, and load and exec words."""
    for form, target in (("L", "E+"), ("E", "D"), ("F+", "L")):
        c.start("f-user.adf")
        put(c, sources.filled(form))
        got = c.run("convert", target, "a.adf", "b.adf")
        c.checks.expect("all attributes, %s to %s" % (form, target), result=(("9 of 9 files copied to b.adf\n", "", 0), got),
                        tree=([], differing(tree_of(read(c.at("a.adf"))), tree_of(read(c.at("b.adf"))))))


# ---- what doesn't fit


def odd_disc() -> AnyVolume:
    """Names, access and a directory that don't fit a disc with small directories."""
    volume = FRESH["F+"]()
    root = volume.root
    for name, attributes in ((b"A_long_name_here", 3), (b"B b", 51), (b"Plain", 0x103), (b"caf\xe9", 3), (b"Fits", 3)):
        root.insert(volume.file(name, name, attributes=attributes, load=0xFFFFFF00 + len(name)))
    many = root.insert(volume.directory(root, b"Many", size=6144))
    for at in range(80):
        many.insert(volume.file(b"N%02d" % at, b""))
    return volume


def all_misfits(c: Changes) -> None:
    c.start("f-user.adf")
    put(c, odd_disc())
    told = ["b.adf: $.A_long_name_here: not copied: " + LONG % 16 + FIT, "b.adf: $.B%20b: not copied: " + SPACE % "%20" + FIT,
            "b.adf: $.Plain: not copied: what may be done with it (103) has more bits than there are on such a disc",
            "b.adf: $.Many: not copied: it has 80 entries, and a directory of such a disc takes no more than 77",
            "b.adf: 4 objects don't fit; it isn't made"]
    before = c.names()
    got = c.run("convert", "E", "a.adf", "b.adf")
    c.checks.expect("all that doesn't fit", result=(("", "".join("fcdisc: %s\n" % line for line in told), 1), got), left=(before, c.names()))
    arrows = "$.A_long_name_here -> $.A_long_n~1\n$.B%20b -> $.B%A0b\n"
    got = c.run("convert", "--fit", "E", "a.adf", "b.adf")
    told = [*told[2:4], "b.adf: 2 objects don't fit; it isn't made"]
    c.checks.expect("what --fit can't help", result=((arrows, "".join("fcdisc: %s\n" % line for line in told), 1), got), left=(before, c.names()))
    volume = FRESH["E+"]()
    for at in range(9):
        volume.root.insert(volume.file(b"a name too long %d" % at, b""))
    put(c, volume)
    lines = [c.run("convert", *words, "D", "a.adf", "b.adf")[1].count("\n") for words in ([], ["-v"])]
    c.checks.expect("many that don't fit", lines=([7, 10], lines), left=(before, c.names()))


def no_room(c: Changes) -> None:
    c.start("f-user.adf")
    put(c, sources.large(1 << 21))
    before = c.names()
    for form in ("L", "F+"):
        got = c.run("convert", form, "a.adf", "b.adf")
        told = "fcdisc: b.adf: $.Large: not copied: the disc is full" + NOT_MADE
        c.checks.expect("no room on " + form, result=(("", told, 1), got), left=(before, c.names()))


# ---- --fit


def converting_to_fit(c: Changes) -> None:
    """A disc with long names onto one with short ones: all files, and a list of names."""
    c.start("hostile.adf")
    before = tree_of(read(c.at("a.adf")))
    image = read(c.at("a.adf"))
    for form in ("F", "L"):
        out, err, status = c.run("convert", "--fit", form, "a.adf", "%s.adf" % form)
        files = sum(node[3] is not None for node in before.values())
        after = tree_of(read(c.at("%s.adf" % form)))
        objects = [sorted((node[:3], node[3] or b"") for node in tree.values()) for tree in (before, after)]
        c.checks.expect("convert --fit " + form, status=(0, status), objects=(objects[0], objects[1]),
                        last=("%d of %d files copied to %s.adf" % (files, files, form), out.splitlines()[-1]),
                        arrows=(True, all(" -> " in line for line in out.splitlines()[:-1])), same=(True, read(c.at("a.adf")) == image))
    out, err, status = c.run("convert", "F", "a.adf", "c.adf")
    c.checks.expect("convert names the option", told=(True, FIT in err), status=(1, status), made=(False, os.path.exists(c.at("c.adf"))))


def fitting_locked(c: Changes) -> None:
    """Locked files and directories get other names too, and stay locked; names stay apart; a disc's own names decide what a name can be."""
    volume = FRESH["E+"]()
    outer = volume.root.insert(volume.directory(volume.root, b"A locked directory", attributes=13, load=5))
    outer.insert(volume.file(b"a locked file within", b"1", attributes=55, load=0xFFFFFB00, execution=7))
    outer.insert(volume.file(b"a locked file", b"2", attributes=0x24))
    outer.insert(volume.file(b"a_locked~1", b"3"))
    c.start("f-user.adf")
    put(c, volume)
    out, err, status = c.run("convert", "--fit", "L", "a.adf", "b.adf")
    c.checks.expect("--fit of locked objects", result=((0, ""), (status, err)), tree=({
        (b"A_locked~1",): (13, 5, 0, None), (b"A_locked~1", b"a_locked~2"): (0x24, 0, 0, b"2"), (b"A_locked~1", b"a_locked~3"): (55, 0xFFFFFB00, 7, b"1"),
        (b"A_locked~1", b"a_locked~1"): (3, 0, 0, b"3")}, tree_of(read(c.at("b.adf")))))
    spaces = sources.with_name("L", b"two words")
    put(c, spaces)
    c.run("convert", "--fit", "E+", "a.adf", "c.adf")
    c.checks.expect("--fit from an L disc", names=({(b"First",), (b"two_words",)}, set(tree_of(read(c.at("c.adf"))))))
    c.run("convert", "--fit", "E", "b.adf", "d.adf")
    c.checks.expect("--fit where all fits", same=(True, tree_of(read(c.at("b.adf"))) == tree_of(read(c.at("d.adf")))))


# ---- the program, the host, signals

PROGRAMS: Tuple[Tuple[str, str, str], ...] = (
    ("exit 2", "", "fconvert doesn't know these words: is it of another version?"), ("exit 4", "", "I/O error while fconvert read the disc"),
    ("exit 5", "", "I/O error while fconvert made the disc in ..."), ("exit 7", "", "fconvert ran out of memory"),
    ("exit 77", "", "fconvert ended with status 77"), ("kill -9 $$", "", "fconvert was ended by signal 9"),
    ("exit 0", "", "fconvert ended with status 0"), ("exit 8", "no-room 13 IdsFull $.A%20B", "$.A%20B: not copied: the disc has no room for another object"),
    ("exit 1", "unfit Entries $.D", "$.D: not copied: its entries doesn't fit"), ("exit 11", "bad-image NoKind", "what fconvert made in ..."),
)


def converters(c: Changes) -> None:
    """Other programs in fconvert's place."""
    c.start("f-user.adf")
    for text, line, told in PROGRAMS:
        c.fake("#!/bin/sh\n%s\n%s\n" % ("echo '%s'" % line if line else "", text))
        c.refused("fconvert: %s" % text, ["convert", "E", "a.adf", "b.adf"], "b.adf: " + told + NOT_MADE.rstrip("\n"), within=FAKE)
    c.fake("#!/bin/sh\necho bad-image NoKind; exit 3\n")
    got = c.run("convert", "E", "a.adf", "b.adf", within=FAKE)
    c.checks.expect("fconvert doesn't accept it", status=(1, got[2]), told=(True, got[1].startswith("fcdisc: a.adf: not accepted: ")))
    c.refused("fconvert is none", ["convert", "E", "a.adf", "b.adf"], "$FCONVERT is ../fake/none, and that can't be run",
              within='FCONVERT=../fake/none exec "$@"')
    gone = c.fake(fcdisc_cases.GONE)
    c.refused("fcore lists less", ["convert", "E", "a.adf", "b.adf"], "a.adf: " + fcdisc_cases.CHANGED, fcore=gone)


def leaving_nothing(c: Changes) -> None:
    """What is made on the way is gone afterwards, where TMPDIR is named, and in memory, where it isn't."""
    c.start("f-user.adf")
    place = os.fsdecode(c.checks.fresh(b"tmp"))
    for within, folder in (('TMPDIR=%s exec "$@"' % place, place), ('unset TMPDIR TEMP TMP; exec "$@"', "/dev/shm")):
        before = set(os.listdir(folder)) if os.path.isdir(folder) else set()
        for words in (["E", "a.adf", "b.adf"], ["F", "a.adf", "a.adf"], ["--fit", "L", "a.adf", "b.adf"]):
            c.run("convert", *words, within=within)
            left = {name for name in (os.listdir(folder) if os.path.isdir(folder) else ()) if name.startswith("fcdisc-")} - before
            c.checks.expect("convert %s leaves nothing in %s" % (" ".join(words), folder), left=(set(), left))
        os.unlink(c.at("b.adf"))
    shutil.rmtree(place)


def interrupted(c: Changes) -> None:
    """A signal while fconvert works: it ends too, and nothing is left."""
    for number in (signal.SIGINT, signal.SIGTERM):
        c.start("f-user.adf")
        place = os.fsdecode(c.checks.fresh(b"tmp"))
        fake = c.fake("#!/bin/sh\ntouch begun; exec sleep 30\n")
        environment = {**c.checks.environment(), "FCONVERT": fake, "TMPDIR": place}
        run = subprocess.Popen([c.checks.fcdisc, "convert", "E", "a.adf", "b.adf"], cwd=c.work, env=environment, stderr=subprocess.PIPE)
        wait_for(lambda: os.path.exists(c.at("begun")))
        run.send_signal(number)
        errors = run.communicate(timeout=20)[1]
        c.checks.expect("convert, signal %d" % number, status=(-number, run.returncode), errors=(b"", errors), left=(["a.adf", "begun"], c.names()),
                        temporary=([], os.listdir(place)))
        shutil.rmtree(place)


def deep(c: Changes) -> None:
    c.start("deep.adf")
    got = c.run("convert", "F+", "a.adf", "b.adf")
    c.checks.expect("directories that are deep", result=(("0 of 0 files copied to b.adf\n", "fcdisc: a.adf: directories more than 127 deep are not "
                                                         "looked through\n", 0), got),
                    same=(True, tree_of(read(c.at("a.adf"))) == tree_of(read(c.at("b.adf")))))


def hosts(c: Changes) -> None:
    """A host without room, and one that is only read."""
    c.start("f-user.adf")
    out, err, status = c.run("convert", "F", "../images/f-user.adf", "n.adf", within=FULL_DISK % (64, "echo > pad"))
    c.checks.expect("convert on a full host", told=("fcdisc: n.adf: No space left on device\n", err), status=(1, status),
                    left=(". ./pad", out.splitlines()[-1]))
    c.start("f-user.adf")
    c.refused("convert on a host that is only read", ["convert", "F", "a.adf", "n.adf"], "n.adf: Read-only file system", within=READ_ONLY)
    c.start("f-user.adf")
    got = c.run("convert", "F", "a.adf", "n.adf", within=SMALL)
    c.checks.expect("no room where discs are made", status=(1, got[2]), left=(["a.adf"], c.names()), told=(
        True, got[1].startswith("fcdisc: n.adf: I/O error while fconvert made the disc in ") and got[1].endswith("(is the host full?)" + NOT_MADE)))


PARTS = (converting, kept_attributes, all_misfits, no_room, converting_to_fit, fitting_locked, converters, leaving_nothing, interrupted, deep)
MOUNTED = (hosts,)


# ---- each disc


def each_disc(checks: Checks) -> None:
    """Each disc of the table: the same tree, or all that doesn't fit, named, and no disc."""
    c = Changes(checks)
    for name, _, data in whole_discs(checks):
        if checks.suite.wants(name):
            lines: List[str] = []
            for form in ("F", "F+", "L"):
                lines += ["to %s: %s" % (form, line) for line in disc_differences(c, name, form, data)]
            checks.suite.note(name, lines)


def disc_differences(c: Changes, name: str, form: str, data: bytes) -> Iterator[str]:
    objects = objects_of(State(data))
    wrong = {spelled(objects, key) for _, key in misfits(objects, form)}
    c.start(name + ".adf")
    out, err, status = c.run("convert", "-v", form, "a.adf", "b.adf")
    is_made = os.path.exists(c.at("b.adf"))
    if wrong:
        told = {line.split(": ")[2] for line in err.splitlines() if ": not copied: " in line}
        if status != 1 or is_made or told != wrong:
            yield "status %d; names %s, and not %s" % (status, sorted(told), sorted(wrong))
    elif is_made:
        files = sum(one[4] is not None for one in objects.values())
        yield from map(str, differing(tree_of(data), tree_of(read(c.at("b.adf")))))
        if status or err and "taken to be in disc order" not in err or out != "%d of %d file%s copied to b.adf\n" % (files, files, "s" * (files != 1)):
            yield "status %d: %s%s" % (status, out, err)
    elif status != 1 or not err.endswith(NOT_MADE) or "not copied: " not in err:
        yield "status %d: %s" % (status, err)
