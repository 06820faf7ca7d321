# SPDX-License-Identifier: MIT
"""Worked rows that change discs: a disc, a script, the replies, and whether the disc is opened to be read only."""
from __future__ import annotations

import hashlib
from typing import Callable

from tools.images import damaged
from tools.images.fragmented import hard_disc
from tools.images.table import full_identifiers, named_files, small_tree, two_holes, user_disc
from tools.images.volumes import FRESH, File, NewVolume, OldVolume, record_bytes
from tools.reference.filecore import BIG_LIMIT

LONG = "n" * 255


def eighty_two_holes() -> OldVolume:
    """An L disc with 82 holes; `$.P` touches none, and `$.Q` touches one."""
    volume = OldVolume("L", 2560)
    for name in (b"P", b"Q"):
        volume.lose(1)
        volume.root.insert(volume.file(name, name))
        volume.lose(name == b"P")
    for at in range(82):
        volume.hole(2)
        volume.lose(1)
    return volume


def holes_of_four_and_eight() -> OldVolume:
    """A D disc without lost space, with holes of 4 and 8 units."""
    volume = OldVolume("D", 3200)
    volume.hole(4)
    volume.root.insert(volume.file(b"F", b"F"))
    volume.hole(8)
    volume.root.insert(volume.file(b"G", bytes((3200 - volume.next) * 256)))
    return volume


class Worn:
    """A fresh F disc in which bytes of the map's copies were changed."""

    def __init__(self, change: Callable[[damaged.Damage], damaged.Damage]) -> None:
        self.change = change

    def image(self) -> bytearray:
        return self.change(damaged.Damage(FRESH["F"]())).data


WORN = [  # a copy with another total than it may have and right checks, one with a wrong check, and a second copy that says something else
    lambda damage: damage.zone(0, {3: 0xFE}, (0,)), lambda damage: damage.zone(0, {3: 0xFE}, (1,)),
    lambda damage: damage.wrong_check(1, (0,)), lambda damage: damage.wrong_check(3, (1,)),
    lambda damage: damage.zone(1, {1: 0x28, 4: 3, 5: 0x80}, (1,)),
]


def holes_of(*lengths: int) -> NewVolume:
    """A disc of one zone with these holes and lost runs of 16 bits between them: 256 bytes a bit, sectors of 512, runs of 16 bits at
    least."""
    size = 256 * (22 + sum(lengths) + 16 * (len(lengths) - 1))
    volume = NewVolume(record_bytes(9, 15, 8, 1, 32, 0x208, size), True)
    volume.take(2, 0, 22)
    for before in lengths[:-1]:
        volume.take(99, 0, 16, skip=before)
    return volume


def after_four_units() -> OldVolume:
    """An old map whose hole of 4 units is shorter than the file after it, so that this slides over itself."""
    volume = OldVolume("D", 3200)
    volume.hole(4)
    volume.root.insert(volume.file(b"A", sectors(24)))
    volume.rest_is_hole()
    return volume


def sectors(count: int) -> bytes:
    """So many sectors of 256 bytes, each with its number."""
    return b"".join((b"a%d" % at).ljust(256, b"\0") for at in range(count))


def after_a_hole(bits: int) -> NewVolume:
    """A hole of 16 bits and a run of so many after it, which is the file `$.A`: two zones, runs of 16 bits at least, 32 bytes a bit."""
    volume = NewVolume(record_bytes(8, 11, 5, 2, 32, 0x300, 113664), True)
    for identifier, zone, count in ((2, 1, 32), (3, 1, 64), (2, 0, 112)):
        volume.take(identifier, zone, count)
    volume.take(4, 0, bits, skip=16)
    volume.root.insert(File(b"A", sectors(bits // 8), 4 * 256))
    return volume


def in_zones(zones: range) -> NewVolume:
    """A file `$.A` with runs of 16 bits in these of ten zones; the last zone has the only hole, and all else is lost."""
    volume = NewVolume(record_bytes(8, 11, 5, 10, 32, 0x300, 629760), True)
    for identifier, zone, count in ((2, 5, 160), (3, 5, 64), (2, 0, 112)):
        volume.take(identifier, zone, count)
    for zone in range(10):
        if zone in zones:
            volume.take(700, zone, 16)
        length, owner = volume.runs[zone].pop()
        volume.runs[zone] += [(length, 900)] if zone < 9 else [(length - 160, 900), (160, None)]
    volume.root.insert(File(b"A", sectors(2 * len(zones)), 700 * 256))
    return volume


def digest(count: int) -> str:
    return hashlib.sha256(sectors(count)).hexdigest() + " / ok"


def saved(name: str, count: int) -> str:
    return "save $.%s Z Z %s\n" % (name, sectors(count).hex())


def listed(*names: str) -> str:
    """The reply of `cat` for files of 0 bytes."""
    return "".join(name + " 00000003 00000000 00000000 0 / " for name in names) + "ok"


def listed_docs() -> str:
    """What `cat` answers of the forty files of the user's disc."""
    volume = user_disc()
    docs = next(entry for entry in volume.root.entries if entry.name == b"Docs")
    assert len(docs.entries) == 40
    return volume.cat_lines(docs).replace("\n", " / ") + "ok"


def full_big_directory() -> NewVolume:
    """A directory of 4,194,304 bytes, the most that there can be, of which 148 are left."""
    volume = hard_disc(9, 13, 8, 8, big=True)
    pieces = [(zone, volume.shape.units(BIG_LIMIT // 6)) for zone in (0, 1, 2, 5, 6)]
    pieces.append((7, volume.shape.units(BIG_LIMIT) - sum(bits for zone, bits in pieces)))
    holder = volume.root.insert(volume.directory(volume.root, b"Full", pieces, BIG_LIMIT))
    for at in range(14768):
        holder.append(File(b"%05d" % at + b"n" * 250, b""))
    return volume


def names(count: int) -> str:
    """Lines that make so many files of 0 bytes."""
    return "".join("create $.N%02d Z Z 0\n" % at for at in range(count))


ON_ALL = [  # answered alike on all discs
    ("save $.Ab FFFFFF00 Z 01\nsave $.aB FFFFFF00 Z 02\ncat $\nload $.AB",
     "ok / ok / Ab 00000003 ffffff00 00000000 1 / ok / 02 / ok"),
    ("cdir $.D\ncdir $.D.E\nrename $.D $.D.E.X\nrename $.D $.D.Q.X\nrename $.D $.D\nrename $ $.X\nrename $.D $\ndelete $.D",
     "ok / ok / error 8 IntoItself / error 3 NotFound / ok / error 7 RootRefused / error 6 Exists / error 10 NotEmpty"),
    ("save $.L Z Z 01\nset $.L Z Z RL\ndelete $.L\nrename $.L $.M\nsave $.L Z Z 02\ncat $\nload $.L",
     "ok / ok / error 9 Locked / error 9 Locked / error 9 Locked / L 00000005 00000000 00000000 1 / ok / 01 / ok"),
]
# names of ten and of eleven bytes, with a byte above 127, a space, punctuation, and byte 127
WRITABLE = "".join("create $.%s Z Z 0\n" % name for name in ("ABCDEFGHIJ", "ABCDEFGHIJK", "%E9", "A%20B", "!Boot~", "%7F"))[:-1]
# letters count as capitals, and other bytes as they are
UNORDERED = ("_", "%E9", "{", "Ac", "AB", "[", "a", "%C9", "`")
ORDER = "".join("create $.%s Z Z 0\n" % name for name in UNORDERED) + "cat $\ncdir $.ab\ncreate $.%e9 Z Z 0"
ORDERED = "ok / " * len(UNORDERED) + listed("a", "AB", "Ac", "[", "_", "`", "{", "%C9", "%E9") + " / error 6 Exists / ok"


def slides(most: int) -> str:
    """Three files whose runs begin at any bit: the first goes, and the others slide into its place."""
    return (saved("A", most) + saved("B", most - 2) + saved("C", most - 1) + "delete $.A\ncompact\ndigest $.B\ndigest $.C\ncheck")


def slid(most: int, free: int) -> str:
    return ("ok / ok / ok / ok / ok / " + digest(most - 2) + " / " + digest(most - 1)
            + " / files 2 dirs 1 lost 0 holes 2 free %d unsorted 0 parents 0 / ok" % free)


ROWS = [(make, script, wanted) for make in FRESH.values() for script, wanted in ON_ALL] + [
    (FRESH["E"], "create $.A Z Z 815105\ncreate $.A Z Z 815104\nfree\ncreate $.B Z Z 1\ncreate $.C Z Z 0",
     "error 14 DiscFull / ok / free 0 0 / ok / error 14 DiscFull / ok"),
    (FRESH["D"], "create $.A Z Z 816129\ncreate $.A Z Z 816128\nfree\ncreate $.B Z Z 1\ncreate $.C Z Z 0",
     "error 14 DiscFull / ok / free 0 0 / ok / error 14 DiscFull / ok"),
    (two_holes, "create $.A Z Z 5120\nfree\ncreate $.B Z Z 1", "ok / free 0 0 / ok / ok"),
    (holes_of_four_and_eight, "create $.A Z Z 3073\ncreate $.A Z Z 3000", "error 14 DiscFull / error 15 CompactionRequired"),
    (holes_of_four_and_eight, "create $.A Z Z 3073\ncreate $.A Z Z 3000\ncompact\ncreate $.A Z Z 3000\nfree",
     "error 14 DiscFull / error 15 CompactionRequired / ok / ok / free 0 0 / ok"),
    (eighty_two_holes, "delete $.P\ndelete $.Q", "error 16 MapFull / ok"),
    *((FRESH[form], names(count) + "create $.New Z Z 0\ncreate $.n05 Z Z 1", "ok / " * count + "error 12 DirFull / ok")
      for form, count in (("E", 77), ("D", 77), ("L", 47))),
    (FRESH["E"], "save $.A Z Z 4142\nsave $.B Z Z 43\nfree\ndelete $.A\nload $.B\nfree\ndelete $.B\nfree",
     "ok / ok / free 813056 813056 / ok / ok / 43 / ok / free 813056 813056 / ok / ok / free 815104 815104 / ok"),
    (FRESH["E"], "create $.A Z Z 2048\ncreate $.B Z Z 2048\ncreate $.C Z Z 4096\ndelete $.A\nfree",
     "ok / ok / ok / ok / free 808960 806912 / ok"),
    (FRESH["E"], "create $.A Z Z 2048\ncreate $.B Z Z 2048\ncreate $.C Z Z 4096\ndelete $.A\nfree\ncompact\nfree",
     "ok / ok / ok / ok / free 808960 806912 / ok / ok / free 808960 808960 / ok"),
    (FRESH["E"], "create $.A Z Z 2048\ncreate $.B Z Z 4096\ndelete $.A\ncompact\nfree", "ok / ok / ok / ok / free 811008 811008 / ok"),
    (FRESH["E"], "delete $.None\ncompact", "error 3 NotFound / error 11 ReadOnly", True),
    (named_files, "load $.A%20B\nsave $.A%20B Z Z 01\nlod $\nload $\nload $.A%20B.C",
     "41204221 / ok / error 2 BadName / error 1 BadCommand / error 5 IsDirectory / error 4 NotDirectory"),
    (full_identifiers, "create $.A Z Z 1", "error 13 IdsFull"),
    (FRESH["L"], "save $.A Z Z 01\ncdir $.D\nfree", "ok / ok / free 652032 652032 / ok"),
    (FRESH["E"], "save $.A Z Z 4142\nsave $.B Z Z 43\ncdir $.D\nrename $.B $.D.B\nload $.D.B\nfree",
     "ok / ok / ok / ok / 43 / ok / free 808960 808960 / ok"),
    (FRESH["E+"], names(62) + "free\ncreate $.N62 Z Z 0\nfree",
     "ok / " * 62 + "free 815104 815104 / ok / ok / free 813056 811008 / ok"),
    (FRESH["E+"], names(62) + "free\ncreate $.N62 Z Z 0\nfree\ncompact\nfree",
     "ok / " * 62 + "free 815104 815104 / ok / ok / free 813056 811008 / ok / ok / free 813056 813056 / ok"),
    (full_big_directory, "create $.Full.%s Z Z 0\ncdir $.Full.%s\ncreate $.Full.A Z Z 0\nrename $.Full.A $.Full.%s\n"
     "rename $.Full.A $.Full.B\ncreate $.Full.00001%s Z Z 1\ndelete $.Full.00001%s\ncdir $.Full.%s" % (
         LONG, LONG, LONG, LONG[5:], LONG[5:], LONG),
     "error 12 DirFull / error 12 DirFull / ok / error 12 DirFull / ok / ok / ok / ok"),
    (FRESH["E+"], "save $.Notes_of_the_second_year Z Z 4142\ncat $", "ok / Notes_of_the_second_year 00000003 00000000 00000000 2 / ok"),
    (FRESH["E"], "save $.Notes_of_the_second_year Z Z 4142\ncat $", "error 2 BadName / ok"),
    (FRESH["E"], "create $.error Z Z 0\ncat $", "ok / error 00000003 00000000 00000000 0 / ok"),
    *((lambda change=change: Worn(change), "cdir $.D\ncat $", "ok / D 00000008 00000000 00000000 dir / ok") for change in WORN),
    (lambda: holes_of(16, 16, 64), "create $.A Z Z 17920\nfree", "ok / free 4096 4096 / ok"),
    (lambda: holes_of(18, 18), "create $.A Z Z 4096\nfree", "ok / free 4608 4608 / ok"),
    (lambda: holes_of(18, 18), "create $.A Z Z 1\nfree", "ok / free 4608 4608 / ok"),
    (lambda: holes_of(16, 40, 64), "create $.A Z Z 4352\ncheck",
     "ok / files 1 dirs 1 lost 8192 holes 3 free 26112 unsorted 0 parents 0 / ok"),
    *((lambda idlen=idlen: hard_disc(8, idlen, 8, 2, big=idlen > 15), slides(idlen + 4), slid(idlen + 4, free))
      for idlen, free in ((11, 892672), (12, 891648), (15, 888064), (19, 882944))),
    (after_four_units, "digest $.A\nfree\ncompact\ndigest $.A\nfree",
     digest(24) + " / free 809984 808960 / ok / ok / " + digest(24) + " / free 809984 809984 / ok"),
    (small_tree, "rename $.D $.D\nrename $.D $.d\nrename $.d.E $.F\ncdir $.d.G\nset $.l Z Z R\nset $.A%20B Z Z RL\nset $.A%20B Z Z -\n"
     "delete $.A%20B\ndelete $.F\ncat $", "ok / " * 9 + "d 00000008 00000000 00000000 dir / L 00000001 00000000 00000000 1 / ok"),
    (FRESH["E"], WRITABLE, "ok / error 2 BadName / ok / error 2 BadName / ok / error 2 BadName"),
    (FRESH["L"], WRITABLE, "ok / error 2 BadName / error 2 BadName / error 2 BadName / ok / error 2 BadName"),
    (FRESH["E+"], WRITABLE, "ok / ok / ok / error 2 BadName / ok / error 2 BadName"),
    *((FRESH[form], ORDER, ORDERED) for form in ("E", "D", "E+")),
    (FRESH["E+"], names(63) + "free\nrename $.N00 $.%s\nfree" % ("a" * 200),
     "ok / " * 63 + "free 813056 811008 / ok / ok / free 813056 811008 / ok"),
    (lambda: after_a_hole(40), "digest $.A\nfree\ncompact\nfree\ndigest $.A",
     digest(5) + " / free 105728 61440 / ok / ok / free 105728 61440 / ok / " + digest(5)),
    (lambda: after_a_hole(24), "digest $.A\nfree\ncompact\nfree\ndigest $.A",
     digest(3) + " / free 106240 61440 / ok / ok / free 106240 61440 / ok / " + digest(3)),
    (lambda: in_zones(range(8)), "digest $.A\ncompact\nfree\ndigest $.A", digest(16) + " / ok / free 5120 1024 / ok / " + digest(16)),
    (lambda: in_zones(range(9)), "digest $.A\ncompact\nfree\ndigest $.A", digest(18) + " / ok / free 5120 5120 / ok / " + digest(18)),
    (user_disc, "cat $.Docs\nload $.!Boot.!Run\nsave $.Docs.Note5 FFFFFD00 Z 4142\nsave $.!New Z Z 43\ndelete $.Docs.Note0\n"
     "delete $.!Boot.!Run\ncompact\nload $.!New\nload $.Docs.Note5",
     listed_docs() + " / 7c20626f6f74730a / ok / ok / ok / ok / ok / ok / 43 / ok / 4142 / ok"),
]
