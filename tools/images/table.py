#!/usr/bin/env python3
# SPDX-License-Identifier: MIT
"""Builds images of FileCore discs of every kind, and a table of what fcore has to answer over them.

usage: tools/run images/table FOLDER          fills an empty folder with the images
       tools/run images/table --hello IMAGE   writes the image that the repository embeds
`tools/run checks/run images` compares the table with the reader of tools/reference/read_image.py.
"""
from __future__ import annotations

import os
import sys
from typing import Callable, Dict, Iterator, List, Tuple, Union

from tools.images import damaged, script_cases
from tools.images.volumes import FRESH, Directory, File, NewVolume, OldVolume, Volume, fresh_e, fresh_f, record_bytes
from tools.reference.filecore import (BAD_NAME, EXISTS, INTO_ITSELF, IS_DIRECTORY, LOCKED, NOT_DIRECTORY, NOT_EMPTY, NOT_FOUND,
                                      READ_ONLY, ROOT_REFUSED)

HARD_DISC = dict(log2_sector=9, idlen=13, log2_bit=7, zones=20, spare=32, root=0x300, size=79200 * 128, share=1)


def content(length: int, seed: int) -> bytes:
    """Bytes that differ from place to place."""
    return bytes((seed + at * 7 + (at >> 8) * 3) % 256 for at in range(length))


def typed(file_type: int) -> int:
    return 0xFFF00000 | file_type << 8 | 0x12


# ---- what new maps have in common


def hello() -> NewVolume:
    """The embedded image: format E with one file."""
    volume = fresh_e()
    volume.root.insert(volume.file(b"Hello", b"Hello"))
    return volume


def add_lengths(volume: Volume, holder: Directory) -> None:
    """Files whose lengths lie about those of sectors."""
    for length in (0, 1, 1023, 1024, 1025, 2048, 100000):
        made = volume.file(b"L%d" % length, content(length, length), attributes=3 | length % 2 << 2, load=typed(length % 4096))
        holder.insert(made)
    empty = File(b"Nowhere", b"", 0xFFFFFF)  # the address of an empty file is unread
    holder.insert(empty)


def add_tree(volume: Volume) -> None:
    """Directories three deep, odd names, an unsorted root and a wrong parent field."""
    root = volume.root
    outer = root.append(volume.directory(root, b"Outer"))
    inner = outer.insert(volume.directory(outer, b"Inner", load=typed(0xFFD), execution=0x12345678))
    last = inner.insert(volume.directory(inner, b"Innermost", attributes=0xC))
    last.insert(volume.file(b"Deep", content(3000, 5), load=typed(0xFFF), execution=7))
    inner.parent = 0x1234
    lengths = root.append(volume.directory(root, b"Lengths"))
    add_lengths(volume, lengths)
    if volume.form == "L":
        names = (b"a b", b"two  too", b"x~y", b"dollar$", b"dot.dot", b"ten bytes!")
    else:
        names = (b"a b", b"caf\xe9", b"\xa0", b"x~y\x7f", b"dollar$", b"dot.dot", b"ten bytes!")
    for at, name in enumerate(names):
        root.append(volume.file(name, content(at * 300, at), attributes=0x33 if at % 2 else 3))
    root.entries.reverse()


def add_map_oddities(volume: NewVolume, zone: int) -> None:
    """Lost space, defects, touching holes and identifiers that files share, in one zone."""
    bits = volume.shape.least
    volume.take(volume.new_identifier(), zone, 2 * bits)  # nobody owns it
    volume.take(0, zone, bits, skip=bits)  # nor identifier 0
    volume.take(1, zone, bits, skip=3 * bits)
    shared = volume.new_identifier()
    share = volume.shape.share
    for skip in (0, 2 * bits):
        volume.take(shared, zone, volume.shape.units(4 * share), skip)
    holder = volume.root.append(volume.directory(volume.root, b"Shared"))
    for low, length in ((1, share), (2, 2 * share - 1), (4, 1), (6, share + 1)):
        holder.insert(File(b"Low%d" % low, content(length, low), shared * 256 + low))
    volume.split_hole(zone, bits)


def new_volume(make: Callable[[], NewVolume], zone: int = 0) -> NewVolume:
    volume = make()
    add_tree(volume)
    add_map_oddities(volume, zone)
    return volume


def add_fragments(volume: NewVolume) -> None:
    """A file whose runs lie in all zones of F, and are found from zone 2 round."""
    bits = volume.shape.units(10000)
    for name, identifier in ((b"From2", 900), (b"From3", 1600), (b"From0", 77), (b"From1", 500)):
        pieces = [(zone, bits) for zone in (3, 0, 1, 2)]
        volume.root.append(volume.file(name, content(38000, identifier % 256), pieces, identifier=identifier))


def files_f(big: bool = False) -> NewVolume:
    volume = new_volume(lambda: fresh_f(big), 1)
    add_fragments(volume)
    return volume


def user_disc() -> NewVolume:
    """As a user's disc of format F may look: an application, forty typed files, a defect, an unsorted root."""
    volume = fresh_f()
    root = volume.root
    docs = root.append(volume.directory(root, b"Docs"))
    boot = root.append(volume.directory(root, b"!Boot"))
    boot.insert(volume.file(b"!Run", b"| boots\n", load=typed(0xFEB), execution=0x5A5A5A5A))
    for at in range(40):
        docs.insert(volume.file(b"Note%d" % at, content(90 * at, at), load=typed(0xFFF if at % 3 else 0xAFF), execution=at))
    volume.take(1, 3, 32, skip=96)
    volume.past_end = (1 << 40) - 1 & ~0xF0
    return volume


# ---- big directories


def big_volume(make: Callable[[], NewVolume]) -> NewVolume:
    volume = new_volume(make)
    root = volume.root
    many = root.append(volume.directory(root, b"Many", size=10240))
    for at in range(150):
        many.insert(volume.file(b"A_name_longer_than_ten_bytes_%03d" % at, b"", load=typed(at), attributes=0x10003))
    many.heap_tail = 8
    for form in (1, 2):
        docs = root.append(volume.directory(root, b"Doc%d" % form))
        docs.form, docs.sequence, docs.spare_words = form, 255, 1
        docs.insert(volume.file(b"n" * 255, content(77, form)))
        docs.insert(volume.file(b"four", content(4, form)))
        docs.insert(volume.file(b"\xff" * 11, content(44, form)))
    return volume


def grown_root() -> NewVolume:
    """A root of 4096 bytes in a record that says so."""
    volume = fresh_e(big=True)
    raw = bytearray(volume.raw)
    raw[12:16], raw[49] = (0x400).to_bytes(4, "little"), 16
    volume = NewVolume(raw, False)
    volume.take(2, 0, 16)
    volume.take(4, 0, 32, skip=16)
    volume.root.size = 4096
    for at in range(64):
        volume.root.insert(File(b"N%02d" % at, b""))
    return volume


# ---- hard discs and odd geometries


def hard_disc() -> NewVolume:
    """Twenty zones of sectors of 512 bytes; the last zone isn't full."""
    volume = NewVolume(record_bytes(**HARD_DISC), True)
    volume.take(2, 10, 160)
    volume.take(2, 0, 32)
    volume.take(volume.new_identifier(), 10, 16)
    add_tree(volume)
    add_map_oddities(volume, 7)
    pieces = [(zone, volume.shape.units(8000)) for zone in (19, 3, 11, 12, 0)]
    volume.root.append(volume.file(b"Scattered", content(39000, 9), pieces, identifier=12 * 290 + 5))
    return volume


def wide_disc() -> NewVolume:
    """Ninety zones with identifiers of 19 bits, of which some pass 32,767, and a big root."""
    raw = record_bytes(10, 19, 5, 90, 32, 0x8F0000, 90 * 8160 * 32 - 480 * 32, version=1, root_size=2048)
    volume = NewVolume(raw, True)
    volume.take(2, 45, volume.shape.units(180 * 1024))
    volume.take(2, 0, 128)
    volume.take(0x8F00, 89, 64)
    volume.high_bits = 5
    volume.root.insert(volume.file(b"Far", content(5000, 1), [(88, 96), (2, 64)], identifier=36000))
    return volume


def scattered_directories() -> NewVolume:
    """Directories in pieces: two that begin by share units inside an identifier, each over two of its runs."""
    volume = NewVolume(record_bytes(**HARD_DISC), True)
    volume.take(2, 10, 160)
    volume.take(2, 0, 32)
    volume.take(volume.new_identifier(), 10, 16)
    identifier = volume.place(8192, [(3, 16), (7, 16), (1, 32)])
    outer = volume.root.append(Directory(b"Outer", identifier * 256 + 2))
    inner = outer.append(Directory(b"Inner", identifier * 256 + 4))
    outer.holder, inner.holder = volume.root, outer
    inner.append(volume.file(b"Deep", content(2000, 3), [(4, 16)]))
    outer.append(volume.file(b"Far", content(30000, 3), [(19, 80), (18, 80), (0, 80)], identifier=12 * 290 + 5))
    return volume


def scattered_big_directory() -> NewVolume:
    volume = fresh_f(big=True)
    many = volume.root.insert(volume.directory(volume.root, b"Many", [(3, 48), (0, 64), (1, 48)], size=10240))
    for at in range(120):
        many.insert(volume.file(b"A_name_longer_than_ten_bytes_%03d" % at, content(at % 3, at)))
    return volume


def small_sectors() -> NewVolume:
    """Four zones of sectors of 256 bytes."""
    volume = NewVolume(record_bytes(8, 12, 6, 4, 32, 0x300, (4 * 2016 - 480) * 64), True)
    volume.take(2, 2, 40)
    volume.take(2, 0, 64)
    volume.take(volume.new_identifier(), 2, 32)
    add_tree(volume)
    add_map_oddities(volume, 1)
    return volume


def large_sectors() -> NewVolume:
    """A hard disc of five zones of sectors of 1024 bytes, of which a share unit has four."""
    volume = NewVolume(record_bytes(10, 15, 9, 5, 64, 0x300, (5 * 8128 - 480) * 512, share=2), True)
    volume.take(2, 2, 20)
    volume.take(2, 0, 16)
    volume.take(volume.new_identifier(), 2, 16)
    add_tree(volume)
    add_map_oddities(volume, 3)
    return volume


def two_holes() -> NewVolume:
    """One zone of sectors of 512 bytes with a boot block, and two holes of 18 bits."""
    raw = record_bytes(9, 15, 8, 1, 32, 0x208, 74 * 256)
    volume = NewVolume(raw, True)
    volume.take(2, 0, 22)
    volume.take(99, 0, 16, skip=18)
    return volume


def full_identifiers() -> NewVolume:
    """Identifiers of 11 bits that all have runs, in sectors of 256 bytes, while holes are left."""
    raw = record_bytes(8, 11, 8, 16, 32, 0x300, 31776 * 256)
    volume = NewVolume(raw, True)
    volume.take(2, 8, 32)
    volume.take(2, 0, 16)
    for identifier in range(3, 2048):
        zone = next(z for z, runs in enumerate(volume.runs) if runs[-1][1] is None)
        length, owner = volume.runs[zone].pop()
        # a rest that is too short for a run goes with the last one
        volume.runs[zone] += [(12, identifier), (length - 12, None)] if length >= 24 else [(length, identifier)]
    return volume


# ---- old maps


def old_volume(form: str, units: int) -> OldVolume:
    volume = OldVolume(form, units)
    volume.name, volume.identifier, volume.option, volume.check_start = b"OldDisc", 0x1234, 3, 0
    volume.lose(8)
    add_tree(volume)
    volume.hole(16)
    volume.hole(4)  # it touches the one before
    last = volume.root.append(volume.directory(volume.root, b"Last", attributes=0x3FC if form == "L" else 0xFC))
    last.word = b"Hugo"
    for at in range(47 if form == "L" else 77):
        made = last.insert(volume.file(b"E%02d" % at, content(at % 5, at)))
        made.last = 0x77 if form == "L" else 0
    volume.lose(4)
    volume.rest_is_hole()
    return volume


def small_disc(units: int) -> OldVolume:
    volume = OldVolume("L", units)
    if units > 8:
        volume.root.insert(volume.file(b"One", content(257, 1)))
        volume.root.insert(File(b"None", b"", 0xFFFFFF))
    volume.rest_is_hole()
    return volume


def many_holes() -> OldVolume:
    """An L disc with as many holes as its map can tell."""
    volume = OldVolume("L", 2560)
    for at in range(82):
        volume.hole(2)
        if at < 40:
            volume.root.append(volume.file(b"F%d" % at, content(100 + at, at)))
        else:
            volume.lose(1)
    return volume


def small_tree() -> OldVolume:
    """An L disc of 40 sectors: a file `A B`, a directory D with an empty directory E in it, and a locked file L."""
    volume = OldVolume("L", 40)
    root = volume.root
    inner = root.insert(volume.directory(root, b"D"))
    inner.insert(volume.directory(inner, b"E"))
    root.insert(volume.file(b"A B", b"\1"))
    root.insert(volume.file(b"L", b"\1", attributes=7))
    volume.rest_is_hole()
    return volume


VOLUMES = {
    "hello": hello, "e-files": lambda: new_volume(fresh_e), "f-files": files_f, "d-files": lambda: old_volume("D", 3200),
    "l-files": lambda: old_volume("L", 2560), "e-plus-files": lambda: big_volume(lambda: fresh_e(True)),
    "f-plus-files": lambda: big_volume(lambda: fresh_f(True)), "f-user": user_disc, "e-plus-grown": grown_root,
    "hard-disc": hard_disc, "scattered-directories": scattered_directories, "scattered-big": scattered_big_directory,
    "small-sectors": small_sectors, "large-sectors": large_sectors, "wide-disc": wide_disc, "two-holes": two_holes,
    "full-identifiers": full_identifiers,
    "l-7-units": lambda: small_disc(7), "l-8-units": lambda: small_disc(8), "l-640-units": lambda: small_disc(640),
    "l-82-holes": many_holes, "small-tree": small_tree,
}


# ---- images that are accepted although they aren't as they were built


def variants() -> Iterator[Tuple[str, Volume, bytearray]]:
    """Each image: its name, the volume that says the answers, and the bytes."""
    volume = hello()
    yield "longer-image", volume, volume.image() + bytes(range(256)) * 20
    damage = damaged.Damage(volume)
    yield "e-second-copy", volume, damage.patch(0, bytes(1024)).data
    yield "e-links-without-top-bit", volume, damaged.Damage(volume).zone(0, {2: 0x02}).data
    volume = files_f()
    yield "f-second-copy", volume, damaged.Damage(volume).zone(0, {3: 0xFE}, (0,)).data
    yield "f-wrong-check-in-first-copy", volume, damaged.Damage(volume).wrong_check(1, (0,)).data
    yield "f-wrong-check-in-second-copy", volume, damaged.Damage(volume).wrong_check(3, (1,)).data
    yield "f-first-copy", volume, damaged.Damage(volume).zone(2, {900: 0x11, 3: 4}, (1,)).zone(3, {3: 4}, (1,)).data
    yield "f-other-root-in-boot", volume, damaged.Damage(volume).boot({12: 2}).data
    volume = damaged.tiny()
    unread = {**{4 + at: 0x5A for at in (1, 2, 3, 6, 7, 8, 20, 21, 22, 31, 32, 35, 41, 43, 48, 51, 52, 59)}, 4 + 40: 0xF0}
    yield "unread-bytes", volume, damaged.Damage(volume).zone(0, unread).data
    volume = fresh_e()
    volume.take(9, 0, 16)
    yield "lost-identifier", volume, volume.image()
    volume = map_in_lost_run()
    yield "f-map-in-lost-run", volume, volume.image()
    volume = OldVolume("L", 7)  # half a map of zeros has the check 0 or 255
    yield "l-no-holes-check-0", volume, damaged.Damage(volume).patch(511, b"\0").data
    yield "l-no-holes-check-255", volume, damaged.Damage(volume).patch(511, b"\xff").data
    volume, inner = damaged.with_directory(lambda: OldVolume("L", 2560))  # a place after the first empty one isn't read
    yield "l-bytes-after-the-entries", volume, damaged.Damage(volume).directory(inner, {5 + 26 * 5: b"\x1f"}).data
    volume, inner = damaged.with_directory(lambda: OldVolume("D", 3200))
    damage = damaged.Damage(volume).directory(inner, {7: b"\n", 33: b"\0x"})
    yield "d-names-end-otherwise", volume, damage.checked(inner).data


def map_in_lost_run() -> NewVolume:
    """A lost run over the second copy of the map: it never moves, so the map is safe in it."""
    raw = bytearray(fresh_f().raw)
    raw[12] = 5
    volume = NewVolume(raw, True)
    for identifier, bits in ((2, 64), (5, 64), (2, 32)):
        volume.take(identifier, 2, bits)
    volume.take(2, 0, 64)
    return volume


def named_files() -> NewVolume:
    """Files whose names and listing look like something else."""
    volume = fresh_e()
    root = volume.root
    root.insert(volume.file(b"Ab", b"\2", load=0xFFFFFF00))
    root.insert(volume.file(b"A B", b"A B!"))
    root.insert(Directory(b"D", volume.place(2048) * 256)).holder = root
    root.entries[-1].insert(File(b"error", b""))
    return volume


def named_cases() -> Iterator[script_cases.Case]:
    entries = "A%20B 00000003 00000000 00000000 4\nAb 00000003 ffffff00 00000000 1\nD 00000008 00000000 00000000 dir\n"
    yield script_cases.lines_case("rows-of-names", "named.adf", [
        ("cat $", entries + "ok\n"), ("load $.AB", "02\nok\n"), ("load $.A%20B", "41204221\nok\n")])
    yield script_cases.lines_case("rows-of-refusals", "named.adf", [
        ("load $.A%20B", "41204221\nok\n"), ("lod $", "error 1 BadCommand\n"), ("load $", "error 5 IsDirectory\n"),
        ("load $.A%20B.C", "error 4 NotDirectory\n")])
    yield script_cases.Case("name-of-error", ["named.adf"], "cat $.d\n", 0, "error 00000003 00000000 00000000 0\nok\n")


def first_reasons() -> Iterator[script_cases.Case]:
    """The first of several reasons is the refusal."""
    words = "%s 00000000 00000000"
    save, create, access = "save " + words + " 01", "create " + words + " 1", "set " + words + " R"
    yield script_cases.lines_case("first-reasons", "small-tree.adf", [
        ("rename $.D $.D.E.X", INTO_ITSELF), ("rename $.D $.D.Q.X", NOT_FOUND), ("rename $ $.X", ROOT_REFUSED), ("rename $.D $", EXISTS),
        ("rename $ $", ROOT_REFUSED), ("rename $.None $", NOT_FOUND), ("rename $.D.E $.L", EXISTS), ("rename $.D $.L.X", NOT_DIRECTORY),
        ("rename $.L $.M", LOCKED), ("rename $.None $.A%20C", BAD_NAME), ("delete $.D", NOT_EMPTY), ("delete $", ROOT_REFUSED),
        ("delete $.L", LOCKED), (save % "$.l", LOCKED), (save % "$.A%20B", BAD_NAME), (save % "$", IS_DIRECTORY),
        (create % "$.D", IS_DIRECTORY), (save % "$.A%20B.C", NOT_DIRECTORY), (save % "$.Q.C", NOT_FOUND), ("cdir $.A%20B", BAD_NAME),
        ("cdir $", EXISTS), (access % "$", ROOT_REFUSED), (access % "$.L.C", NOT_DIRECTORY)])
    yield script_cases.lines_case("first-reasons-read-only", "small-tree.adf", [
        ("delete $.None", NOT_FOUND), ("delete $.L", LOCKED), ("delete $.D.E", READ_ONLY), (access % "$", ROOT_REFUSED),
        (access % "$.L", READ_ONLY), (save % "$.New", READ_ONLY), (save % "$.Q.A%20B", BAD_NAME), ("cdir $.D", EXISTS),
        ("cdir $.D.F", READ_ONLY), ("rename $.D.E $.F", READ_ONLY), ("compact", READ_ONLY)], ["--read-only"])


# ---- the table


def accepted() -> Iterator[Tuple[str, Volume, bytearray]]:
    for name, make in {**VOLUMES, "named": named_files}.items():
        volume = make()
        yield name, volume, volume.image()
    yield from variants()


def volume_cases(name: str, volume: Volume) -> Iterator[script_cases.Case]:
    pairs = list(volume.cases())
    counted = [(line, reply) for line, reply in pairs if not reply.startswith("error ")]
    yield script_cases.lines_case(name + "-replies", name + ".adf", counted)
    yield script_cases.lines_case(name + "-refusals", name + ".adf", pairs[::-1])


def table() -> Tuple[Dict[str, bytearray], List[script_cases.Case]]:
    """All images by name, and all cases."""
    files: Dict[str, bytearray] = {}
    cases: List[script_cases.Case] = []
    for name, volume, data in accepted():
        files[name + ".adf"] = data
        cases += volume_cases(name, volume)
    for name, data, line in damaged.damaged():
        assert name + ".adf" not in files, name
        files[name + ".adf"] = data
        cases.append(script_cases.Case(name, [name + ".adf"], "check\n", 3, "bad-image %s\n" % line))
    for form, make in FRESH.items():
        files["fresh-%s.adf" % form] = make().image()
    for name in ("locked.adf", "a folder/hello.adf", "h\u00e9llo.adf"):
        files[name] = files["hello.adf"]
    cases += named_cases()
    cases += first_reasons()
    cases += script_cases.all_cases()
    return files, cases


def write_image(path: Union[bytes, str], data: bytes) -> None:
    """Leaves out what is 0, so that most of the images take little room."""
    with open(path, "wb") as file:
        for at in range(0, len(data), 65536):
            piece = data[at:at + 65536]
            if any(piece):
                file.seek(at)
                file.write(piece)
        file.truncate(len(data))


def write_table(folder: str) -> List[script_cases.Case]:
    """Writes all images into a folder, and gives the cases over them."""
    files, cases = table()
    for name, data in files.items():
        path = os.path.join(folder, name)
        os.makedirs(os.path.dirname(path), exist_ok=True)
        write_image(path, data)
    os.chmod(os.path.join(folder, "locked.adf"), 0o444)
    return cases


# Bytes of fresh volumes that were worked out by hand or by other programs. Both copies of a map on one zone are given; of the others
# the second is compared with the first.
RECORD_E = "0A050202 0F070100 00012005 03020000 00800C"
RECORD_F = "0A0A0204 0F060100 00044006 09020000 000019"
RECORD_E_PLUS = "0A050202 0F070100 00012005 01030000 00800C"
RECORD_F_PLUS = "0A0A0204 0F060100 00044006 01030000 000019"
PLUS = "01000000 0008"
ROOT_NICK = {0: "004E69636B00", 2032: "240D", 2042: "004E69636B"}
ROOT_SBPR = {0: "00000000 53425072 01000000 00080000 00000000 00000000 01030000 240D0000", 2040: "6F76656E 0000007B"}


def placed(at: int, known: Dict[int, str]) -> Dict[int, str]:
    return {at + place: text for place, text in known.items()}


MAP_E = {0: "0F1882FF" + RECORD_E, 64: "02000080", 863: "80"}
MAP_E_PLUS = {0: "9D1882FF" + RECORD_E_PLUS, 48: PLUS, 64: "02800380", 863: "80"}
KNOWN_BYTES = {
    "E": {**MAP_E, **placed(1024, MAP_E), **placed(2048, {**ROOT_NICK, 2010: "0302 00240D", 2047: "6A"})},
    "E+": {**MAP_E_PLUS, **placed(1024, MAP_E_PLUS), **placed(2048, ROOT_SBPR)},
    "L": {0: "07", 252: "000A0011", 256: "F909", 510: "0305", 512: "004875676F00", 1740: "240D", 1750: "0200 00240D", 1786: "004875676F00"},
    "D": {0: "0C0000", 252: "800C0098", 256: "740C00", 510: "0383", **placed(1024, {**ROOT_NICK, 2010: "0400 00240D"})},
    "F": {0xDC0: RECORD_F, 0xDFF: "9E", **placed(0xC6800, {0: "BC3882FF" + RECORD_F, 64: "02000000 00000080", 827: "80"}),
          0xC6C00: "18188000", 0xC6F3B: "80", 0xC7000: "3BB880000200", 0xC7017: "80", 0xC733B: "80", 0xC7400: "18188000", 0xC7717: "80",
          **placed(0xC8800, {**ROOT_NICK, 2010: "0902 00240D"})},
    "F+": {0xDC0: RECORD_F_PLUS, 0xDEC: PLUS, 0xDFF: "A0", 0xC7010: "00000080 03000080", **placed(0xC8800, ROOT_SBPR)},
}
WHOLE = ("E", "E+", "L")  # every other byte of these is 0
COPIES = {"F": (0xC6800, 0xC7800, 0xC8800), "F+": (0xC6800, 0xC7800, 0xC8800)}


def fresh_differences(form: str) -> List[str]:
    """What of a fresh volume isn't as it is known from elsewhere."""
    known, image, wrong = KNOWN_BYTES[form], FRESH[form]().image(), []
    wanted = bytearray(len(image)) if form in WHOLE else bytearray(image)
    for at, text in known.items():
        content = bytes.fromhex(text)
        wanted[at:at + len(content)] = content
    wrong += ["another byte at %d" % at for at in range(len(image)) if image[at] != wanted[at]][:20]
    if form in COPIES:
        one, two, end = COPIES[form]
        wrong += [] if image[one:two] == image[two:end] else ["the copies of the map differ"]
    return wrong


def main(words: List[str]) -> None:
    if len(words) == 2 and words[0] == "--hello":
        write_image(words[1], hello().image())
    elif len(words) == 1:
        write_table(words[0])
    else:
        sys.exit(__doc__)


if __name__ == "__main__":
    main(sys.argv[1:])
