# SPDX-License-Identifier: MIT
"""Runs of `fcdisc rescue` and `fcdisc mend` by their words, and how many files come out of each damaged image of the table.

OUTCOMES has, for how many files are sound, doubtful, cut off and lost, the names of tools/images/damaged.py. () stands for an image
in which nothing of a disc is found.
"""
from __future__ import annotations

import os
from typing import List, NamedTuple, Tuple

from tools.checks.fcdisc import Checks, snapshot, texts
from tools.files import read
from tools.images import damaged, rescue_hostile, rescue_images, table as images
from tools.images.volumes import Directory

OUTCOMES = {
    (): """
        empty zeros 511-bytes e-second-copy-cut boot-cut f-least e-one-sector l-map-alone""",
    (0, 0, 0, 0): """
        e-checks e-cross e-record e-two-zones e-sectors-of-512 d-check-0 d-check-1 l-check-of-no-holes old-0-units
        old-6-units old-2561-units old-3199-units old-3201-units f-boot-check f-cut d-cut e-cut e-on-a-short-l
        d-with-boot e-with-boot f-both-copies f-both-totals f-total-and-check f-check-and-total f-first-zone
        e-first-copy-counts e-first-root-counts bad-root-size bad-root-and-size zone-1-without-bits zone-3-without-bits
        chain-1-further zone-3-chain-1-further chain-past-end chain-past-hole run-off-sector run-too-short
        runs-before-chain first-zone-first zone-before-root free-end-1 free-end-4 free-end-5 free-end-247 free-end-249
        free-end-255 hole-of-0 hole-off-sector hole-length-off-sector hole-past-end hole-before-last hole-in-last
        hole-on-map holes-wrong-twice hole-before-root l-hole-on-map big-frame-first-byte big-frame-top-bit
        big-frame-size-of-4096 big-frame-name-too-long big-frame-longest-name big-frame-too-many-entries
        big-frame-heap-of-2 big-frame-check big-frame-behind-the-name big-directory-size-0 big-directory-size-odd
        big-directory-longer root-again map-in-identifier map-in-hole boot-block-in-hole boot-block-in-map
        short-before-copies""",
    (0, 0, 0, 1): """
        zone-without-bits identifier-1 identifier-0 identifier-without-run low-past-identifier odd-name d-off-sector
        l-7-units-past-end""",
    (0, 0, 1, 0): """
        past-identifier d-past-end l-past-end place-before-overlap""",
    (0, 1, 0, 0): """
        copies-before-differs bad-before-zone big-first-form-first identifier-at-bound root-nowhere on-map on-boot-block
        f-on-map d-on-map l-in-hole root-on-map overlap-before-map-place directory-before-map-place""",
    (0, 1, 0, 1): """
        stored-order""",
    (0, 2, 0, 0): """
        e-one-address d-one-address l-one-address big-one-address""",
    (0, 5, 0, 0): """
        d-root-first""",
    (1, 0, 0, 0): """
        record-sector-2048 record-sector-128 record-idlen-11 record-idlen-16 record-bit-4 record-bit-21 record-no-zones
        record-spare-31 record-spare-most record-no-size record-odd-size record-huge-size record-size-past-zones
        record-short-of-map record-root-identifier-1 record-root-of-32-bits record-root-size record-root-size-0
        record-many-zones differs-0 differs-4 differs-5 differs-9 differs-10 differs-11 differs-16 differs-17 differs-18
        differs-19 differs-36 differs-37 differs-38 differs-39 differs-40 differs-42 differs-44 differs-45 differs-46
        differs-47 differs-first differs-before-bad bad-root bad-high-root boot-block-in-identifier""",
    (1, 1, 0, 0): """
        e-root-twin""",
    (1, 3, 0, 0): """
        d-check-before-entry""",
    (1, 4, 0, 0): """
        d-word d-words-differ d-magic-first d-sequence d-sequence-before-check d-check l-words-differ l-sequence
        l-name-of-top-bit l-name-of-return l-twin l-first-twin
        big-head-word big-tail-word big-version big-sequence big-sequence-before-size big-size big-too-many
        big-long-name big-heap-of-2 big-size-before-check big-check found-first""",
    (1, 4, 0, 1): """
        place-before-directory""",
    (3, 2, 0, 0): """
        d-entry-before-twin big-entry-before-twin""",
    (4, 1, 0, 0): """
        d-empty-name d-twin d-root big-name-of-0 big-name-of-256
        big-name-past-heap big-name-far-off big-name-low-byte big-twin big-root-word d-into-hole""",
    (4, 2, 0, 0): """
        later-directory""",
    (5, 0, 0, 0): """
        directory-nowhere breadth-first""",
}


def write(path: bytes, data: bytes) -> None:
    with open(path, "wb") as file:
        file.write(data)


def run(checks: Checks) -> None:
    words(checks)
    several(checks)
    onto_fresh(checks)
    deleted(checks)
    other_orders(checks)
    unchecked(checks)
    two_maps(checks)
    renamed(checks)
    mended(checks)
    advice(checks)


def started(checks: Checks, **files: bytes) -> bytes:
    """A fresh folder with these images."""
    work = checks.fresh(b"work")
    for name, data in files.items():
        write(os.path.join(work, b"%s.adf" % name.encode()), data)
    return work


def words(checks: Checks) -> None:
    """Wrong words, files that aren't there or aren't discs, and a report alone."""
    work = started(checks, a=rescue_hostile.broken_root(rescue_images.floppy("F")), none=bytes(100000),
                   zip=b"PK\3\4" + bytes(5000))
    for arguments, status, error in (
            (["rescue", "a.adf"], 2, "fcdisc: say the folder for the files, or --report, or --to FORMAT NEW\n"),
            (["rescue", "--report", "a.adf", "o"], 2, "fcdisc: say the folder for the files, or --report, or --to FORMAT NEW\n"),
            (["rescue", "--to", "X", "n.adf", "a.adf"], 2, "fcdisc: --to takes one of E, F, D, L, E+, F+, and the file to make\n"),
            (["rescue", "--to", "E", "a.adf", "a.adf"], 1, "fcdisc: a.adf: there is something of this name already\n"),
            (["rescue", "b.adf", "o"], 1, "fcdisc: b.adf: No such file or directory\n"),
            (["rescue", "none.adf", "o"], 1, "fcdisc: none.adf: nothing of a FileCore disc is found in it\n"),
            (["rescue", "zip.adf", "o"], 1, "fcdisc: zip.adf: it is a zip archive: unpack it first\n"),
            (["rescue", "--each", "a.adf", "o"], 1, "fcdisc: a.adf: not a folder\n"),
            (["rescue", "--order", "adl", "none.adf", "o"], 1,
             "fcdisc: none.adf: it has less than 655360 bytes, so it has no sides to put into order\n")):
        out, err, got = checks.run(arguments)
        checks.expect(" ".join(arguments), errors=(error, err), status=(status, got), output=("", out))
    out, err, status = checks.run(["rescue", "--report", "a.adf"])
    checks.expect("a report alone", status=(1, status), errors=("", err), left=([b"a.adf", b"none.adf", b"zip.adf"], sorted(snapshot(work))),
                  output=texts("... files sound, ...\n\ndisc: F, 1638400 bytes, sectors of 1024; read as it is\n"
                               "directory $: the word at one of its ends is wrong\n...", out))


def several(checks: Checks) -> None:
    """A folder of images: a line and a folder for each."""
    work = checks.fresh(b"work")
    os.makedirs(os.path.join(work, b"in/x"))
    broken = rescue_hostile.broken_root(images.hello())
    for name, data in ((b"a.adf", images.hello().image()), (b"x/a.adf", broken), (b"x_a.adf", bytes(5))):
        write(os.path.join(work, b"in", name), data)
    out, err, status = checks.run(["rescue", "--each", "in", "o"])
    wanted = ("in/a.adf: 1 of 1 file sound: see o/a.adf/report.txt\nin/x_a.adf: nothing of a FileCore disc is found in it\n"
              "in/x/a.adf: 0 of 1 file sound, 1 doubtful: see o/x_a.adf/report.txt\n")
    left = {path: data for path, data in snapshot(work).items() if path.startswith(b"o/") and data and b"report" not in path}
    checks.expect("a folder of images", output=(wanted, out), errors=("", err), status=(1, status), left=({
        b"o/a.adf/sound/Hello,00000000-00000000": b"Hello", b"o/x_a.adf/doubtful/Hello,00000000-00000000": b"Hello"}, left))


def onto_fresh(checks: Checks) -> None:
    """The sound files onto a fresh disc, which then has just these."""
    volume = images.user_disc()
    damage = rescue_images.changed(bytes(volume.image()), rescue_images.extents_of(volume, volume.root.entries[1])[0][0] + 8, b"\1")
    work = started(checks, a=damage)
    out, err, status = checks.run(["rescue", "--to", "e+", "n.adf", "a.adf"])
    listed, _, whole = checks.run(["list", "n.adf"])
    checks.expect("sound files onto a fresh disc", errors=("", err), status=(1, status), whole=(0, whole),
                  output=("40 of 41 files sound, 1 doubtful; 40 files put onto n.adf\n", out),
                  listed=(True, "\n40 files, 1 dir" in listed))
    checks.expect("the image of these", same=(damage, read(os.path.join(work, b"a.adf"))))


def deleted(checks: Checks) -> None:
    """A disc that was formatted again, as another format or as the same: what the old directories still lead to."""
    for form, fresh in (("D", "E"), ("D", "D"), ("L", "L"), ("L", "E")):
        volume = rescue_images.floppy(form)
        started(checks, a=rescue_images.reformatted(volume, form, fresh))
        told = checks.run(["rescue", "--report", "a.adf"])[0]
        hint = "(--as %s --deleted" % form if form != fresh else "(--deleted takes"
        checks.expect("what is said of a %s disc that was formatted as %s" % (form, fresh), hint=(True, hint in told))
        checks.run(["rescue", "--as", form, "--deleted", "a.adf", "o"])
        left = {data for path, data in snapshot(checks.place(b"work/o")).items() if data and not path.startswith(b"report")}
        inner = {content for path, content in rescue_images.files_of(volume).items() if path.count(".") > 1 and content}
        checks.expect("a %s disc that was formatted as %s" % (form, fresh), found=(set(), inner - left))


def other_orders(checks: Checks) -> None:
    """Interleaved sides, and a header."""
    volume = rescue_images.floppy("L")
    data = rescue_hostile.broken_root(volume)
    tracks = [data[at:at + 4096] for at in range(0, len(data), 4096)]
    turned = b"".join(tracks[side * 80 + track] for track in range(80) for side in (0, 1))
    started(checks, plain=data, turned=turned, headed=bytes(512) + data)
    outs = [checks.run(["rescue", "--report", name])[0] for name in ("plain.adf", "turned.adf", "headed.adf")]
    rest = [[line for line in out.splitlines() if not line.startswith("disc: ")] for out in outs]
    checks.expect("an L disc in other orders", turned=(rest[0], rest[1]), headed=(rest[0], rest[2]), how=(
        (True, True), ("; its two sides put into disc order" in outs[1], "; without its header of 512 bytes" in outs[2])))


def unchecked(checks: Checks) -> None:
    """Each sign of damage in a directory of an L disc doubts its files, if a byte of the map is wrong besides; of a whole disc none does."""
    volume = rescue_images.floppy("L")
    image = bytes(volume.image())
    docs = next(one for one in volume.directories() if one.name == b"Docs")
    start, used = rescue_images.extents_of(volume, docs)[0][0], 5 + 26 * len(docs.entries)
    cases = {
        "its names aren't in order": (5, b"z"), "a name in it can't be": (5 + 3, b"\5"), "its entry has another name than itself": (1228, b"Dogs"),
        "it names another directory as its parent": (1238, b"\7"), "there are stray bytes after its last entry": (used + 40, b"\1"),
        "bytes at its end can't be": (1265, b"\1"), "an entry has an attribute that no system gives": (5 + 9, b"\x80"),
    }
    for text, (place, data) in cases.items():
        made = rescue_images.changed(image, start + place, data)
        started(checks, whole=made, damaged=rescue_images.changed(made, 3, b"\1"))
        for name in ("whole", "damaged"):
            out = checks.run(["rescue", "--report", name + ".adf"])[0]
            doubtful = [line for line in out.splitlines() if "nothing checks it" in line]
            inner = [one for one in doubtful if "  $.Docs." in one and ".Old." not in one or "  $.Dogs." in one]
            checks.expect("%s, %s disc" % (text, name), said=(True, name == "whole" or text in out),
                          doubtful=(name == "damaged", len(doubtful) == len(inner) > 0))


def two_maps(checks: Checks) -> None:
    """If the copies of the map are of two discs, and something is damaged besides, all is doubtful; if nothing is, nothing is."""
    volume = rescue_images.floppy("F")
    image, other, shape = bytes(volume.image()), bytes(rescue_images.floppy("F", 2).image()), volume.shape
    second = (shape.map_sector + shape.zones) * shape.sector
    mixed = rescue_images.changed(image, second, other[second:second + 2 * shape.sector])
    docs = next(one for one in volume.directories() if one.name == b"Docs")
    broken = rescue_images.changed(mixed, rescue_images.extents_of(volume, docs)[0][0] + 5, b"\1")
    started(checks, mixed=mixed, broken=broken)
    for name, wanted in (("mixed", "40 of 40 files sound\n"), ("broken", "0 of 39 files sound, 39 doubtful\n")):
        out = checks.run(["rescue", "--report", name + ".adf"])[0]
        checks.expect("two maps, " + name, output=(wanted, out[:len(wanted)]))


def renamed(checks: Checks) -> None:
    """If the root is damaged, a right directory has the name that it gives itself; below a damaged one no path is sure."""
    for form in ("E", "D", "F+"):
        volume = rescue_images.floppy(form)
        entries = sorted(volume.root.entries, key=lambda entry: entry.name.upper())
        games = next(one for one in volume.root.entries if one.name == b"Games")
        root, inner = (rescue_images.extents_of(volume, one)[0][0] for one in (volume.root, games))
        image = bytes(volume.image())
        letter = image.index(b"Games", root) + 2 if form == "F+" else root + 5 + 26 * entries.index(games) + 2
        wrong = rescue_images.changed(image, letter, b"l")
        started(checks, right=wrong, both=rescue_images.changed(wrong, inner + (30 if form == "F+" else 5), b"\x11"))
        lines = {name: checks.run(["rescue", "--report", name + ".adf"])[0].splitlines() for name in ("right", "both")}
        sound = {name: [line for line in found if line.startswith("sound")] for name, found in lines.items()}
        checks.expect("a directory with another name, " + form, right=(True, any("  $.Games." in line for line in sound["right"])),
                      wrong=([], [line for found in sound.values() for line in found if "  $.Gales." in line]),
                      told=(True, any(line.startswith("directory $.Games: ") for line in lines["right"])))


# What is said of a check that was made from a directory's entries; the status is 1 then
GUESS = "directory $.Art: its check, a guess: its entry agrees with the map, but its name, type, date or length may be wrong: compare it\n"
GUESSES = ("directory $.Docs: its check, a guess: its %d entries agree with the map, "
           "but a name, type, date or length may be wrong: compare them\n")
NOT_GUESSED = "nothing that is damaged can be put right: nothing written; with --guess it puts right: " + GUESS


class Mend(NamedTuple):
    """Bytes that are changed at places of the image, whether the image as it was comes out, what is said, and the options."""

    places: List[int]
    data: bytes
    is_mended: bool
    said: str
    options: Tuple[str, ...] = ()


def mended(checks: Checks) -> None:
    """What has one right value is put right; nothing is written for the rest, and never to the image itself."""
    volume = rescue_images.floppy("F")
    image, shape = bytes(volume.image()), volume.shape
    zone = [(shape.map_sector + at) * shape.sector for at in (1, shape.zones + 2)]
    both = [(shape.map_sector + copy * shape.zones + 1) * shape.sector for copy in (0, 1)]
    inner = {one.name: one for one in volume.directories()}
    art, docs, games = (rescue_images.extents_of(volume, inner[name])[0][0] for name in (b"Art", b"Docs", b"Games"))
    several, guess = GUESSES % len(inner[b"Docs"].entries), ("--guess",)
    art_check, docs_check = (bytes([image[place + 2047] ^ 0x11]) for place in (art, docs))
    cases = {
        "maps": Mend(zone, bytes(1024), True, "the second copy"), "boot": Mend([0xDC0], bytes(64), True, "the boot block"),
        "word": Mend([art + 1], b"nick", True, "directory $.Art"), "number": Mend([art], b"\x77", True, "directory $.Art"),
        "check": Mend([art + 2047], art_check, False, NOT_GUESSED), "a guess": Mend([art + 2047], art_check, True, GUESS, guess),
        "guesses": Mend([docs + 2047], docs_check, True, several, guess),
        "length": Mend([docs + 5 + 26 * longest(inner[b"Docs"]) + 20], b"\0", False, "can be put right: nothing written\n", guess),
        "order": Mend([docs + 5], b"z", False, "can be put right: nothing written\n", guess),
        "both": Mend(both, bytes(1024), False, "nothing that is damaged can be put right"),
        "whole": Mend([], b"", False, "nothing is damaged"), "name": Mend([art + 5], b"\r", False, "nothing written"),
        "parent": Mend([games + 2010], b"\7", False, "can be put right: nothing written\n", guess),
    }
    for name, case in cases.items():
        mended_one(checks, name, image, case)
    out, err, status = checks.run(["mend", "a.adf", "a.adf"])
    checks.expect("mend onto itself", status=(1, status), out=("", out))


def longest(holder: Directory) -> int:
    """The number of a directory's longest file."""
    return max(range(len(holder.entries)), key=lambda at: 0 if holder.entries[at].is_directory else holder.entries[at].length)


def mended_one(checks: Checks, name: str, image: bytes, case: Mend) -> None:
    damaged_image = image
    for place in case.places:
        damaged_image = rescue_images.changed(damaged_image, place, case.data)
    work = started(checks, a=damaged_image)
    out, err, status = checks.run(["mend", *case.options, "a.adf", "o.adf"])
    made = os.path.join(work, b"o.adf")
    got = read(made) if os.path.exists(made) else None
    checks.expect("mend, " + name, same=(image if case.is_mended else None, got), said=(True, case.said in out + err),
                  status=(int(not case.is_mended or bool(case.options)), status),
                  kept=(True, read(os.path.join(work, b"a.adf")) == damaged_image), left=(1 + case.is_mended, len(snapshot(work))))


def advice(checks: Checks) -> None:
    """What `check` promises."""
    work = checks.fresh(b"work")
    for name, data, _ in damaged.damaged():
        if name in ("d-twin", "identifier-1", "zeros"):
            write(os.path.join(work, b"%s.adf" % name.encode()), data)
    out, err, status = checks.run(["check", "d-twin.adf", "identifier-1.adf", "zeros.adf"])
    lines = out.splitlines()
    checks.expect("what check promises", ends=([True, True, False], [
        lines[0].endswith("; fcdisc rescue can take out 5 of 5 files, 1 of them doubtful"),
        lines[1].endswith("; fcdisc rescue can take out 0 of 1 file"), "rescue" in lines[2]]), status=(1, status))
