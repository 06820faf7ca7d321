# SPDX-License-Identifier: MIT
"""Runs of fcdisc: the words, what stands in the folder before, and what has to come: output, errors, status, what is left.

Each case runs in a fresh folder `work` beside the folder `images`. Host names are written here as they have to be, not computed.
"""
from __future__ import annotations

import gzip
from typing import Dict, Iterator, List, Optional, Union

from tools.checks import jobs
from tools.checks.work_folders import Content
from tools.images.volumes import NewVolume, OldVolume, fresh_e

HEADER = b"header of an emulator".ljust(512, b"\0")
TRACK = 4096
BOOTS = b"| boots\n"
THERE = "there is something of this name already"
NOT_WRITTEN = "not written: there is something of its name already"
NO_FILE = ": not a file; what lies on a device has to be copied into a file first\n"
DOUBT = "taken to be in disc order; if files look wrong, its sides are interleaved: use --order adl"
SIDES = "its two sides are interleaved, as in .adl files: read in disc order"
LONG = b"n" * 250


class Case:
    """`left`: paths below the work folder and bytes, or None for a folder, or `-> TARGET` for a link."""

    def __init__(self, name: str, words: List[str], out: str = "", err: str = "", status: int = 0,
                 left: Optional[Content] = None,
                 before: Optional[Content] = None, fcore: Optional[str] = None,
                 within: Optional[str] = None) -> None:
        self.name, self.words, self.out, self.err, self.status = name, words, out, err, status
        self.before = before or {}
        self.left = self.before if left is None else left
        self.fcore = fcore  # the text of a program in fcore's place
        self.within = within  # words before those of fcdisc, as those of a shell that sets a limit


# ---- images that tools/images/table.py doesn't make


def interleaved(image: bytearray) -> bytes:
    """The sides of an L disc track by track."""
    tracks = [image[at:at + TRACK] for at in range(0, len(image), TRACK)]
    return b"".join(track for pair in zip(tracks[:80], tracks[80:]) for track in pair)


def hostile() -> NewVolume:
    """Names that would lead elsewhere, hide another, or upset a terminal."""
    volume = fresh_e(big=True)
    root = volume.root
    for at, name in enumerate(HOSTILE_FILES):
        root.insert(volume.file(name, b"file %d" % at, load=0xFFFFFF00))
    for at, name in enumerate(HOSTILE_FOLDERS):
        made = root.insert(volume.directory(root, name))
        made.insert(volume.file(b"passwd", b"in folder %d" % at, load=0x8000, execution=0x8000))
    return volume


# each with its name on the host
HOSTILE_FILES = {
    b"../../up": b"%2E%2E.%2E%2E.up,fff", b"/etc/x": b".etc.x,fff", b"-rf": b"-rf,fff", b"a,ffb": b"a%2Cffb,fff",
    b"a,00008000-0000ABCD": b"a%2C00008000-0000ABCD,fff", b"a,b": b"a,b,fff", b"%41": b"%2541,fff", b"C:\\x": b"C%3A%5Cx,fff",
    b'*?"<>|': b"%2A%3F%22%3C%3E%7C,fff", b"caf\xe9": b"caf\xc3\xa9,fff", b"\x9b31m\x7f": b"%9B31m%7F,fff",
    b"two words": b"two words,fff", b"\xff\xa0": b"\xc3\xbf\xc2\xa0,fff",
}
HOSTILE_FOLDERS = {
    b"..": b"%2E%2E", b"//": b"%2F.", b"/": b"%2F", b"///": b"...", b"a/ffb": b"a.ffb", b"Code,ffb": b"Code%2Cffb",
}


def two_that_become_one() -> NewVolume:
    """Names of 255 bytes that are one where a host allows no more than 255 with the type."""
    volume = fresh_e(big=True)
    for at in range(3):
        volume.root.insert(volume.file(LONG + b"abcd%d" % at, b"long %d" % at, load=0xFFFFFF00))
    volume.root.insert(volume.file(b"other", b"other", load=0xFFFFFF00))
    return volume


def flat_l() -> OldVolume:
    """An L disc without directories, and with a file over several tracks: either order of its sides opens."""
    volume = OldVolume("L", 2560)
    volume.root.insert(volume.file(b"Song", bytes(range(256)) * 200, load=0xFFFFFF00))
    volume.rest_is_hole()
    return volume


def deep() -> NewVolume:
    """Directories deeper than any path of RISC OS."""
    volume = fresh_e()
    holder = volume.root
    for at in range(130):
        holder = holder.insert(volume.directory(holder, b"d"))
    return volume


def large_file() -> NewVolume:
    volume = fresh_e()
    volume.root.insert(volume.file(b"Large", b"L" * 100000, load=0xFFFFFF00))
    volume.root.insert(volume.file(b"Small", b"S" * 100, load=0xFFFFFF00))
    return volume


def extra_images(files: Dict[str, bytearray]) -> Dict[str, bytes]:
    """Images by name, made from those of tools/images/table.py where they are other forms of them."""
    sides = interleaved(files["l-files.adf"])
    flat = flat_l().image()
    return {
        "sides.adl": sides, "sides.adf": sides, "ordered.adl": files["l-files.adf"], "short.adl": sides[:400000],
        "flat.adf": flat, "flat.adl": interleaved(flat), "header.hdf": HEADER + files["f-user.adf"],
        "header.adf": HEADER + files["d-twin.adf"], "hostile.adf": hostile().image(), "one.adf": two_that_become_one().image(),
        "deep.adf": deep().image(), "large.adf": large_file().image(), "packed.gz": gzip.compress(b"x" * 2000),
        "archive.zip": b"PK\3\4" + bytes(2000), "text.txt": b"This is no image.\n" * 400,
    }


# ---- list


NAMED_ROWS = """\
E disc
00000000-00000000          4  WR/                       A%20B
fff Text                   1  WR/                       Ab
directory                     /                         D
00000000-00000000          0  WR/                         error
3 files, 1 directory, 5 bytes
"""
USER_ROWS = """\
F disc
directory                     /                         !Boot
feb Obey                   8  WR/     ...    !Run
directory                     /                         Docs
aff DrawFile               0  WR/     ...    Note0
fff Text                  90  WR/     ...    Note1
...
41 files, 2 directories, 70208 bytes
"""
TWIN_MEANING = "directory $.D is damaged: entry 3 has the name of one before it [Directory $.D Twin 3]"
TWIN_ADVICE = "read its sectors again from the disc; else change one of the names in a copy of the image, with a new check"
TWIN_RESCUE = "; fcdisc rescue can take out 5 of 5 files, 1 of them doubtful"
TWIN_TEXT = "%s. What to do: %s%s" % (TWIN_MEANING, TWIN_ADVICE, TWIN_RESCUE)
USER_FOUND = ("whole: F disc: 41 files, 2 directories, 1525760 bytes free, newest file of 1924-12-24; 1 directory out of order\n")
HELLO_FOUND = "../images/hello.adf: whole: E disc: 1 file, 0 directories, 813056 bytes free\n"
NO_DISC = "no FileCore disc begins here [NoKind]"
NO_KIND = "no FileCore disc begins here [NoKind]. What to do: "
NO_KIND_ADVICE = ("see that the file is an image of an Acorn FileCore disc, byte by byte and not packed; if it is one, read the "
                  "disc's first 4096 bytes again")
SHORT_ADVICE = ("copy the disc again; a file that is only made longer may open, but what is missing can have been anywhere in "
                "it, and then files are wrong")


def image(name: str) -> str:
    return "../images/" + name


def told(name: str, text: str) -> str:
    return "fcdisc: ../images/%s: %s\n" % (name, text)


def listing() -> Iterator[Case]:
    yield Case("list", ["list", image("named.adf")], NAMED_ROWS)
    yield Case("list-user", ["list", image("f-user.adf")], USER_ROWS)
    yield Case("list-part", ["list", image("f-user.adf"), "$.!BOOT"],
               "feb Obey                   8  WR/     ...  !Run\n1 file, 0 directories, 8 bytes\n")
    yield Case("list-file", ["list", image("f-user.adf"), "docs.Note1"],
               "fff Text                  90  WR/     ...  Note1\n1 file, 0 directories, 90 bytes\n")
    yield Case("list-spelled", ["list", image("named.adf"), "$.A B"],
               "00000000-00000000          4  WR/                       A%20B\n1 file, 0 directories, 4 bytes\n")
    yield Case("list-none", ["list", image("named.adf"), "$.D.x"],
               err=told("named.adf", "$.D.x: there is no such object on the disc"),
               status=1)
    yield Case("list-below-file", ["list", image("named.adf"), "$.Ab.x"],
               err=told("named.adf", "$.Ab.x: a file stands where a directory has to"), status=1)
    yield Case("list-no-path", ["list", image("named.adf"), "$..D"], err="fcdisc: $..D: a name in a path has 1 to 255 bytes\n",
               status=2)
    yield Case("list-other-letters", ["list", image("named.adf"), "\u0416"],
               err="fcdisc: \u0416: a disc's names have no letters but those of Latin 1\n", status=2)
    yield Case("list-damaged", ["list", image("d-twin.adf")], err=told("d-twin.adf", "not accepted: " + TWIN_TEXT), status=1)
    yield Case("list-deep", ["list", image("deep.adf")],
               "E disc\ndirectory                     /                         d\n...\n0 files, 128 directories, 0 bytes\n",
               told("deep.adf", "directories more than 127 deep are left out"), 1)
    yield Case("list-no-image", ["list", "none.adf"], err="fcdisc: none.adf: No such file or directory\n", status=1)
    yield Case("list-a-folder", ["list", "."], err="fcdisc: .: Is a directory\n", status=1)
    yield Case("list-a-device", ["list", "/dev/null"], err="fcdisc: /dev/null" + NO_FILE, status=1)
    yield Case("list-full", ["list", image("named.adf")], err="fcdisc: standard output: No space left on device\n", status=1,
               within='exec "$@" > /dev/full')
    yield Case("list-closed-output", ["list", image("named.adf")], err="fcdisc: standard output is closed\n", status=1,
               within='exec "$@" >&-')
    yield Case("list-closed-streams", ["list", image("named.adf")], status=1, within='exec "$@" <&- >&- 2>&-')
    yield Case("list-closed-input", ["list", image("named.adf")], NAMED_ROWS, within='exec "$@" <&- 2>&-')
    yield Case("list-a-pipe", ["list", "p"], err="fcdisc: p" + NO_FILE, status=1,
               within='mkfifo p; "$@"; status=$?; rm p; exit $status')
    yield Case("list-closed-pipe", ["list", image("f-user.adf")], "F disc\n", status=0,
               within='"$@" | head -n 1')


# ---- get


def getting() -> Iterator[Case]:
    user = image("f-user.adf")
    yield Case("get", ["get", user, "$.!boot.!run"], left={b"!Run,feb": BOOTS})
    yield Case("get-named", ["get", user, "$.!Boot.!Run", "boot.txt"], left={b"boot.txt": BOOTS})
    yield Case("get-into-folder", ["get", user, "!Boot.!Run", "out"], before={b"out": None},
               left={b"out": None, b"out/!Run,feb": BOOTS})
    yield Case("get-printed", ["get", user, "$.!Boot.!Run", "-"], BOOTS.decode())
    yield Case("get-full", ["get", user, "$.!Boot.!Run", "-"], err="fcdisc: standard output: No space left on device\n",
               status=1,
               within='exec "$@" > /dev/full')
    yield Case("get-there", ["get", user, "$.!Boot.!Run"], err="fcdisc: !Run,feb: " + THERE + "\n", status=1,
               before={b"!Run,feb": b"mine"})
    yield Case("get-link-in-the-way", ["get", user, "$.!Boot.!Run", "x"], err="fcdisc: x: " + THERE + "\n", status=1,
               before={b"x": "-> ../images/none"})
    yield Case("get-no-folder", ["get", user, "$.!Boot.!Run", "none/x"], err="fcdisc: none/x: No such file or directory\n",
               status=1)
    yield Case("get-directory", ["get", user, "$.!Boot"], err=told("f-user.adf", "$.!Boot: a directory: use extract"), status=1)
    yield Case("get-root", ["get", user, "$"], err="fcdisc: $ is a directory: use extract\n", status=1)
    yield Case("get-none", ["get", user, "$.Nothing"], err=told("f-user.adf", "$.Nothing: there is no such object on the disc"),
               status=1)
    yield Case("get-two-of-the-disc", ["get", user, "$.!Boot.!Run", "$.Docs.Note1"], status=2,
               err="fcdisc: $.Docs.Note1: several files need a folder of the host as the last word\n")
    yield Case("get-into-a-folder-of-such-a-name", ["get", user, "$.!Boot.!Run", "$"], before={b"$": None},
               left={b"$": None, b"$/!Run,feb": BOOTS})
    yield Case("get-damaged", ["get", image("d-twin.adf"), "$.A"], err=told("d-twin.adf", "not accepted: " + TWIN_TEXT), status=1)
    yield Case("get-hostile", ["get", image("hostile.adf"), "$.%2e%2e/%2e%2e/up"], left={b"%2E%2E.%2E%2E.up,fff": b"file 0"})
    yield Case("get-long", ["get", image("one.adf"), "$." + LONG.decode() + "abcd1"], status=1,
               left={LONG + b"a,fff": b"long 1"},
               err="fcdisc: $.%sabcd1: has another name here: %sa,fff\n" % (LONG.decode(), LONG.decode()))
    yield Case("get-too-large", ["get", image("large.adf"), "$.Large"], err="fcdisc: Large,fff: File too large\n", status=1,
               within='ulimit -f 16; exec "$@"')
    yield Case("get-sides", ["get", image("sides.adl"), "$.Outer.Inner.Innermost.Deep", "d"], err=told("sides.adl", SIDES),
               left={b"d": bytes((5 + at * 7 + (at >> 8) * 3) % 256 for at in range(3000))})


# ---- extract


def hostile_tree(folder: bytes) -> Content:
    left: Dict[bytes, Union[bytes, str, None]] = {folder: None}
    for at, name in enumerate(HOSTILE_FILES.values()):
        left[folder + b"/" + name] = b"file %d" % at
    for at, name in enumerate(HOSTILE_FOLDERS.values()):
        left[folder + b"/" + name] = None
        left[folder + b"/" + name + b"/passwd,00008000-00008000"] = b"in folder %d" % at
    return left


def extracting() -> Iterator[Case]:
    names = image("named.adf")
    files = {b"o": None, b"o/A B,00000000-00000000": b"A B!", b"o/Ab,fff": b"\2", b"o/D": None,
             b"o/D/error,00000000-00000000": b""}
    yield Case("extract", ["extract", names, "o"], "3 of 3 files written to o\n", left=files)
    yield Case("extract-part", ["extract", names, "o", "$.d"], "1 of 1 file written to o\n",
               left={b"o": None, b"o/error,00000000-00000000": b""})
    yield Case("extract-into-folder", ["extract", names, "o"], "3 of 3 files written to o\n",
               before={b"o": None, b"o/D": None, b"o/x": b"y"},
               left={**files, b"o/x": b"y"})
    yield Case("extract-again", ["extract", names, "o"], "2 of 3 files written to o\n",
               told("named.adf", "$.Ab: " + NOT_WRITTEN), 1,
               {**files, b"o/Ab,fff": b"mine"}, before={b"o": None, b"o/Ab,fff": b"mine"})
    yield Case("extract-links-in-the-way", ["extract", names, "o"], "1 of 3 files written to o\n",
               told("named.adf", "$.D: " + NOT_WRITTEN) + told("named.adf", "$.Ab: " + NOT_WRITTEN), 1,
               {b"o": None, b"o/D": "-> ../e", b"o/Ab,fff": "-> ../e/new", b"e": None, b"o/A B,00000000-00000000": b"A B!"},
               before={b"o": None, b"o/D": "-> ../e", b"o/Ab,fff": "-> ../e/new", b"e": None})
    yield Case("extract-file-for-folder", ["extract", names, "o"], "2 of 3 files written to o\n",
               told("named.adf", "$.D: " + NOT_WRITTEN), 1,
               {b"o": None, b"o/D": b"mine", b"o/A B,00000000-00000000": b"A B!", b"o/Ab,fff": b"\2"},
               before={b"o": None, b"o/D": b"mine"})
    yield Case("extract-to-a-file", ["extract", names, "o"], err="fcdisc: o: Not a directory\n", status=1,
               before={b"o": b"mine"})
    yield Case("extract-no-folder", ["extract", names, "none/o"], err="fcdisc: none/o: No such file or directory\n", status=1)
    yield Case("extract-damaged", ["extract", image("d-twin.adf"), "o"], err=told("d-twin.adf", "not accepted: " + TWIN_TEXT),
               status=1)
    yield Case("extract-a-file", ["extract", names, "o", "$.Ab"], "1 of 1 file written to o\n", left={b"o": None, b"o/Ab,fff": b"\2"})
    yield Case("extract-hostile", ["extract", image("hostile.adf"), "o"], "19 of 19 files written to o\n",
               left=hostile_tree(b"o"))
    fitted = [LONG + b"a,fff", LONG[:249] + b"~2,fff", LONG[:249] + b"~3,fff"]
    yield Case("extract-two-that-become-one", ["extract", image("one.adf"), "o"], "4 of 4 files written to o\n", "".join(
        told("one.adf", "$.%sabcd%d: has another name here: %s" % (LONG.decode(), at, name.decode()))
        for at, name in enumerate(fitted)), 1,
        {b"o": None, b"o/other,fff": b"other", **{b"o/" + name: b"long %d" % at for at, name in enumerate(fitted)}})
    yield from extracting_little_room()


def extracting_little_room() -> Iterator[Case]:
    large = image("large.adf")
    small = {b"o": None, b"o/Small,fff": b"S" * 100}
    yield Case("extract-too-large", ["extract", large, "o"], "1 of 2 files written to o\n",
               told("large.adf", "$.Large: not written: File too large"), 1, small, within='ulimit -f 16; exec "$@"')
    yield Case("extract-full-disk", ["extract", large, "o"], ". ./o\n",
               told("large.adf", "$.Large: not written: No space left on device") + told("large.adf", "0 of 2 files written"),
               1,
               {b"o": None}, before={b"o": None}, within=FULL_DISK % (48, "mkdir o"))


# A disk of so many kB is mounted where the others don't see it, and made ready; what is left on it is printed
FULL_DISK = ('unshare -m sh -c \'mount -t tmpfs -o size=%dk none . && cd "$PWD" && %s; "$@"; status=$?; '
             'echo $(find . | sort); exit $status\' sh "$@"')


# ---- check


def checking() -> Iterator[Case]:
    yield Case("check", ["check", image("f-user.adf"), image("named.adf")],
               "../images/f-user.adf: " + USER_FOUND + "../images/named.adf: whole: E disc: 3 files, 1 directory, 808960 bytes free\n"
               "2 files: 2 whole\n")
    yield Case("check-damaged", ["check", image("d-twin.adf"), image("hello.adf")],
               "../images/d-twin.adf: not accepted: %s%s\n" % (TWIN_MEANING, TWIN_RESCUE)
               + HELLO_FOUND
               + "What to do about Directory Twin (1 image): %s\n2 files: 1 whole, 1 damaged\n" % TWIN_ADVICE,
               status=1)
    yield Case("check-short", ["check", image("short.adl")],
               "../images/short.adl: not accepted: it has 400000 bytes, and its disc 655360 "
               "[Short 655360 400000]; fcdisc rescue ...\nWhat to do about Short: %s\n" % SHORT_ADVICE, status=1)
    yield Case("check-none", ["check", "none.adf", image("hello.adf")],
               HELLO_FOUND + "2 files: 1 whole, 1 not opened\n",
               "fcdisc: none.adf: No such file or directory\n", 1)
    for name, text in (("packed.gz", "packed by gzip: unpack it first, with gunzip"), ("archive.zip", "a zip archive: unpack it first"),
                       ("text.txt", "a text: look for an image elsewhere")):
        yield Case("check-" + name, ["check", image(name)], "../images/%s: no disc: %s\n" % (name, text), status=1)
    yield Case("list-a-zip", ["list", image("archive.zip")],
               err=told("archive.zip", "not accepted: it is a zip archive [NoKind]. What to do: unpack it first"), status=1)
    yield Case("check-empty-folder", ["check", "."])
    many = [b"%02d.adf" % at for at in range(40)]
    yield Case("check-few-descriptors", ["check", "."], "".join(
        "./%s: not accepted: %s\n" % (name.decode(), NO_DISC) for name in many)
        + "What to do about NoKind (40 images): %s\n40 files: 40 damaged\n" % NO_KIND_ADVICE, status=1,
        before=dict.fromkeys(many, b"\0\1"), within='ulimit -n 24; exec "$@"')
    yield Case("check-names", ["check", "."], "./a\\x0a\\x1b[31m.adf: not accepted: %s\n./\\xff.adf: not accepted: %s\n"
               "What to do about NoKind (2 images): %s\n2 files: 2 damaged\n" % (NO_DISC, NO_DISC, NO_KIND_ADVICE), status=1,
               before={b"a\n\x1b[31m.adf": b"\0\1", b"\xff.adf": b"\0\1"})
    yield Case("check-dash", ["check", "--", "-x.adf"], "-x.adf: not accepted: %s\nWhat to do about NoKind: %s\n" % (
        NO_DISC, NO_KIND_ADVICE), status=1, before={b"-x.adf": b""})


# ---- orders and headers


def found_out() -> Iterator[Case]:
    whole = ('whole: L disc "OldDisc", boot option Exec: 62 files, 5 directories, 520704 bytes free, newest file of 1924-07-01; '
             "3072 bytes that nothing owns; 1 directory out of order; 1 directory with a wrong parent\n")
    yield Case("sides-adl", ["check", image("sides.adl")], "../images/sides.adl: " + whole, told("sides.adl", SIDES))
    yield Case("sides-adf", ["check", image("sides.adf")], "../images/sides.adf: " + whole, told("sides.adf", SIDES))
    yield Case("ordered-adl", ["check", image("ordered.adl")], "../images/ordered.adl: " + whole,
               told("ordered.adl", "its name says interleaved sides, but it is in disc order: read so"))
    yield Case("asked-sides", ["check", "--order", "adl", image("sides.adf")], "../images/sides.adf: " + whole)
    yield Case("asked-disc", ["check", "--order", "disc", image("ordered.adl")], "../images/ordered.adl: " + whole)
    yield Case("asked-wrong", ["check", "--order=adl", image("f-user.adf")], err=told(
        "f-user.adf", "no L disc of 655360 bytes begins here, so it has no sides to put into order"), status=1)
    yield Case("header", ["check", image("header.hdf")], "../images/header.hdf: " + USER_FOUND,
               told("header.hdf", "it has a header of 512 bytes: read without it"))
    yield Case("header-damaged", ["check", image("header.adf")], "../images/header.adf: not accepted: %s; fcdisc rescue ...\nWhat to do about Directory Twin: %s\n" % (
        TWIN_MEANING, TWIN_ADVICE),
               told("header.adf", "it has a header of 512 bytes: read without it"), 1)
    song = bytes(range(256)) * 200
    for name, words, err in (("flat.adf", [], told("flat.adf", DOUBT)), ("flat.adl", [], told("flat.adl", SIDES)),
                             ("flat.adf", ["--order", "disc"], ""), ("flat.adl", ["--order", "adl"], "")):
        yield Case("-".join([name, *words]), ["extract", *words, image(name), "o"], "1 of 1 file written to o\n", err,
                   left={b"o": None, b"o/Song,fff": song})


# ---- new, adl, strip


def making(files: Dict[str, bytearray], extra: Dict[str, bytes]) -> Iterator[Case]:
    for form in ("E", "F", "D", "L", "E+", "F+"):
        yield Case("new-" + form, ["new", form, "x.adf"], left={b"x.adf": bytes(files["fresh-%s.adf" % form])})
    yield Case("new-lower", ["new", "e+", "x.adf"], left={b"x.adf": bytes(files["fresh-E+.adf"])})
    yield Case("new-there", ["new", "E", "x.adf"], err="fcdisc: x.adf: " + THERE + "\n", status=1, before={b"x.adf": b"mine"})
    yield Case("new-no-folder", ["new", "E", "none/x.adf"], err="fcdisc: none/x.adf: No such file or directory\n", status=1)
    yield Case("new-full-disk", ["new", "E", "x.adf"], ". ./pad\n", "fcdisc: x.adf: No space left on device\n", 1, within=FULL_DISK % (
        16, "head -c 20000 /dev/zero > pad 2> /dev/null"))
    yield Case("new-too-large", ["new", "F", "x.adf"], err="fcdisc: x.adf: ...\n", status=1,
               within='ulimit -f 16; exec "$@"')
    sides, ordered = bytes(extra["sides.adl"]), bytes(files["l-files.adf"])
    yield Case("adl", ["adl", image("sides.adl"), "x.adf"], left={b"x.adf": ordered})
    yield Case("adl-back", ["adl", "--back", image("l-files.adf"), "x.adl"], left={b"x.adl": sides})
    yield Case("adl-there", ["adl", image("sides.adl"), "x.adf"], err="fcdisc: x.adf: " + THERE + "\n", status=1,
               before={b"x.adf": b"mine"})
    yield Case("adl-size", ["adl", image("short.adl"), "x.adf"],
               err=told("short.adl", "it has 400000 bytes, and an L disc of two sides has 655360"), status=1)
    fault = ("fcdisc: the new image is there, but %s: not accepted: directory $.Lengths is damaged: the words at its two ends "
             "are wrong [Directory $.Lengths Magic]. What to do: read its sectors again from the disc\n")
    yield Case("adl-twice", ["adl", image("l-files.adf"), "x.adf"], err=fault % "x.adf", status=1,
               left={b"x.adf": interleaved_back(ordered)})
    yield Case("adl-full", ["adl", image("sides.adl"), "x.adf"], err="fcdisc: x.adf: File too large\n", status=1,
               within='ulimit -f 16; exec "$@"')
    yield Case("strip", ["strip", image("header.hdf"), "x.adf"], left={b"x.adf": bytes(files["f-user.adf"])})
    yield Case("strip-no-header", ["strip", image("f-user.adf"), "x.adf"],
               err="fcdisc: the new image is there, but x.adf: not accepted: "
               + NO_KIND + NO_KIND_ADVICE + "\n", status=1, left={b"x.adf": bytes(files["f-user.adf"])[512:]})
    yield Case("strip-small", ["strip", "x", "y"], err="fcdisc: x: it has no more than 512 bytes\n", status=1,
               before={b"x": bytes(512)})


def interleaved_back(image: bytes) -> bytes:
    """What becomes of an image in disc order that is taken for an interleaved one."""
    tracks = [image[at:at + TRACK] for at in range(0, len(image), TRACK)]
    return b"".join(tracks[0::2] + tracks[1::2])


# ---- words


def words() -> Iterator[Case]:
    for at, one in enumerate((["lst", "x"], [], ["list"], ["get", "x"], ["extract", "x"], ["check"], ["new", "E"],
                              ["new", "G", "x"],
                              ["adl", "x"], ["strip", "x"], ["list", "--order", "x", "y"], ["list", "a", "b", "c"],
                              ["--new", "x"], ["put", "x", "y"], ["put", "--type", "fffff", "x", "y", "z"], ["add", "x"],
                              ["mkdir", "x"], ["rm", "x"], ["rm", "-f", "x", "y"], ["mv", "x", "y"], ["access", "x", "WRX", "y"],
                              ["access", "x", "WW", "y"], ["access", "x", "y"], ["compact"], ["convert", "x", "y", "z"],
                              ["compact", "--read-only", "x"])):
        yield Case("words-%d" % at, one, err="usage: fcdisc...\n", status=2)
    for job, *_ in jobs.names():
        yield Case("help-" + job, [job, "--help"], "usage: fcdisc %s [-h]...\n" % job)
    yield Case("help", ["--help"], "usage: fcdisc [-h] [--version] JOB ...\n...\n")


# ---- other programs in fcore's place

START = '#!/bin/sh\nscript=$(cat)\ncase $script in load*) '
LISTED = ';; *) printf "files 2 dirs 1 lost 0 holes 1 free 0 unsorted 0 parents 0\\nok\\nA 00000003 fffff000 00000000 %d\\n' \
         'B 00000003 fffff000 00000000 1\\nok\\n";; esac\n'
CHANGED = "fcore's answer isn't what was asked for: did the image change meanwhile?"
WRITE_FAILED = "I/O error while fcore read or wrote it (is the host full?)"
# Directories are gone when the next level of them is read
GONE = """#!/bin/sh
script=$(cat)
case $script in
check*) printf '%s\\n' "$script" | FCORE "$@";;
*) echo error 3 NotFound; exit 1;;
esac
"""


def other_programs() -> Iterator[Case]:
    hello = image("hello.adf")
    for name, program, error in (
            ("fails-on-image", "#!/bin/sh\ncat > /dev/null; exit 4\n", "I/O error while fcore read it"),
            ("runs-out-of-memory", "#!/bin/sh\ncat > /dev/null; exit 7\n", "fcore ran out of memory"),
            ("knows-no-words", "#!/bin/sh\nexit 2\n", "fcore doesn't know these words: is it of another version?"),
            ("dies", "#!/bin/sh\nkill -9 $$\n", "fcore was ended by signal 9"),
            ("other-status", "#!/bin/sh\nexit 77\n", "fcore ended with status 77"),
            ("says-nothing", "#!/bin/sh\n", CHANGED), ("says-something-else", "#!/bin/sh\necho hello; echo ok\n", CHANGED)):
        yield Case("fcore-" + name, ["list", hello], err=told("hello.adf", error), status=1, fcore=program)
    for name, answer, length, error in (
            ("stops-in-file", 'printf 41; exit 4', 2, "I/O error while fcore read it"),
            ("stops-in-byte", 'printf 4; exit 4', 2, "I/O error while fcore read it"),
            ("refuses", 'printf "error 3 NotFound\\n"; exit 1', 2, CHANGED),
            ("writes-more", 'printf "41\\nok\\n42\\nok\\nok\\n"', 1, CHANGED),
            ("writes-less", 'printf "41\\nok\\n"', 1, CHANGED)):
        left = {b"o": None, b"o/A,ff0": b"A"} if name == "writes-less" else {b"o": None}
        if name == "writes-more":
            left = {b"o": None, b"o/A,ff0": b"A", b"o/B,ff0": b"B"}
        yield Case("fcore-" + name, ["extract", hello, "o"], err=told("hello.adf", error), status=1, left=left,
                   fcore=START + answer + LISTED % length)
    names = image("named.adf")
    for words in (["list", names], ["extract", names, "o"]):
        yield Case("fcore-lists-less-for-" + words[0], words, err=told("named.adf", CHANGED), status=1, fcore=GONE)
    yield Case("fcore-refuses-what-vanishes", ["list", "x.adf"], err="fcdisc: x.adf: not accepted: %s%s\n" % (NO_KIND, NO_KIND_ADVICE),
               status=1, before={b"x.adf": b"text"}, left={}, fcore="#!/bin/sh\nrm x.adf; echo bad-image NoKind; exit 3\n")
    yield Case("fcore-is-none", ["list", hello], err="fcdisc: $FCORE is ../fake/fcore, and that can't be run\n", status=1,
               fcore="")


def all_cases(files: Dict[str, bytearray], extra: Dict[str, bytes]) -> Iterator[Case]:
    for group in (listing(), getting(), extracting(), checking(), found_out(), making(files, extra), words(), other_programs()):
        yield from group
