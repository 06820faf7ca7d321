# SPDX-License-Identifier: MIT
"""Checks of the jobs of fcdisc over many images: check, extract --each, catalogue, find, diff."""
from __future__ import annotations

import csv
import hashlib
import io
import json
import os
import re
import signal
import subprocess
from typing import TYPE_CHECKING, Dict, List, Sequence, Set, Tuple

from tools.checks import fcdisc_cases
from tools.checks.fcdisc_hosts import on_host
from tools.checks.work_folders import fill, snapshot, wait_for
from tools.files import read
from tools.reference.change_state import State
from tools.reference.filecore import spelled_path
from tools.reference.read_image import Entry

if TYPE_CHECKING:
    from tools.checks.fcdisc import Checks

DOS = b"\xeb\x3c\x90MSDOS5.0\0\2\2\1\0\2" + bytes(495)
BEGINNINGS = {
    "a.hfe": (b"HXCPICFE", "an HFE image, of a drive's signals"), "a.scp": (b"SCP\x18", "an SCP image, of a drive's signals"),
    "a.imd": (b"IMD 1.18: ", "an IMD image, with a header for each track"), "a.td0": (b"TD\0\0", "a TD0 image of Teledisk"),
    "a.fdi": (b"Formatted Disk Image file\r\n", "an FDI image, of a drive's signals"), "a.jfd": (b"JFDI\2", "a JFD image"),
    "a.mfm": (b"HXCMFM\0", "an MFM image, of a drive's signals"), "a.7z": (b"7z\xbc\xaf\x27\x1c", "a 7z archive"),
}
DFS = b"TITLE   " + b"PROG   $" + bytes(240) + b"    \1\10\3\x20" + bytes(248)
DFS_FILES = (b"TITLE   " + b"TWO    $" + b"ONE    $" + bytes(232) + b"    \1\20\3\x20" + b"\0\x19\x23\x80\12\0\0\3" + b"\0\x19\x23\x80\5\0\0\2"
             + bytes(232))


def half_check(half: bytearray) -> int:
    total = 255
    for byte in reversed(half):
        if total > 255:
            total = (total & 0xFF) + 1
        total += byte
    return total & 0xFF


def old_hard_disc() -> bytes:
    """The map of a hard disc of 20 MB with an old map."""
    first = bytearray(255)
    first[252:255] = (80000).to_bytes(3, "little")
    second = bytearray(255)
    return b"".join(bytes(half) + bytes((half_check(half),)) for half in (first, second)) + bytes(2048)


def user_image(checks: Checks) -> bytes:
    return read(checks.place(b"images/f-user.adf"))


def collection(checks: Checks) -> bytes:
    """A keeper's folder: discs, damaged ones, what isn't a disc, what fcdisc leaves, links and pipes."""
    work = checks.fresh(b"work")
    user, named, twin = (read(checks.place(b"images/" + name)) for name in (b"f-user.adf", b"named.adf", b"d-twin.adf"))
    fill(work, {b"c": None, b"c/b": None, b"c/f.adf": user, b"c/b/named.adf": named, b"c/b/twin.adf": twin, b"c/b/twin2.adf": twin,
                b"c/f.adf~": b"older", b"c/f.adf~undone": b"x", b"c/f.adf~12~": b"x", b"c/.fcdisc-1-1.tmp": b"x", b"c/notes.txt": b"My discs\n",
                b"c/unread.adf": bytes(819200), b"c/empty.dat": b"", b"c/pack.zip": b"PK\3\4xxxx", b"c/dos.img": DOS, b"c/old.dat": old_hard_disc(),
                b"c/part.img": bytes(1 << 20) + named, b"c/away": "-> none", b"c/link": "-> b", b"c/lone~": b"a note", b"c/f.adf~1~": b"x"})
    os.mkfifo(os.path.join(work, b"c/pipe"))
    return work


FULL = "fcdisc: standard output: No space left on device\n"
NO_NAME = "a name in a path has 1 to 255 bytes"
NOT_LATIN = "a disc's names have no letters but those of Latin 1"
WHOLE_USER = "c/f.adf: " + fcdisc_cases.USER_FOUND
TWIN = "c/b/%s: not accepted: " + fcdisc_cases.TWIN_MEANING + "\n"
PASSED_OVER = ("fcdisc: c/link: a link to a folder: passed over\nfcdisc: c/away: a link that leads nowhere: passed over\n"
               "fcdisc: c/pipe: not a file: passed over\n")
REFUSED = ("fcdisc: 6 images not accepted: c/b/twin.adf, c/b/twin2.adf, c/empty.dat, c/old.dat, c/part.img and 1 more: "
           "fcdisc check says what is wrong, and what to do")
FOUND = {
    "b/named.adf": "whole: E disc: 3 files, 1 directory, 808960 bytes free", "b/twin.adf": "not accepted: " + fcdisc_cases.TWIN_MEANING,
    "b/twin2.adf": "not accepted: " + fcdisc_cases.TWIN_MEANING, "f.adf": fcdisc_cases.USER_FOUND.rstrip(),
    "unread.adf": "not accepted: no FileCore disc begins here [NoKind]", "empty.dat": "not accepted: no FileCore disc begins here [NoKind]",
    "pack.zip": "no disc: a zip archive: unpack it first", "dos.img": "no disc: a DOS disc: use mtools",
    "old.dat": "not accepted: it is a hard disc with an old map: not yet read [NoKind]",
    "part.img": "not accepted: no FileCore disc begins here, but one begins at byte 1048576 [NoKind]"}


def found_in(lines: List[str]) -> Dict[str, str]:
    """What `check` says of each file, but for what rescue can take out of it."""
    return dict(line[2:].partition("; fcdisc rescue")[0].split(": ", 1) for line in lines if line.startswith("c/"))


def check_collection(checks: Checks) -> None:
    """A line for each disc, and for what a keeper may take for one; the advice once; the sums; messages on standard error."""
    collection(checks)
    out, err, status = checks.run(["check", "c"])
    lines = out.splitlines()
    found = found_in(lines)
    advice = [line.split(":")[0] for line in lines if line.startswith("What to do")]
    checks.expect("check of a collection", found=(FOUND, found), last=("12 files: 2 whole, 4 damaged, 2 not read, 4 no discs", lines[-1]),
                  status=(1, status), told=(sorted(PASSED_OVER.splitlines()), sorted(err.splitlines())), advice=(
                      ["What to do about Directory Twin (2 images)", "What to do about NoKind (1 image)", "What to do about NoKind (2 images)",
                       "What to do about a hard disc with an old map"], sorted(advice)))
    out, err, status = checks.run(["check", "--damaged", "c"])
    found = found_in(out.splitlines())
    checks.expect("check --damaged", found=({name: text for name, text in FOUND.items() if text.startswith("not")}, found))
    images = [fcdisc_cases.image("e-files.adf"), "c/b/twin.adf"]  # the first has bytes that nothing owns
    out, _, _ = checks.run(["check", "--damaged", *images])
    checks.expect("check --damaged says what to do about these alone", told=(["c/b/twin.adf", "What to do about Directory Twin (1 image)", "2 files"], [
        line.split(":")[0] for line in out.splitlines()]))
    out, _, _ = checks.run(["check", "--damaged", "--json", *images])
    checks.expect("check --damaged --json", images=(["c/b/twin.adf"], [row["image"] for row in json.loads(out)]))
    out, err, status = checks.run(["check", "--json", "c/f.adf", "c/b/twin.adf"])
    rows = json.loads(out)
    checks.expect("check --json", status=(1, status), whole=(
        ["c/f.adf", "whole", "F", "", "none", 41, 2, 1525760, "1924-12-24", []], [rows[0][key] for key in (
            "image", "state", "format", "disc_name", "boot_option", "files", "directories", "free", "newest", "in_equal_tracks")]),
        damaged=(["damaged", "Directory $.D Twin 3", fcdisc_cases.TWIN_ADVICE], [rows[1][key] for key in ("state", "line", "advice")]))
    os.mkdir(checks.place(b"work/d"))
    with open(checks.place(b"work/d/notes"), "w") as file:
        file.write("a text")
    os.link(checks.place(b"work/c/f.adf"), checks.place(b"work/d/f.adf"))
    checks.expect("a collection that is whole", result=(("d/f.adf: " + fcdisc_cases.USER_FOUND + "2 files: 1 whole, 1 no disc\n", "", 0),
                                                       checks.run(["check", "d"])))


def other_files(checks: Checks) -> None:
    """What files are that are named, and aren't discs."""
    for name, (start, what) in BEGINNINGS.items():
        fill(checks.fresh(b"work"), {name.encode(): start + bytes(5000)})
        out, _, status = checks.run(["check", name])
        checks.expect("check of " + name, told=(True, out.startswith("%s: no disc: %s: " % (name, what))), status=(1, status))
    fill(checks.fresh(b"work"), {b"x.ssd": DFS})
    checks.expect("check of a DFS disc", result=(("x.ssd: no disc: a DFS disc of the BBC Micro: use a program for DFS\n", "", 1),
                                                checks.run(["check", "x.ssd"])))
    for name, disc, told in (("x.adf", DFS_FILES, "no disc: a DFS disc of the BBC Micro"), ("x.img", DFS_FILES + bytes(100000), "no disc: a DFS disc"),
                             ("x.adf", DFS_FILES[:271] + b"\1" + DFS_FILES[272:], "not accepted: no FileCore disc"), ("x.adf", DFS, "not accepted: no FileCore disc")):
        fill(checks.fresh(b"work"), {name.encode(): disc})
        out, _, _ = checks.run(["check", name])
        checks.expect("check of a DFS disc named %s: %s" % (name, told), told=(True, out.startswith("%s: %s" % (name, told))))
    zones = bytearray(user_image(checks))
    zones[0xC6800 + 3] ^= 1  # the first zone of both copies: only the sum over the zones is wrong
    fill(checks.fresh(b"work"), {b"x.adf": bytes(zones)})
    for copy in (0xC6800, 0xC7800):
        zones[copy + 1023] ^= 255
    fill(checks.fresh(b"work"), {b"y.adf": bytes(zones)})
    out, _, _ = checks.run(["check", "y.adf"])
    checks.expect("wrong zones in words", told=(True, out.startswith("y.adf: not accepted: in both copies of the map zone 0 is wrong [Copies 0 0]")))


def behind_an_offset(checks: Checks) -> None:
    """A disc in a file: found and named, read and changed."""
    named = read(checks.place(b"images/named.adf"))
    user = user_image(checks)
    flat = read(checks.place(b"images/l-files.adf"))
    table = bytearray(512)
    table[446 + 8:446 + 12] = (77).to_bytes(4, "little")
    table[510:] = b"\x55\xaa"
    for start, head, disc in ((1024, bytes(1024), named), (1 << 20, bytes(1 << 20), user), (5 << 20, bytes(5 << 20), named),
                              (256, bytes(256), flat), (77 * 512, bytes(table) + bytes(76 * 512), user)):
        fill(checks.fresh(b"work"), {b"x.img": head + disc + b"end"})
        out, _, status = checks.run(["check", "x.img"])
        text = "x.img: not accepted: no FileCore disc begins here, but one begins at byte %d [NoKind]\nWhat to do about NoKind: say --offset %d\n"
        checks.expect("a disc at byte %d" % start, result=((text % (start, start), 1), (out, status)))
        fill(checks.place(b"work"), {b"disc.adf": disc})
        wanted, got = checks.run(["list", "disc.adf"]), checks.run(["list", "--offset", str(start), "x.img"])
        checks.expect("list of a disc at byte %d" % start, result=(wanted, got))
        got = checks.run(["mkdir", "--offset", hex(start), "x.img", "New"])
        checks.run(["mkdir", "disc.adf", "New"])
        checks.expect("mkdir on a disc at byte %d" % start, result=(("", "", 0), got), image=(True, read(checks.place(b"work/x.img")) == (
            head + read(checks.place(b"work/disc.adf")) + b"end")))
    checks.expect("an offset behind the end", result=(("", "fcdisc: x.img: it has no more than ", 1), tuple(
        one[:35] if isinstance(one, str) else one for one in checks.run(["list", "--offset", "99999999", "x.img"]))))
    checks.expect("an offset that is none", status=(2, checks.run(["list", "--offset", "-1", "x.img"])[2]))


def equal_tracks(checks: Checks) -> None:
    """Files in a track of equal bytes are remarked; free tracks and discs without such aren't."""
    for name, track, form in ((b"l-files", 4096, "L"), (b"d-files", 5120, "D"), (b"e-files", 5120, "E"), (b"f-user", 10240, "F")):
        image = read(checks.place(b"images/%s.adf" % name))
        place, files = used_track(checks, name, image, track)
        for value in (0, 0xE5):
            spoilt = image[:place] + bytes((value,)) * track + image[place + track:]
            fill(checks.fresh(b"work"), {b"x.adf": spoilt})
            out, _, status = checks.run(["check", "--json", "x.adf"])
            row = json.loads(out)[0]
            checks.expect("a track of &%02X on %s" % (value, form), state=("whole", row["state"]), files=(files, row["in_equal_tracks"]), status=(0, status))
        out, _, _ = checks.run(["check", "x.adf"])
        checks.expect("a track in words on " + form, told=(True, "in a track of equal bytes, unread? ($." in out and
                                                         "\nWhat to do about tracks of equal bytes: " in out))


def used_track(checks: Checks, name: bytes, image: bytes, track: int) -> Tuple[int, List[str]]:
    """A track that holds nothing but files' bytes, by the volume that made the image; and the files that have bytes there."""
    state = State(image)
    taken = {}
    for key, entry in state.objects.items():
        if key and not entry.is_directory() and state.content(entry):
            for at in sectors_of(image, state, entry):
                taken.setdefault(at // track, set()).add(spelled_path(entry.path))
    for place in sorted(taken):
        spoilt = image[:place * track] + bytes(track) + image[place * track + track:]
        try:
            other = State(spoilt)
            names = {spelled_path(entry.path) for key, entry in other.objects.items() if key and not entry.is_directory()}
        except Exception:
            continue
        if len(names) == sum(not entry.is_directory() for key, entry in state.objects.items() if key) and image[place * track:place * track + track].count(0) < track:
            return place * track, sorted(path for path in changed(state, other) | changed(state, State(
                image[:place * track] + b"\xe5" * track + image[place * track + track:])))
    raise AssertionError(name)


def sectors_of(image: bytes, state: State, entry: Entry) -> Sequence[int]:
    content = bytes(state.content(entry))[:256]
    at = image.find(content)
    return range(at, at + len(state.content(entry)), 256) if at >= 0 else ()


def changed(one: State, other: State) -> Set[str]:
    """Files that are other in the second."""
    found = set()
    for key, entry in one.objects.items():
        if key and not entry.is_directory():
            there = other.objects.get(key)
            if there is None or bytes(one.content(entry)) != bytes(other.content(there)):
                found.add(spelled_path(entry.path))
    return found


# ---- catalogue, find, diff


def catalogue(checks: Checks) -> None:
    collection(checks)
    out, err, status = checks.run(["catalogue", "c"])
    rows = list(csv.DictReader(io.StringIO(out)))
    runs = [row for row in rows if row["path"] == "$.!Boot.!Run"]
    checks.expect("catalogue", columns=("image,disc_name,format,path,type,date,length,access,sha256", out.split("\n")[0]), status=(1, status),
                  counts=({"c/f.adf": 43, "c/b/named.adf": 4}, {name: sum(row["image"] == name for row in rows) for name in
                                                             {row["image"] for row in rows}}),
                  run=([["c/f.adf", "F", "feb", "8", "WR/", hashlib.sha256(b"| boots\n").hexdigest()]],
                       [[row[key] for key in ("image", "format", "type", "length", "access", "sha256")] for row in runs]),
                  told=(REFUSED, err.splitlines()[-1]), none=(0, err.count(": not accepted: ")))
    shown, _, _ = checks.run(["catalogue", "--json", "c"])
    checks.expect("catalogue --json", rows=([(row["image"], row["path"], row["sha256"]) for row in rows],
                                            [(row["image"], row["path"], row["sha256"]) for row in json.loads(shown)]))
    checks.expect("catalogue to a full disk", result=(("", "fcdisc: standard output: No space left on device\n", 1), checks.run(
        ["catalogue", "c/f.adf"], within='exec "$@" > /dev/full')))
    fill(checks.fresh(b"work"), {b"x,\"\n.adf": read(checks.place(b"images/hostile.adf"))})
    out, _, status = checks.run(["catalogue", "."])
    rows = list(csv.DictReader(io.StringIO(out)))
    checks.expect("catalogue of hostile names", status=(0, status), images=({"./x,\"\\x0a.adf"}, {row["image"] for row in rows}),
                  plain=([], [row for row in rows if not re.fullmatch(r"[!-~]+", row["path"])]))


def finding(checks: Checks) -> None:
    collection(checks)
    for words, paths in ((["!run"], ["$.!Boot.!Run"]), (["$.*.note4#"], []), (["Note3"], ["$.Docs.Note3"]), (["$.docs.Note1#"], [
            "$.Docs.Note1%d" % at for at in range(10)]), (["docs.note7"], ["$.Docs.Note7"]), (["$.Note7"], []),
            (["--type", "feb", "*"], ["$.!Boot.!Run"]), (["--holds", "boots", "*"], ["$.!Boot.!Run"]), (["--holds", "Boots", "*"], []),
            (["--sha256", hashlib.sha256(b"| boots\n").hexdigest()[:12], "*"], ["$.!Boot.!Run"])):
        out, _, status = checks.run(["find", *words[:-1], "c/f.adf", words[-1]])
        lines = out.splitlines()
        checks.expect("find " + " ".join(words), paths=(paths, [line.split(": ")[1] for line in lines[:-1]]), status=(int(not paths), status),
                      last=("%d object%s in %d image%s" % (len(paths), "s" * (len(paths) != 1), bool(paths), "" if paths else "s"), lines[-1]))
    out, err, status = checks.run(["find", "c", "error"])
    checks.expect("find in a collection", line=("c/b/named.adf: $.D.error: 00000000-00000000, 0 bytes, WR/", out.splitlines()[0]), status=(1, status),
                  told=(REFUSED, err.splitlines()[-1]))
    for pattern, error in (("", NO_NAME), ("..", NO_NAME), ("$.\uff21*", NOT_LATIN)):
        checks.expect("find " + ascii(pattern), result=(("", "fcdisc: %s: %s\n" % (pattern, error), 2), checks.run(["find", "c", pattern])))
    checks.expect("find to a full disk", result=(("", FULL, 1), checks.run(["find", "c/f.adf", "*"], within='exec "$@" > /dev/full')))
    fill(checks.fresh(b"work"), {b"-x\n\x1b[31m.adf": read(checks.place(b"images/hostile.adf"))})
    out, err, status = checks.run(["find", ".", "*"])
    lines = out.splitlines()
    checks.expect("find of hostile names", status=(0, status), told=("", err), plain=([], [line for line in lines[:-1] if not re.fullmatch(
        r"\./-x\\x0a\\x1b\[31m\.adf: \$\.[!-~]+: [ -~]+", line)]), last=("%d objects in 1 image" % (len(lines) - 1), lines[-1]))


def differing(checks: Checks) -> None:
    work = checks.fresh(b"work")
    for name in (b"a.adf", b"b.adf"):
        fill(work, {name: user_image(checks)})
    checks.expect("diff of equal discs", result=(("", "", 0), checks.run(["diff", "a.adf", "b.adf"])))
    checks.run(["extract", "a.adf", "o"])
    checks.run(["extract", "a.adf", "o.zip"])
    checks.expect("diff of a disc and its folder", result=(("", "", 0), checks.run(["diff", "a.adf", "o"])))
    checks.expect("diff of a disc and its archive", result=(("", "", 0), checks.run(["diff", "o.zip", "a.adf"])))
    fill(work, {b"n": b"Other"})
    checks.run(["put", "--replace", "--type", "fff", "b.adf", "n", "$.Docs.Note0"])
    checks.run(["access", "b.adf", "L", "Docs.Note1"])
    checks.run(["rm", "b.adf", "Docs.Note2"])
    checks.run(["mkdir", "b.adf", "New"])
    checks.run(["mv", "b.adf", "Docs.Note3", "Docs.NOTE3"])
    text = ("$.Docs.Note0: other bytes, type\n$.Docs.Note1: other access\nonly in a.adf: $.Docs.Note2\nonly in b.adf: $.New (directory)\n"
            "2 objects differ; 1 only in a.adf; 1 only in b.adf\n")
    checks.expect("diff", result=((text, "", 1), checks.run(["diff", "a.adf", "b.adf"])))
    checks.expect("diff of a folder", result=((text.replace("a.adf", "o"), "", 1), checks.run(["diff", "o", "b.adf"])))
    checks.expect("diff to a full disk", result=(("", FULL, 1), checks.run(["diff", "a.adf", "b.adf"], within='exec "$@" > /dev/full')))
    checks.expect("diff with a damaged disc", status=(1, checks.run(["diff", "a.adf", fcdisc_cases.image("d-twin.adf")])[2]))


HOSTILE_HOST = {  # names of the host, and what diff says of each
    b"ctl\1,fff": (1, "o/ctl\\x01,fff: not compared: a name has no control characters"), b"-opt,fff": (0, "only in o: $.-opt"),
    b"nl\nx,fff": (1, "o/nl\\x0ax,fff: not compared: a name has no control characters"), b"%2E%2E,fff": (0, "only in o: $.%2E%2E"),
    "e\u0301,fff".encode(): (1, "o/e\u0301,fff: not compared: " + NOT_LATIN), b"..x,fff": (0, "only in o: $.//x"),
    "\uff21b,fff".encode(): (1, "o/\uff21b,fff: not compared: " + NOT_LATIN), b"bad\xff\xfe,fff": (0, "only in o: $.bad%FF%FE"),
    b"y" * 240 + b",fff": (0, "only in o: $." + "y" * 240), b"a%2E,fff": (1, "o/a%2E,fff: not compared: on a disc it has the same name as A%2E,fff"),
    b"A%2E,fff": (0, "only in o: $.A%2E")}


def differing_names(checks: Checks) -> None:
    """Names that a disc or a host can have only to do harm."""
    work = checks.fresh(b"work")
    fill(work, {b"-x\n\x1b[31m.adf": read(checks.place(b"images/named.adf"))})
    checks.run(["extract", "--", "-x\n\x1b[31m.adf", "o"])
    checks.expect("diff of an image named as an option", result=(("", "", 0), checks.run(["diff", "--", "-x\n\x1b[31m.adf", "o"])))
    fill(work, {b"o/" + name: b"x" for name in HOSTILE_HOST})
    fill(work, {b"o/link": "-> none"})
    os.mkfifo(os.path.join(work, b"o/pipe"))
    out, err, status = checks.run(["diff", "-v", "--", "-x\n\x1b[31m.adf", "o"])
    told = [text for is_told, text in HOSTILE_HOST.values() if is_told]
    checks.expect("diff of hostile names of a host", status=(1, status), told=(sorted(
        "fcdisc: " + text for text in [*told, "o/link: not compared: it is a link", "o/pipe: not compared: not a file"]), sorted(err.splitlines())),
                  out=(sorted([*(text for is_told, text in HOSTILE_HOST.values() if not is_told), "0 objects differ; %d only in o" % (
                      len(HOSTILE_HOST) - len(told))]), sorted(out.splitlines())))
    fill(checks.fresh(b"work"), {b"h\n\x1b[31m.adf": read(checks.place(b"images/hostile.adf"))})
    checks.run(["extract", "h\n\x1b[31m.adf", "h.zip"])
    checks.expect("diff of a hostile disc and its archive", result=(("", "", 0), checks.run(["diff", "h\n\x1b[31m.adf", "h.zip"])))
    fill(checks.place(b"work"), {b"f.adf": read(checks.place(b"images/fresh-F.adf"))})
    out, err, status = checks.run(["diff", "h\n\x1b[31m.adf", "f.adf"])
    checks.expect("diff of a hostile disc", status=(1, status), told=("", err), plain=([], [line for line in out.splitlines()[:-1] if not re.fullmatch(
        r"only in h\\x0a\\x1b\[31m\.adf: \$\.[!-~]+( \(directory\))?", line)]), some=(True, out.count("\n") > 5))


# ---- extract --each


def each(checks: Checks) -> None:
    collection(checks)
    out, err, status = checks.run(["extract", "--each", "c", "out"])
    left = snapshot(checks.place(b"work/out"))
    checks.run(["extract", "c/f.adf", "one"])
    alone = snapshot(checks.place(b"work/one"))
    checks.expect("extract --each", out=("c/f.adf: 41 of 41 files\nc/b/named.adf: 3 of 3 files\n44 files of 2 discs written to out\n", out),
                  status=(1, status), told=(6, err.count(": not accepted: ")), folders=([b"b", b"f.adf"], sorted(name for name in left if b"/" not in name)),
                  files=(alone, {name[len(b"f.adf/"):]: data for name, data in left.items() if name.startswith(b"f.adf/")}),
                  inner=([b"b/named.adf"], sorted(name for name in left if name.startswith(b"b/") and name.count(b"/") == 1)))
    again, _, status = checks.run(["extract", "--each", "c/b/named.adf", "out/b"])
    checks.expect("extract --each again", out=("c/b/named.adf: 3 of 3 files\n3 files of 1 disc written to out/b\n", again), status=(0, status),
                  same=(left, snapshot(checks.place(b"work/out"))))
    checks.expect("extract --each with a path", status=(2, checks.run(["extract", "--each", "c", "out", "$.Docs"])[2]))


def each_interrupted(checks: Checks) -> None:
    """Signals while several images are read at once: no temporary file is left, and the program ends by the signal."""
    slow = "#!/bin/sh\ntouch begun.$$; sleep 1; exec '%s' \"$@\"\n" % checks.fcore
    for words in (["check", "c"], ["extract", "--each", "c", "out"], ["catalogue", "c"]):
        work = collection(checks)
        fill(checks.fresh(b"fake"), {b"fcore": slow.encode()})
        os.chmod(checks.place(b"fake/fcore"), 0o755)
        run = subprocess.Popen([checks.fcdisc, *words], cwd=work, env=checks.environment("../fake/fcore"), stdout=subprocess.PIPE, stderr=subprocess.PIPE)
        wait_for(lambda: sum(name.startswith(b"begun") for name in os.listdir(work)) > 1)
        run.send_signal(signal.SIGINT)
        run.communicate(timeout=60)
        left = [name for _, _, names in os.walk(work) for name in names if name.endswith(b".tmp")]
        checks.expect("%s interrupted" % words[0], status=(-signal.SIGINT, run.returncode), left=([b".fcdisc-1-1.tmp"], left))


def ended(checks: Checks) -> None:
    """Signals and kills of jobs that only read: they end by the signal, say nothing of it, and leave all as it was."""
    slow = "#!/bin/sh\ntouch ../fake/begun.$$; sleep 1; exec '%s' \"$@\"\n" % checks.fcore
    work = collection(checks)
    os.remove(os.path.join(work, b"c/pipe"))  # whoever looks into it would wait
    checks.run(["extract", "c/f.adf", "o"])
    before = snapshot(work)
    for words in (["find", "c", "*"], ["find", "--holds", "boots", "c/f.adf", "*"], ["diff", "c/f.adf", "c/b/named.adf"], ["diff", "o", "c/f.adf"]):
        for number in (signal.SIGINT, signal.SIGTERM, signal.SIGKILL):
            fake = checks.fresh(b"fake")
            fill(fake, {b"fcore": slow.encode()})
            os.chmod(checks.place(b"fake/fcore"), 0o755)
            run = subprocess.Popen([checks.fcdisc, *words], cwd=work, env={**checks.environment("../fake/fcore"), "TMPDIR": os.fsdecode(fake)},
                                   stdout=subprocess.PIPE, stderr=subprocess.PIPE)
            wait_for(lambda: any(name.startswith(b"begun") for name in os.listdir(fake)))
            run.send_signal(number)
            told = run.communicate(timeout=60)
            checks.expect("%s ended by %d" % (" ".join(words), number), status=(-number, run.returncode), left=(before, snapshot(work)), told=(
                [], [line for line in b"".join(told).splitlines() if not line.endswith(b": passed over")]), temporary=([], [name for name in os.listdir(fake) if name != b"fcore" and not name.startswith(b"begun")]))


def progress(checks: Checks) -> None:
    collection(checks)
    out, err, _ = checks.run(["check", "c/f.adf", "c/b/named.adf"], within=on_host("terminal"))
    checks.expect("progress of check", steps=(["files checked: 1 of 2", "files checked: 2 of 2"], re.findall("files checked[^\r]*\\d", err)))


PARTS = (check_collection, other_files, behind_an_offset, equal_tracks, catalogue, finding, differing, differing_names, each, each_interrupted, ended,
         progress)
