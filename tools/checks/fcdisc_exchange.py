# SPDX-License-Identifier: MIT
"""Checks of what fcdisc exchanges with other systems: zip archives, .inf files, endings, names that fit; and that nothing is lost in silence."""
from __future__ import annotations

import struct
import zipfile
from typing import Dict, Tuple

from tools.checks.fcdisc_cases import FULL_DISK
from tools.checks.fcdisc_changes import NAMED, Changes, Node, differing, is_writable, short_tree, tree_of
from tools.checks.work_folders import snapshot
from tools.files import read

SETTABLE = 15
RAMFS = ('mkdir -p ../room; unshare -m sh -c \'mount -t ramfs none ../room && cp -r . ../room/w && cd ../room/w && "$@"; status=$?; '
         'echo $(find . | sort); exit $status\' sh "$@"; status=$?; rmdir ../room; exit $status')
UNKEPT = "lost access, words or time: this host can't keep them; extract --inf or a zip archive does\n"


def settable(tree: Dict[Tuple[bytes, ...], Node]) -> Dict[Tuple[bytes, ...], Node]:
    return {path: (node[0] & SETTABLE, *node[1:]) for path, node in tree.items()}


# ---- attributes that a host can't keep


def without_attributes(c: Changes) -> None:
    """On a host without extended attributes what is lost is counted; with --inf or into an archive nothing is."""
    c.start("hard-disc.adf")
    lost = sum(needs_keeping(node) for node in tree_of(read(c.at("a.adf"))).values())
    out, err, status = c.run("extract", "a.adf", "o", within=RAMFS)
    c.checks.expect("extract without attributes", status=(1, status), told=("fcdisc: a.adf: %d objects %s" % (lost, UNKEPT), err), some=(True, lost > 2))
    for words in (["--inf", "a.adf", "o"], ["a.adf", "o.zip"]):
        out, err, status = c.run("extract", *words, within=RAMFS)
        c.checks.expect("extract without attributes %s" % words, status=(0, status), errors=("", err))
    c.start()
    c.run("access", "a.adf", "L", "Ab")
    out, err, status = c.run("get", "a.adf", "Ab", within=RAMFS)
    c.checks.expect("get without attributes", status=(1, status), told=("fcdisc: $.Ab " + UNKEPT, err))


def needs_keeping(node: Node) -> bool:
    """Whether an object has what a name and a time of the host don't tell: all times since 1970 are told on this host."""
    attributes, load, execution, content = node
    if content is None:
        return (attributes & 255, load, execution) != (8, 0, 0)
    return attributes & 255 != 3


# ---- zip archives


def archives(c: Changes) -> None:
    """What an archive holds, and what comes of archives of others."""
    c.start("f-user.adf")
    c.run("access", "a.adf", "LR", "Docs.Note1")
    out, err, status = c.run("extract", "a.adf", "o.zip")
    with zipfile.ZipFile(c.at("o.zip").decode()) as archive:
        info, note = archive.getinfo("!Boot/!Run"), archive.getinfo("Docs/Note1")
        c.checks.expect("an archive", result=(("41 files written to o.zip\n", "", 0), (out, err, status)), good=(None, archive.testzip()),
                        field=(struct.pack("<HH4sIIII", 0x4341, 20, b"ARC0", 0xFFFFEB12, 0x5A5A5A5A, 3, 0), info.extra),
                        content=(b"| boots\n", archive.read("!Boot/!Run")), locked=(9, struct.unpack("<I", note.extra[16:20])[0]),
                        folders=(["!Boot/", "Docs/"], sorted(name for name in archive.namelist() if name.endswith("/"))))
    c.refused("an archive over a file", ["extract", "a.adf", "o.zip"], "o.zip: there is something of this name already")
    c.run("extract", "a.adf", "part.zip", "Docs.Note1#", "!Boot")
    with zipfile.ZipFile(c.at("part.zip").decode()) as archive:
        c.checks.expect("an archive of a part", names=(13, len(archive.namelist())), has=(True, "!Boot/!Run" in archive.namelist()))
    c.start(files={"bad.zip": b"PK\3\4" + bytes(100)})
    c.refused("an archive that is none", ["add", "a.adf", "bad.zip"], "bad.zip: not a zip archive that can be read: File is not a zip file")
    with zipfile.ZipFile(c.at("x.zip").decode(), "w", zipfile.ZIP_DEFLATED) as archive:
        for name, data in (("../../up", b"u"), ("/etc/x", b"e"), ("a/b/deep.txt", b"d"), ("./dot", b"."), ("Prog,ffb", b"p"), ("caf\u00e9", b"c"),
                           ("a\\b", b"w"), ("x" * 12, b"l"), ("\u0416", b"z"), ("TWICE", b"1"), ("twice", b"2"), ("link", b"target")):
            info = zipfile.ZipInfo(name, (1999, 12, 31, 23, 59, 58))
            if name == "link":
                info.external_attr = 0o120777 << 16
            archive.writestr(info, data)
    out, err, status = c.run("add", "a.adf", "x.zip")
    tree = short_tree(read(c.at("a.adf")))
    c.checks.expect("an archive of others", status=(1, status), out=("8 of 12 files added to a.adf\n", out), tree=({
        **NAMED, "$.//": 0, "$.//.//": 0, "$.//.//.up": (3, b"u"), "$.etc": 0, "$.etc.x": (3, b"e"), "$.a": 0, "$.a.b": 0, "$.a.b.deep/txt": (3, b"d"),
        "$.dot": (3, b"."), "$.Prog": (3, b"p"), "$.caf%E9": (3, b"c"), "$.TWICE": (3, b"1"), "$.link": (3, b"target")}, tree), told=(4, err.count("not added")))
    words = tree_of(read(c.at("a.adf")))[(b"dot",)]
    c.checks.expect("an archive's time", words=(0xFFF, (words[1] >> 8) & 0xFFF), time=(946684798, ((words[1] & 255) << 32 | words[2]) // 100 - 2208988800))
    data = bytearray(read(c.at("x.zip")))
    at = data.index(b"a/b/deep.txt") + 12
    data[at] ^= 255
    c.start(files={"x.zip": bytes(data)})
    out, err, status = c.run("add", "a.adf", "x.zip")
    c.checks.expect("a damaged archive", status=(1, status), told=(True, "x.zip: a/b/deep.txt: " in err or "a/b/deep.txt: not added: the archive is damaged" in err))


def latin_names(c: Changes) -> None:
    """Names in archives of RISC OS are in Latin 1, without a mark."""
    c.start()
    with zipfile.ZipFile(c.at("x.zip").decode(), "w") as archive:
        archive.writestr("cafX", b"c")
    data = read(c.at("x.zip")).replace(b"cafX", b"caf\xe9")
    with open(c.at("x.zip"), "wb") as file:
        file.write(data)
    c.good("an archive with Latin 1", ["add", "a.adf", "x.zip"], {**NAMED, "$.caf%E9": (3, b"c")}, "1 of 1 file added to a.adf\n")


# ---- .inf files


def infs(c: Changes) -> None:
    files = {"o/Prog": b"p", "o/Prog.inf": b"$.PROG FFFF1900 FFFF8023 0000B000 0B\n", "o/two": b"t", "o/two.inf": b"TWO 1900 8023 Locked\r\n",
             "o/six": b"6", "o/six.inf": b"$.SIX FF1900 FF8023 000001 CRC=1234\n", "o/alone.inf": b"no pair", "o/odd": b"o", "o/odd.inf": b"not hex here",
             "o/quoted": b"q", "o/quoted.inf": b'"$.A%%20B" 00000000 00000000 00000001 19\n'.replace(b"%%", b"%"), "o/let": b"l", "o/let.inf": b"LET 0 0 1 WR/r",
             "o/UP": b"u", "o/UP.INF": b"UP 1900 8023 1\n"}
    c.start("hello.adf", files=files)
    out, err, status = c.run("add", "a.adf", "o")
    tree = tree_of(read(c.at("a.adf")))
    wanted = {b"PROG": (7, 0xFFFF1900, 0xFFFF8023, b"p"), b"TWO": (7, 0x1900, 0x8023, b"t"), b"SIX": (3, 0xFFFF1900, 0xFFFF8023, b"6"),
              b"LET": (3, 0, 0, b"l"), b"UP": (3, 0x1900, 0x8023, b"u")}
    c.checks.expect(".inf files", nodes=(wanted, {path[0]: (node[0] & 7, *node[1:]) for path, node in tree.items() if path[0] in wanted}),
                    others=({(b"alone/inf",), (b"odd",), (b"odd/inf",), (b"Hello",)}, {path for path in tree if path[0] not in wanted}),
                    out=("8 of 9 files added to a.adf\n", out), status=(1, status),
                    told=(True, "$.A%20B: not added: no name that is written to a disc may have %20 in it" in err))
    c.start("f-user.adf")
    c.run("access", "a.adf", "L", "Docs")
    c.run("extract", "--inf", "a.adf", "o")
    left = snapshot(c.at("o"))
    c.checks.expect("extract --inf", run=(b"!Run FFFFEB12 5A5A5A5A 00000008 03\n", left[b"!Boot/!Run.inf"]), content=(b"| boots\n", left[b"!Boot/!Run"]),
                    folder=(b"Docs 00000000 00000000 00000000 08\n", left[b"Docs.inf"]), count=(41 + 41 + 2 + 1, len(left)))
    c.start(files={"o/Ab": b"mine", "o/A B.inf": b"mine"})
    out, err, status = c.run("extract", "--inf", "a.adf", "o")
    c.checks.expect("extract --inf over files", out=("1 of 3 files written to o\n", out), status=(1, status), kept=(
        (b"mine", b"mine"), (read(c.at("o/Ab")), read(c.at("o/A B.inf")))))


# ---- round trips


def round_trip(c: Changes, name: str, data: bytes) -> None:
    """`extract` to an archive and with .inf files, and `add` from there: names, types, words, access and bytes are the same."""
    form = {819200: "E+", 655360: "E+"}.get(len(data), "F+")
    tree = tree_of(data)
    if any(len(part) > 240 for path in tree for part in path):
        return
    c.start(name + ".adf")
    for at, (words, place) in enumerate(((["a.adf", "o.zip"], "o.zip"), (["--inf", "a.adf", "i"], "i"), (["--types", "default", "a.adf", "t"], "t"))):
        c.run("extract", *words)
        c.run("new", form, "b%d.adf" % at)
        c.run("add", "b%d.adf" % at, place)
        wanted = {path: node for path, node in settable(tree).items() if is_writable(path, True)}
        found = tree_of(read(c.at("b%d.adf" % at)))
        if place == "t":  # endings become part of names; the rest is the same
            wanted, found = ({tuple(part.split(b"/")[0] for part in path): node for path, node in one.items()} for one in (wanted, found))
        c.checks.expect("%s by %s" % (name, place), same=([], differing(wanted, found)))


# ---- endings


def endings(c: Changes) -> None:
    files = {"o/photo.jpg": b"j", "o/page.HTML": b"h", "o/x.unknown": b"u", "o/Prog,ffb": b"b", "o/noend": b"n"}
    c.start(files=files)
    c.run("add", "--types", "default", "a.adf", "o")
    types = {path[0]: node[1] >> 8 & 0xFFF for path, node in tree_of(read(c.at("a.adf"))).items() if path[0] not in (b"A B", b"Ab", b"D")}
    c.checks.expect("types by endings", types=({b"photo/jpg": 0xC85, b"page/HTML": 0xFAF, b"x/unknown": 0xFFF, b"Prog": 0xFFB, b"noend": 0xFFF}, types))
    c.run("extract", "--types", "default", "a.adf", "p")
    c.checks.expect("endings by types", names=(sorted([b"photo.jpg", b"page.HTML", b"x.unknown.txt", b"Prog.bas", b"noend.txt", b"Ab.txt", b"D",
                                                      b"D/error,00000000-00000000", b"A B,00000000-00000000"]), sorted(snapshot(c.at("p")))))
    c.start(files={**files, "table": b"# mine\n.jpg  &123 # a type\nbas ffb\n"})
    c.run("add", "--types", "table", "a.adf", "o")
    c.checks.expect("types by a table", type=(0x123, tree_of(read(c.at("a.adf")))[(b"photo/jpg",)][1] >> 8 & 0xFFF))
    c.run("put", "--types", "table", "a.adf", "o/photo.jpg", "$.P")
    c.checks.expect("put by a table", type=(0x123, tree_of(read(c.at("a.adf")))[(b"P",)][1] >> 8 & 0xFFF))
    c.start(files={"o/x": b"", "table": b"jpg c85\nnonsense\n"})
    c.refused("a table with a wrong line", ["add", "--types", "table", "a.adf", "o"], "table: line 2 isn't an ending and a type, as in `jpg c85`", 2)
    c.refused("no table", ["add", "--types", "none", "a.adf", "o"], "none: No such file or directory")
    out, err, status = c.run("types")
    c.checks.expect("types", line=(True, "\njpg   c85\n" in out), status=(0, status))
    with open(c.at("mine"), "w") as file:
        file.write(out)
    c.good("the printed table is one", ["add", "--types", "mine", "a.adf", "o"], {**NAMED, "$.x": (3, b"")}, "1 of 1 file added to a.adf\n")


# ---- names that fit

EVERYDAY = ("My Holiday Photo.jpeg", "Caf\u00e9 menu.txt", "R&D budget (50%).csv", "\u041f\u0440\u0438\u0432\u0435\u0442.txt", "C:\\x", "report_final_v2.pdf",
            "report_final_v3.pdf", "\u0101\u010d\u0113.txt", "a*b#c|d\"e$f@g^h", "tab\there", "ok")


def fitting(c: Changes) -> None:
    files = {"o/Long folder name/In here.txt": b"i", **{"o/" + name: name.encode() for name in EVERYDAY}}
    for image, long_names in (("fresh-F.adf", False), ("fresh-E+.adf", True), ("fresh-L.adf", False), ("fresh-D.adf", False)):
        c.start(image, files=files)
        plain = c.run("add", "a.adf", "o")
        c.checks.expect("names on %s" % image, named=(True, "--fit" in plain[1]), status=(1, plain[2]), total=(True, " of 12 files added" in plain[0]))
        c.start(image, files=files)
        out, err, status = c.run("add", "--fit", "a.adf", "o")
        lines = dict(line.split(" -> ") for line in out.splitlines()[:-1])
        tree = tree_of(read(c.at("a.adf")))
        contents = {node[3] for node in tree.values() if node[3] is not None}
        longest = max(len(part) for path in tree for part in path)
        c.checks.expect(
            "--fit on " + image, last=("12 of 12 files added to a.adf", out.splitlines()[-1]), status=(0, status), errors=("", err),
            contents=({b"i", *(name.encode() for name in EVERYDAY)}, contents), length=(True, longest <= (255 if long_names else 10)),
            kept=(True, (b"ok",) in tree and "o/ok" not in lines), list=(True, len(lines) >= 8), spaces=(
                image != "fresh-L.adf", any(b"\xa0" in part for path in tree for part in path)))
        again = c.run("add", "--fit", "a.adf", "o")
        c.checks.expect("--fit on %s again" % image, same=(True, tree_of(read(c.at("a.adf"))) == tree), status=(1, again[2]))
    c.start("fresh-F.adf", files=files)
    with zipfile.ZipFile(c.at("x.zip").decode(), "w") as archive:
        archive.writestr("A folder with a long name/A long name.txt", b"1")
        archive.writestr("A folder with a long name/A long name2.txt", b"2")
    out, err, status = c.run("add", "--fit", "a.adf", "x.zip")
    c.checks.expect("--fit of an archive", status=(0, status), tree=({"$.A%A0folder~1": 0, "$.A%A0folder~1.A%A0long%A0n~1": (3, b"1"),
                                                                    "$.A%A0folder~1.A%A0long%A0n~2": (3, b"2")}, short_tree(read(c.at("a.adf")))))


# ---- many refusals


def many_refusals(c: Changes) -> None:
    files = {"o/%03d much too long" % at: b"" for at in range(40)}
    c.start(files=files)
    out, err, status = c.run("add", "a.adf", "o")
    lines = err.splitlines()
    c.checks.expect("many refusals", lines=(6, len(lines)), last=(True, lines[-1].startswith("fcdisc: and 35 more: not added: no name that")), out=(
        "0 of 40 files added to a.adf\n", out), status=(1, status))
    out, err, status = c.run("add", "-v", "a.adf", "o")
    c.checks.expect("many refusals, all named", lines=(40, len(err.splitlines())))
    c.start(files={"o/%s%d" % (letters, at): b"" for at in range(4) for letters in ("a b", "a&b")})
    out, err, status = c.run("add", "a.adf", "o")
    c.checks.expect("refusals that differ in letters", last=(
        "fcdisc: and 3 more: not added: no name that is written to a disc may have .. in it (--fit gives it another name) (-v names them)",
        err.splitlines()[-1]))
    c.start(files={"o/%d" % at: bytes([at]) * 300000 for at in range(9)})
    out, err, status = c.run("add", "a.adf", "o")
    c.checks.expect("what a folder needs", first=("fcdisc: a.adf: the files need 2.7 MB, and the disc has 0.8 MB free", err.splitlines()[0]), status=(1, status))


def full_hosts(c: Changes) -> None:
    """A host without room for what is to be written: nothing half-made is left, and the reason is told."""
    for words, size, told, left in (
            (["extract", "../images/f-user.adf", "o.zip"], 8, "fcdisc: o.zip: No space left on device\n", ". ./pad"),
            (["extract", "--inf", "../images/large.adf", "o"], 48, "fcdisc: ../images/large.adf: $.Large: not written: No space left on device\n"
             "fcdisc: ../images/large.adf: 0 of 2 files written\n", ". ./o ./pad"),
            (["extract", "--each", "../images/large.adf", "o"], 48, "fcdisc: ../images/large.adf: $.Large: not written: No space left on device\n"
             "fcdisc: ../images/large.adf: 0 of 2 files written\n", ". ./o ./o/large.adf ./pad")):
        c.start()
        out, err, status = c.run(*words, within=FULL_DISK % (size, "echo > pad"))
        c.checks.expect("a full host: " + " ".join(words), told=(told, err), status=(1, status), left=(left, out.splitlines()[-1]))


def unwritable_hosts(c: Changes) -> None:
    """A host that is only read: what reads works, what writes says why not."""
    c.start("f-user.adf")
    within = ("mkdir ../room; unshare -m sh -c 'mount --bind . ../room && cd ../room && mount -o remount,bind,ro . && cd \"$PWD\" && "
              "exec \"$@\"' sh \"$@\"; status=$?; rmdir ../room; exit $status")
    for words, told, wanted in ((["extract", "a.adf", "o.zip"], "fcdisc: o.zip: Read-only file system\n", 1),
                                (["extract", "a.adf", "o"], "fcdisc: o: Read-only file system\n", 1), (["check", "."], "", 0),
                                (["extract", "--each", ".", "o"], "fcdisc: o/a.adf: Read-only file system\n", 1),
                                (["find", ".", "!Run"], "", 0), (["diff", "a.adf", "a.adf"], "", 0), (["catalogue", "."], "", 0),
                                (["undo", "a.adf"], "fcdisc: a.adf: there is no a.adf~, so there is nothing to undo\n", 1)):
        got = c.run(*words, within=within)
        c.checks.expect("a host that is only read: " + " ".join(words), told=(told, got[1]), status=(wanted, got[2]), left=(["a.adf"], c.names()))


PARTS = (archives, latin_names, infs, endings, fitting, many_refusals)
MOUNTED = (without_attributes, full_hosts, unwritable_hosts)
