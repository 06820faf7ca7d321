# SPDX-License-Identifier: MIT
"""Runs of fcore beside the answers over single images: words, scripts, lines that are refused, fresh volumes, what isn't implemented."""
from __future__ import annotations

from typing import Iterator, List, Optional, Sequence, Tuple, Union

from tools.images.volumes import FRESH
from tools.reference.filecore import (BAD_COMMAND, BAD_NAME, EXISTS, INTO_ITSELF, IS_DIRECTORY, LOCKED, NOT_DIRECTORY, NOT_EMPTY,
                                      NOT_FOUND, NOT_NEW_MAP, READ_ONLY, ROOT_REFUSED, SCRIPT_LIMIT)

ZEROS = "00000000 00000000"


class Case:
    """A run: its words, the script, and what has to come. `made`: the new image and the file that it has to equal."""

    def __init__(self, name: str, words: List[str], script: Union[bytes, str], status: int, answer: str = "",
                 made: Optional[Tuple[str, str]] = None, absent: Optional[str] = None) -> None:
        self.name, self.words, self.status, self.answer = name, words, status, answer
        self.script = script if isinstance(script, bytes) else script.encode()
        self.made, self.absent = made, absent

    def image(self) -> Optional[str]:
        """The image, where the words name one alone or with --read-only."""
        rest = [word for word in self.words if word not in ("--read-only", "--")]
        return rest[0] if len(rest) == 1 and not rest[0].startswith("-") else None


def lines_case(name: str, image: str, pairs: List[Tuple[str, str]], words: Sequence[str] = ()) -> Case:
    """Lines with their replies, in one script."""
    pairs = list(pairs)
    status = int(any(reply.startswith("error ") and reply.count("\n") == 1 for line, reply in pairs))
    script = "".join(line + "\n" for line, reply in pairs)
    return Case(name, [*words, image], script, status, "".join(reply for line, reply in pairs))


# ---- lines

WRONG_LINES = [
    "lod $", "LOAD $", "cat", "cat ", " cat $", "cat  $", "cat $ ", "cat $ $", "cat\t$", "cat $\r", "free $", "check all", "load",
    "digest", "\x7f", "caf\u00e9", "save $.A 0 0 -", f"save $.A {ZEROS}", f"save $.A {ZEROS} 123", f"save $.A {ZEROS} 0g",
    f"save $.A {ZEROS} --", f"create $.A {ZEROS} 01", f"create $.A {ZEROS} 4294967296",
    f"create $.A {ZEROS} " + "9" * 5000, f"create $.A {ZEROS} -1",
    f"set $.A {ZEROS} WR", f"set $.A {ZEROS} RR", f"set $.A {ZEROS} r", f"set $.A {ZEROS}", "rename $.A", "delete", "cdir $.A $.B",
    "compact $", "reclaim $", "load x $", "lod x", "Load $", "load $.caf\u00e9", "rename $.A $.B $.C", f"save $.A {ZEROS} - -",
    "save $.A 0000000 00000000 -", "save $.A 00000000 000000000 -", "save $.A +0000000 00000000 -", "save $.A* 0 0 -",
    f"create $.A {ZEROS} 00", f"create $.A {ZEROS} +1", f"create $.A {ZEROS} 1a", f"create $.A {ZEROS} -", f"set $.A {ZEROS} LR",
    "put a $.A 00000000", f"put .a $.A {ZEROS}", f"put a $.A {ZEROS} -",
]
WRONG_PATHS = [
    "Hello", "$Hello", "$.", "$..A", "$.A.", "$.A%", "$.A%2", "$.A%zz", "$.%1F", "$.%00", "$.a:b", "$.a*", "$.&", "@", "$.$",
    "$." + "n" * 256, "$.a|b", '$."', ".A", "A.$", "$.A%", "$.A%G0", "$$",
]


def grammar() -> Iterator[Case]:
    hello = "48656c6c6f\nok\n"
    yield lines_case("wrong-lines", "hello.adf", [(line, BAD_COMMAND) for line in WRONG_LINES])
    yield lines_case("wrong-paths", "hello.adf", [("load " + path, BAD_NAME) for path in WRONG_PATHS])
    yield lines_case("wrong-paths-of-changes", "hello.adf", [
        ("delete $.", BAD_NAME), ("cdir A", BAD_NAME), ("rename $.A B", BAD_NAME), ("rename A $.B", BAD_NAME),
        (f"save $. {ZEROS} -", BAD_NAME), (f"create % {ZEROS} 1", BAD_NAME), (f"set x {ZEROS} RWL", BAD_NAME),
        ("rename $.A $.B*", BAD_NAME), ("rename $.A* $.B", BAD_NAME), (f"save $.A* {ZEROS} -", BAD_NAME),
        (f"create .A {ZEROS} 1", BAD_NAME), (f"set $$ {ZEROS} R", BAD_NAME)])
    yield lines_case("spelled-paths", "hello.adf", [
        ("load $.hello", hello), ("load $.%48%65LLO", hello), ("load $.%48%65%6c%6C%6f", hello), ("load $.%20", NOT_FOUND),
        ("load $." + "n" * 255, NOT_FOUND), ("load $.None.Deeper", NOT_FOUND), ("load $.Hello.X.Y", NOT_DIRECTORY),
        ("cat $.Hello", NOT_DIRECTORY), ("load $", IS_DIRECTORY), ("digest $", IS_DIRECTORY), ("load $.%7F", NOT_FOUND)])
    yield Case("comments", ["hello.adf"], b"\n# a line \xff\r\n\n#compact\nload $.hello\n\n#", 0, hello)
    yield Case("last-line-without-end", ["hello.adf"], "load $.hello", 0, hello)
    yield Case("byte-0", ["hello.adf"], b"free\0\n", 1, BAD_COMMAND)
    yield Case("lines-of-two-ends", ["hello.adf"], b"free\r\n\r\n#\r\n", 1, BAD_COMMAND * 2)
    yield Case("empty-script", ["hello.adf"], "", 0)
    yield lines_case("read-only", "hello.adf", [("load $.hello", hello)], ["--read-only"])
    yield Case("may-not-be-written", ["locked.adf"], "load $.hello\n", 0, hello)


def long_scripts() -> Iterator[Case]:
    yield Case("longest-script", ["hello.adf"], b"\n" * SCRIPT_LIMIT, 0)
    yield Case("long-line", ["hello.adf"], b"load $." + b"n" * 1000000, 1, BAD_NAME)
    yield Case("longest-script-no-image", ["nothing.adf"], b"\n" * SCRIPT_LIMIT, 12)
    yield Case("script-too-long", ["hello.adf"], b"\n" * (SCRIPT_LIMIT + 1), 8)
    yield Case("script-too-long-no-image", ["nothing.adf"], b"compact\n".ljust(SCRIPT_LIMIT + 1, b"\n"), 8)


# ---- commands that keep the tree


def compaction() -> Iterator[Case]:
    """Where nothing is left to do, nothing is written: no image of the table may change."""
    yield Case("compact-settled", ["hello.adf"], "compact\nload $.hello\ncompact", 0, "ok\n48656c6c6f\nok\nok\n")
    yield Case("compact-read-only", ["--read-only", "hello.adf"], "lod\ncompact\n", 1, BAD_COMMAND + READ_ONLY)
    yield Case("compact-read-only-old-map", ["--read-only", "d-files.adf"], "compact\n", 1, READ_ONLY)
    for form in ("F", "D", "L"):
        image = "compacted-%s.adf" % form
        yield Case("compact-fresh-" + form, ["--new", form, image], "compact\nfree\n", 0, "ok\n" + FRESH[form]().free_line() + "ok\n",
                   made=(image, "fresh-%s.adf" % form))


def lost_space() -> Iterator[Case]:
    """Where no lost space can go back, nothing is written: no image of the table may change. What goes back: tools/checks/reclaim.py."""
    nothing = "reclaimed 0\nok\n"
    yield Case("reclaim-nothing", ["hello.adf"], "load $.hello\nreclaim\n", 0, "48656c6c6f\nok\n" + nothing)
    yield Case("reclaim-without-end", ["hello.adf"], "lod\nreclaim", 1, BAD_COMMAND + nothing)
    yield Case("reclaim-held", ["f-map-in-lost-run.adf"], "reclaim\n", 0, nothing)
    yield Case("reclaim-no-image", ["nothing.adf"], "reclaim\n", 12)
    yield Case("reclaim-bad-image", ["zeros.adf"], "reclaim\n", 3, "bad-image NoKind\n")
    yield Case("reclaim-read-only", ["--read-only", "hello.adf"], "reclaim\n", 1, READ_ONLY)
    for image in ("d-files.adf", "l-files.adf"):
        yield Case("reclaim-old-map-" + image[0], [image], "reclaim\ncat $.None\n", 1, NOT_NEW_MAP + NOT_FOUND)
        yield Case("reclaim-read-only-old-map-" + image[0], ["--read-only", image], "reclaim\n", 1, READ_ONLY)
    for form in ("E", "F+"):
        image = "reclaimed-%s.adf" % form
        yield Case("reclaim-fresh-" + form, ["--new", form, image], "reclaim\nfree\n", 0, nothing + FRESH[form]().free_line() + "ok\n",
                   made=(image, "fresh-%s.adf" % form))


def refused_changes() -> Iterator[Case]:
    """Changes that are refused: no image of the table may change. What changes do is compared by tools/checks/changes.py."""
    hello = "48656c6c6f\nok\n"
    yield lines_case("refused-changes", "hello.adf", [
        ("delete $.None", NOT_FOUND), ("delete $.None.Deeper", NOT_FOUND), ("delete $.Hello.X", NOT_DIRECTORY), ("delete $", ROOT_REFUSED),
        (f"set $.None {ZEROS} RWL", NOT_FOUND), (f"set $.Hello.X {ZEROS} -", NOT_DIRECTORY), (f"set $ {ZEROS} L", ROOT_REFUSED),
        (f"save $.None.A {ZEROS} -", NOT_FOUND), (f"create $.Hello.A {ZEROS} 1", NOT_DIRECTORY), (f"save $ {ZEROS} 01", IS_DIRECTORY),
        (f"save $.A%20B {ZEROS} 01", BAD_NAME), (f"create $.ElevenBytes {ZEROS} 0", BAD_NAME), ("cdir $.Hello", EXISTS),
        ("cdir $.None.D", NOT_FOUND), ("rename $.None $.A", NOT_FOUND), ("rename $.Hello $", EXISTS), ("rename $ $.A", ROOT_REFUSED),
        ("rename $.Hello $.A%20B", BAD_NAME), ("load $.hello", hello)])
    yield lines_case("refused-changes-read-only", "hello.adf", [
        ("delete $.None", NOT_FOUND), ("compact", READ_ONLY), ("delete $", ROOT_REFUSED), ("delete $.hello", READ_ONLY),
        (f"set $ {ZEROS} RL", ROOT_REFUSED), (f"set $.Hello FFFFF000 {ZEROS[:8]} WL", READ_ONLY),
        (f"save $.A {ZEROS} 01", READ_ONLY), (f"create $.Hello {ZEROS} 4294967295", READ_ONLY), ("cdir $.D", READ_ONLY),
        ("cdir $.Hello", EXISTS), ("rename $.Hello $.B", READ_ONLY), ("rename $.hello $.HELLO", READ_ONLY)], ["--read-only"])
    for image in ("e-files.adf", "d-files.adf", "l-files.adf", "e-plus-files.adf"):
        yield lines_case("refused-additions-" + image[:-4], image, [
            (f"save $.Lengths.L1 {ZEROS} -", LOCKED), (f"create $.Lengths {ZEROS} 1", IS_DIRECTORY), ("cdir $.lengths", EXISTS)])
    for image in ("e-files.adf", "d-files.adf", "l-files.adf", "e-plus-files.adf"):
        yield lines_case("refused-renames-" + image[:-4], image, [
            ("rename $.Lengths.L1 $.L", LOCKED), ("rename $.Outer $.Outer.Inner.X", INTO_ITSELF), ("rename $.Outer $.Lengths", EXISTS),
            ("rename $ $", ROOT_REFUSED), ("rename $.None $.A", NOT_FOUND)])
    yield lines_case("names-of-an-l-disc", "l-files.adf", [  # they have no byte above 127
        (f"create $.%E9 {ZEROS} 0", BAD_NAME), ("cdir $.Caf%E9", BAD_NAME), ("rename $.Outer $.%FF", BAD_NAME),
        ("rename $ $.A", ROOT_REFUSED)])
    for image in ("d-files.adf", "l-files.adf", "e-plus-files.adf"):
        yield lines_case("refused-changes-read-only-" + image[:-4], image, [
            ("delete $.None", NOT_FOUND), (f"save $.A {ZEROS} 01", READ_ONLY), ("cdir $.A", READ_ONLY),
            (f"set $.Outer {ZEROS} -", READ_ONLY), (f"create $.Outer.Inner {ZEROS} 4294967295", IS_DIRECTORY)], ["--read-only"])
    for image in ("e-files.adf", "e-plus-files.adf", "d-files.adf", "l-files.adf"):
        yield lines_case("locked-and-not-empty-" + image[:-4], image, [
            ("delete $.Lengths.L1", LOCKED), ("delete $.lengths.l100%30", NOT_FOUND), ("delete $.Lengths", NOT_EMPTY),
            ("delete $.Outer.Inner.Innermost", LOCKED), ("delete $.OUTER.INNER", NOT_EMPTY)])
        yield lines_case("locked-and-read-only-" + image[:-4], image, [
            ("delete $.Lengths.L1", LOCKED), ("delete $.Lengths.L1024", READ_ONLY), ("delete $.Lengths", NOT_EMPTY),
            (f"set $.Lengths.L1 {ZEROS} -", READ_ONLY)], ["--read-only"])
    for form in ("E+", "D", "L"):
        yield Case("refused-change-fresh-" + form, ["--new", form, "set-%s.adf" % form], f"set $ {ZEROS} R\ndelete $.A", 1,
                   ROOT_REFUSED + NOT_FOUND, made=("set-%s.adf" % form, "fresh-%s.adf" % form))


# ---- images that can't be changed, and discs that the safe mode doesn't serve: status 10, and no line is run


def unsuited() -> Iterator[Case]:
    yield Case("change-no-image", ["nothing.adf"], "cdir $.A\n", 12)
    yield Case("delete-no-image", ["nothing.adf"], "delete $.A\n", 12)
    yield Case("set-bad-image", ["zeros.adf"], f"set $.A {ZEROS} R\n", 3, "bad-image NoKind\n")
    yield Case("compact-bad-image", ["zeros.adf"], "compact\n", 3, "bad-image NoKind\n")
    for at, words in enumerate((["--safe"], ["--safe", "--demo", "1"])):
        yield Case("option-%d" % at, [*words, "hello.adf"], "load $.hello\n", 10)
        yield Case("option-%d-no-image" % at, ["nothing.adf", *words], "", 12)
    yield Case("new-and-safe", ["--new", "E+", "--safe", "safe.adf"], "free\n", 0, "free 815104 815104\nok\n", made=("safe.adf", "fresh-E+.adf"))
    yield Case("new-and-not-safe", ["--new", "E", "--safe", "not-safe.adf"], "", 10, made=("not-safe.adf", "fresh-E.adf"))


# ---- words

BAD_WORDS = [
    [], [""], ["--help", "hello.adf"], ["-h", "hello.adf"], ["--version"], ["hello.adf", "other.adf"], ["--new"], ["--new", "E"],
    ["--new", "G", "x.adf"], ["--new", "e", "x.adf"], ["--new=", "x.adf"], ["--new", "E", "--new", "E", "x.adf"],
    ["--demo", "0", "hello.adf"], ["--demo", "01", "hello.adf"], ["--demo", "10001", "hello.adf"], ["--demo", "x", "hello.adf"],
    ["--demo", "-1", "hello.adf"], ["--demo=+5", "hello.adf"], ["--new", "--", "x.adf"], ["--new=E=", "x.adf"],
    ["--", "hello.adf", "--"], ["hello.adf", ""], ["--read-only", "--read-only", "hello.adf"], ["--read-only=1", "hello.adf"],
    ["--read", "hello.adf"], ["-r", "hello.adf"], ["--safe", "--safe", "hello.adf"], ["--"],
    ["hello.adf", "--", "x.adf"], ["--", "hello.adf", "x.adf"], ["--", ""], ["hello.adf", "--new"], ["--new", "", "x.adf"],
    ["--new", "-", "x.adf"], ["--new", "-E", "x.adf"], ["--new=-E", "x.adf"], ["--new", "--", "E", "x.adf"],
    ["--new", "--read-only", "x.adf"], ["--new", "EE", "x.adf"], ["--new=E", "--new=F", "x.adf"], ["--read-only=", "hello.adf"],
    ["--read-only=x", "hello.adf"], ["--demo", "007", "hello.adf"], ["--demo", "9" * 20, "hello.adf"], ["--demo", "+7", "hello.adf"],
    ["--demo=-1", "hello.adf"], ["--demo", "7x", "hello.adf"], ["--demo", " 7", "hello.adf"], ["--ne", "E", "x.adf"],
    ["--Safe", "hello.adf"], ["--", "--safe", "hello.adf"], ["---", "hello.adf"], ["--=x", "hello.adf"], ["--=", "hello.adf"],
    ["-x", "hello.adf"], ["-s", "hello.adf"], ["-\u00e9", "hello.adf"], ["--help"], ["--version", "hello.adf"], ["-V", "hello.adf"],
]


def words() -> Iterator[Case]:
    for at, one in enumerate(BAD_WORDS):
        yield Case("words-%d" % at, one, "load $.hello\n", 2)
    found = "48656c6c6f\nok\n"
    yield Case("option-behind", ["hello.adf", "--read-only"], "load $.hello\n", 0, found)
    yield Case("behind-dashes", ["--", "hello.adf"], "load $.hello\n", 0, found)
    yield Case("option-and-dashes", ["--read-only", "--", "hello.adf"], "load $.hello\n", 0, found)
    yield Case("dashes-behind", ["hello.adf", "--"], "load $.hello\n", 0, found)
    yield Case("image-of-dashes", ["--", "--"], "load $.hello\n", 12)
    yield Case("in-a-folder", ["a folder/hello.adf"], "load $.hello\n", 0, found)
    yield Case("another-letter", ["h\u00e9llo.adf"], "load $.hello\n", 0, found)
    yield Case("no-such-folder", ["nowhere/hello.adf"], "load $.hello\n", 12)
    yield Case("no-such-image", ["nothing.adf"], "load $.hello\n", 12)
    yield Case("image-of-a-dash", ["-"], "load $.hello\n", 12)
    yield Case("option-behind-dashes", ["--", "--safe"], "load $.hello\n", 12)
    for at, image in enumerate((["--", "--new"], ["--", "-x"], ["help"], ["a=b"], ["a=b", "--read-only"])):
        yield Case("no-such-image-%d" % at, image, "load $.hello\n", 12)
    yield Case("new-behind-dashes", ["--new", "D", "--", "nowhere/-x"], "free\n", 4)
    for at, (status, all_options) in enumerate((
            (10, ["--safe", "a folder/hello.adf", "--demo", "10000", "--read-only"]), (12, ["--safe", "--", "--"]), (10, ["--demo=1", "--safe", "hello.adf"]))):
        yield Case("options-%d" % at, all_options, "load $.hello\n", status)


# ---- fresh volumes


def fresh() -> Iterator[Case]:
    for form, make in FRESH.items():
        volume = make()
        reference = "fresh-%s.adf" % form
        script = "free\ncheck\ncat $\nload $\ncat $.None\n"
        answer = volume.free_line() + "ok\n" + volume.check_line() + "ok\nok\n" + IS_DIRECTORY + NOT_FOUND
        made = "new-%s.adf" % form
        yield Case("new-" + form, ["--new", form, made], script, 1, answer, made=(made, reference))
        yield Case("again-" + form, [made], "free\n", 0, volume.free_line() + "ok\n")
        yield Case("there-already-" + form, ["--new", form, made], "free\n", 12, made=(made, reference))
        made = "silent-%s.adf" % form
        yield Case("new-silent-" + form, ["--read-only", made, "--new=" + form], "", 0, made=(made, reference))
    yield Case("new-script-too-long", ["--new", "E", "unmade.adf"], b"\n" * (SCRIPT_LIMIT + 1), 8, absent="unmade.adf")


def all_cases() -> Iterator[Case]:
    for group in (grammar, long_scripts, compaction, lost_space, refused_changes, unsuited, words, fresh):
        yield from group()
