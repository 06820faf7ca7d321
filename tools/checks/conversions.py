# SPDX-License-Identifier: MIT
"""Discs of every kind converted to every format by the built program: its line and status, and what each target holds.

What it has to write follows from the source alone (tools/reference/conversion.py). Whatever comes, the source keeps its bytes, and
nothing but the target is made. This suite is run by tools/checks/run.py; what fails beside it is in failing_conversions.py.
"""
from __future__ import annotations

import os
import shutil
import subprocess
import tempfile
from typing import Callable, Dict, Iterable, Iterator, List, Optional, Sequence, Tuple, Union

from tools.checks.selection import Suite
from tools.files import MEMORY, read
from tools.images import drawn_discs, sources
from tools.images.sources import Source
from tools.images.volumes import FRESH
from tools.reference.change_state import State
from tools.reference.conversion import FORMATS, Answer, differences, objects_of

SECONDS = 120
NOBODY = 65534
Word = Union[str, bytes]
Made = Callable[[], Iterable[Source]]


class Converter:
    """The built program in a folder of its own, in memory: each conversion syncs as often as it changes the target."""

    def __init__(self, program: str, folder: str) -> None:
        self.folder = os.path.join(folder, "discs")
        os.mkdir(self.folder)
        self.program = os.path.join(folder, "fconvert")  # where nobody may run it too
        if os.path.exists(program):  # a listing of the cases needs none
            shutil.copy(program, self.program)
        os.chmod(folder, 0o755)

    def path(self, name: Word) -> str:
        return os.path.join(self.folder, os.fsdecode(name))

    def write(self, name: str, data: bytes) -> None:
        with open(self.path(name), "wb") as file:
            file.write(data)

    def content(self) -> Dict[str, bytes]:
        """What stands in the folder: the bytes of each file."""
        return {name: read(self.path(name)) if os.path.isfile(self.path(name)) else b"" for name in os.listdir(self.folder)}

    def run(self, words: Sequence[Word], is_nobody: bool = False) -> Answer:
        def begin() -> None:
            os.setgroups([])
            os.setgid(NOBODY)
            os.setuid(NOBODY)

        ran = subprocess.run([self.program, *words], cwd=self.folder, stdin=subprocess.DEVNULL, stdout=subprocess.PIPE, stderr=subprocess.STDOUT,
                             timeout=SECONDS, check=False, preexec_fn=begin if is_nobody else None)
        return ran.returncode, ran.stdout.decode("latin-1")

    def converted(self, data: bytes, form: str) -> Tuple[Answer, Optional[bytes]]:
        """The answer and the target, of a folder that has the source alone."""
        for name in os.listdir(self.folder):
            os.unlink(self.path(name))
        self.write("from", data)
        answer = self.run([form, "from", "to"])
        return answer, read(self.path("to")) if os.path.exists(self.path("to")) else None


def wrong_of(converter: Converter, name: str, data: bytes, forms: Iterable[str]) -> Iterator[str]:
    """A disc converted to these formats: what isn't as it has to be."""
    objects = objects_of(State(data))
    for form in forms:
        answer, target = converter.converted(data, form)
        yield from ("%s to %s: %s" % (name, form, line) for line in differences(objects, form, answer, target))
        if read(converter.path("from")) != data:
            yield "%s to %s: the source has changed" % (name, form)
        if not set(os.listdir(converter.folder)) <= {"from", "to"}:
            yield "%s to %s: it made %s" % (name, form, os.listdir(converter.folder))
        if name == "fresh " + form and target != data:
            yield "%s: the target isn't such a disc" % name


# ---- the tables


def crowds() -> Iterator[Source]:
    """Discs whose files take about the room of a format."""
    for number in range(16):
        yield "crowd %d" % number, sources.crowded(number), FORMATS


def drawn() -> Iterator[Source]:
    for number in range(24):
        yield "misfits %d" % number, sources.drawn_misfits(number), FORMATS


def large() -> Iterator[Source]:
    yield "a file that no format holds", sources.large(1 << 22), FORMATS


TABLES: Dict[str, Made] = {"all-pairs": sources.plain, "names": sources.names, "attributes": sources.attributes, "entries": sources.entries,
                           "which-is-first": drawn, "room": crowds, "large": large}


def first_row(converter: Converter) -> Iterator[str]:
    """An empty disc, and a name that is too long."""
    answer, target = converter.converted(bytes(FRESH["E"]().image()), "D")
    if answer != (0, "converted files 0 dirs 1\n") or target != bytes(FRESH["D"]().image()):
        yield "a fresh E disc to D: %s" % (answer,)
    notes = FRESH["E+"]()
    notes.root.insert(notes.file(b"Notes_of_the_second_year", b"AB"))
    answer, target = converter.converted(bytes(notes.image()), "E")
    if answer != (1, "unfit Name $.Notes_of_the_second_year\n") or target is not None:
        yield "a long name to E: %s" % (answer,)


def second_row(converter: Converter) -> Iterator[str]:
    """A file that an L disc has no room for, with attributes that no command of a script sets."""
    big = FRESH["E"]()
    big.root.insert(big.file(b"Big", bytes(700000), attributes=51))
    answer, target = converter.converted(bytes(big.image()), "L")
    if answer != (8, "no-room 14 DiscFull $.Big\n") or target != bytes(FRESH["L"]().image()):
        yield "700,000 bytes to L: %s" % (answer,)
    answer, target = converter.converted(bytes(big.image()), "F+")
    if answer != (0, "converted files 1 dirs 1\n") or not target or objects_of(State(target))[(b"BIG",)] != (b"Big", 51, 0, 0, bytes(700000)):
        yield "700,000 bytes to F+: %s" % (answer,)


# ---- words, and files of the host

BAD_WORDS, NO_SOURCE, NO_TARGET = (2, ""), (9, ""), (10, "")
FROM_FAULT, TO_FAULT, DONE = (4, ""), (5, ""), (0, "converted files 0 dirs 1\n")
WORDS: List[Tuple[List[Word], Answer]] = [
    ([], BAD_WORDS), (["D", "e"], BAD_WORDS), (["D", "e", "x", "y"], BAD_WORDS), (["G", "e", "x"], BAD_WORDS), (["e", "e", "x"], BAD_WORDS),
    (["D", "", "x"], BAD_WORDS), (["D", "e", ""], BAD_WORDS), (["--help"], BAD_WORDS), ([b"D", b"\xff", b"x"], BAD_WORDS),
    ([b"D", b"e", b"x\xff"], BAD_WORDS),
    (["D", "none", "x"], NO_SOURCE), (["D", "none/e", "x"], NO_SOURCE), (["D", "e/e", "x"], NO_SOURCE), (["D", "n" * 300, "x"], NO_SOURCE),
    (["D", "gone", "x"], NO_SOURCE),
    (["D", "folder", "x"], FROM_FAULT), (["E", "nothing", "x"], (3, "bad-image NoKind\n")), (["E", "/dev/null", "x"], (3, "bad-image NoKind\n")),
    (["E", "short", "x"], (3, "bad-image Short 1638400 1000000\n")), (["E", "pipe", "x"], (3, "bad-image NoKind\n")),
    (["D", "e", "e"], NO_TARGET), (["D", "e", "short"], NO_TARGET), (["D", "e", "folder"], NO_TARGET), (["D", "e", "link"], NO_TARGET),
    (["D", "e", "twin"], NO_TARGET), (["D", "link", "e"], NO_TARGET), (["D", "e", "gone"], NO_TARGET), (["D", "e", "pipe"], NO_TARGET),
    (["D", "e", "none/x"], TO_FAULT), (["D", "e", "e/x"], TO_FAULT), (["D", "e", "n" * 300], TO_FAULT), (["E", "none", "e"], NO_SOURCE),
    (["D", "short", "e"], (3, "bad-image Short 1638400 1000000\n")),
    (["D", "e", "x"], DONE), (["D", "link", "folder/x"], DONE), (["L", "twin", "./x"], DONE), (["D", "e", "D"], DONE),
]


def prepared(converter: Converter) -> None:
    """Discs, and other things that a name can be of."""
    shutil.rmtree(converter.folder)
    os.mkdir(converter.folder)
    converter.write("e", bytes(FRESH["E"]().image()))
    converter.write("short", bytes(FRESH["F"]().image()[:1000000]))
    converter.write("nothing", b"")
    os.mkdir(converter.path("folder"))
    os.link(converter.path("e"), converter.path("twin"))
    os.symlink("e", converter.path("link"))
    os.symlink("nowhere", converter.path("gone"))
    os.mkfifo(converter.path("pipe"))


def words_differences(converter: Converter) -> Iterator[str]:
    """Each row of words: the answer, and that the files keep their bytes."""
    for words, wanted in WORDS:
        prepared(converter)
        before = converter.content()
        answer = converter.run(words)
        after = converter.content()
        made = os.path.exists(converter.path(words[2])) and words[2] not in before if len(words) == 3 and words[2] else False
        if answer != wanted or made != (wanted == DONE):
            yield "%s: %s, and not %s; the target is %s" % (words, answer, wanted, "there" if made else "absent")
        if any(after.get(name) != data for name, data in before.items()):
            yield "%s: a file was changed" % words


def rights_differences(converter: Converter) -> Iterator[str]:
    """What nobody may read or write."""
    prepared(converter)
    os.chmod(converter.path("short"), 0o600)
    shutil.copy(converter.path("e"), converter.path("secret"))
    os.chmod(converter.path("secret"), 0)
    os.chmod(converter.path("e"), 0o444)
    for mode, words, wanted in ((0o777, ["D", "secret", "x"], FROM_FAULT), (0o777, ["D", "e", "short"], NO_TARGET), (0o555, ["D", "e", "x"], TO_FAULT),
                                (0o777, ["D", "e", "x"], DONE)):
        os.chmod(converter.folder, mode)
        answer = converter.run(words, is_nobody=True)
        if answer != wanted or os.path.exists(converter.path("x")) != (wanted == DONE):
            yield "%s as nobody, in a folder of mode %o: %s, and not %s" % (words, mode, answer, wanted)


# ---- all


def conversions(suite: Suite, converter: str) -> None:
    with tempfile.TemporaryDirectory(dir=MEMORY) as folder:
        program = Converter(converter, folder)
        parts: Dict[str, Callable[[Converter], Iterator[str]]] = {"row-1": first_row, "row-2": second_row, "words": words_differences}
        for case, part in parts.items():
            if suite.wants(case):
                suite.note(case, list(part(program)))
        if suite.wants("rights"):
            if os.geteuid():
                suite.leave_out("rights", "since this isn't root, who can become nobody")
            else:
                suite.note("rights", list(rights_differences(program)))
        prepared(program)
        shutil.rmtree(program.path("folder"))
        for case, made in TABLES.items():
            if suite.wants(case):
                suite.note(case, [line for name, disc, forms in made() for line in wrong_of(program, name, bytes(disc.image()), forms)][:40])


def over_drawn_discs(suite: Suite, converter: str) -> None:
    """The discs on which commands are tried, each to a format in turn: fragments, shared and lost space, torn copies, odd heads."""
    with tempfile.TemporaryDirectory(dir=MEMORY) as folder:
        program = Converter(converter, folder)
        for is_old, recipes in ((False, drawn_discs.NEW), (True, drawn_discs.OLD)):
            for number in range(2 * len(recipes)):
                case = "%s-%d" % ("old" if is_old else "new", number)
                if suite.wants(case):
                    name, image = drawn_discs.image_of(number, is_old)
                    suite.note(case, list(wrong_of(program, "drawn " + name, image, (FORMATS[number % 6], FORMATS[(number + 1 + number // 6) % 6]))))
