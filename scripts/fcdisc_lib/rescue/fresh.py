# SPDX-License-Identifier: MIT
"""The sound files of a disc that was read, straight onto a fresh disc."""
from __future__ import annotations

from argparse import Namespace
from typing import Iterator, List

from ..adding import SETTABLE, loses_access
from ..changes import tell_lost_access
from ..contents import Content, held
from ..editing import NOT_COPIED, Failure, Step, given_files, save_step, set_line, step_scripts, tell_failures
from ..fresh import fresh_disc
from ..hostfiles import NEW_FILE
from ..images import pieces_from
from ..jobs import write_new
from ..messages import FAILED, WRONG_WORDS, Progress, Trouble, counted, say, shown
from ..output import refuse_if_taken
from ..program import Entry, Refused, Run, command, find_program
from .discs import FORMATS
from .reading import Reading, pieces_of
from .report import summary
from .writing import sound_tree


class Filling:
    """The steps that make the sound objects on a fresh disc, with the bytes that were found; and what came of them."""

    def __init__(self, program: str, reading: Reading, image: str, name: str):
        self.program, self.name, self.reading = program, name, reading
        self.tree = sound_tree(reading, image)
        self.files = self.tree.files()
        self.failures: List[Failure] = []
        self.lost_access = 0

    def run(self, number: int) -> None:
        """Fills the fresh disc that is the open file of that number."""
        for script, batch in step_scripts(self.steps()):
            with given_files(batch) as given, Run(self.program, self.name, ["--", "/dev/fd/%d" % number], script, [number], given) as run:
                for step in batch:
                    try:
                        list(run.lines())
                    except Refused as refused:
                        self.failures.append(Failure(step, refused.name))

    def steps(self) -> Iterator[Step]:
        contents = self.contents()
        for entry in self.tree.walk():
            if entry.is_directory:
                yield Step(command("cdir", entry.path), entry.path, NOT_COPIED)
            else:
                yield save_step(entry.path, entry.load, entry.execution, next(contents), NOT_COPIED)
            yield from self.set_steps(entry)

    def set_steps(self, entry: Entry) -> Iterator[Step]:
        """What `cdir` and `save` don't give."""
        usual = (0, 0, 0) if entry.is_directory else (entry.load, entry.execution, NEW_FILE)
        if (entry.load, entry.execution, entry.attributes & SETTABLE) != usual:
            yield Step(set_line(entry.path, entry.load, entry.execution, entry.attributes), entry.path, "access not set")
        self.lost_access += loses_access(entry.attributes)

    def contents(self) -> Iterator[Content]:
        """The bytes of each file, in the tree's order."""
        found = {one.path: one for one in self.reading.files}
        progress = Progress("bytes copied", sum(entry.length for entry in self.files))
        for entry in self.files:
            yield held(progress.passed(pieces_of(self.reading.source, found[entry.path])), entry.length)[0]


def put_onto_fresh(reading: Reading, words: Namespace) -> int:
    form, new = words.to[0].upper(), words.to[1]
    if form not in FORMATS:
        raise Trouble("--to takes one of %s, and the file to make" % ", ".join(FORMATS), WRONG_WORDS)
    refuse_if_taken(new)
    program = find_program()
    filling = Filling(program, reading, words.image, new)
    with fresh_disc(program, new, form) as file:
        filling.run(file.fileno())
        write_new(new, pieces_from(file, 0))
    tell_failures(new, filling.failures)
    tell_lost_access(new, filling.lost_access)
    refused = {failure.step.path for failure in filling.failures if failure.step.failure == NOT_COPIED}
    copied = sum(entry.path not in refused for entry in filling.files)
    say("%s; %s put onto %s" % (summary(reading), counted(copied, "file"), shown(new)))
    whole = copied == len(reading.files) and not (filling.failures or filling.lost_access)
    return 0 if whole else FAILED
