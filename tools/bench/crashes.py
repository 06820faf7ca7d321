#!/usr/bin/env python3
# SPDX-License-Identifier: MIT
"""Counts what crashes inside each command that changes a disc leave, on each kind of disc: a killed process, and lost power.

usage: tools/run bench/crashes PROGRAM [DISCS [FIRST]]    10 discs of each kind, from number 0 on, if nothing else is given
       tools/run bench/crashes --self-test                records made by hand, of which it is known what crashes leave

What the program writes and when it syncs is recorded (checks/outside.c), for one line a run (crash_lines.py). A moment comes after each
sector that is written; of a long record MOMENTS are taken, by chance. A process that is killed leaves all that was written so far:
whole calls, or the first sectors of the last one, which are counted apart. Lost power leaves each sector that was written since the last
sync as it was at some moment since then, whatever the others are: POWER such images are drawn at each moment. Each image is read by
tools/reference/read_image.py, and its tree compared with those before and after the line, by tools/reference/change_answer.py:

    old tree      all is as before the line
    new tree      all is as after it
    both names    what the line renames is there under both names, each whole, and all else is as it was
    lost space    one of these trees; but space is lost, or a directory's parent field is wrong
    not accepted  the disc doesn't open; the faults are counted
    wrong         it opens with another tree: other names, words or bytes of any object

compact and reclaim leave the tree: what they leave counts as the old one. After the tables come the rows of README's table. The status is 1
if anything is wrong on a disc of SOUND, or a record isn't what it has to be.
"""
from __future__ import annotations

import collections
import os
import random
import subprocess
import sys
import tempfile
from typing import Counter, Dict, FrozenSet, Iterator, List, NamedTuple, Optional, Set, Tuple

from tools.bench.crash_lines import COMMANDS, KINDS, SETTLED, runs_of
from tools.checks.crash import Steps, steps_of
from tools.files import built_shim, read
from tools.images.volumes import FRESH_NEW, AnyVolume, OldVolume
from tools.reference import changer
from tools.reference.change_answer import Command, tree_after
from tools.reference.change_state import State
from tools.reference.read_image import Disc, Entry, Fault

Tree = Dict[Tuple[bytes, ...], Tuple[int, int, int, Optional[bytes]]]  # by path: attributes, words, and the bytes of a file
Sectors = Dict[int, bytes]  # by their numbers
Judgement = Tuple[str, str]  # an outcome, and a word on it
MOMENTS, POWER, DISCS = 30, 4, 10
OLD, NEW, BOTH, LOST, SHUT, WRONG = OUTCOMES = ("old tree", "new tree", "both names", "lost space", "not accepted", "wrong")
BETWEEN, INSIDE, PULLED = MODES = ("killed between two writes", "killed inside a write", "power lost")
SOUND = ("E", "F", "E+", "F+")
MOST_SECONDS = 300


class Broken(Exception):
    """What is wrong with a record."""


# ---- what an image holds


def tree_of(disc: Disc) -> Tree:
    found: Tree = {(): (disc.root.attributes, disc.root.load, disc.root.execution, None)}
    for directory in disc.directories:
        for entry in directory.entries:
            content = None if entry.is_directory() else disc.content(entry)
            found[tuple(entry.path)] = (entry.attributes, entry.load, entry.execution, content)
    return found


def tree_then(state: State, command: Command) -> Tree:
    """The tree after a command, which isn't refused."""
    return {path: (*node[:3], state.content(node[3]) if isinstance(node[3], Entry) else node[3])
            for path, node in tree_after(state, command).items()}


class Judge:
    """Says what each image is that a crash inside a line leaves."""

    def __init__(self, state: State, line: bytes) -> None:
        command = Command(line)
        self.state, self.image, self.lost = state, state.data, state.disc.counts()[2]
        self.old = tree_of(state.disc)
        self.new = self.old if command.word in SETTLED else tree_then(state, command)
        self.right = {OLD: self.old, NEW: self.new, BOTH: {**self.old, **self.new}}
        self.known: Dict[Tuple[int, FrozenSet[Tuple[int, bytes]]], Judgement] = {}

    def outcome(self, moment: Moment, left: Sectors) -> Judgement:
        """What the image is if these sectors are left of those that aren't synced. What is equal since a sync is read once."""
        key = moment.syncs, frozenset(left.items())
        if key not in self.known:
            moment.put(left)
            self.known[key] = self.judged(moment.image)
            moment.put(moment.last())
        return self.known[key]

    def judged(self, image: bytearray) -> Judgement:
        try:
            disc = Disc(image)
        except Fault as fault:
            return SHUT, " ".join(word for word in fault.args if isinstance(word, str) and not word.startswith("$"))
        tree = tree_of(disc)
        found = next((outcome for outcome in (OLD, NEW, BOTH) if tree == self.right[outcome]), WRONG)
        lost, parents = (disc.counts()[at] for at in (2, 6))
        if found == WRONG:
            return WRONG, "the line's object" if self.spares_others(tree) else "another object"
        if parents or lost > self.lost:
            return LOST, "%s, %s" % (found, "a parent field" if parents else "space")
        return found, ""

    def spares_others(self, tree: Tree) -> bool:
        """Whether all that the line leaves as it is stands in the tree, with no names but those of the old tree and the new one."""
        kept = [path for path in self.old if self.new.get(path) == self.old[path]]
        return set(tree) <= set(self.right[BOTH]) and all(tree.get(path) == self.old[path] for path in kept)


# ---- moments


class Moment(NamedTuple):
    """After a sector was written: whether it ends its call, the syncs before it, the image with all that is written, and what sectors had
    since the last sync."""

    is_between: bool
    syncs: int
    image: bytearray
    versions: Dict[int, List[bytes]]

    def put(self, left: Sectors) -> None:
        for at, content in left.items():
            self.image[at * len(content):(at + 1) * len(content)] = content

    def last(self) -> Sectors:
        return {at: held[-1] for at, held in self.versions.items()}

    def drawn(self, chance: random.Random) -> Sectors:
        """What lost power leaves."""
        return {at: chance.choice(held) for at, held in self.versions.items()}


def in_sectors(place: int, content: bytes, size: int) -> List[Tuple[int, bytes]]:
    if place % size or len(content) % size:
        raise Broken("a write of %d bytes at %d isn't of whole sectors" % (len(content), place))
    return [((place + at) // size, content[at:at + size]) for at in range(0, len(content), size)]


def moments(before: bytes, steps: Steps, size: int) -> Iterator[Moment]:
    """All moments of a record. What one has changes with the next."""
    image, syncs = bytearray(before), 0
    versions: Dict[int, List[bytes]] = {}
    for step in steps:
        sectors = in_sectors(*step, size) if step else []
        for number, (at, content) in enumerate(sectors, 1):
            versions.setdefault(at, [bytes(image[at * size:at * size + size])]).append(content)
            image[at * size:at * size + size] = content
            yield Moment(number == len(sectors), syncs, image, versions)
        if step is None:
            syncs += 1
            versions.clear()


Counts = Counter[Tuple[str, str, str, str]]  # by kind of disc, command, mode and outcome, or outcome and word


def count(judge: Judge, steps: Steps, chance: random.Random, counts: Counts, kind: str, command: str) -> None:
    """Adds what crashes at each moment leave, or at MOMENTS of them."""
    size = judge.state.sector
    whole = sum(len(step[1]) // size for step in steps if step)
    chosen: Set[int] = set(chance.sample(range(whole), min(whole, MOMENTS)))
    for number, moment in enumerate(moments(judge.image, steps, size)):
        if number in chosen:
            images = [(BETWEEN if moment.is_between else INSIDE, moment.last())]
            images += [(PULLED, moment.drawn(chance)) for _ in range(POWER)]
            for mode, left in images:
                outcome, word = judge.outcome(moment, left)
                counts[kind, command, mode, outcome] += 1
                if word:
                    counts[kind, command, mode, "%s: %s" % (outcome, word)] += 1


# ---- the program


class Recorder:
    """The program, with the object between it and the system that records what it writes."""

    def __init__(self, program: str, folder: str) -> None:
        self.program, self.shim = os.path.realpath(program), built_shim(folder)
        self.disc, self.record = (os.path.join(folder, name) for name in ("disc", "record"))

    def steps(self, image: bytes, line: bytes) -> Tuple[Steps, bytes]:
        """The record of a line over an image, and the image afterwards."""
        for name, content in ((self.disc, image), (self.record, b"")):
            with open(name, "wb") as file:
                file.write(content)
        ran = subprocess.run([self.program, self.disc], input=line + b"\n", stdout=subprocess.PIPE, check=False, timeout=MOST_SECONDS,
                             env={"LD_PRELOAD": self.shim, "OUTSIDE_RECORD": self.record})
        if ran.returncode or not ran.stdout.endswith(b"ok\n"):
            raise Broken("status %d, reply %r" % (ran.returncode, ran.stdout[:80]))
        return steps_of(read(self.record)), read(self.disc)


def look(judge: Judge, steps: Steps, end: bytes) -> None:
    """Sees that the record is all that was written, that it was synced, and that the new tree came of it."""
    image = bytearray(judge.image)
    for place, content in filter(None, steps):
        image[place:place + len(content)] = content
    if image != end:
        raise Broken("the record isn't all that was written")
    if steps and steps[-1] is not None:
        raise Broken("the last call is no sync")
    if tree_of(Disc(end)) != judge.new:
        raise Broken("the tree at the end isn't the new one")


def run(program: str, discs: int = DISCS, first: int = 0) -> bool:
    counts: Counts = collections.Counter()
    broken: List[str] = []
    lines = 0
    with tempfile.TemporaryDirectory() as folder:
        recorder = Recorder(program, folder)
        for kind, number in ((kind, number) for kind in KINDS for number in range(first, first + discs)):
            for command, state, line in runs_of(kind, number):
                judge, lines = Judge(state, line), lines + 1
                try:
                    steps, end = recorder.steps(state.data, line)
                    look(judge, steps, end)
                    count(judge, steps, random.Random("%s %d %s" % (kind, number, command)), counts, kind, command)
                except (Broken, Fault) as found:
                    broken.append("%s, disc %d, %s: %s" % (kind, number, line.decode()[:200], found))
    return report(counts, lines, broken)


# ---- tables


def parts(counts: Counts, mode: str, places: List[Tuple[str, str]]) -> List[int]:
    """The images of some kinds and commands in a mode, by their outcomes."""
    return [sum(counts[(*place, mode, outcome)] for place in places) for outcome in OUTCOMES]


def told(counts: Counts, mode: str, places: List[Tuple[str, str]]) -> List[str]:
    """The images, and of each outcome how many, and how many in a hundred."""
    found = parts(counts, mode, places)
    whole = sum(found)
    return [str(whole), *("%d (%.1f)" % (part, 100 * part / whole) if part else "0" for part in found)] if whole else []


def changing(kind: str) -> List[Tuple[str, str]]:
    return [(kind, command) for command in COMMANDS if command not in SETTLED]


def tables(counts: Counts) -> Iterator[str]:
    """For each mode a row for each command on each kind of disc, one for each command on all, and one for each kind over the commands
    that change the tree."""
    rows = [(kind, command, [(kind, command)]) for kind in KINDS for command in COMMANDS]
    rows += [("all", command, [(kind, command) for kind in KINDS]) for command in COMMANDS]
    rows += [(kind, "all but " + " and ".join(SETTLED), changing(kind)) for kind in KINDS]
    for mode in MODES:
        yield "%s: images, and how many in a hundred of them\ndisc | command | images | %s" % (mode, " | ".join(OUTCOMES))
        for kind, name, places in rows:
            found = told(counts, mode, places)
            if found:
                yield " | ".join([kind, name, *found])


def page_rows(counts: Counts) -> Iterator[str]:
    """The rows of README's table: how many in a hundred after a kill between two writes, and after lost power."""
    for kind in KINDS:
        killed, pulled = ([100 * part / max(1, sum(found)) for part in found]
                          for found in (parts(counts, mode, changing(kind)) for mode in (BETWEEN, PULLED)))
        cells = [(old + new, lost, both, shut, wrong) for old, new, both, lost, shut, wrong in (killed, pulled)]
        yield "| %s | %s |" % (kind, " | ".join("%s, %s" % (rounded(one), rounded(other)) for one, other in zip(*cells)))


def rounded(value: float) -> str:
    return "%.1f" % value if 0 < value < 9.95 else "%.0f" % value


def words(counts: Counts) -> Iterator[str]:
    """What the images have that are neither the old tree nor the new one."""
    for kind in KINDS:
        for mode in MODES:
            found: Counter[str] = collections.Counter()
            for (one, command, other, outcome), number in counts.items():
                if ":" in outcome and (one, other) == (kind, mode):
                    found[outcome] += number
            if found:
                yield "%s, %s: %s" % (kind, mode, "; ".join("%s %d" % item for item in sorted(found.items())))


def report(counts: Counts, lines: int, broken: List[str]) -> bool:
    places = [(kind, command) for kind in KINDS for command in COMMANDS]
    wrong = sum(counts[kind, command, mode, WRONG] for kind, command in places if kind in SOUND for mode in MODES)
    images = sum(counts[(*place, mode, outcome)] for place in places for mode in MODES for outcome in OUTCOMES)
    print("\n".join([*tables(counts), *words(counts), *page_rows(counts), *broken]))
    for mode in MODES:
        print("%s, all discs: %s" % (mode, ", ".join("%s %s" % pair for pair in zip(("images",) + OUTCOMES, told(counts, mode, places)))))
    print("%d lines, %d images; on discs %s %d are wrong; %d records broken" % (lines, images, ", ".join(SOUND), wrong, len(broken)))
    return not wrong and not broken


# ---- the self-test


class ByHand:
    """A line over a disc with 25 files and a directory in its root, and writes that it may make."""

    def __init__(self, volume: AnyVolume, line: bytes) -> None:
        for number in range(25):
            volume.root.insert(volume.file(b"F%02d" % number, bytes([number]) * 300 if number else b""))
        volume.root.insert(volume.directory(volume.root, b"Other"))
        if isinstance(volume, OldVolume):
            volume.rest_is_hole()
        self.judge = Judge(State(bytes(volume.image())), line)
        self.after = changer.changed(self.judge.state, Command(line), None, random.Random(0))[1]

    def write(self, first: int, size: int = 1, is_right: bool = True) -> Tuple[int, bytes]:
        """So many sectors as they have to be afterwards, or other bytes."""
        sector = self.judge.state.sector
        content = self.after[first * sector:(first + size) * sector]
        return first * sector, content if is_right else bytes(byte ^ 1 for byte in content)

    def first_sector(self, name: bytes) -> int:
        return self.judge.state.objects[name,].sectors[0]

    def counts(self, steps: Steps, seed: int) -> Dict[str, Dict[str, int]]:
        """By mode how often each outcome comes, with its word."""
        found: Counts = collections.Counter()
        count(self.judge, steps, random.Random(seed), found, "", "")
        return {mode: {outcome: number for (kind, command, one, outcome), number in found.items()
                       if one == mode and (":" in outcome or outcome not in (LOST, SHUT, WRONG))} for mode in MODES}


class Known(NamedTuple):
    """A record, how often each outcome comes if the process is killed between two writes and inside one, and what lost power may leave."""

    name: str
    disc: ByHand
    steps: Steps
    between: Dict[str, int]
    inside: Dict[str, int]
    pulled: Set[str]


TORN, TWICE, PLACE, HOLE, TWIN = (SHUT + ": " + word for word in ("Directory Sequence", "Overlap", "Place", "Hole", "Directory Twin"))
SPACE, ANOTHER = LOST + ": new tree, space", WRONG + ": another object"


def deletions() -> Iterator[Known]:
    """On an E disc, with the map's copies in sectors 0 and 1 and the root in 2 and 3. On an L disc, with the map in 0 and 1 and the root
    in 2 to 6, of which 2, 3 and 4 have entries."""
    disc = ByHand(FRESH_NEW["E"](), b"delete $.F12")
    root, one, two = disc.write(2, 2), disc.write(0), disc.write(1)
    yield Known("in order", disc, [root, None, one, None, two, None], {SPACE: 1, NEW: 2}, {TORN: 1}, {OLD, TORN, SPACE, NEW})
    yield Known("the map first", disc, [one, None, two, None, root, None], {PLACE: 2, NEW: 1}, {TORN: 1}, {OLD, TORN, PLACE, NEW})
    yield Known("without a sync", disc, [root, one, two, None], {SPACE: 1, NEW: 2}, {TORN: 1}, {OLD, TORN, PLACE, SPACE, NEW})
    other = disc.first_sector(b"F20")
    yield Known("another file", disc, [disc.write(other, 1, False), disc.write(other), None], {ANOTHER: 1, OLD: 1}, {}, {OLD, ANOTHER})
    disc = ByHand(OldVolume("L", 2560), b"delete $.F12")
    parts: Steps = [disc.write(at) for at in (2, 6, 4, 3, 5)]
    yield Known("no check of directories", disc, [*parts, None, disc.write(0, 2), None], {TORN: 1, OLD: 1, ANOTHER: 1, SPACE: 2, NEW: 1},
                {TWICE: 1}, {OLD, TORN, ANOTHER, TWIN, SPACE, TWICE, HOLE, NEW})


def moves() -> Iterator[Known]:
    """To another directory: of a file with bytes, and of one without."""
    for name, between in ((b"F12", TWICE), (b"F00", BOTH)):
        disc = ByHand(FRESH_NEW["E"](), b"rename $.%s $.Other.%s" % (name, name))
        steps = [disc.write(disc.first_sector(b"OTHER"), 2), None, disc.write(2, 2), None]
        yield Known("%s is moved" % name.decode(), disc, steps, {between: 1, NEW: 1}, {TORN: 2}, {OLD, TORN, between, NEW})


def self_test() -> bool:
    failures = []
    for known in (*deletions(), *moves()):
        found = known.disc.counts(known.steps, 0)
        pulled = {outcome for seed in range(40) for outcome in known.disc.counts(known.steps, seed)[PULLED]}
        print("%s: %s; %s" % (known.name, found[BETWEEN], ", ".join(sorted(pulled))))
        if (found[BETWEEN], found[INSIDE]) != (known.between, known.inside):
            failures.append("%s: a killed process leaves %s and %s" % (known.name, found[BETWEEN], found[INSIDE]))
        if pulled != known.pulled:
            failures.append("%s: lost power leaves other images" % known.name)
    print("\n".join([*failures, "%d failed" % len(failures)]))
    return not failures


def main(given: List[str]) -> bool:
    if given == ["--self-test"]:
        return self_test()
    if len(given) not in (1, 2, 3):
        sys.exit(__doc__)
    return run(given[0], *(int(word) for word in given[1:]))


if __name__ == "__main__":
    sys.exit(0 if main(sys.argv[1:]) else 1)
