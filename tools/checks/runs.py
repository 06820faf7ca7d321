#!/usr/bin/env python3
# SPDX-License-Identifier: MIT
"""Runs random scripts over discs of all kinds with the built program, and some of them again with each call of the system failing.

usage: tools/run checks/runs [--program PATH] [--seed N] [--scripts N] [--failing N] [--each N] [--commands N] [--whole]
                           [--part K/N]
       tools/run checks/runs --self-test    what failing runs leave is made up, right and wrong

Scripts are drawn and compared as by tools/checks/changes.py: each reply, status and image. --failing of them, spread over the kinds
of discs, then run with each call for the image (open, read, write, half a write, sync), each read of the script and each write of
the output failing in turn (--each at most of a kind, spread evenly; allocations too, of which some are tried). The status has to be
that of README.md, the text the replies of the lines that were done, and the image as these lines left it, but after an I/O error of
the image: then a line may have broken off, and only the map, free space and directories that the line may rewrite may have changed;
a compact of a new map leaves the tree. --whole is 300 scripts of 25 commands, ten of them with each call failing, half an hour or
more of one processor; --part K/N is the K-th of N parts of the scripts. A table has what was left.
"""
from __future__ import annotations

import argparse
import collections
import copy
import os
import random
import sys
import tempfile
from typing import Counter, Dict, List, Optional, Set, Tuple

from tools.checks import changes
from tools.checks.changes import ALL, Run, Stand, opened, owed_refusal
from tools.checks.failing_calls import KINDS, LEFT, NAMES, Ended, Script, Shimmed, Wrong, each_call, joined, map_sectors
from tools.files import has_compiler
from tools.images import drawn_discs
from tools.reference.change_answer import CHANGING, Command, Needs
from tools.reference.change_state import State

LARGEST = 3 << 20  # an image whose calls fail in turn is written again for each
KINDS_OF_DISCS = [(False, at) for at in range(len(drawn_discs.NEW))] + [(True, at) for at in range(len(drawn_discs.OLD))]


def disc_of(at: int, count: int) -> Tuple[bool, int]:
    """Whether script `at` of so many has an old map, and the number of its disc: few scripts are spread over the kinds."""
    kinds = len(KINDS_OF_DISCS)
    old, number = KINDS_OF_DISCS[at * kinds // count if count < kinds else at % kinds]
    return old, number + at // kinds * len(drawn_discs.OLD if old else drawn_discs.NEW)


class Runs:
    """The scripts and what was counted over them."""

    def __init__(self, options: argparse.Namespace, folder: str) -> None:
        self.options, self.folder = options, folder
        self.program = changes.Program(options.program, folder)
        self.shimmed: Optional[Shimmed] = None
        self.counts: Counter[Tuple[str, str]] = collections.Counter()
        self.calls: Counter[Tuple[str, str]] = collections.Counter()
        self.failures: List[str] = []
        self.scripts = 0
        self.discs: Set[str] = set()

    def options_for(self, old: bool) -> argparse.Namespace:
        found = copy.copy(self.options)
        found.old, found.batch, found.words = old, False, ALL
        return found

    def one(self, at: int, count: int) -> Run:
        """A script, drawn over its disc and compared line by line and at once."""
        old, number = disc_of(at, count)
        run = Run(self.program, self.options_for(old), number, self.counts)
        found = run.go()
        if found:
            self.failures.append(found)
        self.scripts += 1
        self.discs.add(run.name)
        return run

    def failing(self, run: Run) -> None:
        """The same script, with a compact at its end, and calls that fail."""
        self.shimmed = self.shimmed or Shimmed(self.options.program, self.folder)
        lines = run.script + [b"compact", b"free"]
        try:
            script = Script(self.shimmed, run.image, lines)
            wrong = each_call(script, self.options.each, self.calls)
        except Wrong as found:
            wrong = str(found)
        if wrong:
            self.failures.append("disc %d, %s: %s\n%s" % (run.number, run.name, wrong, self.kept(run.image, lines)))
        print("calls fail over disc %d, %s: %s" % (run.number, run.name, wrong or "as promised"), flush=True)

    def kept(self, image: bytes, lines: List[bytes]) -> str:
        folder = tempfile.mkdtemp(prefix="check_runs-")
        for name, content in (("first.adf", image), ("left.adf", self.shimmed.left), ("script", joined(lines))):
            with open(os.path.join(folder, name), "wb") as file:
                file.write(content)
        return "kept in %s: first.adf, left.adf, script" % folder

    def all(self) -> bool:
        options, waiting = self.options, 0
        if options.failing and not has_compiler():
            print("left out, no C compiler here: the runs with failing calls")
        part, parts = map(int, options.part.split("/"))
        for at in range((part - 1) * options.scripts // parts, part * options.scripts // parts):
            run = self.one(at, options.scripts)
            waiting += -at * options.failing // options.scripts - -(at + 1) * options.failing // options.scripts
            if waiting and has_compiler() and len(run.image) <= LARGEST and not run.read_only:
                self.failing(run)
                waiting -= 1
        self.table()
        return not self.failures

    def table(self) -> None:
        """What was counted."""
        accepted = sum(count for (word, what), count in self.counts.items() if word in CHANGING and not what)
        lines = sum(count for (word, what), count in self.counts.items() if word != "event")
        print("\n".join(self.failures))
        rows: List[List[object]] = [["failing call", "calls", *LEFT]]
        for kind in KINDS:
            if self.calls[kind, "calls"]:
                rows.append([NAMES[kind], *(self.calls[kind, left] for left in ("calls",) + LEFT)])
        for row in rows if len(rows) > 1 else []:
            print(" | ".join(str(one) for one in row))
        print("%d scripts over %d kinds of discs: %d commands, of which %d changed something; %d failing calls; %d scripts differ" % (
            self.scripts, len(self.discs), lines, accepted, sum(self.calls[kind, "calls"] for kind in KINDS), len(self.failures)))


# ---- the self-test


class MadeUp(Script):
    """A line over an image, without a program: tools/reference/changer.py makes it."""

    def __init__(self, image: bytes, line: bytes) -> None:
        status, text, after = Stand().run(image, line + b"\n")
        self.image, self.lines, self.trees = image, [line], {}
        self.ends = [Ended(0, b"", image, []), Ended(status, text.encode(), after, [])]
        self.whole = self.ends[-1]


def torn_between(before: bytes, after: bytes, sector: int, chance: random.Random) -> bytes:
    """Each sector as before or as after."""
    pieces = range(0, len(before), sector)
    return b"".join(chance.choice((before, after))[at:at + sector] for at in pieces)


def planted(state: State, c: Command, needs: Needs, chance: random.Random) -> Dict[str, int]:
    """By what is wrong with them, places at which no command of this kind may write."""
    idle = [at for at in state.idle_sectors() - map_sectors(state)]
    found: Dict[str, List[int]] = {"lost space": idle, "another file": [], "another directory": []}
    for key, entry in state.objects.items():
        if not entry.is_directory():
            found["another file"] += entry.sectors
        elif key and key not in (c.key(), c.target()) and key not in (c.key()[:-1], c.target()[:-1]) and not needs.growth:
            found["another directory"] += [] if needs.grown and needs.grown[:-1] == key else entry.sectors
    return {what: chance.choice(sorted(sectors)) for what, sectors in found.items() if sectors}


def self_test_line(image: bytes, line: bytes, counts: Counter[Tuple[str, str]], chance: random.Random) -> bytes:
    """What broke off rightly has to pass, and what broke off wrongly mustn't."""
    state, c = opened(image), Command(line)
    number, needs = owed_refusal(state, c)
    script = MadeUp(image, line)
    if number or needs is None or script.whole.image == image:
        return script.whole.image
    torn = torn_between(image, script.whole.image, state.sector, chance)
    counts["right", script.after_disk(Ended(4, b"", torn, []), 1)] += 1
    wrong = [("the end of the disc", torn + b"x"), ("status", torn), ("text", torn)]
    for what, sector in planted(state, c, needs, chance).items():
        at = sector * state.sector + chance.randrange(state.sector)
        wrong.append((what, torn[:at] + bytes([image[at] ^ 1]) + torn[at + 1:]))
    for what, left in wrong:
        ended = Ended(0 if what == "status" else 4, b"ok\nok\n" if what == "text" else b"", left, [])
        try:
            script.after_disk(ended, 1)
            counts["passed", what] += 1
        except Wrong:
            counts["found", what] += 1
    return script.whole.image


def self_test() -> bool:
    counts: Counter[Tuple[str, str]] = collections.Counter()
    for at in range(24):
        old, number = disc_of(at, 24)
        chance = random.Random(at)
        name, image = drawn_discs.image_of(number, old)
        drawer = changes.change_scripts.Drawer(chance, list(CHANGING))
        for _ in range(12):
            line = drawer.line(opened(image))
            if line and not line.startswith(b"#"):
                image = self_test_line(image, line, counts, chance)
    for (how, what), count in sorted(counts.items()):
        print("%s: %s %d times" % (what, how, count))
    wanted = {"lost space", "another file", "another directory", "the end of the disc", "status", "text"}
    return not any(how == "passed" for how, what in counts) and wanted == {what for how, what in counts if how == "found"}


def main(words: List[str]) -> bool:
    parser = argparse.ArgumentParser(usage=__doc__, add_help=False)
    for name, value in (("--seed", 1), ("--scripts", 8), ("--failing", 4), ("--each", 12), ("--commands", 12)):
        parser.add_argument(name, type=int, default=value)
    for name in ("--whole", "--self-test"):
        parser.add_argument(name, action="store_true")
    parser.add_argument("--program", default=changes.PROGRAM)
    parser.add_argument("--part", default="1/1")
    options = parser.parse_args(words)
    if options.whole:
        options.scripts, options.failing, options.each, options.commands = 300, 10, 1 << 30, 25
    if options.self_test:
        return self_test()
    with tempfile.TemporaryDirectory() as folder:
        return Runs(options, folder).all()


if __name__ == "__main__":
    sys.exit(0 if main(sys.argv[1:]) else 1)
