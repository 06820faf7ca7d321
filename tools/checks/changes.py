#!/usr/bin/env python3
# SPDX-License-Identifier: MIT
"""Changes discs of all kinds with the built program, and compares each reply and each image with what the rules allow.

usage: tools/run checks/changes [--program PATH] [--seed N] [--images N] [--commands N] [--only WORD,..] [--old] [--batch] [--table]
                              [--first N] [--most N]    from disc N on; ends after N discs that differ
       tools/run checks/changes --self-test    the same looks over tools/reference/changer.py, and over it with each of its faults; with
                                             --only FAULT over that alone

Commands are drawn by chance over the image as it stands, and run one by one, followed by reading lines over what they touched.
The rules are those of crates/fc_model, crates/fc_image/specs/effects and docs/FORMAT.md. The reply has to be that of `answer` and
`short` over the image before; the image after has to be one that `Placed` and `Steady` allow (tools/reference/change_effects.py), and the
program has to say of it what tools/reference/read_image.py says. Then the whole script runs over the first image at once; with --batch it runs
at once only. --old takes old maps in place of new ones. --only draws these commands alone. Few images are spread over the kinds of
discs. --table counts replies and events. The first difference ends a disc: the script is printed, and the images are kept. Exit
status 1 if there is any.
"""
from __future__ import annotations

import argparse
import collections
import functools
import os
import random
import re
import subprocess
import sys
import tempfile
import time
import traceback
from typing import Counter, Dict, List, Optional, Tuple, Union

from tools.checks import change_rows, change_scripts, crash
from tools.files import PROGRAM
from tools.images import drawn_discs
from tools.reference import change_squash, changer, read_image
from tools.reference.change_answer import CHANGING, WORDS, Command, Needs, owed_refusal, refusal_of, tree_after
from tools.reference.change_batch import TreeState, batch_differences
from tools.reference.change_effects import differences
from tools.reference.change_state import State
from tools.reference.filecore import spelled_path

ALL = CHANGING + ("compact",)
SELF_TEST_SECONDS, MOST_SECONDS = 30, 120


class Difference(Exception):
    """What was found, in lines."""


# ---- who answers


class Program:
    """The built program, over an image in a folder of its own."""

    def __init__(self, path: str, folder: str) -> None:
        self.path, self.image = os.path.realpath(path), os.path.join(folder, "disc.adf")
        self.left = b""  # what the file holds

    def run(self, image: bytes, script: bytes, read_only: bool = False) -> Optional[Tuple[int, str, bytes]]:
        """Status, text and the image afterwards."""
        if image is not self.left:
            with open(self.image, "wb") as file:
                file.write(image)
        words = [self.path, self.image] + (["--read-only"] if read_only else [])
        try:
            ran = subprocess.run(words, input=script, stdout=subprocess.PIPE, stderr=subprocess.STDOUT, check=False, timeout=MOST_SECONDS)
        except subprocess.TimeoutExpired:
            raise Difference("no answer after %d seconds" % MOST_SECONDS) from None
        with open(self.image, "rb") as file:
            found = file.read()
        self.left = image if found == image else found
        return ran.returncode, ran.stdout.decode("latin-1"), self.left


class Stand:
    """tools/reference/changer.py in the program's place; reading lines are answered by the reader."""

    def __init__(self, fault: Optional[str] = None) -> None:
        self.fault, self.chance, self.left = fault, random.Random(1), b""

    def run(self, image: bytes, script: bytes, read_only: bool = False) -> Tuple[int, str, bytes]:
        replies, state = [], opened(image)
        for line in read_image.lines_of(script):
            c = Command(line)
            if c.word == "compact" and not read_only and not state.is_new:
                image = self.left = changer.squashed(state, self.fault)
                state = opened(image)
                replies.append("ok\n")
            elif c.fault or c.word not in CHANGING or read_only:
                replies.append(reading_reply(state, line, read_only))
            else:
                reply, image = changer.changed(state, c, self.fault, self.chance)
                self.left = image
                state = state if image is state.data else opened(image)
                replies.append(reply)
        return status_of(replies), "".join(replies), image


def refusal_text(number: int) -> str:
    return "error %d %s\n" % (number, WORDS[number])


def status_of(replies: List[str]) -> int:
    return int(any(re.fullmatch(r"error [0-9]+ [A-Za-z]+\n", one) for one in replies))


def reading_reply(state: State, line: bytes, read_only: bool = False) -> str:
    """The reply to a line that changes nothing."""
    c = Command(line)
    number = refusal_of(state, c, read_only)
    return refusal_text(number) if number else read_image.reply(state.disc, c.word, c.paths, read_only)


# ---- one command


def looks(c: Command) -> List[bytes]:
    """Lines that read what a command may have touched."""
    found = ["free", "check"]
    if not c.fault:
        reading = "load " if c.word == "save" else "digest "
        for names in c.paths:
            found += ["cat " + spelled_path(names[:-1]), "cat " + spelled_path(names), reading + spelled_path(names)]
    return [one.encode() for one in dict.fromkeys(found)]


@functools.lru_cache(maxsize=4)
def opened(image: bytes) -> State:
    """The state of an image; images are opened again and again."""
    try:
        return State(image)
    except read_image.Fault as fault:
        raise Difference("the image doesn't open: %s" % str(fault).strip()) from None


def replies_differ(state: State, c: Command, first: str, got: Tuple[int, str], read_only: bool) -> None:
    """Compares status and text with the reply to the command and those of the looks after it."""
    replies = [first] + [reading_reply(state, line, read_only) for line in looks(c)]
    if got != (status_of(replies), "".join(replies)):
        raise Difference("wanted status %d and %s\ngot status %d and %s" % (status_of(replies), short(replies), got[0], short([got[1]])))


def short(replies: List[str]) -> str:
    text = "".join(replies)
    return repr(text if len(text) < 3000 else text[:3000] + "..")


def step(actor: Union[Program, Stand], state: State, line: bytes, read_only: bool,
         counts: Counter[Tuple[str, str]]) -> State:
    """Runs one line: the state afterwards, or a difference."""
    c = Command(line)
    status, text, image = actor.run(state.data, b"\n".join([line] + looks(c)) + b"\n", read_only)
    number, needs = owed_refusal(state, c, read_only)
    changes = c.word in CHANGING + ("compact",) and not number
    counts[c.word, WORDS[number]] += 1
    if number and needs and needs.growth:
        counts["event", "a directory would grow, " + WORDS[number]] += 1
    first = refusal_text(number) if number else "ok\n" if changes else reading_reply(state, line, read_only)
    if not text.startswith(first):
        raise Difference("the reply is %s instead of %s" % (short([text.split("\n")[0]]), short([first])))
    if not changes:
        if image != state.data:
            raise Difference("the image has changed, and the reply is %s" % short([first]))
        after = state
    else:
        after = opened(image)
        found = differences(state, after, c, needs) if needs else compaction_differences(state, after)
        if found:
            raise Difference("\n".join(found[:12]))
        if needs:
            count_events(needs, after, counts)
    replies_differ(after, c, first, (status, text), read_only)
    return after


def compaction_differences(before: State, after: State) -> List[str]:
    """tools/checks/crash.py has the same looks over new maps."""
    return crash.faults_at_end(before.data, after.data) if before.is_new else change_squash.differences(before, after)


def count_events(needs: Needs, after: State, counts: Counter[Tuple[str, str]]) -> None:
    """What the accepted commands came to."""
    events: Dict[str, object] = {
        "shares": needs.slack, "is copied": needs.copied, "grows": needs.grown is not None, "root grows": needs.grown == (),
        "is copied and grows": needs.copied and needs.grown is not None,
        "grows with room": needs.grown is not None and not needs.growth, "grows alone": needs.growth and needs.alone,
        "grows into a new identifier": needs.growth and not needs.alone,
        "takes twice": needs.growth and needs.length and not needs.slack}
    if needs.length and not needs.slack and after.is_new:
        identifier = after.objects[needs.c.target()].address // 256
        events["takes several runs"] = len(after.runs_of(identifier)) > 1
    if needs.c.is_making_file() and needs.state.objects.get(needs.c.key()):
        events["saves over a file"] = True
        old = needs.state.objects[needs.c.key()]
        events["shares with the old file"] = needs.slack and old.sectors and needs.slack[0] == old.address // 256
    for event, happened in events.items():
        counts["event", event] += bool(happened)


# ---- one disc


class Run:
    """A disc and the commands over it."""

    def __init__(self, actor: Union[Program, Stand], options: argparse.Namespace, number: int,
                 counts: Counter[Tuple[str, str]]) -> None:
        self.actor, self.options, self.counts, self.number = actor, options, counts, number
        self.name, self.image = drawn_discs.image_of(number, options.old)
        self.chance = random.Random("%d %d" % (options.seed, number))
        self.drawer = change_scripts.Drawer(self.chance, options.words)
        self.read_only = self.chance.random() < 0.03
        self.script: List[bytes] = []
        self.text, self.last = "", self.image

    def go(self, at_once: bool = True) -> str:
        """All differences, as a text; nothing if there are none."""
        try:
            if self.options.batch:
                self.draw_all()
                self.counts["lines", "at once"] += len(self.script)
            else:
                self.one_by_one()
            if at_once:
                self.at_once()
            return ""
        except Difference as found:
            return self.report(found)
        except Exception:  # an image on which the check itself trips has to be seen too
            return self.report(traceback.format_exc())

    def one_by_one(self) -> None:
        state = opened(self.image)
        for at in range(self.options.commands):
            line = self.drawer.line(state)
            self.script.append(line)
            self.last = state.data
            if line and not line.startswith(b"#"):
                state = step(self.actor, state, line, self.read_only, self.counts)
        self.last = state.data

    def draw_all(self) -> None:
        """The script for a run at once, drawn over the tree that it would make on a disc of endless space."""
        state = TreeState.of(opened(self.image))
        for at in range(self.options.commands):
            line = self.drawer.line(state)
            self.script.append(line)
            if line and not line.startswith(b"#"):
                c = Command(line)
                is_change = c.word in CHANGING and not refusal_of(state, c, self.read_only)
                if is_change and not (c.is_making_file() and c.file_length() >= 1 << 22):
                    state = state.with_tree(tree_after(state, c))

    def at_once(self) -> None:
        status, text, image = self.actor.run(self.image, b"".join(line + b"\n" for line in self.script), self.read_only)
        found = batch_differences(opened(self.image), opened(image), self.script, status, text, self.read_only)
        self.counts["event", "the same image at once"] += image == self.last
        if found:
            self.counts["event", "at once differs"] += 1
            raise Difference("the script run at once:\n" + "\n".join(found[:12]))

    def report(self, found: object) -> str:
        folder = tempfile.mkdtemp(prefix="check_changes-")
        script = b"".join(line + b"\n" for line in self.script)
        for name, content in (("first.adf", self.image), ("before.adf", self.last), ("after.adf", self.actor.left), ("script", script)):
            with open(os.path.join(folder, name), "wb") as file:
                file.write(content)
        lines = ["disc %d, %s, seed %d%s%s" % (self.number, self.name, self.options.seed, ", --old" if self.options.old else "",
                                             ", --read-only" if self.read_only else "")]
        lines += ["after %d lines, of which the last are" % len(self.script)]
        lines += ["  " + line.decode("latin-1")[:300] for line in self.script[-4:]]
        return "\n".join(lines + [str(found), "kept in %s: first.adf, before.adf and after.adf (the last line), script" % folder])


# ---- rows


def rows_differ(actor: Union[Program, Stand], options: argparse.Namespace) -> bool:
    """The worked rows of the commands that are drawn, compared; prints what differs."""
    wrong, count = [], 0
    for make, script, wanted, *read_only in change_rows.ROWS:
        words = {line.split()[0] for line in script.split("\n")} & set(ALL)
        image = bytes(make().image())
        is_old = isinstance(opened(image).map, read_image.OldMap)
        if is_old == options.old and words <= set(options.words):
            count += 1
            status, text, end = actor.run(image, re.sub(r"\bZ\b", "00000000", script).encode() + b"\n", bool(read_only))
            if text.replace("\n", " / ") != wanted + " / ":
                parts = script.replace("\n", ", ")[-200:], wanted[-200:], text.replace("\n", " / ")[-200:]
                wrong.append("%s\n  wanted %s\n  got    %s" % parts)
            elif end != image:
                wrong += ["%s\n  %s" % (script.replace("\n", ", ")[-200:], one) for one in left_differences(image, end)]
    print("\n".join(wrong + ["%d worked rows, %d differ" % (count, len(wrong))]), flush=True)
    return bool(wrong)


def left_differences(image: bytes, end: bytes) -> List[str]:
    """What no row may change: an image opens, and the copies of a new map are equal and have the bits after their zones that were there."""
    try:
        before, after = opened(image), opened(end)
    except Difference as found:
        return [str(found)]
    if not after.is_new:
        return []
    found = [] if after.copies()[0] == after.copies()[1] else ["the two copies of the map differ"]
    return found + (["bits after a zone have changed"] if after_zones(before) != after_zones(after) else [])


def after_zones(state: State) -> List[int]:
    """The bits after the last bit of each zone, in the copy of the map that counts."""
    zones = state.new_map.chosen_copy(state.data)
    return [int.from_bytes(sector, "little") >> state.new_map.shape.end(zone) for zone, sector in enumerate(zones)]


def check(actor: Union[Program, Stand], options: argparse.Namespace) -> bool:
    counts: Counter[Tuple[str, str]] = collections.Counter()
    failed = 0
    kinds = len(drawn_discs.OLD if options.old else drawn_discs.NEW)
    for at in range(options.images):
        number = options.first + (at * kinds // options.images if options.images < kinds else at)
        found = Run(actor, options, number, counts).go()
        if found:
            failed += 1
            print(found + "\n", flush=True)
            if failed == options.most:
                break
    if options.table:
        for (word, what), count in sorted(counts.items()):
            print("%6d %s %s" % (count, word, what))
    accepted = sum(count for (word, what), count in counts.items() if word in CHANGING and not what)
    lines = sum(count for (word, what), count in counts.items() if word != "event")
    print("%d discs with %s maps, %d commands of which %d changed something, %d discs differ" % (
        options.images, "old" if options.old else "new", lines, accepted, failed))
    return not failed


def check_program(options: argparse.Namespace) -> bool:
    with tempfile.TemporaryDirectory() as folder:
        program = Program(options.program, folder)
        options.words = options.only.split(",") if options.only else ALL
        wrong = rows_differ(program, options)
        return check(program, options) and not wrong


# ---- the self-test


def words_of(old: bool) -> Tuple[str, ...]:
    """What tools/reference/changer.py can do: it compacts old maps alone."""
    return CHANGING + ("compact",) * old


def found_after(fault: str, words: str, options: argparse.Namespace) -> Optional[Tuple[int, str]]:
    """Over how many commands a fault was found, and what was found first; None if it wasn't."""
    options.old = "old" in words.split()
    options.words = words_of(options.old)
    start, counts, number = time.process_time(), collections.Counter(), 0  # not the wall clock: the machine may be busy
    names = list(drawn_discs.OLD if options.old else drawn_discs.NEW)
    chosen = [at for at, name in enumerate(names) if all(word in name for word in words.split() if word != "old")]
    while time.process_time() < start + SELF_TEST_SECONDS:
        run = Run(Stand(fault), options, chosen[number % len(chosen)] + number // len(chosen) * len(names), counts)
        run.report = str
        found = run.go(at_once=False)
        if found and not found.startswith("Traceback"):  # a changer that gives up over a disc shows nothing
            return sum(count for (word, what), count in counts.items() if word != "event"), found.split("\n")[0]
        number += 1
    return None


def without_fault(options: argparse.Namespace) -> bool:
    """Whether the rows and the commands over discs agree."""
    good = True
    for old in (False, True):
        options.old, options.words = old, words_of(old)
        good = not rows_differ(Stand(), options) and good
        good = check(Stand(), options) and good
    return good


def self_test(options: argparse.Namespace) -> bool:
    good = bool(options.only) or without_fault(options)
    for fault, words in changer.FAULTS.items() if not options.only else [(options.only, changer.FAULTS[options.only])]:
        found = found_after(fault, words, options)
        good = good and found is not None
        print("%s: %s" % (fault, "NOT FOUND" if found is None else "found after %d commands: %s" % found), flush=True)
    return good


def main(words: List[str]) -> bool:
    parser = argparse.ArgumentParser(usage=__doc__, add_help=False)
    for name, value in (("--seed", 1), ("--images", 60), ("--commands", 60), ("--first", 0), ("--most", 3)):
        parser.add_argument(name, type=int, default=value)
    for name in ("--old", "--batch", "--table", "--self-test"):
        parser.add_argument(name, action="store_true")
    parser.add_argument("--program", default=PROGRAM)
    parser.add_argument("--only")
    options = parser.parse_args(words)
    return self_test(options) if options.self_test else check_program(options)


if __name__ == "__main__":
    sys.exit(0 if main(sys.argv[1:]) else 1)
