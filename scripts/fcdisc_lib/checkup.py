# SPDX-License-Identifier: MIT
"""The job `check`: what each image is, whether it is whole, what is wrong, and what to do."""
from __future__ import annotations

import sys
from argparse import Namespace
from typing import Dict, Iterator, List, NamedTuple, Optional, Sequence, Tuple

from . import names
from .collection import Files, Found, over_files, status_of
from .description import Description, describe
from .faults import IT_IS, Fault
from .images import open_image
from .listing import Row, day, disc_row, heading
from .messages import Progress, clear_progress, counted, say, shown, tell
from .otherfiles import TEXT
from .program import BadImage, Entry, Run, command, find_program
from .tree import MAX_DEPTH, Tree, read_below
from .unread import files_in_equal_tracks
from .verdicts import fault_of, is_no_disc

WHOLE, DAMAGED, UNREAD, NO_DISC = "whole", "damaged", "not read", "no disc"
LOST_ADVICE = "if the space is wanted, fcdisc reclaim gives it back"
EQUAL_ADVICE = "look into these files: an imaging tool may have filled in a track that it couldn't read"
REMARKS = (("lost", "byte", "that nothing owns"), ("unsorted", "directory", "out of order"),
           ("parents", "directory", "with a wrong parent"))


class Finding(NamedTuple):
    """What was found in a file. A disc that is whole has all that follows the fault."""

    state: str
    fault: Optional[Fault] = None
    disc: Optional[Description] = None
    counts: Dict[str, int] = {}
    dates: Tuple[str, ...] = ()  # of the oldest and the newest file that tells a date
    equal: Sequence[Entry] = ()  # files in tracks of equal bytes
    rescue: str = ""  # what can be taken out of a damaged disc

    def advice(self) -> Iterator[Tuple[str, str]]:
        """What to do about what: faults of a kind have the same advice."""
        if self.fault and self.state != NO_DISC:
            yield self.fault.kind, self.fault.advice
        if self.counts.get("lost") and self.disc and self.disc.record:
            yield "bytes that nothing owns", LOST_ADVICE
        if self.equal:
            yield "tracks of equal bytes", EQUAL_ADVICE


def check(words: Namespace) -> int:
    program, files = find_program(), Files(words.image)
    states: Dict[str, int] = {}
    advice: Dict[Tuple[str, str], int] = {}
    rows: List[Row] = []
    failed = False
    for file, finding in over_files(files, lambda file: examine(program, file, words.order), "files checked"):
        state = finding.state if finding else "not opened"
        states[state] = states.get(state, 0) + 1
        failed |= state not in (WHOLE, NO_DISC) or state == NO_DISC and file.is_named
        if finding is None:
            continue
        if words.json:
            rows += [as_row(file.path, finding)] if not words.damaged or state != WHOLE else []
        elif is_told(words, file, finding):
            say("%s: %s" % (shown(file.path), in_words(finding)))
            sys.stdout.flush()  # the next image may take its time
            for one in finding.advice():
                advice[one] = advice.get(one, 0) + 1
    clear_progress()
    if words.json:
        import json  # here, since few ask for it, and it takes long to load
        json.dump(rows, sys.stdout, indent=1)
        say("")
    else:
        say_together(states, advice)
    return status_of(files, failed)


def is_told(words: Namespace, file: Found, finding: Finding) -> bool:
    """Whether the finding gets a line: of what lies in a folder and is no disc, only what a keeper may take for one."""
    if finding.state == NO_DISC and not file.is_named:
        return not words.damaged and finding.fault is not None and finding.fault.kind not in ("NoKind", TEXT.what)
    return not words.damaged or finding.state != WHOLE


def say_together(states: Dict[str, int], advice: Dict[Tuple[str, str], int]) -> None:
    """The advice, once for each kind of fault; and of several files the sums."""
    total = sum(states.values())
    for (kind, text), count in advice.items():
        say("What to do about %s%s: %s" % (kind, " (%s)" % counted(count, "image") if total > 1 else "", text))
    if total > 1:
        order = [state for state in (WHOLE, DAMAGED, UNREAD, NO_DISC, "not opened") if state in states]
        sums = ", ".join("%d %s" % (states[state], plural(state, states[state])) for state in order)
        say("%s: %s" % (counted(total, "file"), sums))


def plural(state: str, count: int) -> str:
    return "no discs" if state == NO_DISC and count > 1 else state


# ---- one image


def examine(program: str, file: Found, order: str) -> Finding:
    def read(run: Run) -> Tuple[Dict[str, int], List[Entry]]:
        return run.check(), run.cat(())

    try:
        image, (counts, entries) = open_image(program, file.path, order, b"check\n" + command("cat", ()), read)
    except BadImage as bad:
        return refused(file, fault_of(program, file.path, bad), order)
    with image.file:
        tree = Tree(image, ())
        tree.entries[()] = entries
        read_below(program, tree, Progress("directories read", counts["dirs"]))
        if tree.too_deep:
            tell("%s: directories more than %d deep are left out" % (shown(file.path), MAX_DEPTH))
        disc, inner = describe(image.file), tree.files()
        dated = sorted(filter(None, map(day, inner)))
        return Finding(WHOLE, None, disc, counts, tuple(dated[:1] + dated[-1:]), files_in_equal_tracks(program, image, disc, inner))


def refused(file: Found, fault: Fault, order: str) -> Finding:
    if is_no_disc(file.path, fault):
        return Finding(NO_DISC, fault)
    is_unread = fault.line == "NoKind" and (fault.meaning.startswith(IT_IS) or "--offset" in fault.advice)
    if is_unread:
        return Finding(UNREAD, fault)
    from .rescue.job import advice  # loaded for a damaged disc alone
    return Finding(DAMAGED, fault, rescue=advice(file.path, order))


# ---- words and rows


def in_words(finding: Finding) -> str:
    fault = finding.fault
    if fault is None:
        return whole_in_words(finding)
    if finding.state == NO_DISC:
        is_known = fault.meaning.startswith(IT_IS)
        return "no disc: " + ("%s: %s" % (fault.meaning[len(IT_IS):], fault.advice) if is_known else fault.meaning)
    return "not accepted: %s [%s]%s" % (fault.meaning, fault.line, finding.rescue)


def whole_in_words(finding: Finding) -> str:
    disc, counts = finding.disc, finding.counts
    assert disc
    text = "whole: %s: %s, %s, %s free" % (
        heading(disc), counted(counts["files"], "file"), counted(counts["dirs"] - 1, "directory"), counted(counts["free"], "byte"))
    if finding.dates:
        text += ", newest file of " + finding.dates[-1]
    remarks = ["%s %s" % (counted(counts[key], what), state) for key, what, state in REMARKS if counts[key]]
    if finding.equal:
        remarks.append("%s in a track of equal bytes, unread? (%s%s)" % (
            counted(len(finding.equal), "file"), names.spelled_path(finding.equal[0].path),
            ", ..." if len(finding.equal) > 1 else ""))
    return "; ".join([text, *remarks])


def as_row(path: str, finding: Finding) -> Row:
    row: Row = {"image": shown(path), "state": finding.state}
    if finding.fault:
        row.update(fault=finding.fault.meaning, line=finding.fault.line, advice=finding.fault.advice)
    if finding.rescue:
        row.update(rescue=finding.rescue.lstrip("; "))
    if finding.disc:
        counts = finding.counts
        row.update(disc_row(finding.disc), files=counts["files"], directories=counts["dirs"] - 1, free=counts["free"],
                   lost=counts["lost"], unsorted=counts["unsorted"], wrong_parents=counts["parents"],
                   oldest=finding.dates[0] if finding.dates else None, newest=finding.dates[-1] if finding.dates else None,
                   in_equal_tracks=[names.spelled_path(file.path) for file in finding.equal])
    return row
