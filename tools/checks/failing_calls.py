# SPDX-License-Identifier: MIT
"""A script over an image, with one call of the system failing in each run: what the program may answer and leave.

What a call fails in is known from runs of the script's beginnings, which make the same calls: so which line breaks off, which
replies have to be there, and the images before and after that line. Calls fail by tools/checks/outside.c.
"""
from __future__ import annotations

import collections
import errno
import os
import subprocess
from typing import Counter, Dict, Iterable, List, Optional, Sequence, Set, Tuple, Union

from tools.checks import crash
from tools.checks.outside import fault, some_of
from tools.files import built_shim, read
from tools.reference.change_answer import Command, Needs, owed_refusal
from tools.reference.change_batch import TreeState
from tools.reference.change_state import State, changed_sectors
from tools.reference.filecore import BOOT_BLOCK, BOOT_SIZE, spelled_path
from tools.reference.read_image import Fault

DISK = ("open", "statx", "pread", "pwrite", "fsync")  # calls of the image: the first write opens it again
TORN = "torn"  # a write of which half is done: the model of disks has no such failure, and the same has to come of it
STATUS = {"read": 5, "open": 4, "statx": 4, "pread": 4, "pwrite": 4, TORN: 4, "fsync": 4, "write": 6}
KINDS = tuple(STATUS) + ("memory",)
NAMES = {"read": "read of the script", "open": "open of the image", "statx": "look at its length", "pread": "read of the image",
         "pwrite": "write of the image", TORN: "half a write of it", "fsync": "sync of the image", "write": "write of the output",
         "memory": "allocation"}
UNTOUCHED, BEFORE, AFTER = "as the lines done left it", "the tree before the line", "the tree after the line"
ANOTHER, SHUT, OLD_COMPACT = "another tree", "doesn't open", "broken compact, old map"
LEFT = (UNTOUCHED, BEFORE, AFTER, ANOTHER, SHUT, OLD_COMPACT)
MOST_SECONDS = 120


class Wrong(Exception):
    """What a run with a failing call did that it mustn't."""


class Ended:
    """Status, text, the image afterwards, and the calls, if they were noted: kind and what each was about."""

    def __init__(self, status: int, text: bytes, image: bytes, calls: List[List[str]]) -> None:
        self.status, self.text, self.image, self.calls = status, text, image, calls
        self.counts = collections.Counter(call[0] for call in calls[:-1])
        if calls:
            self.counts["memory"] = int(calls[-1][3])

    def disk_calls(self) -> List[Tuple[str, str]]:
        return [(call[0], call[3]) for call in self.calls if call[0] in DISK]


class Shimmed:
    """The built program over an image in a folder of its own, with the object between it and the system."""

    def __init__(self, program: str, folder: str, options: Sequence[str] = ()) -> None:
        self.program, self.options, self.image = os.path.realpath(program), options, os.path.join(folder, "shimmed.adf")
        self.shim, self.log = built_shim(folder), os.path.join(folder, "log")
        self.left: Optional[bytes] = None  # what the file holds

    def run(self, image: bytes, script: bytes, faults: str = "", is_noted: bool = False) -> Ended:
        if image is not self.left:
            with open(self.image, "wb") as file:
                file.write(image)
        environment = {"LD_PRELOAD": self.shim, "OUTSIDE_FAULTS": faults}
        if is_noted:
            environment["OUTSIDE_LOG"] = self.log
        ran = subprocess.run([self.program, *self.options, self.image], input=script, stdout=subprocess.PIPE, stderr=subprocess.STDOUT, check=False,
                             timeout=MOST_SECONDS, env=environment)
        found = read(self.image)
        left = self.left = image if found == image else found
        return Ended(ran.returncode, ran.stdout, left, self.noted() if is_noted else [])

    def noted(self) -> List[List[str]]:
        lines = read(self.log).decode(errors="replace").splitlines()
        os.unlink(self.log)
        return [line.split(" ", 3) for line in lines]


def joined(lines: List[bytes]) -> bytes:
    return b"".join(line + b"\n" for line in lines)


class Script:
    """A script over an image, with the end of each of its beginnings."""

    def __init__(self, shimmed: Shimmed, image: bytes, lines: List[bytes]) -> None:
        self.shimmed, self.image, self.lines, self.script = shimmed, image, lines, joined(lines)
        self.ends = []
        for count in range(len(lines) + 1):
            self.ends.append(shimmed.run(image, joined(lines[:count]), is_noted=True))
            kept = next((end.image for end in self.ends if end.image == self.ends[-1].image))
            self.ends[-1].image = kept
        self.whole = self.ends[-1]
        self.trees: Dict[int, Dict[Tuple[bytes, ...], Tuple[int, int, int, Optional[bytes]]]] = {}
        calls = self.whole.disk_calls()
        for end in self.ends:
            if end.status not in (0, 1) or calls[:len(end.disk_calls())] != end.disk_calls():
                raise Wrong("a beginning of the script ends with status %d, or makes other calls" % end.status)

    def failed_line(self, kind: str, number: int) -> int:
        """The number of the line, from 1, in which this call is made; 0 before the first one."""
        return next(at for at, end in enumerate(self.ends) if end.counts[kind] >= number)

    def tree(self, at: int) -> Dict[Tuple[bytes, ...], Tuple[int, int, int, Optional[bytes]]]:
        """The tree after so many lines."""
        if at not in self.trees:
            self.trees[at] = TreeState.of(State(self.ends[at].image)).nodes
        return self.trees[at]

    # ---- one failing call

    def outcome(self, kind: str, number: int) -> str:
        """What the image was left as, if the call of this kind and number fails; Wrong if it mustn't be."""
        faults = fault(kind, number, errno.ENOMEM if kind == "memory" else errno.EIO)
        if kind == TORN:
            kind, faults = "pwrite", fault("pwrite", number, "short") + "," + fault("pwrite", number + 1, errno.EIO)
        ended = self.shimmed.run(self.image, self.script, faults, is_noted=kind not in DISK)
        if kind in DISK:
            return self.after_disk(ended, self.failed_line(kind, number))
        if kind == "read":
            return self.after_source(ended)
        return self.after_others(ended, kind)

    def after_source(self, ended: Ended) -> str:
        if (ended.status, ended.text) != (5, b"") or ended.image is not self.image or any(call[0] == "open" for call in ended.calls):
            raise Wrong("status %d, text %r; nothing may be opened, written or changed" % (ended.status, ended.text[:80]))
        return UNTOUCHED

    def after_others(self, ended: Ended, kind: str) -> str:
        """Some lines were done, a part of their text was written, and nothing is pending."""
        wanted = (STATUS[kind],) if kind in STATUS else (7, self.whole.status)
        if ended.status not in wanted:
            raise Wrong("status %d instead of %s" % (ended.status, wanted))
        if kind == "memory" and ended.status != 7 and (ended.text, ended.image) != (self.whole.text, self.whole.image):
            raise Wrong("status %d, with other text or another image" % ended.status)
        done = [at for at, end in enumerate(self.ends) if end.image == ended.image and end.text.startswith(ended.text)]
        if not done:
            raise Wrong("no number of lines gives this image and text, of which the end is %r" % ended.text[-80:])
        changes = [call[0] for call in ended.calls if call[0] in ("pwrite", "fsync")]
        if changes and changes[-1] != "fsync":
            raise Wrong("something is pending at the end")
        return UNTOUCHED

    def after_disk(self, ended: Ended, line: int) -> Optional[str]:
        before, after = self.ends[max(line - 1, 0)], self.ends[line]
        if ended.status != 4:
            raise Wrong("status %d instead of 4, in line %d" % (ended.status, line))
        if not (ended.text.startswith(before.text) and after.text.startswith(ended.text)):
            raise Wrong("the text isn't the replies to the %d lines that were done" % max(line - 1, 0))
        if ended.image == before.image:
            return UNTOUCHED
        if len(ended.image) != len(before.image) or before.image == after.image:
            raise Wrong("the image has changed by a line that changes nothing")
        return self.torn(line, ended.image)

    def torn(self, line: int, image: bytes) -> Optional[str]:
        """The image after a command that broke off while it changed the disc."""
        before, c = State(self.ends[line - 1].image), Command(self.lines[line - 1])
        changed = changed_sectors(before, Bytes(image, before.sector))
        spared = spared_by_compact(before) if c.word == "compact" else spared_sectors(before, c)
        for name, sectors in spared.items():
            if not changed.isdisjoint(sectors):
                raise Wrong("%s has changed, in sectors %s" % (name, sorted(changed & set(sectors))[:4]))
        if before.data[before.disc_bytes():] != image[before.disc_bytes():]:
            raise Wrong("bytes past the disc's end have changed")
        if c.word == "compact":
            return compact_outcome(before, image)
        return self.tree_left(line, image)

    def tree_left(self, line: int, image: bytes) -> str:
        try:
            nodes = TreeState.of(State(image)).nodes
        except Fault:
            return SHUT
        return BEFORE if nodes == self.tree(line - 1) else AFTER if nodes == self.tree(line) else ANOTHER


class Bytes:
    """An image of which only its bytes are known."""

    def __init__(self, data: bytes, sector: int) -> None:
        self.data, self.sector = data, sector


# ---- the sectors that a command mustn't write


def rewritten_keys(state: State, c: Command, needs: Needs) -> Set[Tuple[bytes, ...]]:
    """The directories that a command may rewrite: what holds a named path's last name, what is renamed, what holds a grown
    directory, and what lies in one that gets a new address."""
    keys = {path[:-1] for path in (c.key(), c.target()) if path}
    if c.word == "rename":
        keys.add(c.key())
    if needs.grown:
        keys.add(needs.grown[:-1])
    if needs.growth and not needs.alone:
        keys |= {key for key in state.heads if key and key[:-1] == needs.grown}
    return keys


def boot_sectors(state: State) -> Set[int]:
    if state.kind != "Boot":
        return set()
    return set(range(BOOT_BLOCK // state.sector, (BOOT_BLOCK + BOOT_SIZE - 1) // state.sector + 1)) - map_sectors(state)


def map_sectors(state: State) -> Set[int]:
    if not state.is_new:
        return set()
    start = state.new_map.shape.map_sector
    return set(range(start, start + 2 * state.new_map.shape.zones))


def spared_sectors(state: State, c: Command) -> Dict[str, Union[List[int], Set[int]]]:
    """By name the sectors that no exit of an accepted command may have changed."""
    number, needs = owed_refusal(state, c)
    if number or needs is None:
        raise Wrong("the image has changed by a line that is refused")
    keys = rewritten_keys(state, c, needs)
    found = {"lost space, or identifier 1": state.idle_sectors() - map_sectors(state), "the boot block": boot_sectors(state)}
    for key, entry in state.objects.items():
        if entry.sectors and not (state.is_directory(key) and key in keys):
            found[spelled_path(entry.path)] = entry.sectors
    return found


def spared_by_compact(state: State) -> Dict[str, Iterable[int]]:
    """On a new map all but the map, holes and what may move; of an old map nothing is promised but lost space."""
    found = {"lost space, or identifier 1": state.idle_sectors() - map_sectors(state), "the boot block": boot_sectors(state)}
    if state.is_new:
        found["identifier 2"] = {sector for entry in state.objects.values() if entry.sectors and entry.address < 3 * 256
                                 for sector in entry.sectors}
    return found


def compact_outcome(before: State, image: bytes) -> str:
    if not before.is_new:
        return OLD_COMPACT
    if crash.objects(image) != crash.objects(before.data):
        raise Wrong("a broken compact leaves %s" % str(crash.objects(image)[:2])[:300])
    return BEFORE


# ---- all calls of a script


def each_call(script: Script, each: int, counts: Counter[Tuple[str, str]]) -> str:
    """Lets calls of each kind fail in turn: the first thing that is wrong, in words; `counts` gets each outcome."""
    for kind in KINDS:
        count = script.whole.counts["pwrite" if kind == TORN else kind]
        for number in some_of(count, each if kind != "memory" else min(each, 100)):
            try:
                counts[kind, script.outcome(kind, number)] += 1
            except Wrong as wrong:
                return "%s %d fails: %s" % (NAMES[kind], number, wrong)
            counts[kind, "calls"] += 1
    return ""
