#!/usr/bin/env python3
# SPDX-License-Identifier: MIT
"""Changes discs in the safe mode with the built program, and looks at each reply and image, and at what crashes and I/O errors leave.

usage: tools/run checks/safe PROGRAM [--discs N] [--commands N] [--draws N] [--failing N] [--seed N] [--workers N]    30 discs, if nothing else is said
       tools/run checks/safe PROGRAM --whole    100,000 images and more, by as many workers as there are processors; a line a disc
       tools/run checks/safe PROGRAM --plain    the same crashes without the safe mode, of which most lines have to be found out

Lines are drawn over discs that suit (fragmented ones, shared identifiers, directories and roots that grow, nearly full ones). The reply has
to be that of tools/reference/safe_answer.py, and the image one that safe_effects.py allows. What the program writes and when it syncs is
recorded (outside.c). A crash leaves each sector as it was at some moment since the last sync, whatever the others are: such images are
drawn at every call of each line, and of the whole script at once. Each has to open, to the tree before its line or the tree after it; and
nothing may be pending when a reply is written. In some discs each call for the image fails in turn; that has to leave such a tree, too.
On discs that don't suit the run ends with status 10, and nothing has changed.
"""
from __future__ import annotations

import argparse
import collections
import concurrent.futures
import hashlib
import os
import random
import subprocess
import sys
import tempfile
from typing import Counter, Dict, Iterator, List, NamedTuple, Optional, Set, Tuple

from tools.checks import change_scripts, crash
from tools.checks.changes import Difference, looks, opened, reading_reply, refusal_text, short, status_of
from tools.checks.failing_calls import AFTER, BEFORE, DISK, NAMES, TORN, Script, Shimmed, Wrong
from tools.checks.outside import some_of
from tools.files import built_shim, compiler, has_compiler, read
from tools.images import drawn_discs
from tools.images.volumes import NewVolume, record_bytes
from tools.reference.change_answer import CHANGING, Command, owed_refusal
from tools.reference.change_state import State, changed_sectors
from tools.reference.read_image import Disc, Fault
from tools.reference.safe_answer import SPREAD, WORDS_OF_SPREAD, SafeNeeds, is_suitable, safe_refusal
from tools.reference.safe_effects import differences

Tree = Dict[Tuple[bytes, ...], Tuple[int, int, int, Optional[bytes]]]  # by path: attributes, words, and a digest of a file's bytes
MOST_SECONDS = 300
WORDS = CHANGING + ("compact",)
NOT_SAFE = 10
LARGE = 4 << 20  # bytes of a disc over which fewer crashes are drawn


def tree_of(image: bytes) -> Tree:
    disc = Disc(image)
    found: Tree = {(): (disc.root.attributes, disc.root.load, disc.root.execution, None)}
    for directory in disc.directories:
        for entry in directory.entries:
            content = None if entry.is_directory() else digest(disc.content(entry))
            found[tuple(entry.path)] = (entry.attributes, entry.load, entry.execution, content)
    return found


def digest(data: bytes) -> bytes:
    return hashlib.sha1(data).digest()  # the fastest here; nobody forges images


# ---- the program


class Ran(NamedTuple):
    """A run: what it wrote and when it synced (None), and for each of these steps the bytes of output that were written before it."""

    status: int
    text: str
    image: bytes
    steps: crash.Steps
    told: List[int]
    pending: List[int]  # the bytes of output that were written while something was pending


class Recorder:
    """The built program over an image, with the object between it and the system that records what it writes."""

    def __init__(self, program: str, folder: str, options: List[str]) -> None:
        self.program, self.options, self.folder, self.shim = os.path.realpath(program), options, folder, built_shim(folder)

    def run(self, image: bytes, script: bytes) -> Ran:
        path, record, log = (os.path.join(self.folder, name) for name in ("disc.adf", "record", "log"))
        for name, content in ((path, image), (record, b""), (log, b"")):
            with open(name, "wb") as file:
                file.write(content)
        ran = subprocess.run([self.program, *self.options, path], input=script, stdout=subprocess.PIPE, stderr=subprocess.STDOUT, check=False,
                             timeout=MOST_SECONDS, env={"LD_PRELOAD": self.shim, "OUTSIDE_RECORD": record, "OUTSIDE_LOG": log})
        told, pending, output, is_pending = [], [], 0, False
        for line in read(log).decode(errors="replace").splitlines():
            kind, answer, _, about = line.split(" ", 3)
            if kind == "pwrite" and int(answer) > 0 or kind == "fsync" and int(answer) == 0:
                told.append(output)
                is_pending = kind == "pwrite"
            elif kind == "write" and about.split()[0] == "1":
                output += int(answer)
                pending += [output] if is_pending else []
        return Ran(ran.returncode, ran.stdout.decode("latin-1"), read(path), crash.steps_of(read(record)), told, pending)


class Course(NamedTuple):
    """The trees before and after each line, and the bytes of output then."""

    trees: List[Tree]
    ends: List[int]


# ---- crashes


class Crashes:
    """The images that crashes leave along a record. A moment comes after each call; of what isn't synced each version of a sector is drawn."""

    def __init__(self, image: bytes, steps: crash.Steps, sector: int, chance: random.Random) -> None:
        self.along = crash.Crashes(image, steps, sector, chance)
        self.steps, self.chance = steps, chance

    def each(self, draws: int, most: int = 1 << 30) -> Iterator[Tuple[int, bytes]]:
        """The number of the call, and an image; at `most` moments at most."""
        chosen = set(self.chance.sample(range(len(self.steps)), min(most, len(self.steps))))
        pending: List[Tuple[int, bytes]] = []
        for number, step in enumerate(self.steps):
            if step is None:
                self.along.apply(pending)
                pending = []
            else:
                pending.append(step)
            if number in chosen:
                count = len(self.along.versions(pending))
                for _ in range(min(draws, 3 ** count)):
                    yield number, self.along.drawn(pending)


class Safe:
    """The discs, and what was counted over them."""

    def __init__(self, options: argparse.Namespace, folder: str) -> None:
        self.options, self.folder = options, folder
        self.recorder = Recorder(options.program, folder, [] if options.plain else ["--safe"])
        self.counts: Counter[str] = collections.Counter()
        self.failures: List[str] = []

    def note(self, disc: str, wrong: str) -> None:
        self.failures.append("%s: %s" % (disc, wrong))

    # a line

    def line(self, state: State, line: bytes, chance: random.Random) -> State:
        """Runs one line: the state afterwards, or a difference."""
        c = Command(line)
        ran = self.recorder.run(state.data, b"\n".join([line] + looks(c)) + b"\n")
        first, number, needs = first_reply(state, line)
        changes = c.word in WORDS and not number
        self.counts["%s, %s" % (c.word if c.word in WORDS else "another line", "error %d" % number if number else "ok")] += 1
        if not ran.text.startswith(first):
            raise Difference("the reply is %s instead of %s" % (short([ran.text.split("\n")[0]]), short([first])))
        after = opened(ran.image) if changes else state
        if not changes and ran.image != state.data:
            raise Difference("the image has changed, and the reply is %s" % short([first]))
        found = differences(state, after, c, needs) if changes and needs and c.word != "compact" else []
        replies = [first] + [reading_reply(after, one) for one in looks(c)]
        if (ran.status, ran.text) != (status_of(replies), "".join(replies)):
            found.append("wanted status %d and %s, got %d and %s" % (status_of(replies), short(replies), ran.status, short([ran.text])))
        if found:
            raise Difference("\n".join(found[:8]))
        if changes:
            self.count_events(needs)
            self.crash(state, after, ran, chance)
        return after

    def count_events(self, needs: Optional[SafeNeeds]) -> None:
        if needs:
            events = {"shares": needs.slack, "is copied": needs.copied, "a directory grows": needs.grown is not None, "the root grows": needs.grown == (),
                      "a directory leaves its identifier": needs.leaving is not None, "several needs": len(needs.needs) > 1,
                      "a need in several holes": any(len(parts) > 1 for parts in needs.parts or []), "nine zones": len(needs.zones) == 9}
            self.counts.update("event: " + name for name, happened in events.items() if happened)

    def crash(self, before: State, after: State, ran: Ran, chance: random.Random) -> None:
        """All moments of a line: the tree before it or after it."""
        trees = [tree_of(before.data), tree_of(after.data)]
        if ran.steps and ran.steps[-1] is not None or ran.pending:
            raise Difference("a reply is written, or the run ends, while something isn't synced")
        known: Set[bytes] = set()
        draws = self.options.draws if len(before.data) < LARGE else 1
        for number, image in Crashes(before.data, ran.steps, before.sector, chance).each(draws):
            self.counts["images"] += 1
            name = digest(image)
            if name not in known:
                known.add(name)
                self.counts["images read"] += 1
                if held(image, trees) is None:
                    raise Difference("a crash after call %d of %d leaves %s" % (number + 1, len(ran.steps), told_of(image)))

    # a disc

    def disc(self, number: int, name: str, image: bytes) -> List[bytes]:
        chance = random.Random("safe %d %d" % (self.options.seed, number))
        drawer, state = change_scripts.Drawer(chance, list(WORDS)), opened(image)
        script: List[bytes] = []
        trees, ends, last = [tree_of(image)], [0], state  # after each line, and the bytes of output then
        is_settled = True  # a compact may leave another disc in a run that did more before it: to run lines at once ends there
        try:
            for _ in range(self.options.commands):
                line = drawer.line(state)
                if not line or line.startswith(b"#"):
                    continue
                script.append(line)
                reply, is_settled = first_reply(state, line)[0], is_settled and line != b"compact"
                state = self.line(state, line, chance)
                if is_settled:
                    ends.append(ends[-1] + len(reply))
                    trees.append(tree_of(state.data))
                    last = state
            self.at_once(image, script[:len(ends) - 1], last, Course(trees, ends), chance)
        except Difference as wrong:
            kept = tempfile.mkdtemp(prefix="check_safe-")
            for at, content in (("first.adf", image), ("before.adf", state.data), ("script", b"".join(line + b"\n" for line in script))):
                with open(os.path.join(kept, at), "wb") as file:
                    file.write(content)
            self.note("disc %d, %s, after %d lines" % (number, name, len(script)), "%s\n  %s\n  kept in %s: first.adf, before.adf (the last line), script" % (
                script[-1][:200].decode("latin-1"), wrong, kept))
        return script

    def at_once(self, image: bytes, script: List[bytes], last: State, course: Course, chance: random.Random) -> None:
        """The whole script in one run: crashes at any moment leave the tree after some of the lines, at least those with a reply."""
        ran = self.recorder.run(image, b"".join(line + b"\n" for line in script))
        if ran.image != last.data:
            raise Difference("the script at once leaves another image")
        if ran.pending:
            raise Difference("a reply is written while something isn't synced")
        for at, left in Crashes(image, ran.steps, last.sector, chance).each(2, self.options.moments):
            self.counts["images"] += 1
            self.counts["images read"] += 1
            done = next(count for count in range(len(course.ends) - 1, -1, -1) if course.ends[count] <= ran.told[at])
            if held(left, course.trees[done:done + 2]) is None:
                raise Difference("at once: a crash after call %d, when %d replies were written, leaves %s" % (at + 1, done, told_of(left)))

    def failing(self, number: int, name: str, image: bytes, script: List[bytes]) -> None:
        """Each call for the image fails in turn."""
        with tempfile.TemporaryDirectory() as folder:
            self.fail_calls(Shimmed(self.options.program, folder, ["--safe"]), number, name, image, script)

    def fail_calls(self, shimmed: Shimmed, number: int, name: str, image: bytes, script: List[bytes]) -> None:
        try:
            lines = SafeScript(shimmed, image, [line for line in script if line.split()[0] != b"compact"][:8])
            for kind in (*DISK, TORN):
                count = lines.whole.counts["pwrite" if kind == TORN else kind]
                for at in some_of(count, self.options.each):
                    self.counts["failing calls"] += 1
                    self.counts["%s fails: %s" % (NAMES[kind], lines.outcome(kind, at))] += 1
        except Wrong as wrong:
            self.note("calls fail over disc %d, %s" % (number, name), str(wrong))

    def share(self, number: int, step: int) -> int:
        """Every `step`th disc from one on, until there are as many discs and images as each worker owes: how many discs suited."""
        found = failing = 0
        while found * step < self.options.discs or self.counts["images"] * step < self.options.images:
            name, image = drawn_discs.image_of(number)
            state = opened(image)
            if not is_suitable(state):
                self.unsuited(number, name, image)
            else:
                found += 1
                script = self.disc(number, name, image)
                if failing * step < self.options.failing and len(image) < 3 << 20:
                    failing += 1
                    self.failing(number, name, image, script)
                if self.options.whole:
                    print("disc %d, %s: %d images so far, %d failed" % (number, name, self.counts["images"], len(self.failures)), flush=True)
            number += step
        return found

    def all(self) -> bool:
        found, count = 0, self.options.workers
        with concurrent.futures.ProcessPoolExecutor(count) as pool:
            for part in [pool.submit(share_of, self.options, at) for at in range(count)]:
                discs, counts, failures = part.result()
                found += discs
                self.counts.update(counts)
                self.failures += failures
        return self.told(found)

    def unsuited(self, number: int, name: str, image: bytes) -> None:
        """A disc that the safe mode doesn't serve: nothing is done; asked for once a kind of disc."""
        if self.counts["discs that don't suit"] > 40:
            return
        ran = self.recorder.run(image, b"cdir $.Never\n")
        self.counts["discs that don't suit"] += 1
        if (ran.status, ran.text, ran.image) != (NOT_SAFE, "", image):
            self.note("disc %d, %s" % (number, name), "it doesn't suit, and the run ends with status %d and %s" % (ran.status, short([ran.text])))

    def plain(self) -> bool:
        """Lines that are run without the safe mode: whether the looks find out most of them."""
        number = lines = found = 0
        while lines < 3 * self.options.discs:
            image = drawn_discs.image_of(number)[1]
            state, chance = opened(image), random.Random(number)
            drawer, number = change_scripts.Drawer(chance, list(CHANGING)), number + 1
            for _ in range(self.options.commands if is_suitable(state) else 0):
                line = drawer.line(state)
                if not line or line.startswith(b"#") or Command(line).word not in CHANGING or owed_refusal(state, Command(line))[0]:
                    continue
                ran, lines = self.recorder.run(state.data, line + b"\n"), lines + 1
                after = opened(ran.image)
                try:
                    self.crash(state, after, ran, chance)
                except Difference:
                    found += 1
                state = after
        print("safe: crashes of %d of %d lines without the safe mode are found out" % (found, lines))
        return 2 * found > lines

    def told(self, discs: int) -> bool:
        for what, count in sorted(self.counts.items()):
            print("%8d %s" % (count, what))
        print("\n".join(self.failures[:40]))
        print("safe: %d discs, %d images, of which %d read, %d failing calls; %d failed" % (
            discs, self.counts["images"], self.counts["images read"], self.counts["failing calls"], len(self.failures)))
        return not self.failures


def share_of(options: argparse.Namespace, at: int) -> Tuple[int, Counter[str], List[str]]:
    """What one of the workers finds: how many discs suited, its counts, and its failures."""
    with tempfile.TemporaryDirectory() as folder:
        safe = Safe(options, folder)
        return safe.share(at, options.workers), safe.counts, safe.failures


def first_reply(state: State, line: bytes) -> Tuple[str, int, Optional[SafeNeeds]]:
    """The reply to a line, the number of its refusal, and what it needs."""
    c = Command(line)
    number, needs = safe_refusal(state, c)
    if number:
        return WORDS_OF_SPREAD if number == SPREAD else refusal_text(number), number, needs
    return "ok\n" if c.word in WORDS else reading_reply(state, line), number, needs


def held(image: bytes, trees: List[Tree]) -> Optional[int]:
    """Which of the trees the image has; None if none, or if it doesn't open."""
    try:
        tree = tree_of(image)
    except Fault:
        return None
    return next((at for at, one in enumerate(trees) if one == tree), None)


def told_of(image: bytes) -> str:
    try:
        return "another tree, of %d objects" % len(tree_of(image))
    except Fault as fault:
        return str(fault).strip()


class SafeScript(Script):
    """A script in the safe mode, with calls that fail."""

    def torn(self, line: int, image: bytes) -> Optional[str]:
        """The image after a line that broke off: the tree before it or after it, and nothing is written but the map and what was free."""
        before, c = State(self.ends[line - 1].image), Command(self.lines[line - 1])
        number, needs = safe_refusal(before, c)
        if number or needs is None:
            raise Wrong("the image has changed by a line that is refused")
        found = self.tree_left(line, image)
        if found not in (BEFORE, AFTER):
            raise Wrong("line %d leaves %s" % (line, found))
        after = State(image)
        start = needs.shape.map_sector
        free = {sector for zone, first, length in before.holes() for sector in before.new_map.sectors_in(first, length)}
        slack = set(before.new_map.sectors_of[needs.slack[0]]) if needs.slack else set()
        owned = {sector for entry in before.objects.values() for sector in entry.sectors}
        others = changed_sectors(before, after) - set(range(start, start + 2 * needs.shape.zones)) - free - (slack - owned)
        if others:
            raise Wrong("line %d: sectors %s have changed, which weren't free" % (line, sorted(others)[:4]))
        return found


# ---- the worked rows


def wide_disc() -> NewVolume:
    """16 zones; each of the zones 4 to 15 has one hole of 16 bits, no other has one, and the root lies alone in zone 1."""
    size = (16 * 8160 - 480) * 64
    volume = NewVolume(record_bytes(10, 15, 6, 16, 32, 0x301, size, version=1, root_size=2048), True)
    volume.take(2, 8, volume.shape.units(2 * 16 * 1024))
    volume.take(2, 0, volume.shape.units(0xE00))
    volume.take(volume.new_identifier(), 1, 32)
    for zone, runs in enumerate(volume.runs):
        for length in [count for count, owner in runs if owner is None]:
            keeps = 16 if zone >= 4 and length == max(count for count, owner in runs if owner is None) else 0
            while length > keeps:  # lost space, in runs of up to 4096 bits
                part = length - keeps if length - keeps < 4112 else 4096
                volume.take(volume.new_identifier(), zone, part)
                length -= part
    return volume


def row(program: str, folder: str, options: List[str], script: str, wanted: str, image: Optional[bytes] = None) -> Tuple[List[str], bytes]:
    """Runs a row: what differs, and the image that it leaves. Z is a word of zeros; ` / ` ends a line."""
    path = os.path.join(folder, "row.adf")
    if os.path.exists(path):
        os.unlink(path)
    if image is not None:
        with open(path, "wb") as file:
            file.write(image)
    lines = script.replace("Z", "00000000").replace(", ", "\n") + "\n"
    ran = subprocess.run([program, *options, path], input=lines.encode(), stdout=subprocess.PIPE, check=False, timeout=MOST_SECONDS)
    got = ran.stdout.decode("latin-1").rstrip("\n").replace("\n", " / ")
    return ([] if got == wanted else ["%s: wanted %s, got %s" % (script, wanted, got)]), read(path)


def rows(program: str, folder: str) -> Iterator[str]:
    fresh = ["--safe", "--new", "E+"]
    wrong, _ = row(program, folder, fresh, "save $.A Z Z 41, free, save $.B Z Z 42, free", "ok / free 813056 811008 / ok / ok / free 813056 813056 / ok")
    yield from wrong
    _, first = row(program, folder, fresh, "save $.A Z Z 41", "ok")
    ran = Recorder(program, folder, ["--safe"]).run(first, b"save $.B 00000000 00000000 42\n")
    trees = [tree_of(first), tree_of(ran.image)]
    for number, image in Crashes(first, ran.steps, 1024, random.Random(1)).each(400):
        if held(image, trees) is None:
            yield "the second save, stopped after call %d: %s" % (number + 1, told_of(image))
    wide = bytes(wide_disc().image())
    needs = safe_refusal(opened(wide), Command(b"create $.Big 00000000 00000000 10240"))
    yield from [] if needs[0] == SPREAD and needs[1] and len(needs[1].zones) == 13 else ["the wide disc has other zones: %s" % (needs[1] and needs[1].zones)]
    yield from row(program, folder, ["--safe"], "create $.Big Z Z 10240", "error 17 Spread", wide)[0]
    ended = subprocess.run([program, "--safe", "--new", "E", os.path.join(folder, "e.adf")], input=b"", check=False)
    yield from [] if ended.returncode == NOT_SAFE else ["--new E --safe ends with status %d" % ended.returncode]
    script = "cdir $.D, rename $.D $.E, create $.E.F Z Z 0, set $.E.F Z Z R, delete $.E.F, delete $.E, free"
    wrong, image = row(program, folder, fresh, script, "ok / ok / ok / ok / ok / ok / free 815104 811008 / ok")
    yield from wrong
    if not wrong:
        runs = {(start - 0 + 512, length) for zone, start, length, owner in State(image).new_map.runs if owner is None}
        yield from [] if runs == {(528, 32), (576, 6336)} else ["the holes at the end are %s" % sorted(runs)]


def main(words: List[str]) -> bool:
    parser = argparse.ArgumentParser(usage=__doc__, add_help=False)
    parser.add_argument("program")
    for name, value in (("--discs", 30), ("--commands", 12), ("--draws", 3), ("--failing", 3), ("--seed", 1), ("--each", 8), ("--moments", 40),
                        ("--images", 0), ("--workers", 1)):
        parser.add_argument(name, type=int, default=value)
    for name in ("--whole", "--plain"):
        parser.add_argument(name, action="store_true")
    options = parser.parse_args(words)
    if options.whole:
        options.discs, options.commands, options.draws, options.failing, options.moments, options.images = 48, 40, 8, 10, 200, 100000
        options.workers = os.cpu_count() or 1
    if not has_compiler():
        print("safe: left out, no C compiler here (%s)" % compiler()[0])
        return True
    with tempfile.TemporaryDirectory() as folder:
        safe = Safe(options, folder)
        if options.plain:
            return safe.plain()
        safe.failures += ["a row: " + wrong for wrong in rows(os.path.realpath(options.program), folder)]
        return safe.all()


if __name__ == "__main__":
    sys.exit(0 if main(sys.argv[1:]) else 1)
