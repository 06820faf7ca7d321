# SPDX-License-Identifier: MIT
"""What a conversion has to answer, and what it may leave: by docs/FORMAT.md and the objects of its source alone.

Names, attributes and counts of entries that don't fit follow from the source. Where a conversion says that there is no room, the disc
that it left has to hold the objects before that one, and to have no room for it by the rules of change_answer.py.
"""
from __future__ import annotations

from typing import Dict, Iterator, List, Optional, Tuple

from tools.reference.change_answer import WORDS, Command, owed_refusal
from tools.reference.change_state import Key, State, size_for
from tools.reference.filecore import head_space, name_space, spelled_path
from tools.reference.read_image import Fault

FORMATS = ("E", "F", "D", "L", "E+", "F+")
SIZES = {"E": 819200, "F": 1638400, "D": 819200, "L": 655360, "E+": 819200, "F+": 1638400}
PLACES = {"E": 77, "F": 77, "D": 77, "L": 47}
LIMITS = {"E": 256, "F": 256, "D": 256, "L": 1024}
LARGEST = 4194304  # bytes of a big directory
SPECIAL = b"$&%@\\^:.#*\"|"
Object = Tuple[bytes, int, int, int, Optional[bytes]]  # name, attributes, words, and the bytes of a file
Objects = Dict[Key, Object]
Answer = Tuple[int, str]  # status and text


def objects_of(state: State) -> Objects:
    return {key: (entry.path[-1] if key else b"$", entry.attributes, entry.load, entry.execution,
                  None if not key or entry.is_directory() else bytes(state.content(entry))) for key, entry in state.objects.items()}


# ---- what doesn't fit


def is_writable(name: bytes, form: str) -> bool:
    most, high = (255, True) if form.endswith("+") else (10, form != "L")
    return 0 < len(name) <= most and all((33 <= c <= 126 and c not in SPECIAL) or (high and c >= 128) for c in name)


def holds(form: str, own: bytes, names: List[bytes]) -> bool:
    """Whether a directory of that name has places for entries of these names."""
    if form in PLACES:
        return len(names) <= PLACES[form]
    return size_for(head_space(1, own), len(names), sum(name_space(name) for name in names)) <= LARGEST


def misfits(objects: Objects, form: str) -> Iterator[Tuple[str, Key]]:
    """What doesn't fit: names and attributes by rising paths, then the entries of directories."""
    for key in sorted(objects):
        if key and not is_writable(objects[key][0], form):
            yield "Name", key
        if key and objects[key][1] >= LIMITS.get(form, 1 << 32):
            yield "Attributes", key
    names: Dict[Key, List[bytes]] = {key: [] for key in objects}
    for key in objects:
        if key:
            names[key[:-1]].append(objects[key][0])
    for key in sorted(objects):
        if objects[key][4] is None and not holds(form, objects[key][0], names[key]):
            yield "Entries", key


def spelled(objects: Objects, key: Key) -> str:
    return spelled_path([objects[key[:count]][0] for count in range(1, len(key) + 1)])


# ---- what is answered and left


def differences(objects: Objects, form: str, answer: Answer, target: Optional[bytes]) -> Iterator[str]:
    """What is wrong of the answer, and of the disc that was left (None if there is none)."""
    misfit = next(misfits(objects, form), None)
    if misfit:
        wanted = (1, "unfit %s %s\n" % (misfit[0], spelled(objects, misfit[1])))
        if answer != wanted or target is not None:
            yield "%s came with %s disc, and not %s without one" % (answer, "no" if target is None else "a", wanted)
        return
    if target is None:
        yield "%s came without a disc" % (answer,)
        return
    if len(target) != SIZES[form]:
        yield "the disc has %d bytes" % len(target)
    try:
        state = State(target)
    except Fault as fault:
        yield "%s came with a disc that isn't whole: %s" % (answer, fault)
        return
    files = sum(one[4] is not None for one in objects.values())
    if answer == (0, "converted files %d dirs %d\n" % (files, len(objects) - files)):
        yield from compared(objects, objects_of(state))
    else:
        yield from without_room(objects, state, answer)


def compared(wanted: Objects, found: Objects) -> Iterator[str]:
    """The first objects that aren't alike, without their bytes."""
    keys = [key for key in sorted({**wanted, **found}) if key and wanted.get(key) != found.get(key)]
    yield from ("%s is %s, and not %s" % (key, found.get(key, ())[:4], wanted.get(key, ())[:4]) for key in keys[:3])


def without_room(objects: Objects, state: State, answer: Answer) -> Iterator[str]:
    found, keys = objects_of(state), [key for key in sorted(objects) if key]
    done = [key for key in keys if key in found]
    if len(found) != len(done) + 1 or len(done) == len(keys) or done != keys[:len(done)]:
        yield "%s came, and the disc holds other objects than those before one" % (answer,)
        return
    yield from compared({key: objects[key] for key in done}, {key: found[key] for key in done})
    key = keys[len(done)]
    path, content = spelled(objects, key), objects[key][4]
    line = "cdir %s" % path if content is None else "create %s 00000000 00000000 %d" % (path, len(content))
    refusal = owed_refusal(state, Command(line.encode("latin-1")))[0]
    wanted = (8, "no-room %d %s %s\n" % (refusal, WORDS[refusal], path))
    if answer != wanted:
        yield "%s came, and not %s" % (answer, wanted)
