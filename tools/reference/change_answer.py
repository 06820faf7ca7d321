# SPDX-License-Identifier: MIT
"""What has to be answered to one command over an image: the refusal, the tree afterwards, and the space that is needed.

The refusals 1 to 11 and the tree are `answer` of fc_model, the refusals 12 to 16 and the needs are `short` of fc_image::effects.
"""
from __future__ import annotations

from typing import TYPE_CHECKING, Dict, List, Optional, Set, Tuple, Union

from tools.reference.change_state import Key, State, key_of, same_name, size_for
from tools.reference.filecore import BIG_LIMIT, Geometry, head_space, name_space
from tools.reference.read_image import Entry, read_line

if TYPE_CHECKING:
    from tools.reference.change_batch import TreeState

WORDS = ["", "BadCommand", "BadName", "NotFound", "NotDirectory", "IsDirectory", "Exists", "RootRefused", "IntoItself", "Locked",
         "NotEmpty", "ReadOnly", "DirFull", "IdsFull", "DiscFull", "CompactionRequired", "MapFull"]
CHANGING = ("save", "create", "cdir", "delete", "rename", "set")
MAKING = ("save", "create", "cdir")
LOCKED = 4
ACCESS = 7
PLACES = {"D": 77, "L": 47}
OLD_HOLES = 82


class Command:
    """A line in parts. `fault` is the number of a refusal that the line alone owes."""

    def __init__(self, line: bytes) -> None:
        word, self.paths, refused = read_line(line)
        self.line = line
        self.fault = 0 if word else int(refused.split()[1])
        self.word = word or line.decode("latin-1").split(" ")[0]
        if self.fault:
            return
        rest = line.decode().split(" ")[1 + len(self.paths):]
        self.load, self.execution = (int(text, 16) for text in rest[:2]) if len(rest) == 3 else (0, 0)
        if word == "save":
            self.bytes = b"" if rest[2] == "-" else bytes.fromhex(rest[2])
        elif word == "create":
            self.length = int(rest[2])
        elif word == "set":
            self.access = sum(1 << "RWL".index(letter) for letter in rest[2] if letter != "-")

    def is_making_file(self) -> bool:
        return self.word in ("save", "create")

    def file_length(self) -> int:
        return len(self.bytes) if self.word == "save" else self.length

    def key(self) -> Key:
        return key_of(self.paths[0])

    def target(self) -> Key:
        """The key of the object afterwards."""
        return key_of(self.paths[-1])


# ---- refusals 1 to 11


def absence(state: Union[TreeState, State], key: Key, whole: bool) -> Set[int]:
    """3 or 4 for a path that has to be there; of a path that isn't whole only the proper prefixes count."""
    for size in range(len(key) + 1 if whole else len(key)):
        if not state.is_directory(key[:size]):
            if key[:size] not in state.objects:
                return {3}
            return {4} if size < len(key) else set()
    return set()


def lookup_refusals(state: Union[TreeState, State], c: Command) -> Set[int]:
    """NotFound and NotDirectory: the first path is judged first."""
    first = absence(state, c.key(), c.word not in MAKING)
    if first or len(c.paths) == 1:
        return first
    return absence(state, c.target(), False)


def name_refusals(state: Union[TreeState, State], c: Command) -> Set[int]:
    if c.word in MAKING + ("rename",) and c.paths[-1] and not state.is_writable(c.paths[-1][-1]):
        return {2}
    return set()


def object_refusals(state: Union[TreeState, State], c: Command) -> Set[int]:
    """The refusals 4 to 10 that hang on what is at the paths."""
    key, target = c.key(), c.target()
    found: Set[int] = set()
    there = state.objects.get(key)
    if c.word == "cat" and there and not there.is_directory():
        found.add(4)
    if c.word in ("load", "digest", "save", "create") and there and there.is_directory():
        found.add(5)
    if c.word == "cdir" and there or c.word == "rename" and target in state.objects and target != key:
        found.add(6)
    if c.word in ("delete", "set", "rename") and key == ():
        found.add(7)
    if c.word == "rename" and len(key) < len(target) and target[:len(key)] == key:
        found.add(8)
    if c.word in ("delete", "rename", "save", "create") and there and there.attributes & LOCKED:
        found.add(9)
    if c.word == "delete" and there and there.is_directory() and there.entries:
        found.add(10)
    return found


def refusal_of(state: Union[TreeState, State], c: Command, read_only: bool = False) -> int:
    """The number of the refusal by `answer`, or 0."""
    if c.fault:
        return c.fault
    found = {11} if read_only and c.word in CHANGING + ("compact",) else set()
    if c.paths:
        found |= name_refusals(state, c) | lookup_refusals(state, c) | object_refusals(state, c)
    return min(found, default=0)


# ---- the tree


def spelled_target(state: Union[TreeState, State], c: Command) -> Key:
    """The path of the object afterwards: the names of its holder as they are, and the last name as the command spells it."""
    key = c.target()
    if c.word in ("save", "create", "set") and key in state.objects:
        return tuple(state.objects[key].path)
    return tuple(state.objects[key[:-1]].path) + (c.paths[-1][-1],)


def tree_after(state: Union[TreeState, State],
               c: Command) -> Dict[Key, Tuple[int, int, int, Optional[Union[bytes, Entry]]]]:
    """The tree by `answer`, for a command that isn't refused. A file's content is its bytes, or its entry before the command."""
    tree = state.tree()
    path = spelled_target(state, c) if c.word != "delete" else tuple(state.objects[c.key()].path)
    if c.word == "delete":
        del tree[path]
    elif c.is_making_file():
        content = c.bytes if c.word == "save" else bytes(c.length)
        tree[path] = (tree[path][0] if path in tree else 3, c.load, c.execution, content)
    elif c.word == "cdir":
        tree[path] = (8, 0, 0, None)
    elif c.word == "set":
        old = tree[path]
        tree[path] = (old[0] & ~ACCESS | c.access, c.load, c.execution, old[3])
    else:
        source = tuple(state.objects[c.key()].path)
        tree = {path + one[len(source):] if one[:len(source)] == source else one: node for one, node in tree.items()}
    return tree


# ---- space


def low_byte(shape: Geometry, room: int, length: int) -> int:
    """The low byte of a new file in so many bytes of new space: 1 if another share unit is left after it."""
    end = -(-length // shape.share) * shape.share
    return int(end + shape.share <= room and end // shape.share <= 254)


class Needs:
    """What a command needs that `answer` accepts, as `short` has it: bytes, slack, growth; `refusal` is the number by `short`, or 0."""

    def __init__(self, state: State, c: Command) -> None:
        self.state, self.c = state, c
        self.copied = self.is_copied()
        self.length = self.new_length()
        self.slack = self.find_slack() if state.is_new and c.is_making_file() else None
        self.grown: Optional[Key] = None  # the directory that grows
        self.size = 0  # its new one
        self.alone, self.growth = False, 0  # `growth`: bytes of new space for it
        self.full = False
        self.judge_directory()
        self.refusal = 12 if self.full else self.space_refusal()

    def new_length(self) -> int:
        if self.c.is_making_file():
            return self.c.file_length()
        if self.c.word == "cdir":
            return self.state.new_directory_size()
        return self.state.objects[self.c.key()].length if self.copied else 0

    def is_copied(self) -> bool:
        """A file that shares its identifier and is taken to another directory."""
        if self.c.word != "rename" or not self.state.is_new or self.c.key()[:-1] == self.c.target()[:-1]:
            return False
        entry = self.state.objects[self.c.key()]
        return not entry.is_directory() and bool(entry.sectors) and len(self.state.owners[entry.address // 256]) > 1

    # slack

    def may_share(self, owners: List[Union[Key, str]], holder: Key) -> bool:
        return all(not isinstance(key, str) and key[:-1] == holder and not self.state.is_directory(key)
                   and self.state.objects[key].address % 256 for key in owners)

    def find_slack(self) -> Optional[Tuple[int, int]]:
        """The least identifier, and the least low byte in it, at which the file fits; None if there is none."""
        if self.length == 0:
            return None
        shape, wanted = self.state.new_map.shape, -(-self.length // self.state.sector)
        for identifier, owners in sorted(self.state.owners.items()):
            if not self.may_share(owners, self.c.target()[:-1]):
                continue
            sectors = self.state.new_map.sectors_of[identifier]
            owned = {sector for key in owners if not isinstance(key, str) for sector in self.state.objects[key].sectors}
            for low in range(1, 256):
                skipped = (low - 1) * shape.share // self.state.sector
                part = sectors[skipped:skipped + wanted]
                if len(part) < wanted:
                    break
                if owned.isdisjoint(part):
                    return identifier, low
        return None

    # directories

    def gaining(self) -> Optional[Tuple[Key, List[bytes]]]:
        """The key of the directory that gets a name, and the names that it then has; None if none gets one."""
        c, objects = self.c, self.state.objects
        holder = c.target()[:-1]
        if c.word in MAKING and c.target() not in objects or c.word == "rename" and c.key()[:-1] != holder:
            return holder, [entry.name for entry in objects[holder].entries] + [c.paths[-1][-1]]
        if c.word == "rename" and objects[c.key()].name != c.paths[-1][-1]:
            kept = [entry.name for entry in objects[holder].entries if not same_name(entry.name, objects[c.key()].name)]
            return holder, kept + [c.paths[-1][-1]]
        return None

    def judge_directory(self) -> None:
        gaining = self.gaining()
        if gaining is None:
            return
        key, names = gaining
        if self.state.form != "big":
            self.full = len(names) > PLACES[self.state.form]
            return
        head = self.state.heads[key]
        space = head_space(head.form, head.name)
        heaps = (len(head.heap) + name_space(names[-1]), sum(name_space(name) for name in names))
        size = min(size_for(space, len(names), heap) for heap in heaps)
        self.full = size > BIG_LIMIT
        if size > head.size:
            self.grown, self.size = key, size
            self.judge_growth(key)

    def judge_growth(self, grown: Key) -> None:
        entry = self.state.objects[grown]
        identifier, low = divmod(entry.address, 256)
        owners = self.state.owners[identifier]
        self.alone = len(owners) == 1 and low <= 1
        sectors = self.state.map.sectors_at(entry.address, self.size)
        others = {sector for key in owners if key != grown and not isinstance(key, str) for sector in self.state.objects[key].sectors}
        has_room = identifier != 2 and sectors is not None and others.isdisjoint(sectors)
        self.growth = 0 if has_room else self.size

    # refusals 13 to 16

    def object_bits(self) -> int:
        return self.state.new_map.shape.units(self.length) if self.length and not self.slack else 0

    def growth_bits(self) -> int:
        return self.state.new_map.shape.units(self.growth) if self.growth else 0

    def space_refusal(self) -> int:
        if not self.state.is_new:
            return self.old_refusal()
        identifiers = bool(self.object_bits()) + bool(self.growth and not self.alone)
        if len(self.state.free_identifiers()) < identifiers:
            return 13
        both = self.object_bits() and self.growth_bits()
        need = self.object_bits() + self.growth_bits() + (2 * self.state.new_map.shape.least if both else 0)
        return 14 if sum(length for zone, start, length in self.state.holes()) < need else 0

    def old_refusal(self) -> int:
        holes, wanted = self.state.old_holes(), -(-self.length // self.state.sector)
        if wanted and sum(length for start, length in holes) < wanted:
            return 14
        if wanted and all(length < wanted for start, length in holes):
            return 15
        return 16 if self.gives_back() and len(self.old_holes_after()) > OLD_HOLES else 0

    def gives_back(self) -> Optional[Entry]:
        """On an old map, the object whose sectors go."""
        entry = self.state.objects.get(self.c.key()) if self.c.word in ("delete", "save", "create") else None
        return entry if entry and entry.sectors else None

    def old_place(self) -> int:
        """The first sector of the first hole that is long enough."""
        wanted = -(-self.length // self.state.sector)
        return next(start for start, length in self.state.old_holes() if length >= wanted)

    def old_holes_after(self) -> List[Tuple[int, int]]:
        """On an old map, first sector and sectors of each hole after the command."""
        holes, wanted = self.state.old_holes(), -(-self.length // self.state.sector)
        if wanted:
            at = next(at for at, (start, length) in enumerate(holes) if length >= wanted)
            start, length = holes[at]
            holes[at:at + 1] = [(start + wanted, length - wanted)] if length > wanted else []
        gone = self.gives_back()
        return given(holes, (gone.sectors[0], len(gone.sectors))) if gone else holes


def given(holes: List[Tuple[int, int]], run: Tuple[int, int]) -> List[Tuple[int, int]]:
    """The holes with one more run, joined with the hole that ends at its start and that which begins at its end."""
    start, length = run
    before = next((hole for hole in reversed(holes) if sum(hole) == start), None)
    after = next((hole for hole in holes if hole[0] == start + length), None)
    kept = [hole for hole in holes if hole not in (before, after)]
    if before:
        start, length = before[0], length + before[1]
    return sorted(kept + [(start, length + (after[1] if after else 0))])


def owed_refusal(state: State, c: Command, read_only: bool = False) -> Tuple[int, Optional[Needs]]:
    """The number of the refusal of any kind, and the needs of a changing command that isn't refused by `answer`."""
    number = refusal_of(state, c, read_only)
    if number or c.word not in CHANGING:
        return number, None
    needs = Needs(state, c)
    return needs.refusal, needs
