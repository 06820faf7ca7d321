# SPDX-License-Identifier: MIT
"""A script that was run at once: its replies and its tree, which follow from `answer` of fc_model alone, and what has to be true of the
image at its end.

Which holes are taken is open, so refusals for lack of space are accepted; all others have to come, and so have the replies of reading
lines.
"""
from __future__ import annotations

import re
from typing import Dict, List, Optional, Tuple

from tools.reference.change_answer import CHANGING, WORDS, Command, refusal_of, tree_after
from tools.reference.change_state import Key, State, changed_sectors, key_of
from tools.reference.filecore import spelled_path
from tools.reference.read_image import Disc, lines_of, reply


class Node:
    """An object of a tree."""

    def __init__(self, path: Key, node: Tuple[int, int, int, Optional[bytes]]) -> None:
        self.path = list(path)
        self.entries: List[Node] = []
        self.name = path[-1] if path else b"$"
        self.attributes, self.load, self.execution, self.content = node
        self.length = len(self.content) if self.content is not None else 0

    def is_directory(self) -> bool:
        return self.content is None


class TreeDisc:
    """What the reader's replies need of a disc."""

    find = Disc.find

    def __init__(self, root: Node, directories: List[Node]) -> None:
        self.root, self.directories = root, directories

    @staticmethod
    def content(entry: Node) -> Optional[bytes]:
        return entry.content


class TreeState:
    """A tree with the shape of a state, without an image. The numbers of holes are those at the beginning."""

    is_directory, is_writable, new_directory_size = State.is_directory, State.is_writable, State.new_directory_size

    def __init__(self, first: State, tree: Dict[Key, Tuple[int, int, int, Optional[bytes]]]) -> None:
        self.first, self.form, self.is_new, self.map, self.sector = first, first.form, first.is_new, first.map, first.sector
        self.nodes = tree
        self.objects = {key_of(path): Node(path, tree[path]) for path in sorted(tree, key=len)}
        for key, node in self.objects.items():
            if key:
                self.objects[key[:-1]].entries.append(node)
        self.heads = {key: None for key, node in self.objects.items() if node.is_directory()}
        self.disc = TreeDisc(self.objects[()], [self.objects[key] for key in self.heads])

    @staticmethod
    def of(state: State) -> TreeState:
        nodes = state.tree().items()
        return TreeState(state, {path: (*node[:3], None if node[3] is None else state.content(node[3])) for path, node in nodes})

    new_map, old_map = State.new_map, State.old_map

    def with_tree(self, tree: Dict[Key, Tuple[int, int, int, Optional[bytes]]]) -> TreeState:
        return TreeState(self.first, tree)

    def tree(self) -> Dict[Key, Tuple[int, int, int, Optional[bytes]]]:
        return dict(self.nodes)

    def holes(self) -> List[Tuple[int, int, int]]:
        return self.first.holes()

    def old_holes(self) -> List[Tuple[int, int]]:
        return self.first.old_holes()


def next_reply(text: str, wanted: str) -> str:
    """The reply at the front of a text: the wanted one, or the first line."""
    return wanted if wanted and text.startswith(wanted) else text[:text.find("\n") + 1]


def is_space_refusal(line: str) -> bool:
    match = re.fullmatch(r"error (1[2-6]) ([A-Za-z]+)\n", line)
    return bool(match) and WORDS[int(match[1])] == match[2]


def follow(state: TreeState, script: List[bytes], text: str, read_only: bool) -> Tuple[TreeState, bool, bool, str]:
    """The tree after the script, whether something was changed, whether a line was refused, and the first wrong reply."""
    changed = refused = False
    for line in lines_of(b"".join(one + b"\n" for one in script)):
        c = Command(line)
        number = refusal_of(state, c, read_only)
        is_change = c.word in CHANGING and not c.fault and not number
        if number:
            wanted = "error %d %s\n" % (number, WORDS[number])
        elif is_change or c.word == "compact":
            wanted = "ok\n"
        elif c.word in ("free", "check"):
            wanted = re.match(r"[^\n]*\nok\n|", text)[0]
        else:
            wanted = reply(state.disc, c.word, c.paths, read_only)
        there = next_reply(text, wanted)
        text = text[len(there):]
        if there != wanted and not (is_change and is_space_refusal(there)):
            words = line.decode("latin-1")[:200], there[:200], wanted[:200]
            return state, changed, refused, "%s: the reply is %r instead of %r" % words
        refused = refused or bool(re.fullmatch(r"error [0-9]+ [A-Za-z]+\n", there))
        changed = changed or there == "ok\n" and (is_change or c.word == "compact")
        if is_change and there == "ok\n":
            state = state.with_tree(tree_after(state, c))
    return state, changed, refused, "more text than replies: %r" % text[:200] if text else ""


def tree_faults(wanted: TreeState, found: TreeState) -> List[str]:
    odd, both = set(wanted.nodes) ^ set(found.nodes), set(wanted.nodes) & set(found.nodes)
    faults = ["%s is missing, or should not be there" % spelled_path(path) for path in odd]
    return sorted(faults + ["%s is another object" % spelled_path(path) for path in both if wanted.nodes[path] != found.nodes[path]])


def touching(state: State) -> int:
    """How many holes touch the one before them; a zone begins a new row."""
    if not state.is_new:
        return sum(sum(one) == other[0] for one, other in zip(state.old_holes(), state.old_holes()[1:]))
    holes = state.holes()
    return sum(one[0] == other[0] and one[1] + one[2] == other[1] for one, other in zip(holes, holes[1:]))


def layout_faults(before: State, after: State, changed: bool) -> List[str]:
    """What holds of any script that doesn't reclaim or compact."""
    found = []
    if before.idle_sectors() - after.idle_sectors():
        found.append("lost space has gone")
    if after.idle_sectors() - before.idle_sectors():
        found.append("space was lost")
    if before.idle_sectors() & changed_sectors(before, after):
        found.append("bytes of lost space have changed")
    if touching(after) > touching(before):
        found.append("more holes touch than before")
    if before.is_new and changed and len(set(after.copies())) != 1:
        found.append("the two copies of the map differ")
    if before.data[before.disc_bytes():] != after.data[before.disc_bytes():]:
        found.append("bytes past the disc's end have changed")
    if not changed and before.data != after.data:
        found.append("nothing was to change, and the image has")
    return found


def batch_differences(before: State, after: State, script: List[bytes], status: int, text: str, read_only: bool) -> List[str]:
    """All that is wrong with a script that was run at once."""
    end, changed, refused, wrong = follow(TreeState.of(before), script, text, read_only)
    if wrong:
        return [wrong]
    found = [] if status == refused else ["status %d instead of %d" % (status, refused)]
    return found + tree_faults(end, TreeState.of(after)) + layout_faults(before, after, changed)
