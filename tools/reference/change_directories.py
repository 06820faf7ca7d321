# SPDX-License-Identifier: MIT
"""What a changing command may do to directories: their entries, in their order, and what a rewritten head says (`Steady` of
fc_image::effects).

If the rules leave a choice (a heap packed or appended to, the padding of names that were there, the last mark of a small
directory, the length of a small directory in an entry that a command names), each allowed form passes.
"""
from __future__ import annotations

from typing import TYPE_CHECKING, List, Optional, Tuple

from tools.reference.change_state import Head, Key, State, name_in, same_name, size_for
from tools.reference.filecore import folded, head_space, name_space, padded, spelled_path
from tools.reference.read_image import Entry

if TYPE_CHECKING:
    from tools.reference.change_effects import Change

NEW_WORDS = {"D": b"Nick", "L": b"Hugo", "big": b"SBPr"}


class Line:
    """An entry with all its fields. `lengths`: those that it may have, if there is a choice; `lasts` likewise."""

    def __init__(self, entry: Entry, last: int) -> None:
        self.name, self.attributes, self.load, self.execution = entry.name, entry.attributes, entry.load, entry.execution
        self.address, self.lengths, self.lasts = entry.address, {entry.length}, {last}

    def differences(self, other: Line) -> List[str]:
        """The fields in which the entry that is there, `other`, isn't this one."""
        fields = [field for field in ("name", "attributes", "load", "execution", "address") if getattr(self, field) != getattr(other, field)]
        fields += ["length"] if not other.lengths <= self.lengths else []
        fields += ["last byte"] if not other.lasts <= self.lasts else []
        return fields


def lines_of(state: State, key: Key) -> List[Line]:
    """The entries of a directory as lines."""
    return [Line(*one) for one in zip(state.objects[key].entries, state.heads[key].lasts)]


# ---- entries


def named_line(change: Change) -> Line:
    """The entry of the named object as it has to be; its address is judged elsewhere, and the tree has shown its words."""
    after, made = change.after, change.made()
    line = Line(made, 0)
    source = change.before.objects.get(change.c.key()) if change.c.word != "cdir" else None
    if source is not None:
        holder = change.c.key()[:-1]
        old = change.before.heads[holder].lasts[change.before.objects[holder].entries.index(source)]
        line.lasts = {old, 0} if holder != change.c.target()[:-1] else {old}
    if made.is_directory():
        size = after.new_directory_size()
        line.lengths = {size} if source is None else {source.length} | ({size} if after.form != "big" else set())
    return line


def place_for(lines: List[Line], name: bytes) -> int:
    return next((at for at, line in enumerate(lines) if folded(line.name) > folded(name)), len(lines))


def wanted_lines(change: Change, key: Key) -> List[Line]:
    """The entries that the directory has to have; `key` is its place before the command."""
    c, lines = change.c, lines_of(change.before, key)
    grown = change.needs.grown
    for line in lines:
        if grown and grown[:-1] == key and folded(line.name) == grown[-1]:
            line.address, line.lengths = change.grown().address, {change.needs.size}
    source, target = c.key(), c.target()
    if c.word in ("delete", "rename") and source[:-1] == key:
        lines = [line for line in lines if folded(line.name) != source[-1]]
    if c.word == "delete" or target[:-1] != key:
        return lines
    line = named_line(change)
    there = next((at for at, other in enumerate(lines) if same_name(other.name, line.name)), None)
    if there is not None:
        lines[there] = line
    else:
        lines.insert(place_for(lines, line.name), line)
    return lines


def entry_differences(change: Change, key: Key, now: Key) -> List[str]:
    wanted, there = wanted_lines(change, key), lines_of(change.after, now)
    path = spelled_path(now)
    if [line.name for line in wanted] != [line.name for line in there]:
        at = next((n for n, (one, other) in enumerate(zip(wanted, there)) if one.name != other.name), min(len(wanted), len(there)))
        names = [lines[at].name if at < len(lines) else None for lines in (wanted, there)]
        return ["%s: entry %d of %d is %s instead of %s" % (path, at, len(there), names[1], names[0])]
    return ["%s: the entry %s has another %s" % (path, one.name, " and ".join(one.differences(other)))
            for one, other in zip(wanted, there) if one.differences(other)]


# ---- which directories may change


def may_change(change: Change, key: Key) -> bool:
    """The directory holds a named path's last name, is named, holds a grown directory, or lies in one with a new address."""
    c, grown = change.c, change.needs.grown
    holders = {path[:-1] for path in (c.key(), c.target()) if path}
    if key in holders or c.word in ("rename", "set") and key == c.key():
        return True
    return grown is not None and (grown[:-1] == key and grown != () or key[:-1] == grown and key != () and change.has_new_address())


def has_to_name_holder(change: Change, key: Key) -> bool:
    """A renamed directory, and one in a directory with a new address, has its holder's address as its parent."""
    grown = change.needs.grown
    return (change.c.word == "rename" and key == change.c.key()
            or grown is not None and change.has_new_address() and key[:-1] == grown and key != ())


# ---- heads


def new_name(change: Change, key: Key) -> Optional[bytes]:
    """The name that a renamed directory gets, or None."""
    return change.c.paths[1][-1] if change.c.word == "rename" and key == change.c.key() else None


def small_name_fault(change: Change, key: Key, old: Head, new: Head) -> List[str]:
    """A renamed directory has its new name; another keeps its field, or has the same name padded anew."""
    name = new_name(change, key)
    allowed = [padded(name, 10)] if name else [old.name, padded(name_in(old.name), 10)]
    return [] if new.name in allowed else ["the name in its head is %s" % new.name]


def small_differences(change: Change, key: Key, old: Head, new: Head) -> List[str]:
    found = [field for field in ("word", "title", "reserved") if getattr(old, field) != getattr(new, field)]
    found = ["its %s has changed" % field for field in found] + small_name_fault(change, key, old, new)
    if new.mark not in (0, old.mark):
        found.append("its last mark is %d" % new.mark)
    if change.after.form == "L" and new.check:
        found.append("its check is %d" % new.check)
    return found


def heap_sizes(change: Change, key: Key, old: Head, count: int) -> Tuple[int, int, bool]:
    """The least and the greatest heap, and whether only these two will do."""
    names = [entry.name for entry in change.after.objects[change.key_after(key)].entries]
    packed, kept = sum(name_space(name) for name in names), len(old.heap)
    gaining = change.needs.gaining()
    if gaining and gaining[0] == key:
        return packed, kept + name_space(change.c.paths[-1][-1]), True
    return packed, kept, count == len(names)


def heap_fault(change: Change, key: Key, old: Head, new: Head, count: int) -> List[str]:
    least, most, only = heap_sizes(change, key, old, count)
    size = len(new.heap)
    if size in (least, most) or not only and min(least, most) <= size <= max(least, most):
        return []
    return ["its heap has %d bytes, and not %d or %d" % (size, least, most)]


def head_name_fault(change: Change, key: Key, old: Head, new: Head, entries: List[Entry]) -> List[str]:
    """A renamed directory has its new name in its head if there is space for it beside its heap, whichever heap is written."""
    name, kept = new_name(change, key), [old.name]
    if name:
        packed = sum(name_space(entry.name) for entry in entries)
        fits = [size_for(head_space(old.form, name), len(entries), heap) <= old.size for heap in (packed, len(old.heap))]
        kept = [name] if all(fits) else [name, old.name] if any(fits) else [old.name]
    found = [] if new.name in kept else ["the name in its head is %s" % new.name]
    form = old.form if head_space(1, new.name) != head_space(2, new.name) else 1
    if new.form != form:
        found.append("the name in its head has form %d instead of %d" % (new.form, form))
    if new.name != old.name and new.padding != padded(new.name, head_space(new.form, new.name))[len(new.name):]:
        found.append("the name in its head is followed by %s" % new.padding)
    return found


def big_differences(change: Change, key: Key, old: Head, new: Head) -> List[str]:
    size = change.needs.size if key == change.needs.grown else old.size
    found = [] if new.size == size else ["it has %d bytes instead of %d" % (new.size, size)]
    found += [] if new.reserved == old.reserved else ["its reserved bytes have changed"]
    found += heap_fault(change, key, old, new, len(change.before.objects[key].entries))
    return found + head_name_fault(change, key, old, new, change.before.objects[key].entries)


def rewritten_differences(change: Change, key: Key, now: Key) -> List[str]:
    """What a directory owes whose bytes have changed."""
    old, new = change.before.heads[key], change.after.heads[now]
    holder = change.after.objects[now].holder
    found = [] if may_change(change, key) else ["its bytes have changed"]
    if new.parent != holder.address:
        found.append("its parent is %x instead of %x" % (new.parent, holder.address))
    if new.sequence != (old.sequence + 1) % 256:
        found.append("its sequence is %d after %d" % (new.sequence, old.sequence))
    found += big_differences(change, key, old, new) if change.after.form == "big" else small_differences(change, key, old, new)
    return ["%s: %s" % (spelled_path(now), one) for one in found]


def kept_differences(change: Change, key: Key, now: Key) -> List[str]:
    """What a directory owes whose bytes are as they were."""
    old, found = change.before.heads[key], []
    if has_to_name_holder(change, key):
        holder = change.after.objects[now].holder
        if old.parent != holder.address:
            found.append("its parent is left at %x instead of %x" % (old.parent, holder.address))
        name = new_name(change, key)
        if name and change.after.form != "big" and name_in(old.name) != name:
            found.append("the name in its head is left")
        if name and change.after.form == "big":
            found += head_name_fault(change, key, old, old, change.before.objects[key].entries)
    return ["%s: %s" % (spelled_path(now), one) for one in found]


def new_entry_spelling(change: Change) -> List[str]:
    """A name that is new is followed by 13 and bytes 0."""
    c, after = change.c, change.after
    holder = c.target()[:-1]
    if c.word in ("delete", "set") or c.word != "rename" and c.target() in change.before.objects:
        return []
    at = next(n for n, entry in enumerate(after.objects[holder].entries) if folded(entry.name) == c.target()[-1])
    name, head = c.paths[-1][-1], after.heads[holder]
    if after.form == "big":
        is_same = c.word == "rename" and change.before.objects[c.key()].name == name and c.key()[:-1] == holder
        field = head.heap[head.places[at]:head.places[at] + name_space(name)]
        return [] if is_same or field == padded(name, name_space(name)) else ["the new name in the heap is %s" % field]
    raw = bytes(byte & 127 for byte in head.raw_names[at]) if after.form == "L" else head.raw_names[at]
    is_kept = c.word == "rename" and change.before.objects[c.key()].name == name
    return [] if is_kept or raw == padded(name, 10) else ["the new name is followed by %s" % raw[len(name):]]


def new_directory(change: Change) -> List[str]:
    """What `cdir` owes beside the tree."""
    if change.c.word != "cdir":
        return []
    key, name = change.c.target(), change.c.paths[0][-1]
    head, found = change.after.heads[key], []
    if head.sequence or head.word != NEW_WORDS[change.after.form]:
        found.append("sequence %d and word %s" % (head.sequence, head.word))
    if head.parent != change.after.objects[key].holder.address:
        found.append("the parent %x" % head.parent)
    fields = [(head.name, 10), (head.title, 19)] if change.after.form != "big" else [(head.name + head.padding, head_space(1, name))]
    found += ["the name %s" % field for field, size in fields if field != padded(name, size)]
    if change.after.form == "big" and (head.form != 1 or head.size != 2048 or head.heap):
        found.append("form %d, %d bytes, a heap of %d" % (head.form, head.size, len(head.heap)))
    return ["the new directory has " + one for one in found]


def differences(change: Change) -> List[str]:
    """All that is wrong with the directories; the tree is right."""
    found = []
    for key in change.before.heads:
        now = change.key_after(key)
        if now is None:
            continue
        found += entry_differences(change, key, now)
        old, new = (state.content(state.objects[one]) for state, one in ((change.before, key), (change.after, now)))
        found += kept_differences(change, key, now) if old == new else rewritten_differences(change, key, now)
    return found + new_entry_spelling(change) + new_directory(change)
