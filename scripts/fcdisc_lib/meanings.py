# SPDX-License-Identifier: MIT
"""The table of faults and refusals: what fcore's lines say, what they mean, and what to do.

fcdisc says it in these words, and `tools/run checks/faults --write` makes of it the lists of man/filecore.5 and man/fcore.1 and the table
"Order of tests" of docs/FORMAT.md. Faults stand in the order in which they are looked for.
"""
from __future__ import annotations

from typing import Dict, NamedTuple, Tuple


class Fault(NamedTuple):
    """A fault of an image: a row of the table."""

    words: str  # what follows the fault's own word in fcore's line
    meaning: str  # with the line's words in place of {0} and {1}
    advice: str  # what to do, for whoever has the disc
    repair: str  # what else can be done to a copy of the image, with docs/FORMAT.md beside it
    test: str  # what has to hold, for docs/FORMAT.md
    heading: str  # where docs/FORMAT.md has it


WALK = ("the root, then each directory in the order in which they are found", "Walk")

FAULTS: Dict[str, Fault] = {
    "NoKind": Fault(
        "", "no FileCore disc begins here",
        "see that the file is an image of an Acorn FileCore disc, byte by byte and not packed; if it is one, read the disc's "
        "first 4096 bytes again",
        "There is no valid boot block, no valid map of one zone and no valid old map. Bytes have to be in the order of disc "
        "addresses; take a header of 512 bytes away (fcdisc strip). Copy a device into a file first: a pipe or a device isn't "
        "opened, and counts as an image without bytes.",
        "the image is of one of the four kinds", "Kinds"),
    "Short": Fault(
        "NEED HAVE", "it has {1} bytes, and its disc {0}",
        "copy the disc again; a file that is only made longer may open, but what is missing can have been anywhere in it, and "
        "then files are wrong",
        "If only the end is missing, truncate gives a copy the right length, with bytes 0. If a track is missing in the middle, all "
        "that follows is in the wrong place: insert as many bytes there.",
        "the image has as many bytes as its disc", "Kinds"),
    "Copies": Fault(
        "A B",
        "neither copy of the map is sound: the first wrong zone is {0} in one copy and {1} in the other (the number of zones, "
        "where only their sum is wrong)",
        "read the map's sectors again; zeros in a zone mean a sector that was never read; zones that are right in one copy can "
        "be put together in a copy of the image",
        "If each zone is right in at least one copy, build a whole copy from the right zones.",
        "new maps: one copy of the map is sound", "Two copies"),
    "Differs": Fault(
        "OFFSET", "two descriptions of the disc, of boot block and map or of the map's two copies, differ at byte {0}",
        "read their sectors again; else one is left over from another formatting, and the right one has to take its place",
        "Copy the right disc record over the other, and set its check.",
        "new maps: the map's record agrees with the kind's record", "Two copies"),
    "Bad": Fault(
        "OFFSET",
        "what the map says of the root directory can't be (byte {0} of the disc's description: 12 is its address, 48 its size)",
        "read the map's sectors again; else find the root directory and put its address or size there",
        "A root directory begins with a byte and Hugo or Nick, or has SBPr at byte 4. Write its address or size, and set the check.",
        "new maps: the map's root is valid", "Two copies"),
    "Zone": Fault(
        "Z BIT", "zone {0} of the map has no right piece of space at bit {1}",
        "read the map's sectors again and look at the other copy of the map: it may be whole; zeros in a zone mean a sector that "
        "was never read",
        "No fragment and no hole begins at this bit of the zone's sector, where one has to. Zeros pass the zone's check, so fcore may "
        "use the worse copy. If the other copy has the zone whole, copy it; else repair it from the directories.",
        "new maps: each zone, from zone 0: its runs, then its holes", "Runs and holes"),
    "Hole": Fault(
        "INDEX", "hole {0} of the list of free space can't be",
        "read the map's sectors again; else correct the list: space that it leaves out is lost, but no file is harmed",
        "Counted from 0, the hole is empty, not on a sector, out of order, on the map or outside the disc; or the list ends inside "
        "it, or after the 82nd.",
        "old maps: each hole, in order", "Old map"),
    "Place": Fault(
        "PATH", "{0} has no space of its own on the disc",
        "its entry or the map is damaged: read the sectors of both again; without the entry the rest of the disc opens",
        "The object's address and length don't lie within the space that is allocated to it.", *WALK),
    "Overlap": Fault(
        "PATH", "{0} lies where something else lies",
        "one of the two entries is wrong: compare both files; without the wrong entry the disc opens",
        "It overlaps a sector of the map, of the boot block, of a hole of an old map or of an earlier object.", *WALK),
    "Directory": Fault(
        "PATH FAULT", "directory {0} is damaged: {1}", "read its sectors again from the disc",
        "If the ends differ or the check is wrong, a write was cut off or sectors are lost. An L image with Magic in another directory "
        "than the root is probably interleaved: fcdisc adl.", *WALK),
    "MapPlace": Fault(
        "SECTOR", "the disc's map or boot block (sector {0}) counts as free or as a file's",
        "write nothing to this disc: a program that did would ruin it; its files are best taken from another copy",
        "In the map, allocate that space to identifier 2.",
        "new maps: map and boot block are in space of their own", "Walk"),
}

# What a directory's fault means, with the entry's number in place of {0}; what to do besides; the words of its line
DIRECTORY_FAULTS: Dict[str, Tuple[str, str, str]] = {
    "Magic": ("the words at its two ends are wrong", "", ""),
    "Sequence": ("its two ends have different numbers, as after a write that was cut off", "", ""),
    "Size": ("its size can't be", "", ""),
    "Check": ("its check byte is wrong", "", ""),
    "BadEntry": (
        "entry {0} has a name that can't be", "; else change that name in a copy of the image, with a new check", "N"),
    "Twin": (
        "entry {0} has the name of one before it",
        "; else change one of the names in a copy of the image, with a new check", "N"),
}


class Refusal(NamedTuple):
    """Why fcore refuses a line: a row of the table."""

    number: int
    meaning: str  # for scripts
    words: str  # for whoever uses fcdisc


REFUSALS: Dict[str, Refusal] = {
    "BadCommand": Refusal(1, "the line is no command", ""),
    "BadName": Refusal(2, "a path is malformed, or the disc can't have such a name", ""),
    "NotFound": Refusal(3, "there is no such object", "there is no such object on the disc"),
    "NotDirectory": Refusal(4, "a file where a directory is needed", "a file stands where a directory has to"),
    "IsDirectory": Refusal(5, "a directory where a file is needed", "a directory has its name"),
    "Exists": Refusal(6, "of cdir and rename: there is such an object already", "there is something of this name on the disc already"),
    "RootRefused": Refusal(7, "the root is neither deleted, renamed nor set", "the root directory stays as it is"),
    "IntoItself": Refusal(8, "a directory isn't moved into itself", "a directory can't be moved into itself"),
    "Locked": Refusal(9, "of delete, rename, save and create: the object is locked", "it is locked: use access first"),
    "NotEmpty": Refusal(10, "of delete: the directory is not empty", "there is something in the directory: use rm -r"),
    "ReadOnly": Refusal(11, "a change with --read-only", "the disc is only read"),
    "DirFull": Refusal(
        12, "a directory has no place for the name: 77 entries, on an L disc 47, in a big directory 4,194,304 bytes",
        "the directory is full"),
    "IdsFull": Refusal(13, "too few identifiers of the new map are free", "the disc has no room for another object"),
    "DiscFull": Refusal(14, "there is not enough free space", "the disc is full"),
    "CompactionRequired": Refusal(
        15, "no hole of the old map is long enough; after compact there may be one",
        "no piece of the disc's free space is long enough: use compact first"),
    "MapFull": Refusal(
        16, "of delete, save and create: the old map has no room for another hole", "the list of free space is full: use compact first"),
    "Spread": Refusal(
        17, "with --safe: more than nine zones of the map would change at once", "more than nine zones of the map would change at once: "
        "--no-safe does that, but not whole or not at all"),
    "NoHostFile": Refusal(18, "of put: the host has no file of that name", "the file is no longer there"),
    "HostTooLong": Refusal(19, "of put: the host's file has more than 4,294,967,295 bytes", "it has more than 4,294,967,295 bytes"),
    "HostExists": Refusal(20, "of get: the host has a file of that name", "there is a file of its name here already"),
    "NotNewMap": Refusal(
        21, "of reclaim: the disc has an old map", "it has an old map, and space that nothing owns can be found on new maps alone"),
}
