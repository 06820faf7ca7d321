# SPDX-License-Identifier: MIT
"""A disc's tree, a line for each object."""
from __future__ import annotations

from datetime import datetime, timedelta
from typing import Dict, Iterator, Mapping, Optional, Sequence, Union

from . import names
from .description import Description
from .messages import counted, shown
from .program import Entry
from .tree import Tree

# The types that old discs are full of, by Acorn's names
TYPES: Dict[int, str] = {
    0x3FB: "Archive", 0x690: "Clear", 0x691: "Degas", 0x695: "GIF", 0x69C: "BMP", 0xADF: "PDF",
    0xAE9: "Alarms", 0xAFF: "DrawFile", 0xB60: "PNG", 0xBBC: "BBC ROM", 0xBC5: "Impress", 0xC85: "JPEG",
    0xDDC: "Archive", 0xDEA: "DXF", 0xDFE: "CSV", 0xFAF: "HTML", 0xFC6: "PrntDefn", 0xFD7: "TaskObey",
    0xFEA: "Desktop", 0xFEB: "Obey", 0xFEC: "Template", 0xFED: "Palette", 0xFE4: "DOS", 0xFF2: "Config",
    0xFF4: "Printout", 0xFF5: "PoScript", 0xFF6: "Font", 0xFF7: "BBC font", 0xFF8: "Absolute", 0xFF9: "Sprite",
    0xFFA: "Module", 0xFFB: "BASIC", 0xFFC: "Utility", 0xFFD: "Data", 0xFFE: "Command", 0xFFF: "Text",
}
ACCESS = ((4, "L"), (2, "W"), (1, "R"), (0, "/"), (0x20, "w"), (0x10, "r"))


def kind(entry: Entry) -> str:
    """A file's type and its name, or its load and exec words."""
    if entry.is_directory:
        return "directory"
    number = names.type_of(entry.load)
    if number is None:
        return "%08x-%08x" % (entry.load, entry.execution)
    return ("%03x %s" % (number, TYPES.get(number, ""))).rstrip()


EPOCH = datetime(1900, 1, 1)


def date_of(entry: Entry) -> Optional[datetime]:
    """The time that load and exec words tell, which is in UTC."""
    if entry.is_directory and not entry.load or not names.has_type(entry.load):
        return None
    return EPOCH + timedelta(milliseconds=10 * ((entry.load & 0xFF) << 32 | entry.execution))


def day(entry: Entry) -> str:
    """The date as `1993-05-04`, or nothing: a time of 0 is none."""
    date = date_of(entry)
    return date.strftime("%Y-%m-%d") if date and date > EPOCH else ""


def access(entry: Entry) -> str:
    """Locked, and what the owner and others may do, as RISC OS shows it."""
    return "".join(letter for bit, letter in ACCESS if bit == 0 or entry.attributes & bit)


def minute(entry: Entry) -> str:
    """The time as `1993-05-04 10:11`, or nothing."""
    date = date_of(entry)
    return date.strftime("%Y-%m-%d %H:%M") if date and date > EPOCH else ""


def row(entry: Entry, depth: int) -> str:
    """A line. The name is spelled as in a path, so that it can be copied from here, and can't upset a terminal."""
    size = "" if entry.is_directory else str(entry.length)
    told = kind(entry), size, access(entry), minute(entry)
    return "%-17s %10s  %-6s  %-16s  %s%s" % (*told, "  " * depth, names.spelled(entry.name))


def heading(disc: Description) -> str:
    """Format, disc name, and the boot option where it isn't `none`."""
    text = "hard disc%s of %.0f MB" % (disc.form[2:], disc.size / 1e6) if disc.form.startswith("HD") else "%s disc" % disc.form
    if disc.name:
        text += ' "%s"' % shown(disc.name)
    return text + (", boot option " + disc.boots if disc.boot_option else "")


Json = Union[None, bool, int, float, str, Sequence["Json"], Mapping[str, "Json"]]
Row = Dict[str, Json]


def disc_row(disc: Description) -> Row:
    return {"format": disc.form, "disc_name": disc.name, "boot_option": disc.boots, "size": disc.size}


def object_row(entry: Entry) -> Row:
    """An object's fields, as the JSON of `list` and the rows of `catalogue` have them."""
    number, date = names.type_of(entry.load), date_of(entry)
    told = "directory" if entry.is_directory else None if number is None else "%03x" % number
    return {"path": names.spelled_path(entry.path), "type": told,
            "load": "%08x" % entry.load, "exec": "%08x" % entry.execution, "length": entry.length, "access": access(entry),
            "date": date.isoformat(timespec="milliseconds") if date else None}


def tree_row(tree: Tree, disc: Description) -> Row:
    return {"image": shown(tree.image.path), **disc_row(disc), "objects": [object_row(entry) for entry in tree.walk()]}


def rows(tree: Tree, head: str = "") -> Iterator[str]:
    if head:
        yield head
    files = directories = size = 0
    for entry in tree.walk():
        yield row(entry, len(entry.path) - len(tree.start) - 1)
        files += not entry.is_directory
        directories += entry.is_directory
        size += entry.length
    yield totals(files, directories, size)


def totals(files: int, directories: int, size: int) -> str:
    return "%s, %s, %s" % (counted(files, "file"), counted(directories, "directory"), counted(size, "byte"))
