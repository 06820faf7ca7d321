# SPDX-License-Identifier: MIT
"""The two readers of images against each other, and against the table of tools/images/table.py."""
import hashlib
from typing import List

from tools.checks.selection import Suite, shortened
from tools.images import table
from tools.images.script_cases import Case
from tools.reference import format_reader, read_image


def script_of(disc: format_reader.Disc) -> bytes:
    """Every question that the reader of tools/reference/read_image.py answers: counts, listings, digests."""
    lines = ["check", "free"] + ["cat " + one["path"] for one in disc.directories] + ["digest " + one["path"] for one in disc.files]
    return "".join(one + "\n" for one in lines).encode()


def replies_of(disc: format_reader.Disc) -> str:
    replies = [disc.counts()]
    for directory in disc.directories:
        for entry in sorted(directory["entries"], key=lambda one: format_reader.upper(one["name"])):
            replies.append(format_reader.line(entry)[len(directory["path"]) + 1:] + "\n")
        replies.append("ok\n")
    replies += [hashlib.sha256(disc.content(one)).hexdigest() + "\nok\n" for one in disc.files]
    return "".join(replies)


def image_differences(data: bytes) -> List[str]:
    """What the reader of docs/FORMAT.md and the other one say of an image."""
    try:
        disc = format_reader.Disc(data)
        mine, script = replies_of(disc), script_of(disc)
    except format_reader.Bad as bad:
        mine, script = "bad-image %s\n" % " ".join(map(str, bad.args)), b"check\n"
    other = read_image.answer(data, script)[1]
    return [] if mine == other else ["format_reader says", *shortened(mine), "read_image says", *shortened(other)]


def readers(suite: Suite) -> None:
    for name, data in table.table()[0].items():
        if suite.wants(name):
            suite.note(name, image_differences(bytes(data)))


def case_differences(case: Case, data: bytes) -> List[str]:
    status, answer = read_image.answer(data, case.script, "--read-only" in case.words)
    if (status, answer) == (case.status, case.answer):
        return []
    return ["the reader says %d" % status, *shortened(answer), "the table %d" % case.status, *shortened(case.answer)]


def images(suite: Suite) -> None:
    """The table against the reader, where a run is over an image that is there; and bytes of fresh volumes that are known."""
    files, cases = table.table()
    for case in cases:
        if case.status != 2 and case.image() in files and suite.wants(case.name):
            suite.note(case.name, case_differences(case, bytes(files[case.image()])))
    for form in table.KNOWN_BYTES:
        if suite.wants("fresh-" + form):
            suite.note("fresh-" + form, table.fresh_differences(form))
