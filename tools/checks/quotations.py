#!/usr/bin/env python3
# SPDX-License-Identifier: MIT
"""Compares what pages quote of the repository's files with these files, and sees that clauses and edits that they name are there.

usage: tools/run checks/quotations [PAGE...]    docs/PROVED.md and docs/CHANGING.md, if none is named
A quotation is a block between lines of three backticks, the first of which names the file after them, from the top of the
repository. Its lines have to stand in that file one after the other; all may be moved to the left or right by as much. After a line
`...` the next one may stand anywhere below. An edit is named as `CRATE/EDIT`.

Under a heading that names a crate, as `### fc_check, ..`, brackets that begin with a name in backticks name clauses (`ensures`) or laws
of that crate; a field is named as (`FIELD` of `RECORD`), further ones as (`FIELD` of it). Words with a capital are definitions and not looked for.
"""
import os
import re
import sys
from typing import Dict, Iterator, List, Set, Tuple

from tools.checks import sources
from tools.files import TOP

PAGES = ("docs/PROVED.md", "docs/CHANGING.md")
BLOCK = re.compile(r"^```(\S+)\n(.*?)^```$", re.MULTILINE | re.DOTALL)
EDIT = re.compile(r"`(fc_\w+|fcore)/(\w+)`")
CRATE = re.compile(r"\b(fc_[a-z]+|fcore)\b")
BRACKET = re.compile(r"\((`[^()]*)\)")
NAMES = re.compile(r"((?:`[a-z_][\w.]*`(?:,\s+|\s+and\s+)?)+)(?:\s*of\s+((?:`\w+`(?:,\s+|\s+and\s+)?)+|it|each of these))?")

Claim = Tuple[str, bool]


def moved(lines: List[str]) -> List[str]:
    """Lines without the space that all of them begin with."""
    space = min(len(line) - len(line.lstrip()) for line in lines if line.strip())
    return [line[space:].rstrip() for line in lines]


def parts_of(block: str) -> List[List[str]]:
    """The parts between lines `...`."""
    parts: List[List[str]] = [[]]
    for line in block.splitlines():
        if line.strip() == "...":
            parts.append([])
        else:
            parts[-1].append(line)
    return [part for part in parts if part]


def stands_in(block: str, lines: List[str]) -> bool:
    """Whether the parts stand in these lines, each below the one before."""
    begin = 0
    for part in parts_of(block):
        places = (at for at in range(begin, len(lines) - len(part) + 1)
                  if any(lines[at:at + len(part)]) and moved(lines[at:at + len(part)]) == moved(part))
        found = next(places, None)
        if found is None:
            return False
        begin = found + len(part)
    return True


def is_edit(crate: str, name: str) -> bool:
    """Whether a crate has an edit of a name, among those that the gate tries or those that make edits tries."""
    folders = (("crates", crate, "must-fail"), ("tools", "edits", crate))
    return any(os.path.exists(os.path.join(TOP, *folder, name + ".edit")) for folder in folders)


def names_in(text: str) -> List[str]:
    return re.findall(r"`([\w.]+)`", text)


def clauses_of(crates: Set[str]) -> Set[str]:
    """What a name in a bracket may be: a clause, `function.clause`, or a law, which is a function without a body."""
    found: Set[str] = set()
    for crate in crates:
        for one in sources.functions(crate):
            found.add(one.name)
            found.update(one.ensures)
            found.update("%s.%s" % (one.name, clause) for clause in one.ensures)
    return found


def fields() -> Dict[str, Set[str]]:
    found: Dict[str, Set[str]] = {}
    for crate in sources.crates():
        for record in sources.records(crate):
            found.setdefault(record.name, set()).update(record.fields)
    return found


def named(page: str) -> Iterator[Claim]:
    """The clauses, laws and fields that brackets name under the headings of crates, and words before a colon."""
    every, records = fields(), [""]
    for section in re.split(r"^(?=#{2,3} )", BLOCK.sub("", page), flags=re.MULTILINE):
        head, _, body = section.partition("\n")
        crates = set(CRATE.findall(head)) & set(sources.crates()) if head.startswith("### ") else set()
        clauses = clauses_of(crates)
        for bracket in BRACKET.findall(body) if crates else ():
            for listed, of in NAMES.findall(bracket):
                records = names_in(of) or records
                for name in names_in(listed):
                    if of:
                        holds = all(name in every.get(one, ()) for one in records)
                        yield "%s: the field %s of %s" % (head[4:], name, ", ".join(records)), holds
                    else:
                        yield "%s: the clause %s" % (head[4:], name), name in clauses
        for listed in re.findall(r"^- ((?:`[a-z_]+`(?:, )?)+):", body, re.MULTILINE) if crates else ():
            for name in names_in(listed):
                yield "%s: the clause %s" % (head[4:], name), name in clauses


def claims(page: str) -> Iterator[Claim]:
    """What a page says of other files, and whether it is so."""
    for name, block in BLOCK.findall(page):
        with open(os.path.join(TOP, name)) as file:
            yield "a quotation of " + name, stands_in(block, file.read().splitlines())
    for crate, name in EDIT.findall(page):
        yield "the edit %s/%s" % (crate, name), is_edit(crate, name)
    yield from named(page)


def main(paths: List[str]) -> bool:
    count = failed = 0
    for path in paths or [os.path.join(TOP, page) for page in PAGES]:
        with open(path) as page:
            for claim, holds in claims(page.read()):
                count, failed = count + 1, failed + (not holds)
                if not holds:
                    print("%s: %s isn't there, or isn't so" % (path, claim))
    print("quotations: %d quotations, edits and clauses, %d failed" % (count, failed))
    return count > 0 and failed == 0


if __name__ == "__main__":
    sys.exit(0 if main(sys.argv[1:]) else 1)
