#!/usr/bin/env python3
# SPDX-License-Identifier: MIT
"""Makes the lists of faults and refusals in the pages from their table, scripts/fcdisc_lib/meanings.py.

usage: tools/run checks/faults --write
       tools/run checks/faults --check    whether the pages are as they would be written
Each list stands between two comments that name this tool. The numbers and words are also compared with tools/reference/filecore.py.
"""
import os
import re
import sys
from typing import Callable, Dict, Iterator, List

from tools.files import TOP
from tools.reference import filecore

sys.path.insert(0, os.path.join(TOP, "scripts"))
sys.dont_write_bytecode = True

from fcdisc_lib.meanings import DIRECTORY_FAULTS, FAULTS, REFUSALS  # noqa: E402


def sentence(text: str) -> str:
    return text[0].upper() + text[1:] + ("" if text.endswith(".") else ".")


def roff(text: str) -> Iterator[str]:
    """A text as lines of mdoc: a sentence each."""
    for line in re.split(r"(?<=\.) (?=[A-Z])", text):
        yield ("\\&" if line[0] in ".'" else "") + line


def item(words: str) -> str:
    """The words of a fault as arguments of .It: those that stand for something in small letters, as arguments."""
    first, *rest = words.split(" ")
    return ".It Li %s%s" % (first, " Ar " + " ".join(rest).lower() if rest else "")


def fault_items() -> List[str]:
    """The list of filecore(5)."""
    lines = [".Bl -tag -width Ds"]
    for name, fault in FAULTS.items():
        words = fault.words.split()
        meaning = fault.meaning.format(*("\\fI%s\\fR" % word.lower() for word in words)) if words else fault.meaning
        lines.append(item(" ".join([name, *words])))
        lines += roff(sentence(meaning))
        lines += roff(sentence(fault.advice))
        lines += roff(sentence(fault.repair))
        if name == "Directory":
            lines += directory_items()
    return [*lines, ".El"]


def directory_items() -> Iterator[str]:
    yield "Entries count from 0:"
    yield ".Bl -tag -width Sequence -compact"
    for name, (meaning, more, words) in DIRECTORY_FAULTS.items():
        yield item(" ".join([name, *words.split()]))
        yield (meaning.format(*("\\fI%s\\fR" % word.lower() for word in words.split())) + more).rstrip(".")
    yield ".El"


def refusal_items() -> List[str]:
    """The list of fcore(1)."""
    items = ["error %d %s" % (refusal.number, name) for name, refusal in REFUSALS.items()]
    lines = ['.Bl -tag -width "%s"' % max(items, key=len)]
    for words, refusal in zip(items, REFUSALS.values()):
        lines.append(".It Li " + words)
        lines += roff(sentence(refusal.meaning))
    return [*lines, ".El"]


def order_rows() -> List[str]:
    """The table of docs/FORMAT.md: a row for each test, with the faults that it can find."""
    rows: Dict[str, List[str]] = {}
    for name, fault in FAULTS.items():
        rows.setdefault("%s | %s" % (fault.test, fault.heading), []).append("`%s`" % " ".join([name, *fault.words.split()]))
    return ["| Test | Heading | Fault |", "|---|---|---|", *("| %s | %s |" % (test, ", ".join(names)) for test, names in rows.items())]


PAGES: Dict[str, Callable[[], List[str]]] = {"man/filecore.5": fault_items, "man/fcore.1": refusal_items, "docs/FORMAT.md": order_rows}
BEGIN, END = "made by tools/run checks/%s --write", "end of what checks/%s makes"
COMMENTS = {".md": "<!-- %s -->", ".bash": "    # %s"}  # others are man pages


def with_list(page: str, text: str, lines: List[str], tool: str = "faults") -> str:
    """The page with the lines between its two comments, which name the tool."""
    comment = COMMENTS.get(os.path.splitext(page)[1], '.\\" %s')
    begin, end = comment % BEGIN % tool + "\n", comment % END % tool + "\n"
    head, found, rest = text.partition(begin)
    before, closed, tail = rest.partition(end)
    if not found or not closed:
        sys.exit("%s has no lines %s and %s" % (page, begin.strip(), end.strip()))
    blank = "\n" if page.endswith(".md") else ""
    return head + begin + blank + "".join(line + "\n" for line in lines) + blank + end + tail


def wrong_numbers() -> List[str]:
    """Where the table and tools/reference/filecore.py, which is written by itself, have other numbers or words."""
    known = {text for text in vars(filecore).values() if isinstance(text, str) and text.startswith("error ")}
    ours = {"error %d %s\n" % (refusal.number, name) for name, refusal in REFUSALS.items()}
    return ["another refusal in reference/filecore.py: " + text.strip() for text in sorted(known - ours)]


def main(words: List[str]) -> bool:
    wrong = wrong_numbers()
    for page, make in PAGES.items():
        path = os.path.join(TOP, page)
        with open(path) as file:
            before = file.read()
        after = with_list(page, before, make())
        if before != after and words == ["--write"]:
            with open(path, "w") as file:
                file.write(after)
            print("%s is written" % page)
        elif before != after:
            wrong.append("%s isn't as the table says: tools/run checks/faults --write" % page)
    print("\n".join([*wrong, "faults: %d faults, %d refusals, %d differences" % (len(FAULTS), len(REFUSALS), len(wrong))]))
    return not wrong


if __name__ == "__main__":
    if sys.argv[1:] not in (["--check"], ["--write"]):
        sys.exit(__doc__)
    sys.exit(0 if main(sys.argv[1:]) else 1)
