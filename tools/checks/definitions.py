#!/usr/bin/env python3
# SPDX-License-Identifier: MIT
"""Makes docs/DEFINITIONS.md from the comments above definitions, but for its first page, which is written by hand.

usage: tools/run checks/definitions --write
       tools/run checks/definitions --check    whether the page is as it would be written; names differ that don't
Crates come in the order of crates.txt, files by name. A definition is listed if another file cites it; proofs don't count. The first
sentence of its comment says what it is. Rows of values that were worked out are left out.
"""
import os
import re
import sys
from typing import Iterator, List, NamedTuple, Set, Tuple

from tools.checks import sources
from tools.files import TOP

PAGE = os.path.join(TOP, "docs", "DEFINITIONS.md")
MARK = "<!-- What follows is made by: tools/run checks/definitions --write -->\n"
DEFINITION = re.compile(r"((?:^--(?: .*)?\n)*)^(?:abbrev |unfoldable |pub |record |data |mutual )+([\w'◌]\S*)", re.MULTILINE)
USE = re.compile(r"\buse (?:Rattle\.)?((?:\w+(?:\.|::))+)\{([^}]*)\}")

Cited = Set[Tuple[str, str, str]]  # crate, path of the file below specs, name


class File(NamedTuple):
    path: str  # below specs, as Walk or effects.Steps
    comment: str
    definitions: List[Tuple[str, str]]  # name, and what its comment says first


def first_sentence(comment: str) -> str:
    """The comment's first sentence, as one line."""
    text = " ".join(line[2:].strip() for line in comment.split("\n") if not line.startswith("-- ----")).strip()
    return re.split(r"(?<=[.:])\s+(?=[A-Z])", text)[0].rstrip(".:")


def cited() -> Cited:
    """What files cite of other files: each names what it uses."""
    found: Cited = set()
    for crate in sources.crates():
        for folder, ending in (("specs", ".antt"), ("src", ".rt")):
            for _, text in sources.files(crate, folder, ending):
                for place, names in USE.findall(text):
                    parts = re.split(r"\.|::", place.strip(".:"))
                    home = crate if parts[0] == "crate" else parts[0]
                    for name in names.split(","):
                        found.add((home, ".".join(parts[2:] if len(parts) > 1 and parts[1] == "specs" else parts[1:]), name.strip()))
    return found


def spec_files(crate: str, used: Cited) -> Iterator[File]:
    for path, text in sources.files(crate, "specs", ".antt"):
        inner = path.split("/specs/", 1)[1][:-len(".antt")].replace("/", ".")
        if inner.startswith("declared") or inner.endswith("Rows"):
            continue
        head = re.match(r"((?:--.*\n)+)(?=use |\n|pub mod|infix)", text)
        found = [(name, first_sentence(comment)) for comment, name in DEFINITION.findall(text) if (crate, inner, name) in used]
        if found:
            yield File(inner, first_sentence(head[1]) if head else "", found)


def order() -> List[str]:
    with open(os.path.join(TOP, "crates.txt")) as file:
        listed = re.findall(r"^(\w+):", file.read(), re.MULTILINE)
    return listed + [crate for crate in sources.crates() if crate not in listed]


def crate_comment(crate: str) -> str:
    folder = os.path.join(TOP, "crates", crate, "src")
    path = next((os.path.join(folder, name) for name in ("lib.rt", "main.rt") if os.path.exists(os.path.join(folder, name))), "")
    if not os.path.exists(path):
        return ""
    with open(path) as file:
        lines = [line[3:].strip() for line in file if line.startswith("//!")]
    return re.split(r"(?<=\.)\s", " ".join(lines))[0].rstrip(".")


def made() -> str:
    """The part of the page that is made."""
    used, lines = cited(), []
    for crate in order():
        files = list(spec_files(crate, used))
        if not files:
            continue
        lines += ["", "## %s" % crate, ""]
        comment = crate_comment(crate)
        lines += [comment + ".", ""] if comment else []
        for file in files:
            lines.append("**%s**%s" % (file.path, ": " + file.comment if file.comment else ""))
            lines.append("")
            lines += ["- `%s`%s" % (name, ": " + told if told else "") for name, told in file.definitions]
            lines.append("")
        lines.pop()
    return "\n".join(lines) + "\n"


def main(words: List[str]) -> bool:
    with open(PAGE) as file:
        by_hand, mark, before = file.read().partition(MARK)
    after = made()
    count = after.count("\n- `")
    if words == ["--write"]:
        with open(PAGE, "w") as file:
            file.write(by_hand + MARK + after)
        print("definitions: %d written" % count)
        return True
    if mark and before == after:
        print("definitions: %d, all as in the sources" % count)
        return True
    old, new = set(before.split("\n")), set(after.split("\n"))
    print("\n".join("- " + line for line in sorted(old - new)[:10]))
    print("\n".join("+ " + line for line in sorted(new - old)[:10]))
    print("definitions: docs/DEFINITIONS.md isn't as the sources say: tools/run checks/definitions --write")
    return False


if __name__ == "__main__":
    if sys.argv[1:] not in (["--check"], ["--write"]):
        sys.exit(__doc__)
    sys.exit(0 if main(sys.argv[1:]) else 1)
