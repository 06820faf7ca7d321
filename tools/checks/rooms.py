#!/usr/bin/env python3
# SPDX-License-Identifier: MIT
"""Compares docs/CHANGING.md with the places in which a change's sibling stands: runs the search that a section gives.

usage: tools/run checks/rooms [SECTION]    a part of a section's heading
The search is the section's line that begins with `$ grep`. Every crate, and every file of tools, scripts and man, that it finds has to be
named in the section; and each that is named has to be among those, unless it is named with a `+` after it, as `fc_image+`. A file of a
crate has to be in the crate that is named before it, as `fc_tree (src/walk.rt, specs/Walk.antt, proofs/WalkLemmas)`.
"""
import fnmatch
import os
import re
import subprocess
import sys
from typing import Dict, Iterator, List, Set, Tuple

from tools.checks import sources
from tools.files import TOP

PAGE = os.path.join(TOP, "docs", "CHANGING.md")
SEARCH = re.compile(r"^    \$ (grep .*)$", re.MULTILINE)
CRATE = re.compile(r"\bfc_[a-z]+\b|\bfcore\b(?=/| \(src)")
IN_CRATE = re.compile(r"\b(fc_[a-z]+|fcore)\b|((?:src|specs|proofs|must-fail)/[\w/.]*\w|\b\w+\.(?:antt|rt)\b|\b\w+Lemmas\b)")
FILE = re.compile(r"(?<![\w/])((?:\w+/)*[\w*]+\.(?:py|sh|bash|c|1|5))(?!\w|\.\w)")
FOLDERS = ("tools", "scripts", "man")
LEFT_OUT = ("tools/checks/bounds.txt", "tools/edits/")  # made from the sources; wrong pieces of them


def sections() -> Iterator[Tuple[str, str, str]]:
    """Heading, search and text of each section that has a search."""
    with open(PAGE) as file:
        for section in re.split(r"^(?=## )", file.read(), flags=re.MULTILINE):
            search = SEARCH.search(section)
            if search:
                yield section.partition("\n")[0][3:], search[1], section[:search.start()] + section[search.end():]


def every_file() -> List[str]:
    return [os.path.relpath(os.path.join(place, name), TOP) for folder in FOLDERS
            for place, _, names in os.walk(os.path.join(TOP, folder)) for name in names]


def room(path: str) -> str:
    """A crate's name, or the path of a file outside of crates."""
    parts = path.split("/")
    return parts[1] if parts[0] == "crates" else path


def rooms_found(search: str) -> Set[str]:
    ran = subprocess.run(["bash", "-c", search], cwd=TOP, capture_output=True, text=True, check=False)
    return {room(line) for line in ran.stdout.split("\n") if line and "__pycache__" not in line and not line.startswith(LEFT_OUT)}


def rooms_named(text: str, files: List[str]) -> Dict[str, Set[str]]:
    """What a text names: a crate as itself, the end of a path, in which * stands for any letters, as all files that it fits."""
    found = {name: {name} for name in CRATE.findall(text) if name in sources.crates()}
    for name in FILE.findall(text):
        found[name] = {path for path in files if fnmatch.fnmatchcase("/" + path, "*/" + name)}
    return found


def missing_files(text: str) -> Iterator[str]:
    """Files that a paragraph or a row names, and that aren't in the crate that it named last."""
    for part in re.split(r"\n(?=\|)|\n\n", text):
        crate = ""
        for named, path in IN_CRATE.findall(part):
            crate = named or crate
            if path and crate in sources.crates() and not is_in_crate(crate, path):
                yield "there is no %s in %s" % (path, crate)


def is_in_crate(crate: str, path: str) -> bool:
    """Whether a file or a folder of the crate has the path, or ends in it; the ending may be left out."""
    found = [path for place, folders, names in os.walk(os.path.join(TOP, "crates", crate))
             for path in (os.path.relpath(os.path.join(place, name), TOP) for name in folders + names)]
    return any(one.endswith(("/" + path, "/" + path + ".antt", "/" + path + ".rt")) for one in found)


def differences(search: str, text: str, files: List[str]) -> Iterator[str]:
    found, named = rooms_found(search), rooms_named(text, files)
    besides: Set[str] = set().union(*rooms_named(" ".join(re.findall(r"([\w/.]+)\+", text)), files).values())
    if not found:
        yield "the search finds nothing: " + search
    for missing in sorted(found - set().union(*named.values())):
        yield "the sibling stands in %s too" % missing
    for name, places in sorted(named.items()):
        if not places:
            yield "there is no file %s" % name
        elif not places & (found | besides):
            yield "%s is named, and the sibling doesn't stand there" % name
    yield from missing_files(text)


def main(words: List[str]) -> bool:
    files, count, wrong = every_file(), 0, 0
    for heading, search, text in sections():
        if words and words[0] not in heading:
            continue
        count += 1
        for difference in differences(search, text, files):
            wrong += 1
            print("docs/CHANGING.md, %s: %s" % (heading, difference))
    print("rooms: %d sections, %d differences" % (count, wrong))
    return count > 0 and not wrong


if __name__ == "__main__":
    sys.exit(0 if main(sys.argv[1:]) else 1)
