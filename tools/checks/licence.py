#!/usr/bin/env python3
# SPDX-License-Identifier: MIT
"""Sees that README.md, the man pages and every script name the licence in one of their first lines.

usage: tools/run checks/licence [--write]    with --write, the line is put into the files that lack it
"""
import os
import sys
from typing import Dict, Iterator, List

from tools.files import TOP

LINE = "SPDX-License-Identifier: MIT"
FORMS: Dict[str, str] = {".md": "<!-- %s -->", ".py": "# %s", ".sh": "# %s", ".c": "/* %s */", "": "# %s"}
MAN = '.\\" %s'
FOLDERS = ("man", "scripts", "tools")
PLAIN = ("scripts/fcdisc", "tools/run", ".ci/run", "Makefile")  # scripts whose names have no ending


def form_of(path: str) -> str:
    """How the line is written in a file; nothing for a file that needs none."""
    ending = os.path.splitext(path)[1]
    if path.startswith("man/"):
        return MAN
    if ending == "":
        return FORMS[""] if path in PLAIN or path.startswith("scripts/completion/") else ""
    return FORMS.get(ending, "")


def files() -> Iterator[str]:
    yield from ("README.md", ".ci/run", "Makefile")
    for folder in FOLDERS:
        for place, folders, names in os.walk(os.path.join(TOP, folder)):
            folders[:] = sorted(one for one in folders if one != "__pycache__")
            for name in sorted(names):
                yield os.path.relpath(os.path.join(place, name), TOP)


def has_line(text: str) -> bool:
    return any(LINE in line for line in text.split("\n")[:4])


def with_line(text: str, form: str) -> str:
    """The line comes first, but after the line that names an interpreter."""
    first, end, rest = text.partition("\n")
    line = form % LINE + "\n"
    return first + end + line + rest if first.startswith("#!") else line + text


def main(words: List[str]) -> bool:
    seen, missing = 0, []
    for path in files():
        form = form_of(path)
        if form:
            seen += 1
            with open(os.path.join(TOP, path)) as file:
                text = file.read()
            if not has_line(text):
                missing.append(path)
                if words == ["--write"]:
                    with open(os.path.join(TOP, path), "w") as file:
                        file.write(with_line(text, form))
    for path in missing:
        print("%s: %s" % (path, "the line is put in" if words else "no line '%s': tools/run checks/licence --write" % LINE))
    print("licence: %d files, %d without the line" % (seen, len(missing)))
    return not missing or words == ["--write"]


if __name__ == "__main__":
    sys.exit(0 if main(sys.argv[1:]) else 1)
