#!/usr/bin/env python3
# SPDX-License-Identifier: MIT
"""Compares the jobs of fcdisc and their options with the completion for bash, which is made from them, and with README and man page.

usage: tools/run checks/jobs --write
       tools/run checks/jobs --check    whether the completion is as it would be written; and whether each job has its row and its examples
"""
import argparse
import os
import re
import sys
from typing import Dict, Iterator, List, Tuple

from tools.checks.faults import with_list
from tools.files import TOP, read

sys.path.insert(0, os.path.join(TOP, "scripts"))
from fcdisc_lib import command_line  # noqa: E402
from fcdisc_lib.common_words import FORMATS  # noqa: E402

COMPLETION = "scripts/completion/fcdisc.bash"
# What has to stand in a page for each job; one is tried after the other name of the job
PAGES = {"README.md": r"`fcdisc %s\b", "man/fcdisc.1": r"^\$ fcdisc %s\b", "tools/checks/bare.sh": r"\bfcdisc %s\b"}
SYNOPSIS, LISTED = r"^\.Cm (\w+ \| )?%s\b", r"^\.It Cm %s\b"


def parsers(job: str = "") -> Dict[str, argparse.ArgumentParser]:
    """The jobs by their names; of a group of them, if one is named."""
    (added,) = (action for action in command_line.parser(job)._actions if isinstance(action, argparse._SubParsersAction))
    return dict(added.choices)


def names() -> List[List[str]]:
    """Each job's names, the first of which it has in the pages."""
    found: Dict[int, List[str]] = {}
    for name, parser in parsers().items():
        found.setdefault(id(parser), []).append(name)
    return list(found.values())


def options(parser: argparse.ArgumentParser) -> str:
    """The options as a shell has them, the help at the end."""
    found = [action.option_strings[-1] for action in parser._actions if action.option_strings]
    return " ".join([*found[1:], *found[:1]])


def values() -> Iterator[Tuple[str, str]]:
    """The options that take one of a few words, and these words."""
    found = {action.option_strings[-1]: " ".join(action.choices) for parser in parsers().values() for action in parser._actions
             if action.option_strings and action.choices}
    return iter(sorted(found.items()))


def completion() -> Iterator[str]:
    """Lines of the function that completes: jobs, formats, options of the job, words that an option takes."""
    yield "    local jobs='%s'" % " ".join(name for group in names() for name in group)
    yield "    local formats='%s'" % " ".join(FORMATS)
    yield "    case $job in"
    groups: Dict[str, List[str]] = {}
    for name, parser in parsers().items():
        groups.setdefault(options(parser), []).append(name)
    for told, jobs in groups.items():
        yield "        %s) options='%s' ;;" % ("|".join(jobs), told)
    yield "    esac"
    yield "    case $before in"
    for option, words in values():
        yield "        %s) words='%s' ;;" % (option, words)
    yield "    esac"


def missing() -> Iterator[str]:
    """What a page or a table lacks."""
    for page, form in PAGES.items():
        text = read(os.path.join(TOP, page)).decode()
        for group in names():
            if not any(re.search(form % name, text, re.MULTILINE) for name in group):
                yield "%s has no example of the job %s" % (page, group[0])
            if page.startswith("man/"):
                yield from ("%s: %s isn't in the %s" % (page, group[0], what) for what, pattern in (
                    ("synopsis", SYNOPSIS), ("list of jobs", LISTED)) if not re.search(pattern % group[0], text, re.MULTILINE))
    for name in parsers():
        if not name in parsers(name) or len(parsers(name)) == len(parsers()):
            yield "command_line.py: GROUPS doesn't name the job %s in its group" % name


def main(words: List[str]) -> bool:
    path = os.path.join(TOP, COMPLETION)
    before, wrong = read(path).decode(), list(missing())
    after = with_list(COMPLETION, before, list(completion()), "jobs")
    if before != after and words == ["--write"]:
        with open(path, "w") as file:
            file.write(after)
        print("%s is written" % COMPLETION)
    elif before != after:
        wrong.append("%s isn't as the jobs are: tools/run checks/jobs --write" % COMPLETION)
    print("\n".join([*wrong, "jobs: %d jobs, %d differences" % (len(names()), len(wrong))]))
    return not wrong


if __name__ == "__main__":
    if sys.argv[1:] not in (["--check"], ["--write"]):
        sys.exit(__doc__)
    sys.exit(0 if main(sys.argv[1:]) else 1)
