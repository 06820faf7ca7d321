#!/usr/bin/env python3
# SPDX-License-Identifier: MIT
"""Runs checks by their names: those that need no kit, and with --gate also the long ones over the built program.

usage: tools/run checks/run [--program PATH] [--fconvert PATH] [--gate] [--list] [--jobs N] [SUITE | SUITE/CASE]...
Names are patterns as of a shell, such as 'fcdisc/get*'; none stands for all. --list names the cases. Suites that need a program are left
out if there is none at PATH (crates/fcore/out/fcore; fconvert is looked for beside it, and in crates/fconvert/out). Suites run side by
side, each as a process; what one says comes when it has ended.
"""
import argparse
import concurrent.futures
import os
import subprocess
import sys
import time
from typing import Callable, Dict, List, NamedTuple, Tuple

from tools.checks import conversions, fcdisc, host_files, program, readers
from tools.checks.selection import Selection, Suite
from tools.files import CONVERTER, MEMORY, PROGRAM, TOP

RUN = os.path.join(TOP, "tools", "run")

PAGES = {  # case: the words of its tool
    "quotations": ["checks/quotations"], "rooms": ["checks/rooms"], "definitions": ["checks/definitions", "--check"],
    "faults": ["checks/faults", "--check"], "bounds": ["checks/bounds"], "copies": ["checks/copies"], "licence": ["checks/licence"],
    "dependencies": ["checks/dependencies"], "imports": ["checks/imports"], "annotations": ["checks/annotations"], "jobs": ["checks/jobs", "--check"],
}


def pages(suite: Suite) -> None:
    """What the pages say of the sources, bounds of contracts, lemmas that stand twice, and that every part of fcdisc can be imported."""
    for case, words in PAGES.items():
        if suite.wants(case):
            ran = subprocess.run([RUN, *words], stdout=subprocess.PIPE, text=True, check=False)
            suite.note(case, ran.stdout.splitlines() if ran.returncode else [])


class Long(NamedTuple):
    """A tool over a built program that takes its time; --gate alone runs it. {} stands for fcore, {fconvert} for fconvert."""

    words: List[str]
    in_memory: bool  # every command that changes a disc syncs it: in memory that takes no time, on a disk most of all


LONG: Dict[str, Long] = {
    "rescue": Long(["checks/rescue", "{}"], True),
    "demo": Long(["checks/demo", "{}"], True),
    "outside": Long(["checks/outside", "{}"], False),
    "crash": Long(["checks/crash", "{}"], True),
    "reclaim": Long(["checks/reclaim", "{}", "12"], True),
    "crashes": Long(["bench/crashes", "{}", "1"], True),
    "changes": Long(["checks/changes", "--program", "{}", "--images", "16", "--commands", "20"], True),
    "changes-old": Long(["checks/changes", "--program", "{}", "--images", "14", "--commands", "20", "--old"], True),
    "runs": Long(["checks/runs", "--program", "{}"], True),
    "safe": Long(["checks/safe", "{}", "--discs", "12"], True),
    "failing-conversions": Long(["checks/failing_conversions", "{fconvert}"], True),
}

# What needs no program; what needs one
PLAIN: Dict[str, Callable[[Suite], None]] = {
    "pages": pages, "man": program.man_pages, "embedded": program.embedded, "images": readers.images, "readers": readers.readers}
OVER_PROGRAM: Dict[str, Callable[[Suite, str], None]] = {
    "cases": program.cases, "streams": program.streams, "host-files": host_files.host_files, "examples": program.readme, "install": program.installed,
    "fcdisc": fcdisc.reading, "fcdisc-discs": fcdisc.discs, "fcdisc-changes": fcdisc.changing,
    "fcdisc-collections": fcdisc.collections, "fcdisc-keeping": fcdisc.keeping, "fcdisc-round": fcdisc.rounds,
    "fcdisc-conversions": fcdisc.conversions,
    "fcdisc-table": fcdisc.by_conditions}
OVER_CONVERTER: Dict[str, Callable[[Suite, str], None]] = {
    "conversions": conversions.conversions, "conversions-drawn": conversions.over_drawn_discs}
OVER_BOTH = ("examples", "install", "fcdisc-conversions", "fcdisc-table")  # `fcdisc convert` needs fconvert too


def needs(name: str) -> List[str]:
    """The programs that a suite needs."""
    if name in PLAIN:
        return []
    if name in OVER_CONVERTER or name in LONG and "{fconvert}" in LONG[name].words:
        return ["fconvert"]
    return ["fcore", "fconvert"] if name in OVER_BOTH else ["fcore"]


def run_long(suite: Suite, programs: Dict[str, str]) -> None:
    long = LONG[suite.name]
    places = {"{}": programs["fcore"], "{fconvert}": programs["fconvert"]}
    if suite.wants("all"):
        environment = {**os.environ, "TMPDIR": MEMORY} if long.in_memory else dict(os.environ)
        ran = subprocess.run([RUN, *(places.get(word, word) for word in long.words)], env=environment, stdin=subprocess.DEVNULL,
                             stdout=subprocess.PIPE, stderr=subprocess.STDOUT, text=True, check=False)
        suite.note("all", ran.stdout.splitlines() if ran.returncode else [])
        if not ran.returncode:
            print("\n".join(ran.stdout.splitlines()[-3:]))


def run_one(name: str, selection: Selection, programs: Dict[str, str]) -> bool:
    """Runs a suite in this process. fcdisc and its suites are told by the environment where fconvert is."""
    suite = Suite(name, selection)
    os.environ["FCONVERT"] = programs["fconvert"]
    if name in PLAIN:
        PLAIN[name](suite)
    elif name in OVER_PROGRAM:
        OVER_PROGRAM[name](suite, programs["fcore"])
    elif name in OVER_CONVERTER:
        OVER_CONVERTER[name](suite, programs["fconvert"])
    else:
        run_long(suite, programs)
    if not selection.lists:
        print(suite.told())
    return suite.failed == 0


def run_apart(name: str, words: List[str]) -> Tuple[bool, str, float]:
    """Runs a suite in a process of its own: whether all is well, what it said, and the seconds that it took."""
    begin = time.monotonic()
    ran = subprocess.run([RUN, "checks/run", "--suite", name, *words], stdin=subprocess.DEVNULL, stdout=subprocess.PIPE,
                         stderr=subprocess.STDOUT, text=True, check=False)
    return ran.returncode == 0, ran.stdout, time.monotonic() - begin


def run_all(names: List[str], jobs: int, words: List[str]) -> bool:
    good = True
    with concurrent.futures.ThreadPoolExecutor(jobs) as pool:
        waiting = [pool.submit(run_apart, name, words) for name in names]
        for done in concurrent.futures.as_completed(waiting):
            well, said, seconds = done.result()
            good = good and well
            print("%s (%.0f s)" % (said.rstrip("\n"), seconds), flush=True)
    return good


def found_converter(told: str, path: str) -> str:
    """The fconvert that was named, or else the one beside fcore, or that of its own crate."""
    beside = os.path.join(os.path.dirname(path), "fconvert")
    return os.path.realpath(told or (beside if os.path.exists(beside) else CONVERTER))


def main(words: List[str]) -> bool:
    parser = argparse.ArgumentParser(usage=__doc__, add_help=False)
    parser.add_argument("--program", default=PROGRAM)
    parser.add_argument("--fconvert", default="")
    for name in ("--gate", "--list"):
        parser.add_argument(name, action="store_true")
    parser.add_argument("--jobs", type=int, default=min(4, os.cpu_count() or 1))
    parser.add_argument("--suite")
    parser.add_argument("names", nargs="*")
    options = parser.parse_args(words)
    selection, path = Selection(options.names, options.list), os.path.realpath(options.program)
    programs = {"fcore": path, "fconvert": found_converter(options.fconvert, path)}
    if options.suite:
        return run_one(options.suite, selection, programs)
    absent = [] if options.list else [name for name, place in programs.items() if not os.access(place, os.X_OK)]
    # the longest first
    over = [*(LONG if options.gate else ()), *reversed(list(OVER_PROGRAM)), *OVER_CONVERTER]
    names = [name for name in [*over, *PLAIN] if selection.has_suite(name) and not set(needs(name)) & set(absent)]
    for name in absent:
        print("there is no %s at %s: all suites over it are left out (--program PATH, --fconvert PATH)" % (name, programs[name]))
    if not names:
        print("no suite has such a name: " + " ".join([*PLAIN, *OVER_PROGRAM, *OVER_CONVERTER, *LONG]))
        return False
    if options.list:
        return all([run_one(name, selection, programs) for name in names])
    good = run_all(names, options.jobs, ["--program", path, "--fconvert", programs["fconvert"], *options.names])
    print("all is well" if good else "some failed")
    return good


if __name__ == "__main__":
    sys.exit(0 if main(sys.argv[1:]) else 1)
