#!/usr/bin/env python3
# SPDX-License-Identifier: MIT
"""Runs fcdisc as on another host, for tools/checks/fcdisc_changes.py.

usage: tools/run checks/fcdisc_hosts HOST,.. FCDISC WORDS...

HOST is `no-links`: a file can't have two names; `early-signal`: a signal comes when the image is to get a second name; `signal`: one
comes before a file takes the place of another; `denied`: nothing may take the image's name; or `terminal`: messages go to a terminal,
and each step of a job takes its time. The file ../seen gets a line before and after a file takes the place of another: the digest of
what the image's name, a.adf, leads to.
"""
from __future__ import annotations

import errno
import hashlib
import os
import runpy
import signal
import sys
from typing import List, Union

from tools.files import TOOLS

Name = Union[str, bytes]
IMAGE, SEEN = b"a.adf", "../seen"


class Host:
    """The calls of the system that give names to files."""

    def __init__(self, kinds: List[str]) -> None:
        self.kinds, self.synced = kinds, set()
        self.system = {"link": os.link, "replace": os.replace, "fsync": os.fsync}
        os.link, os.replace, os.fsync = self.link, self.replace, self.fsync

    def link(self, source: Name, target: Name, **folders: int) -> None:
        if "early-signal" in self.kinds:
            os.kill(os.getpid(), signal.SIGTERM)
        if "no-links" in self.kinds:
            raise PermissionError(errno.EPERM, "Operation not permitted")
        self.system["link"](source, target, **folders)

    def replace(self, source: Name, target: Name, **folders: int) -> None:
        found = os.stat(source, dir_fd=folders["src_dir_fd"])
        if "no-links" in self.kinds and found.st_ino not in self.synced:
            note("%s isn't synced" % os.fsdecode(source))
        note(digest())
        if "signal" in self.kinds:
            os.kill(os.getpid(), signal.SIGTERM)
        if "denied" in self.kinds and target == IMAGE:
            raise PermissionError(errno.EACCES, "Permission denied")
        self.system["replace"](source, target, **folders)
        note(digest())

    def fsync(self, number: int) -> None:
        self.synced.add(os.fstat(number).st_ino)
        self.system["fsync"](number)


def on_host(host: str) -> str:
    """The words before those of fcdisc, for a shell."""
    return "exec python3 '%s' checks/fcdisc_hosts %s \"$@\"" % (os.path.join(TOOLS, "run"), host)


def digest() -> str:
    try:
        with open(IMAGE, "rb") as file:
            return hashlib.sha256(file.read()).hexdigest()
    except FileNotFoundError:
        return "no image"


def note(text: str) -> None:
    with open(SEEN, "a") as file:
        file.write(text + "\n")


def main(kinds: str, fcdisc: str, *words: str) -> None:
    Host(kinds.split(","))
    sys.path.insert(0, os.path.dirname(os.path.realpath(fcdisc)))
    sys.dont_write_bytecode = True
    if kinds == "terminal":
        from fcdisc_lib import messages
        messages.FIRST_PROGRESS = messages.BETWEEN_PROGRESS = 0
        sys.stderr.isatty = lambda: True
    sys.argv = [fcdisc, *words]
    runpy.run_path(fcdisc, run_name="__main__")


if __name__ == "__main__":
    if len(sys.argv) < 3:
        sys.exit(__doc__)
    main(*sys.argv[1:])
