# SPDX-License-Identifier: MIT
"""Checks of `fcdisc` with `--in-place`: which discs are changed by fcore --safe, what it says where that can't be, and what a kill leaves."""
from __future__ import annotations

import os
import signal
import subprocess
from typing import List, Union

from tools.checks.fcdisc_changes import Changes, short_tree
from tools.checks.safe import wide_disc
from tools.checks.work_folders import wait_for
from tools.files import read
from tools.images import drawn_discs
from tools.images.volumes import FRESH
from tools.reference.change_state import State
from tools.reference.read_image import Entry

WATCHED = '#!/bin/sh\ncase "$*" in *read-only*) ;; *) echo "$*" >> words;; esac\nexec FCORE "$@"\n'
NEEDS_ROOM = "fcdisc: a.adf: each directory that changes is written anew, which needs room: --no-safe does without\n"
SPREAD = ("fcdisc: a.adf: $.Big: not put there: more than nine zones of the map would change at once: --no-safe does that, but not whole or "
          "not at all\n")


def put(c: Changes, image: Union[bytes, bytearray]) -> None:
    with open(c.at("a.adf"), "wb") as file:
        file.write(image)


def options_of(c: Changes) -> List[str]:
    """The options of each run of fcore that could change the disc."""
    lines = read(c.at("words")).decode().splitlines()
    os.unlink(c.at("words"))
    return [line.split("--", 1)[0].strip() if line.startswith("-- ") else line.rsplit(" -- ", 1)[0] for line in lines]


def which_discs(c: Changes) -> None:
    """--safe where the disc suits; --no-safe, a copy, and another disc do without."""
    c.start(files={"note": b"Hello"})
    for form, words, wanted in (("E+", ["--in-place"], ["--safe"]), ("F+", ["--in-place"], ["--safe"]), ("E", ["--in-place"], [""]), ("D", ["--in-place"], [""]),
                                ("E+", ["--in-place", "--no-safe"], [""]), ("E+", [], [""])):
        put(c, FRESH[form]().image())
        got = c.run("put", *words, "a.adf", "note", "$.N", fcore=c.fake(WATCHED))
        c.checks.expect("put %s onto %s" % (" ".join(words), form), result=(("", "", 0), got), options=(wanted, options_of(c)),
                        tree=({"$.N": (3, b"Hello")}, short_tree(read(c.at("a.adf")))))
    number = next(at for at, name in enumerate(drawn_discs.NEW) if name == "in identifier 2, E+")
    while not any(is_beside_the_map(entry) for entry in State(drawn_discs.image_of(number)[1]).objects.values()):
        number += len(drawn_discs.NEW)
    put(c, drawn_discs.image_of(number)[1])
    got = c.run("mkdir", "--in-place", "a.adf", "$.New", fcore=c.fake(WATCHED))
    c.checks.expect("a directory beside the map", status=(0, got[2]), options=(["--safe", ""], options_of(c)))


def is_beside_the_map(entry: Entry) -> bool:
    return entry.is_directory() and entry.address // 256 == 2


def refused_by_safe(c: Changes) -> None:
    """What the safe mode alone refuses."""
    c.start(files={"note,ffd": b"x" * 10240})
    wide = bytes(wide_disc().image())
    put(c, wide)
    got = c.run("put", "--in-place", "a.adf", "note,ffd", "$.Big")
    c.checks.expect("too many zones", result=(("", SPREAD, 1), got), same=(True, read(c.at("a.adf")) == wide))
    got = c.run("put", "--in-place", "--no-safe", "a.adf", "note,ffd", "$.Big")
    c.checks.expect("too many zones, --no-safe", result=(("", "", 0), got), tree=({"$.Big": (3, b"x" * 10240)}, short_tree(read(c.at("a.adf")))))
    full = FRESH["E+"]()
    full.root.insert(full.file(b"Full", bytes(815104 - 2048)))
    put(c, full.image())
    got = c.run("mkdir", "--in-place", "a.adf", "$.D")
    c.checks.expect("no room for the directory that changes", status=(1, got[2]), told=(NEEDS_ROOM, got[1].splitlines(True)[-1]))
    got = c.run("mkdir", "--in-place", "--no-safe", "a.adf", "$.D")
    c.checks.expect("room without the safe mode", result=(("", "", 0), got))


def killed(c: Changes) -> None:
    """A kill at any moment leaves the disc as it was, or with some of the files."""
    slow = '#!/bin/sh\ncase "$*" in *read-only*) exec FCORE "$@";; esac\ntouch begun; exec FCORE "$@"\n'
    for pause in range(6):
        c.start(files={"o/F%d" % at: bytes([65 + at]) * 3000 for at in range(20)})
        put(c, FRESH["F+"]().image())
        environment = c.checks.environment(c.fake(slow))
        run = subprocess.Popen([c.checks.fcdisc, "add", "--in-place", "a.adf", "o"], cwd=c.work, env=environment, stdout=subprocess.DEVNULL,
                               stderr=subprocess.DEVNULL, start_new_session=True)
        wait_for(lambda: os.path.exists(c.at("begun")))
        try:
            run.wait(timeout=0.004 * pause)
        except subprocess.TimeoutExpired:
            os.killpg(run.pid, signal.SIGKILL)
        run.wait()
        tree = short_tree(read(c.at("a.adf")))
        c.checks.expect("killed after %d ms" % (4 * pause), files=(True, all(
            tree[path] in ((3, bytes([65 + int(path[3:])]) * 3000),) for path in tree)), more=(True, len(tree) <= 20))


PARTS = (which_discs, refused_by_safe, killed)
