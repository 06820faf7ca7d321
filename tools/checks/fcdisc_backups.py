# SPDX-License-Identifier: MIT
"""Checks of what fcdisc leaves beside an image: the state before the first change, leftovers of killed jobs; and of early signals."""
from __future__ import annotations

import fcntl
import os
import shutil
import signal
import subprocess
import time
from typing import List, Tuple

from tools.checks.fcdisc_changes import Changes
from tools.checks.fcdisc_hosts import on_host
from tools.checks.work_folders import wait_for
from tools.files import read

NOTE = {"note": b"Hello"}


def make(c: Changes, name: str) -> Tuple[str, str, int]:
    """A job that changes the disc."""
    return c.run("mkdir", "a.adf", name)


def first_state(c: Changes) -> None:
    """IMAGE~ stays through many changes, and undo brings it back."""
    first = c.start()
    for name in "EFG":
        c.checks.expect("change " + name, result=(("", "", 0), make(c, name)), backup=(True, c.both("a.adf")[1] == first))
    last = read(c.at("a.adf"))
    c.checks.expect("undo", result=(("", "", 0), c.run("undo", "a.adf")), image=(True, read(c.at("a.adf")) == first),
                    kept=(True, read(c.at("a.adf~undone")) == last), left=(["a.adf", "a.adf~undone"], c.names()))
    c.refused("undo once more", ["undo", "a.adf"], "a.adf: there is no a.adf~, so there is nothing to undo")
    c.checks.expect("undo --back", result=(("", "", 0), c.run("undo", "--back", "a.adf")), both=(True, c.both("a.adf") == [last, first]),
                    left=(["a.adf", "a.adf~"], c.names()))
    c.refused("undo --back once more", ["undo", "--back", "a.adf"], "a.adf: there is no a.adf~undone, so there is nothing to bring back")
    c.run("undo", "a.adf")
    make(c, "H")
    c.checks.expect("a change after undo", backup=(True, c.both("a.adf")[1] == first))
    c.refused("undo --back after a change", ["undo", "--back", "a.adf"],
              "a.adf: it was changed since undo: its state before that is a.adf~")


def each_state(c: Changes) -> None:
    states = [c.start()]
    for name in "EFG":
        c.run("mkdir", "--backup", "each", "a.adf", name)
        states.append(read(c.at("a.adf")))
    c.checks.expect("--backup each", left=(["a.adf", "a.adf~1~", "a.adf~2~", "a.adf~3~"], c.names()),
                    states=(True, [read(c.at("a.adf~%d~" % at)) for at in (1, 2, 3)] == states[:3]))


def unfit_backups(c: Changes) -> None:
    """What can't be an earlier state of the image isn't taken for one, and isn't replaced."""
    c.start(files={"a.adf~": b"an editor's"})
    c.refused("a file of the backup's name", ["mkdir", "a.adf", "E"], "a.adf~: it has another length than the image, so it is no "
              "earlier state of it: give it another name, or say --backup each: nothing was changed")
    c.run("mkdir", "--backup", "each", "a.adf", "E")
    c.checks.expect("--backup each beside it", left=(["a.adf", "a.adf~", "a.adf~1~"], c.names()), kept=(b"an editor's", read(c.at("a.adf~"))))
    c.start()
    os.symlink("a.adf", c.at("a.adf~"))
    c.refused("a link of the backup's name", ["mkdir", "a.adf", "E"], "a.adf~: it has another length...")
    c.refused("undo by a link", ["undo", "a.adf"], "a.adf: there is no a.adf~, so there is nothing to undo")


def undo_troubles(c: Changes) -> None:
    c.start(files={"a.adf~": b"older"})
    with open(c.at("a.adf"), "rb") as other:
        fcntl.flock(other, fcntl.LOCK_EX)
        c.refused("undo while it is changed", ["undo", "a.adf"], "a.adf: another fcdisc is changing it: try again when that has ended")
    c.refused("undo of nothing", ["undo", "none"], "none: No such file or directory")
    for host, status in (("no-links", 0), ("signal", -signal.SIGTERM), ("denied", 1)):
        first = c.start(files=NOTE)
        make(c, "E")
        second = read(c.at("a.adf"))
        got = c.run("undo", "a.adf", within=on_host(host))
        held = [read(c.at(name)) for name in c.names() if name.startswith("a.adf")]
        c.checks.expect("undo on the host " + host, status=(status, got[2]), image=(True, read(c.at("a.adf")) == (second if status == 1 else first)),
                        kept=(True, first in held and second in held),
                        temporary=([], [name for name in c.names() if name.endswith(".tmp")]))


def leftovers(c: Changes) -> None:
    """What a killed job left is gone after the next one, unless somebody has it locked; nothing else is touched."""
    kept = {".fcdisc-x.tmpx": b"mine", "fcdisc-1.tmp": b"mine", ".fcdisc-locked-1.tmp": b"in use"}
    c.start(files={".fcdisc-0011-1.tmp": b"dead", **kept})
    os.mkdir(c.at(".fcdisc-folder-1.tmp"))
    os.symlink("a.adf", c.at(".fcdisc-link-1.tmp"))
    names = sorted([*kept, ".fcdisc-folder-1.tmp", ".fcdisc-link-1.tmp", "a.adf", "a.adf~"])
    with open(c.at(".fcdisc-locked-1.tmp"), "rb") as other:
        fcntl.flock(other, fcntl.LOCK_EX)
        make(c, "E")
        c.checks.expect("leftovers", left=(names, c.names()))
    c.run("get", "a.adf", "Ab")
    c.checks.expect("leftovers that were locked", left=(sorted([*set(names) - {".fcdisc-locked-1.tmp"}, "Ab,fff"]), c.names()))


SLOW_WRITE = """import os, sys, time
sys.argv = [sys.argv[1], *sys.argv[2:]]
sys.path.insert(0, os.path.dirname(os.path.realpath(sys.argv[0])))
from fcdisc_lib import output
write = output.write_all
def slowly(number, piece):
    write(number, piece)
    time.sleep(30)
output.write_all = slowly
import runpy
runpy.run_path(sys.argv[0], run_name="__main__")
"""


def killed(c: Changes) -> None:
    """kill -9 while the changed copy is written, or a file: image and names stay, and the next job clears away what is left."""
    for words, after in ((["mkdir", "a.adf", "E"], ["mkdir", "a.adf", "F"]), (["extract", "a.adf", "o"], ["extract", "a.adf", "o"])):
        before = c.start(files={"slow.py": SLOW_WRITE.encode()})
        run = subprocess.Popen(["python3", "slow.py", c.checks.fcdisc, *words], cwd=c.work, env=c.checks.environment(),
                               stdout=subprocess.DEVNULL)

        def there() -> List[bytes]:
            return [name for folder, _, names in os.walk(c.work) for name in names if name.endswith(b".tmp")]
        wait_for(there)
        second = c.run(*after)  # it doesn't touch what is in use
        c.checks.expect("%s beside a slow one" % words[0], status=(1 if words[0] == "mkdir" else 0, second[2]), still=(1, len(there())))
        run.kill()
        run.wait()
        c.checks.expect("%s killed" % words[0], image=(True, read(c.at("a.adf")) == before), left=(1, len(there())))
        third = c.run(*after)
        c.checks.expect("%s after a kill" % words[0], left=([], there()), status=(0, third[2]))


def early(c: Changes) -> None:
    """An interrupt at any moment while the program starts, and Python in it: it ends by the signal and says nothing."""
    c.start()
    for at in range(40):
        run = subprocess.Popen([c.checks.fcdisc, "list", "a.adf"], cwd=c.work, env=c.checks.environment(c.fake("#!/bin/sh\nsleep 5\n")),
                               stdout=subprocess.PIPE, stderr=subprocess.PIPE)
        time.sleep(at * 0.004)
        run.send_signal(signal.SIGINT)
        out, errors = run.communicate(timeout=60)
        c.checks.expect("interrupted after %d ms" % (at * 4), result=((b"", b"", -signal.SIGINT), (out, errors, run.returncode)))
    c.start(files={"bin/env": b"#!/bin/sh\nexit 125\n"})
    os.chmod(c.at("bin/env"), 0o755)
    c.checks.expect("an env that can't block signals", result=(c.run("list", "a.adf"), c.run("list", "a.adf", within='PATH=$PWD/bin:$PATH exec "$@"')))
    c.start(files={"sitecustomize.py": b"import os; os.kill(os.getpid(), 2)"})  # site would run this
    c.checks.expect("Python's start is without site", result=(c.run("list", "a.adf"), c.run("list", "a.adf", within='PYTHONPATH=$PWD exec "$@"')))


def read_only_folder(c: Changes) -> None:
    """A folder on a host that is only read."""
    c.start(files=NOTE)
    within = ("mkdir ../room; unshare -m sh -c 'mount --bind . ../room && cd ../room && mount -o remount,bind,ro . && cd \"$PWD\" && "
              "exec \"$@\"' sh \"$@\"; status=$?; rmdir ../room; exit $status")
    make(c, "E")
    for words, error in ((["mkdir", "a.adf", "F"], "a.adf: it is write-protected on this host"), (["cp", "a.adf", "Ab", "N"], "a.adf: it is write-"
                         "protected on this host"), (["undo", "a.adf"], "a.adf: Read-only file system: nothing was changed"), *(
                             (words, words[-1] + ": Read-only file system") for words in (["new", "E", "n.adf"], ["extract", "a.adf", "o"],
                             ["extract", "--inf", "a.adf", "o"], ["extract", "a.adf", "o.zip"], ["get", "a.adf", "Ab", "n"]))):
        c.refused("%s on a host that is only read" % " ".join(words), words, error, within=within)
    c.checks.expect("extract --each on a host that is only read", result=(
        ("0 files of 0 discs written to o\n", "fcdisc: o/a.adf: Read-only file system\n", 1), c.run("extract", "--each", "a.adf", "o", within=within)))


def fresh_names(c: Changes) -> None:
    """`new` leaves nothing where fcore makes the disc."""
    c.start()
    place = os.fsdecode(c.checks.fresh(b"tmp"))
    before = dict(os.environ)
    os.environ["TMPDIR"] = place
    try:
        for words in (["new", "E", "n.adf"], ["new", "E", "n.adf"]):
            c.run(*words)
            c.checks.expect("%s leaves nothing" % words[0], left=([], os.listdir(place)))
    finally:
        os.environ.clear()
        os.environ.update(before)
        shutil.rmtree(place)


PARTS = (first_state, each_state, unfit_backups, undo_troubles, leftovers, killed, early, fresh_names)
MOUNTED = (read_only_folder,)  # these need to mount something
