# SPDX-License-Identifier: MIT
"""The words of fcdisc, and how a run ends."""
from __future__ import annotations

import argparse
import os
import signal
import sys
from contextlib import suppress
from typing import TYPE_CHECKING, List, NoReturn, Optional

from .collection_words import add_collections
from .common_words import (BACKUPS, EPILOG, FORMATS, PATH_HELP, WILD_HELP, Job, access_bits, add_job, add_order, add_types,
                           file_type, later)
from .leftovers import remove_unfinished
from .messages import FAILED, Trouble, clear_progress, reason, shown, tell
from .program import BadImage
from .rescue.words import add_rescuing

if TYPE_CHECKING:
    from .common_words import Jobs

DESCRIPTION = "Daily jobs with images of Acorn discs (RISC OS, ADFS), by the program fcore."


def parser(job: str = "") -> argparse.ArgumentParser:
    """What the words may be; of a job that is known only what it and its neighbours take, since all take longer to say than most jobs."""
    made = argparse.ArgumentParser(prog="fcdisc", description=DESCRIPTION, epilog=EPILOG, allow_abbrev=False)
    made.add_argument("--version", action="version", version="fcdisc %s, for fcore %s" % (version(), version()))
    added = made.add_subparsers(metavar="JOB", required=True, dest="job")
    groups = [add for add, jobs in GROUPS.items() if job in jobs.split()] or list(GROUPS)
    for add in groups:
        add(added)
    return made


def version() -> str:
    """What the file VERSION says, which lies at the top of the repository, or beside the installed parts, as in an archive of them."""
    here = os.path.dirname(os.path.dirname(__file__))
    for place in (here, os.path.dirname(here)):
        with suppress(OSError):
            content: bytes = __loader__.get_data(os.path.join(place, "VERSION"))  # type: ignore[name-defined]
            return content.decode("utf-8").strip()
    return "of an unknown version"


def add_reading(added: Jobs) -> None:
    job = add_job(added, "list", later("jobs", "list_disc"),
                  "List a disc as a tree: type, size, access, date, name. fcore runs once for each "
                  "level of directories.", ["ls"])
    add_order(job)
    job.add_argument("--json", action="store_true", help="print all that the disc says as JSON")
    job.add_argument("image", metavar="IMAGE")
    job.add_argument("path", metavar="PATH", nargs="?", default="$", help=WILD_HELP)

    job = add_job(added, "get", later("retrieval", "get"), "Extract one file, or several. fcore runs twice.")
    add_order(job)
    job.add_argument("image", metavar="IMAGE")
    job.add_argument("path", metavar="PATH... [FILE]", nargs="+", help=WILD_HELP + "; at the end the file to make, or the folder "
                     "for several; - is standard output")
    job.usage = "%(prog)s [-h] [--offset N] [--order {auto,disc,adl}] IMAGE PATH... [FILE]"  # argparse would say all of it twice

    job = add_job(added, "extract", later("retrieval", "extract"),
                  "Extract all files into a folder, or into a zip archive with Acorn's extra "
                  "field. A folder is made if need be; no file that exists is replaced. fcore runs once for each level of "
                  "directories, and once for all files.")
    add_order(job)
    job.add_argument("--each", action="store_true", help="IMAGE is a folder: each image below it into a folder of its own")
    job.add_argument("--inf", action="store_true", help="load and exec words and access go into NAME.inf beside each file, and no type "
                     "into its name")
    add_types(job)
    job.add_argument("image", metavar="IMAGE")
    job.add_argument("folder", metavar="OUT", help="a folder, or a name that ends in .zip")
    job.add_argument("path", metavar="PATH", nargs="*", help="what to extract, if not all: " + WILD_HELP)

    job = add_job(added, "check", later("checkup", "check"),
                  "Say of each image whether it is whole, what is wrong, and what to do. Several are checked at once.")
    add_order(job)
    job.add_argument("--json", action="store_true", help="print all that was found as JSON")
    job.add_argument("--damaged", action="store_true", help="print only what isn't whole")
    job.add_argument("image", metavar="IMAGE", nargs="+", help="an image, or a folder of them")


def add_making(added: Jobs) -> None:
    job = add_job(added, "new", later("jobs", "new"), "Make an empty disc.")
    job.add_argument("format", metavar="FORMAT", type=str.upper, choices=FORMATS, help=", ".join(FORMATS))
    job.add_argument("image", metavar="IMAGE", help="the file to make")

    job = add_job(added, "adl", later("jobs", "adl"), "Copy the image of an L disc, whose sides are interleaved, into disc order.")
    job.add_argument("--back", action="store_true", help="the other way: from disc order to interleaved sides")
    job.add_argument("image", metavar="IMAGE")
    job.add_argument("out", metavar="OUT", help="the file to make")

    job = add_job(added, "strip", later("jobs", "strip"), "Copy an image without its header of 512 bytes.")
    job.add_argument("image", metavar="IMAGE")
    job.add_argument("out", metavar="OUT", help="the file to make")


def add_changing(added: Jobs) -> None:
    job = add_change(added, "put", later("changes", "put"), "Put one file onto a disc, or several into a directory.")
    job.add_argument("--replace", action="store_true", help="take the place of a file that is on the disc")
    job.add_argument("--type", metavar="XXX", type=file_type, help="its file type; else that of its name, as in "
                     "Prog,ffb, or that of the file whose place it takes, or fff (Text)")
    add_types(job)
    job.add_argument("file", metavar="FILE", nargs="+")
    job.add_argument("path", metavar="PATH", help="where the file goes, or the directory that gets it: " + PATH_HELP)

    job = add_change(added, "add", later("changes", "add"),
                     "Put all files of a folder or of a zip archive onto a disc. Their names "
                     "are those that extract gives: a type after a comma, `.` for `/`. Links are left out. NAME.inf beside NAME "
                     "tells its load and exec words and access.")
    job.add_argument("--fit", action="store_true", help="give other names to what the disc doesn't take, and list them")
    job.add_argument("-v", "--verbose", action="store_true", help="name all that is refused, not only the first of each kind")
    add_types(job)
    job.add_argument("--replace", action="store_true", help="files take the place of those that are on the disc")
    job.add_argument("folder", metavar="FOLDER", help="a folder, or a zip archive")
    job.add_argument("path", metavar="PATH", nargs="?", default="$", help="the directory that gets them; it is made if need be")


def add_moving(added: Jobs) -> None:
    job = add_change(added, "mkdir", later("changes", "mkdir"), "Make directories.")
    job.add_argument("-p", action="store_true", help="those that lead there, too; what is there stays")
    job.add_argument("path", metavar="PATH", nargs="+", help=PATH_HELP)

    job = add_change(added, "rm", later("changes", "remove"), "Remove files and empty directories.")
    job.add_argument("-r", action="store_true", help="directories with all that is in them, too")
    job.add_argument("path", metavar="PATH", nargs="+", help=WILD_HELP)

    job = add_change(added, "mv", later("changes", "move"), "Rename a file or directory, or move it, or several.")
    job.add_argument("source", metavar="FROM", nargs="+", help=WILD_HELP)
    job.add_argument("target", metavar="TO", help="the new path, or that of a directory that gets them")

    job = add_change(added, "cp", later("copying", "copy_within"), "Copy a file on a disc, or several.")
    job.add_argument("-r", action="store_true", help="directories with all that is in them, too")
    job.add_argument("source", metavar="FROM", nargs="+", help=WILD_HELP)
    job.add_argument("target", metavar="TO", help="the new path, or that of a directory that gets them")

    job = add_change(added, "access", later("changes", "access"), "Lock or unlock files and directories: set all that their owner may do.")
    job.add_argument("access", metavar="ACCESS", type=access_bits, help="all that holds then, in letters of L (locked), W (write), "
                     "R (read): LWR locks a file that was WR; - for none")
    job.add_argument("path", metavar="PATH", nargs="+", help=WILD_HELP)


def add_whole(added: Jobs) -> None:
    add_change(added, "compact", later("changes", "compact"), "Bring the free space of a disc together.")

    add_change(added, "reclaim", later("copying", "reclaim"), "Free lost space: what nothing on the disc owns.", "+")

    job = add_job(added, "undo", later("backups", "undo"),
                  "Go back to the image as it was before the first change. What it was until then is "
                  "called IMAGE~undone.")
    job.add_argument("--back", action="store_true", help="take the last undo back")
    job.add_argument("image", metavar="IMAGE")

    job = add_job(added, "convert", later("conversion", "convert"),
                  "Make a disc of another format with all files of a disc, or none: what can't be on it is "
                  "named before anything is made.")
    add_order(job)
    job.add_argument("format", metavar="FORMAT", type=str.upper, choices=FORMATS, help=", ".join(FORMATS))
    job.add_argument("--fit", action="store_true", help="give other names to what the disc doesn't take, and list them")
    job.add_argument("-v", "--verbose", action="store_true", help="name all that is refused, not only the first of each kind")
    job.add_argument("image", metavar="FROM")
    job.add_argument("out", metavar="TO", help="the file to make")


def add_change(added: Jobs, name: str, run: Job, text: str,
               count: Optional[str] = None) -> argparse.ArgumentParser:
    """A subcommand that changes an image."""
    job = add_job(added, name, run, text + " The image as it was before the first change is "
                  "called IMAGE~.")
    add_order(job)
    job.add_argument("--backup", choices=BACKUPS, default=BACKUPS[0], help="`first`: IMAGE~ is the image before the first "
                     "change, and stays; `each`: every change leaves one more, IMAGE~1~, IMAGE~2~ and so on")
    job.add_argument("--in-place", action="store_true", help="change the image itself, without a copy: of a disc with big directories "
                     "(E+, F+) each step is done whole or not at all; if it is cut off on another, the disc may be damaged; only in disc "
                     "order and without a header")
    job.add_argument("--no-safe", action="store_true", help="with --in-place, on any disc as on the others: faster, and it needs less room")
    if count:
        job.add_argument("image", metavar="IMAGE", nargs=count)
    else:
        job.add_argument("image", metavar="IMAGE")
    return job


# What adds jobs, and the names of these
GROUPS = {
    add_reading: "list ls get extract check", add_making: "new adl strip", add_changing: "put add",
    add_moving: "mkdir rm mv cp access", add_whole: "compact reclaim undo convert", add_collections: "catalogue find diff types",
    add_rescuing: "rescue mend",
}


class Stopped(BaseException):
    """A signal that ends the program, once what it was at is cleared away."""

    def __init__(self, number: int):
        super().__init__(number)
        self.number = number


def catch_signals() -> List[int]:
    """A signal removes what isn't finished, and ends the job as `Stopped`. The signals that do, which are those that weren't ignored."""
    numbers = [int(number) for number in (signal.SIGINT, signal.SIGTERM, signal.SIGHUP)
               if signal.getsignal(number) is not signal.SIG_IGN]

    def stop(number: int, _: object) -> NoReturn:
        for other in numbers:
            signal.signal(other, signal.SIG_IGN)
        remove_unfinished()
        raise Stopped(number)

    sys.unraisablehook = end_unraised
    for number in numbers:
        signal.signal(number, stop)
    return numbers


def end_unraised(what: sys.UnraisableHookArgs) -> None:
    """Where Python would drop a `Stopped`, as it does in a destructor, the program ends all the same."""
    if isinstance(what.exc_value, Stopped):
        clear_progress()
        end_by(what.exc_value.number)
    sys.__unraisablehook__(what)


def leave_signals(numbers: List[int]) -> None:
    """The job is done: from now on a signal ends the program at once, without a word of Python's, which is at its own end."""
    before = signal.pthread_sigmask(signal.SIG_BLOCK, numbers)
    for number in numbers:
        signal.signal(number, signal.SIG_DFL)
    signal.pthread_sigmask(signal.SIG_SETMASK, before)


def end_by(number: int) -> NoReturn:
    """Ends as the signal would have ended the program, so that a shell sees it."""
    signal.signal(number, signal.SIG_DFL)
    signal.pthread_sigmask(signal.SIG_UNBLOCK, [number])
    os.kill(os.getpid(), number)
    raise SystemExit(128 + number)


def main(arguments: List[str]) -> int:
    """Does the job that the words ask for, and answers the status."""
    if not hold_streams():
        return FAILED
    words = parser(*arguments[:1]).parse_args(arguments)
    try:
        numbers = catch_signals()
        status = run(words)
        leave_signals(numbers)
        return status
    except Stopped as stopped:
        clear_progress()
        end_by(stopped.number)


def run(words: argparse.Namespace) -> int:
    """Does the job, and says why it can't be done; its status."""
    try:
        status: int = words.run(words)
        sys.stdout.flush()
        return status
    except Trouble as trouble:
        tell(str(trouble))
        return trouble.status
    except BadImage as fault:
        from .jobs import not_accepted
        from .rescue.job import advice
        tell(not_accepted(words.image, fault) + advice(words.image, getattr(words, "order", "auto")))
        return FAILED
    except ModuleNotFoundError as missing:  # systems pack Python in parts, and may have some of them alone
        tell("this Python lacks its part %s: install all of it (Debian's python3, not python3-minimal alone)" % missing.name)
        return FAILED
    except BrokenPipeError:
        drop_output()  # whoever read the output has seen enough
        return FAILED
    except OSError as error:
        drop_output()
        tell("%s: %s" % (shown(error.filename) if error.filename else "standard output", reason(error)))
        return FAILED
    finally:
        clear_progress()


def hold_streams() -> bool:
    """Opens what is closed of the standard streams, lest their numbers become those of images; whether there is an output."""
    number = os.open(os.devnull, os.O_RDWR)
    while number <= 2:
        number = os.open(os.devnull, os.O_RDWR)
    os.close(number)
    if sys.stderr is None:
        sys.stderr = open(os.devnull, "w")
    if sys.stdout is None:
        tell("standard output is closed")
        return False
    sys.stdout.reconfigure(errors="backslashreplace")  # type: ignore[attr-defined]
    return True


def drop_output() -> None:
    """What is still to be written to standard output can't be, and must not fail again at the end."""
    nothing = os.open(os.devnull, os.O_WRONLY)
    os.dup2(nothing, sys.stdout.fileno())
