# SPDX-License-Identifier: MIT
"""The words of the jobs for damaged discs."""
from __future__ import annotations

from argparse import Namespace
from typing import TYPE_CHECKING

from ..common_words import FORMATS, add_job, add_order

if TYPE_CHECKING:
    from ..common_words import Jobs


def add_rescuing(added: Jobs) -> None:
    job = add_job(added, "rescue", run_rescue, "Take out what can be read of a damaged disc. The image is only read. Files that "
                  "nothing speaks against come into FOLDER/sound, others into FOLDER/doubtful; FOLDER/report.txt says why.")
    add_order(job)
    job.add_argument("--as", dest="form", metavar="FORMAT", type=str.upper, choices=FORMATS, help="what the disc is, if fcdisc "
                     "takes it for another: " + ", ".join(FORMATS))
    job.add_argument("--deleted", action="store_true", help="also what is in deleted directories: those that lie in free space")
    job.add_argument("--all", action="store_true", help="also if more than 8 times the disc's size would be written")
    job.add_argument("--report", action="store_true", help="write no files, and print the report")
    job.add_argument("--to", nargs=2, metavar=("FORMAT", "NEW"), help="put the sound files onto a fresh disc instead")
    job.add_argument("--each", action="store_true", help="IMAGE is a folder of images: each file below it is rescued into a folder "
                     "of its own below FOLDER")
    job.add_argument("image", metavar="IMAGE")
    job.add_argument("folder", metavar="FOLDER", nargs="?", help="a new folder, or an empty one")

    job = add_job(added, "mend", run_mend, "Make a copy of an image in which is repaired what has one right value: zones of the map, "
                  "the boot block, ends of directories. Nothing is written unless the copy is then whole.")
    add_order(job)
    job.add_argument("--guess", action="store_true", help="also make the check of a directory from its entries, if these agree with "
                     "the map: a name, type, date or length may be wrong all the same, so the status is 1")
    job.add_argument("image", metavar="IMAGE")
    job.add_argument("out", metavar="OUT", help="the file to make")


def run_rescue(words: Namespace) -> int:
    from .job import rescue
    return rescue(words)


def run_mend(words: Namespace) -> int:
    from .mending import mend
    return mend(words)
