# SPDX-License-Identifier: MIT
"""The words of the jobs over folders of images."""
from __future__ import annotations

from typing import TYPE_CHECKING

from .common_words import add_job, add_order, digest, file_type, later, looked_for

if TYPE_CHECKING:
    from .common_words import Jobs


def add_collections(added: Jobs) -> None:
    job = add_job(added, "catalogue", later("catalogue", "catalogue"),
                  "List all objects of all images in a folder, with digests. As CSV, or "
                  "as JSON.")
    add_order(job)
    job.add_argument("--json", action="store_true", help="print JSON")
    job.add_argument("folder", metavar="FOLDER", nargs="+", help="a folder, or an image")

    job = add_job(added, "find", later("search", "find"),
                  "Find files and directories in all images of a folder. The status is 1 if there is "
                  "none.")
    add_order(job)
    job.add_argument("--type", metavar="XXX", type=file_type, help="files of that type alone")
    job.add_argument("--holds", metavar="TEXT", type=looked_for, help="files that hold these letters")
    job.add_argument("--sha256", metavar="DIGEST", type=digest, help="files with that digest, or with one that begins so")
    job.add_argument("folder", metavar="FOLDER", nargs="+", help="a folder, or an image")
    job.add_argument("pattern", metavar="PATTERN", help="a name, or the last names of a path, or with `$.` a whole path; * stands "
                     "for any letters of a name and # for one")

    job = add_job(added, "diff", later("difference", "diff"),
                  "Say what two discs have that is different; or a disc and a folder or zip "
                  "archive. The status is 1 if there is anything.")
    add_order(job)
    job.add_argument("-v", "--verbose", action="store_true", help="name all that can't be compared")
    job.add_argument("first", metavar="A", help="an image, a folder as extract makes it, or a zip archive")
    job.add_argument("second", metavar="B")

    add_job(added, "types", later("jobs", "print_types"), "Print the table of endings and file types that --types default takes.")
