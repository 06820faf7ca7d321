#!/usr/bin/env python3
# SPDX-License-Identifier: MIT
"""Packs what was built: an archive that runs where there is Python and nothing else, and the sums of what is in it.

usage: tools/run dist FCORE FCONVERT [FOLDER]    into out/, if no folder is named
fcdisc becomes one file, a zip archive that Python runs. The same sources give the same bytes: times are those of the last commit.
"""
import gzip
import hashlib
import io
import os
import subprocess
import sys
import tarfile
import zipfile
from typing import Dict, Iterator, Tuple

from tools.files import TOP, read

PLAIN = ("README.md", "LICENSE", "CHANGES.md", "VERSION",
         "docs/FORMAT.md", "docs/PROVED.md", "docs/RESCUE.md", "docs/SPEED.md")  # README and man pages send keepers there
END_OF_SHELL = b"'''\n"  # where the lines of the script fcdisc end that are the shell's
SCRIPT = os.path.join(TOP, "scripts", "fcdisc")
OLDEST = (1980, 1, 1, 0, 0, 0)  # zip has no earlier time


def version() -> str:
    return read(os.path.join(TOP, "VERSION")).decode().strip()


def parts_of_fcdisc() -> Iterator[Tuple[str, bytes]]:
    """What Python finds in the one file: the script as its beginning, and the parts."""
    scripts = os.path.join(TOP, "scripts")
    yield "__main__.py", read(SCRIPT)
    yield "VERSION", read(os.path.join(TOP, "VERSION"))
    for place, folders, names in os.walk(os.path.join(scripts, "fcdisc_lib")):
        folders[:] = sorted(one for one in folders if one != "__pycache__")
        for name in sorted(names):
            path = os.path.join(place, name)
            yield os.path.relpath(path, scripts), read(path)


def one_file() -> bytes:
    """fcdisc as one file."""
    packed = io.BytesIO()
    packed.write(read(SCRIPT).partition(END_OF_SHELL)[0])
    with zipfile.ZipFile(packed, "a", zipfile.ZIP_DEFLATED) as archive:
        for name, data in parts_of_fcdisc():
            archive.writestr(zipfile.ZipInfo(name, OLDEST), data, zipfile.ZIP_DEFLATED)
    return packed.getvalue()


def contents(program: str, converter: str) -> Dict[str, Tuple[int, bytes]]:
    """Each file of the archive, with its mode."""
    found = {"bin/fcore": (0o755, read(program)), "bin/fconvert": (0o755, read(converter)), "bin/fcdisc": (0o755, one_file())}
    for name in PLAIN:
        found[name] = (0o644, read(os.path.join(TOP, name)))
    for name in sorted(os.listdir(os.path.join(TOP, "man"))):
        found["share/man/man%s/%s" % (name[-1], name)] = (0o644, read(os.path.join(TOP, "man", name)))
    for place, _, names in os.walk(os.path.join(TOP, "scripts", "completion")):
        for name in sorted(names):
            found["share/" + completion_place(name)] = (0o644, read(os.path.join(place, name)))
    sums = "".join("%s  %s\n" % (hashlib.sha256(data).hexdigest(), name) for name, (_, data) in sorted(found.items()))
    found["SHA256SUMS"] = (0o644, sums.encode())
    return found


def completion_place(name: str) -> str:
    """Where shells look for a completion; the file is named after the program and its shell, as fcdisc.bash."""
    program, _, shell = name.partition(".")
    others = {"zsh": "zsh/site-functions/_" + program, "fish": "fish/vendor_completions.d/%s.fish" % program}
    return others.get(shell, "bash-completion/completions/" + program)


def time_of_sources() -> int:
    told = os.environ.get("SOURCE_DATE_EPOCH")
    if told:
        return int(told)
    words = ["git", "-C", TOP, "log", "-1", "--format=%ct"]
    ran = subprocess.run(words, stdout=subprocess.PIPE, stderr=subprocess.DEVNULL, text=True, check=False)
    return int(ran.stdout or 0)


def archive(files: Dict[str, Tuple[int, bytes]], folder: str, moment: int) -> bytes:
    """A packed tar file whose bytes depend on these alone."""
    plain = io.BytesIO()
    with tarfile.open(fileobj=plain, mode="w", format=tarfile.USTAR_FORMAT) as tar:
        for name, (mode, data) in sorted(files.items()):
            entry = tarfile.TarInfo("%s/%s" % (folder, name))
            entry.size, entry.mode, entry.mtime, entry.uname, entry.gname = len(data), mode, moment, "root", "root"
            tar.addfile(entry, io.BytesIO(data))
    return gzip.compress(plain.getvalue(), mtime=0)


def main(program: str, converter: str, folder: str = os.path.join(TOP, "out")) -> None:
    for one in (program, converter):
        if not os.access(one, os.X_OK):
            sys.exit("%s isn't there: run make first" % one)
    name = "fcore-%s" % version()
    packed = archive(contents(program, converter), name, time_of_sources())
    os.makedirs(folder, exist_ok=True)
    path = os.path.join(folder, name + "-linux-x86_64.tar.gz")
    with open(path, "wb") as file:
        file.write(packed)
    with open(path + ".sha256", "w") as file:
        file.write("%s  %s\n" % (hashlib.sha256(packed).hexdigest(), os.path.basename(path)))
    print("packed: %s (%d bytes), and its sum beside it" % (os.path.relpath(path), len(packed)))


if __name__ == "__main__":
    if len(sys.argv) not in (3, 4):
        sys.exit(__doc__)
    main(*sys.argv[1:])
