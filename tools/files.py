# SPDX-License-Identifier: MIT
"""Files that the checks read and build."""
from __future__ import annotations

import os
import shutil
import subprocess
from typing import List, Union

TOOLS = os.path.dirname(os.path.realpath(__file__))
TOP = os.path.dirname(TOOLS)
PROGRAM = os.path.join(TOP, "crates", "fcore", "out", "fcore")
CONVERTER = os.path.join(TOP, "crates", "fconvert", "out", "fconvert")
# A folder in memory, where there is one: a disc that is changed is synced again and again
MEMORY = "/dev/shm" if os.access("/dev/shm", os.W_OK) else os.environ.get("TMPDIR", "/tmp")


def read(path: Union[bytes, str]) -> bytes:
    with open(path, "rb") as file:
        return file.read()


def compiler() -> List[str]:
    """The words of the C compiler: $CC, or cc."""
    return os.environ.get("CC", "cc").split()


def has_compiler() -> bool:
    return bool(shutil.which(compiler()[0]))


def built_shim(folder: str) -> str:
    """The object between a program and the system, made of checks/outside.c in that folder."""
    shim = os.path.join(folder, "shim.so")
    subprocess.run([*compiler(), "-O2", "-shared", "-fPIC", "-o", shim, os.path.join(TOOLS, "checks", "outside.c")], check=True)
    return shim
