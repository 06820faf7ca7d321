# SPDX-License-Identifier: MIT
"""Folders in which the checks of fcdisc run it."""
from __future__ import annotations

import os
import time
from typing import Callable, Dict, Mapping, Union

from tools.files import read


Content = Mapping[bytes, Union[bytes, str, None]]  # by path: a file's bytes, a link's `-> TARGET`, None for a folder


def fill(folder: bytes, content: Content) -> None:
    """Makes what stands in a folder before a case."""
    for name, data in content.items():
        path = os.path.join(folder, name)
        if data is None:
            os.mkdir(path)
        elif isinstance(data, str):
            os.symlink(data[3:].encode(), path)
        else:
            with open(path, "wb") as file:
                file.write(data)


def snapshot(folder: bytes) -> Dict[bytes, Union[bytes, str, None]]:
    """What stands in a folder: bytes, None for a folder, `-> TARGET` for a link."""
    found: Dict[bytes, Union[bytes, str, None]] = {}
    for place, folders, files in os.walk(folder):
        for name in folders + files:
            path = os.path.join(place, name)
            if os.path.islink(path):
                found[os.path.relpath(path, folder)] = "-> " + os.fsdecode(os.readlink(path))
            elif os.path.isdir(path):
                found[os.path.relpath(path, folder)] = None
            else:
                found[os.path.relpath(path, folder)] = read(path)
    return found


def wait_for(there: Callable[[], object], seconds: int = 60) -> None:
    end = time.monotonic() + seconds
    while not there() and time.monotonic() < end:
        time.sleep(0.02)
