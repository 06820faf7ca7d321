# SPDX-License-Identifier: MIT
"""Lists of what breaks a rule today, which may only shrink: what is counted, crate, name, and its number."""
from typing import Dict, Tuple

Key = Tuple[str, str, str]


def read(path: str) -> Dict[Key, int]:
    with open(path) as file:
        rows = [line.split() for line in file if line.strip() and not line.startswith("#")]
    return {(what, crate, name): int(count) for what, crate, name, count in rows}


def write(path: str, listed: Dict[Key, int]) -> None:
    """The comment at the top stays."""
    with open(path) as file:
        head = "".join(line for line in file if line.startswith("#"))
    with open(path, "w") as file:
        file.write(head + "".join("%s %s %s %d\n" % (*key, count) for key, count in sorted(listed.items())))
