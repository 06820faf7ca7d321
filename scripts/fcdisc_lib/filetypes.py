# SPDX-License-Identifier: MIT
"""File types by the endings that other systems have in place of them: `--types`."""
from __future__ import annotations

import os
import re
from typing import Dict, NamedTuple, Optional

from .messages import WRONG_WORDS, Trouble, reason, shown

DEFAULT = "default"
LINE = re.compile(r"\s*\.?([^\s,./]+)\s+&?([0-9A-Fa-f]{3})\s*(?:#.*)?\Z")
# The first ending of a type is the one that extract gives
TABLE = """\
# ending  type: the types are those that RISC OS has for such files
txt   fff
text  fff
md    fff
csv   dfe
htm   faf
html  faf
css   f79
xml   f80
js    f81
jpg   c85
jpeg  c85
png   b60
gif   695
bmp   69c
tif   ff0
tiff  ff0
ico   132
svg   aad
pdf   adf
ps    ff5
eps   ff5
rtf   c32
doc   ae6
xls   ba6
dxf   dea
wav   fb1
mid   fd4
midi  fd4
mp3   1ad
ogg   1ad
mpg   bf8
mpeg  bf8
avi   fb2
mod   cb6
zip   a91
gz    f89
tar   c46
arc   ddc
spk   ddc
exe   fd9
com   fda
bat   fda
bin   ffd
dat   ffd
img   fc8
bas   ffb
c     fff
h     fff
py    a73
pl    102
tex   2a8
"""


class Types(NamedTuple):
    """A table, both ways."""

    by_ending: Dict[str, int]
    by_type: Dict[int, str]

    def of_name(self, host: bytes) -> Optional[int]:
        """The type that a name on the host tells by its ending."""
        _, dot, ending = host.rpartition(b".")
        return self.by_ending.get(ending.decode("utf-8", "replace").lower()) if dot else None

    def ending(self, host: bytes, file_type: int) -> Optional[bytes]:
        """What a name on the host needs to tell the type: nothing if it does; None if no ending tells it."""
        if self.of_name(host) == file_type:
            return b""
        ending = self.by_type.get(file_type)
        return None if ending is None else b"." + ending.encode("utf-8")


def read_types(name: str) -> Types:
    """The table in that file, or the one that `fcdisc types` prints."""
    if name == DEFAULT:
        return parsed(TABLE, name)
    try:
        with open(name, encoding="utf-8", errors="surrogateescape") as file:
            return parsed(file.read(), name)
    except OSError as error:
        raise Trouble("%s: %s" % (shown(os.fsencode(name)), reason(error))) from None


def parsed(text: str, name: str) -> Types:
    types = Types({}, {})
    for number, line in enumerate(text.splitlines(), 1):
        if not line.strip() or line.lstrip().startswith("#"):
            continue
        found = LINE.match(line)
        if not found:
            raise Trouble("%s: line %d isn't an ending and a type, as in `jpg c85`" % (shown(name), number), WRONG_WORDS)
        types.by_ending[found[1].lower()] = int(found[2], 16)
        types.by_type.setdefault(int(found[2], 16), found[1].lower())
    return types
