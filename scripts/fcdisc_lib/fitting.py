# SPDX-License-Identifier: MIT
"""Names for a disc that doesn't take a name as it is: `--fit`."""
from __future__ import annotations

import unicodedata
from typing import Dict, NamedTuple

from . import names
from .description import Description

SHORT_NAME = 10
HARD_SPACE = "\xa0"
NOT_FITTING = names.NOT_PLAIN.decode("ascii").replace(".", "")


class Limits(NamedTuple):
    """What a disc takes as a name: so many letters, of ASCII alone or of Latin 1."""

    longest: int
    is_ascii: bool

    @classmethod
    def of_format(cls, form: str) -> Limits:
        return cls(names.LONGEST if form.endswith("+") else SHORT_NAME, form in ("S", "M", "L"))

    @classmethod
    def of_disc(cls, disc: Description) -> Limits:
        return cls.of_format(disc.form)


class Fitting:
    """The names of one directory. What the disc takes as it is keeps its name; another that would have it gets `~1` and so on.

    An owner is what a name is given to, by a name of its own.
    """

    def __init__(self, limits: Limits):
        self.limits = limits
        self.given: Dict[bytes, bytes] = {}  # owners by folded names

    def takes(self, name: bytes) -> bool:
        """Whether the disc can have the name, as far as letters go."""
        return 0 < len(name) <= self.limits.longest and not any(
            byte <= 32 or byte == 127 or byte in names.NOT_PLAIN or self.limits.is_ascii and byte > 126 for byte in name)

    def reserve(self, name: bytes, owner: bytes) -> None:
        """Gives the owner its own name, if the disc takes it and nobody has it."""
        if self.takes(name):
            self.given.setdefault(names.folded(name), owner)

    def name(self, text: str, owner: bytes) -> bytes:
        """The owner's name on the disc. `text` is the wanted one, with `/` as a disc has it."""
        letters = "".join(self.letter(one) for one in unicodedata.normalize("NFC", text)) or "_"
        own = text.encode("latin-1", "replace")
        name = own if self.given.get(names.folded(own)) == owner else letters.encode("latin-1")
        number = 0
        while not self.takes(name) or self.given.setdefault(names.folded(name), owner) != owner:
            number += 1
            ending = "~%d" % number
            name = (letters[:self.limits.longest - len(ending)] + ending).encode("latin-1")
        return name

    def letter(self, one: str) -> str:
        """The nearest that the disc takes: a hard space for a space, `e` for an accented one on an L disc, else `_`."""
        if one in " \xa0":
            return "_" if self.limits.is_ascii else HARD_SPACE
        if one in NOT_FITTING or one == "." or not one.isprintable():
            return "_"
        if one.isascii() or ord(one) < 256 and not self.limits.is_ascii:
            return one
        plain = "".join(part for part in unicodedata.normalize("NFKD", one) if part.isascii() and part.isprintable())
        return "".join("_" if part in NOT_FITTING + " ." else part for part in plain) or "_"
