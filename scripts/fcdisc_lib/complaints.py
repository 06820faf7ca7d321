# SPDX-License-Identifier: MIT
"""Many messages of a kind: the first few are told, the others are counted."""
from __future__ import annotations

import re
from typing import Dict

from .messages import tell

FIRST = 5
PARTICULARS = re.compile(r"(?:%[0-9A-F]{2}|[0-9]+)(?: (?:%[0-9A-F]{2}|[0-9]+))*")


class Complaints:
    """Messages about objects. Those that differ in numbers and letters alone are of one kind. `verbose` tells all of them."""

    def __init__(self, verbose: bool = False):
        self.verbose = verbose
        self.count = 0
        self.counts: Dict[str, int] = {}
        self.texts: Dict[str, str] = {}

    def __call__(self, subject: str, text: str) -> None:
        self.count += 1
        kind = PARTICULARS.sub("N", text)
        self.counts[kind] = self.counts.get(kind, 0) + 1
        self.texts[kind] = text if self.texts.get(kind, text) == text else PARTICULARS.sub("..", text)
        if self.verbose or self.counts[kind] <= FIRST:
            tell("%s: %s" % (subject, text))

    def sum_up(self) -> None:
        """Tells how many weren't told."""
        if self.verbose:
            return
        for kind, count in self.counts.items():
            if count > FIRST:
                tell("and %d more: %s (-v names them)" % (count - FIRST, self.texts[kind]))
        self.counts.clear()
