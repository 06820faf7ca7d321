# SPDX-License-Identifier: MIT
"""The space of a disc, by the kind of its map."""
from __future__ import annotations

from .discs import Disc
from .places import OldSpace, Space
from .source import Source
from .zones import ZoneSpace


def space_of(disc: Disc, source: Source) -> Space:
    return OldSpace(disc, source) if disc.is_old else ZoneSpace(disc, source)
