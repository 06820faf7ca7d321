# SPDX-License-Identifier: MIT
"""What each fault of an image means to its owner, and what to do about it; and why fcore refused a line."""
from __future__ import annotations

from typing import List, NamedTuple, Tuple

from .meanings import DIRECTORY_FAULTS, FAULTS, REFUSALS

IT_IS = "it is "  # how the meaning begins if the file turned out to be something else


class Fault(NamedTuple):
    """A fault in words: what is wrong, fcore's line for it, and what to do. `is_disc`: whether a FileCore disc is harmed."""

    meaning: str
    line: str
    advice: str
    is_disc: bool = True

    def __str__(self) -> str:
        return "%s [%s]. What to do: %s" % (self.meaning, self.line, self.advice)

    @property
    def kind(self) -> str:
        """What faults have in common that have the same meaning: the words of the line that name no place."""
        if self.meaning.startswith(IT_IS):
            return self.meaning[len(IT_IS):]
        words = self.line.split(" ")
        return " ".join(words[0:3:2]) if words[0] == "Directory" else words[0]


def explained(words: List[str]) -> Fault:
    """The fault. `words` are those of fcore's line."""
    kind, fields = words[0], words[1:]
    if kind not in FAULTS:
        return Fault("fcore says so", " ".join(words), "see fcore(1)")
    meaning, advice = FAULTS[kind].meaning, FAULTS[kind].advice
    if kind == "Directory":
        meaning, advice = directory_explained(fields, meaning, advice)
    else:
        meaning = meaning.format(*fields)
    return Fault(meaning, " ".join(words), advice)


def copies_explained(fields: List[str], zones: int) -> str:
    """What is wrong with the two copies of a map of so many zones."""
    texts = ["the sum over its zones" if field == str(zones) else "its zone %s" % field for field in fields]
    if texts[0] == texts[1]:
        return "in both copies of the map %s is wrong" % texts[0].replace("its zones", "the zones").replace("its zone", "zone")
    return "neither copy of the map is sound: in one %s is wrong, in the other %s" % (texts[0], texts[1])


def directory_explained(fields: List[str], meaning: str, advice: str) -> Tuple[str, str]:
    path, fault, *number = fields
    inner, more, _ = DIRECTORY_FAULTS.get(fault, (fault, "", ""))
    return meaning.format(path, inner.format(*number)), advice + more


def refusal_explained(name: str) -> str:
    """A refusal in words."""
    return name in REFUSALS and REFUSALS[name].words or "fcore refuses it: " + name
