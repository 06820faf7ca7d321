# SPDX-License-Identifier: MIT
"""Draws lines of changing commands, most of them aimed at what is there and at the edges of space, by chance."""
from __future__ import annotations

import random
from typing import TYPE_CHECKING, List, Optional, Sequence, Tuple, Union

from tools.images.drawn_discs import random_name
from tools.reference.change_answer import CHANGING, Command
from tools.reference.change_state import State
from tools.reference.filecore import NOT_SPELLED
from tools.reference.read_image import READING, Entry

if TYPE_CHECKING:
    from tools.reference.change_batch import TreeState

MOODS = {  # how often each command is drawn
    "all": dict(save=5, create=5, cdir=3, delete=4, rename=6, set=2),
    "fill": dict(save=3, create=9, cdir=2, delete=1, rename=2, set=1),
    "names": dict(save=1, create=6, cdir=3, delete=1, rename=6, set=1),
    "grow": dict(save=2, create=6, cdir=3, delete=1, rename=5, set=1),
    "empty": dict(save=1, create=1, cdir=1, delete=8, rename=3, set=1),
}
HOSTILE = ("$.", "$..A", "A", "$.%1F", "$.%7", "$.A%", "$.%00", "$.A.", "$.A:B", "$.a*", "$$", "$.%", "$.%2e%2E", "$.A%20B", "$.%7F",
           "$.%E9x")
LINES = (b"", b"#", b"sav $.A", b"save $.A 0 0 00", b"cdir", b"cdir $.A ", b"create $.A 00000000 00000000 007",
         b"set $.A 00000000 00000000 LR", b"create $.A 00000000 00000000 4294967296", b"delete $ $", b"rename $.A",
         b"save $.A 00000000 00000000 123", b"cat  $",
         b"set $.A 00000000 00000000 ", b"cat $.\xe9", b"save\t$.A 00000000 00000000 00", b"delete $.A\r", b"FREE", b"free ", b" free",
         b"create $.A 00000000 00000000 4294967295")
REFUSED = (b"delete $", b"cdir $", b"save $ 00000000 00000000 00", b"create $.A%20B 00000000 00000000 0", b"rename $ $.Root",
           b"set $ 00000000 00000000 -")  # while the copies of the map differ: a refusal mustn't mend them


class Drawer:
    """Draws commands over the image as it stands."""

    def __init__(self, chance: random.Random, words: Sequence[str]) -> None:
        self.chance, self.drawn = chance, [word for word in CHANGING if word in words]
        self.compacts = "compact" in words
        self.lines = [line for line in LINES if not line or Command(line).fault or Command(line).word in words]
        self.mood = chance.choice(sorted(MOODS))
        self.favourite: Optional[Tuple[bytes, ...]] = None  # a directory in which names are often made
        self.is_begun = False
        self.state: Union[State, TreeState]  # since the first line

    def line(self, state: Union[State, TreeState]) -> bytes:
        if state.form == "big" and not self.is_begun and self.chance.random() < 0.6:
            self.mood = "grow"
        self.state, self.is_begun = state, True
        draw = self.chance.random()
        if draw < 0.5 and isinstance(state, State) and state.is_new and len(set(state.copies())) > 1:
            return self.chance.choice([line for line in REFUSED if line.split()[0].decode() in self.drawn])
        if draw < 0.02:
            return self.chance.choice(self.lines)
        if draw < 0.04:
            word = self.chance.choice(READING)
            return (word if word in ("free", "check") else "%s %s" % (word, self.there())).encode()
        if draw > 0.98 and self.compacts:
            return b"compact"
        weights = MOODS[self.mood]
        word = self.chance.choices(self.drawn, [weights[word] for word in self.drawn])[0]
        return getattr(self, word)().encode()

    # lines

    def save(self) -> str:
        draw, length = self.chance.random(), self.length()
        if length > 30000:
            length = self.chance.randint(0, 3000)
        data = b"" if draw < 0.1 else self.chance.randbytes(length)
        return "save %s %s %s" % (self.made_or_there(), self.words(), data.hex() or "-")

    def create(self) -> str:
        empty = 0.7 if self.mood in ("names", "grow") else 0.1
        return "create %s %s %d" % (self.made_or_there(), self.words(), 0 if self.chance.random() < empty else self.length())

    def cdir(self) -> str:
        return "cdir " + (self.there() if self.chance.random() < 0.07 else self.made())

    def delete(self) -> str:
        return "delete " + self.there()

    def rename(self) -> str:
        if self.state.form == "big" and self.chance.random() < 0.3:
            return self.rename_that_grows()
        source, draw = self.there(), self.chance.random()
        if draw < 0.15:
            return "rename %s %s" % (source, source)
        if draw < 0.3:
            return "rename %s %s" % (source, "".join(self.chance.choice((c.lower(), c.upper())) if c.isalpha() else c for c in source))
        if draw < 0.55 and "." in source:
            return "rename %s %s.%s" % (source, source.rsplit(".", 1)[0], self.name())
        if draw < 0.6:
            return "rename %s %s" % (source, self.there())
        if draw < 0.64:
            return "rename %s %s.%s" % (source, source, self.name())
        if draw < 0.75 and "." in source:  # to another directory under the same name
            return "rename %s %s.%s" % (source, self.directory(), source.rsplit(".", 1)[1])
        return "rename %s %s" % (source, self.made())

    def rename_that_grows(self) -> str:
        """To a big directory in which little is left, under a long name; most files share their identifier, and so are copied."""
        found = self.state.disc.directories
        to = min(found if self.chance.random() < 0.7 else self.chance.sample(found, 1), key=self.room_in)
        others = [entry for entry in self.state.objects.values() if not entry.is_directory() and entry.path[:-1] != to.path]
        chosen = [entry for entry in others if self.is_sharing(entry)] or others
        source = self.path_to(self.chance.choice(chosen)) if chosen else self.there()
        return "rename %s %s.%s" % (source, self.path_to(to), self.long_name())

    def is_sharing(self, entry: Entry) -> bool:
        """Whether another object lies in the file's identifier; a tree without an image doesn't say."""
        return isinstance(self.state, State) and bool(entry.sectors) and len(self.state.owners[entry.address // 256]) > 1

    def set(self) -> str:
        access = "".join(letter for letter in "RWL" if self.chance.random() < (0.2 if letter == "L" else 0.5))
        return "set %s %s %s" % (self.there(), self.words(), access or "-")

    # words

    def words(self) -> str:
        return " ".join("%08x" % self.chance.choice((0, 0xFFFFFD00, self.chance.getrandbits(32))) for at in range(2))

    def spelled(self, names: List[bytes]) -> str:
        return ".".join(["$"] + ["".join(self.spelled_byte(byte) for byte in name) for name in names])

    def spelled_byte(self, byte: int) -> str:
        if 33 <= byte <= 126 and byte not in NOT_SPELLED and self.chance.random() > 0.02:
            return chr(byte)
        return ("%%%02X" if self.chance.random() < 0.5 else "%%%02x") % byte

    def folded_by_chance(self, name: bytes) -> bytes:
        if self.chance.random() > 0.15:
            return name
        return bytes(byte ^ 32 if chr(byte).isalpha() and byte < 128 else byte for byte in name)

    def path_to(self, entry: Entry) -> str:
        return self.spelled([self.folded_by_chance(name) for name in entry.path])

    def there(self) -> str:
        """An object that is there, mostly; now and then a path that isn't right."""
        draw = self.chance.random()
        if draw < 0.02:
            return self.chance.choice(HOSTILE)
        if draw < 0.05:
            return self.made()
        entries = list(self.state.objects.values())
        if draw > 0.08:
            entries = entries[1:] or entries  # the root is the first
        if draw < 0.5:
            entries = [entry for entry in entries if entry.is_directory() != (draw < 0.35)] or entries
        entry = self.chance.choice(entries)
        if draw < 0.07:
            return self.path_to(entry) + "." + self.name()
        return self.path_to(entry)

    def directory(self) -> str:
        found = self.state.disc.directories
        if self.mood == "grow" and self.state.form == "big" and self.chance.random() < 0.8:
            few = self.chance.sample(found, min(len(found), self.chance.choice((4, 99))))
            return self.path_to(min(few, key=self.room_in))
        if self.favourite not in self.state.heads or self.chance.random() < 0.05:
            self.favourite = tuple(name.upper() for name in self.chance.choice(found).path)
        if self.mood in ("names", "fill") and self.chance.random() < 0.7 and self.favourite in self.state.heads:
            return self.path_to(self.state.objects[self.favourite])
        return self.path_to(self.chance.choice(found))

    def room_in(self, directory: Entry) -> int:
        """About how many bytes are left in a big directory; in a tree without an image, up to 2048 bytes."""
        head = self.state.heads[tuple(name.upper() for name in directory.path)]
        used = 40 + sum(28 + len(entry.name) // 4 * 4 + 4 for entry in directory.entries)
        return head.size - used if head else -used % 2048

    def name(self) -> str:
        draw = self.chance.random()
        if draw < 0.02:
            return self.spelled([self.chance.choice((b"A B", b"\x7f", b"a:b", b"x" * 11, b"\xe9", b"y" * 255, b"."))])[2:]
        if draw < 0.03:
            return self.chance.choice(("%0A", "x" * 256, "%2", "#"))
        if self.mood == "grow" and draw < 0.8 and self.state.form == "big":
            return self.long_name()
        return self.spelled([random_name(self.chance, self.state.form)])[2:]

    def long_name(self) -> str:
        return "".join(self.chance.choices("abcdefgh", k=self.chance.randint(120, 255)))

    def made(self) -> str:
        return "%s.%s" % (self.directory(), self.name())

    def made_or_there(self) -> str:
        files = [entry for entry in self.state.objects.values() if not entry.is_directory()]
        if files and self.chance.random() < 0.3:
            return self.path_to(self.chance.choice(files))
        return self.made()

    def holes(self) -> List[int]:
        if self.state.is_new:
            return [length * self.state.new_map.shape.bit_bytes for zone, start, length in self.state.holes()]
        return [length * self.state.sector for start, length in self.state.old_holes()]

    def length(self) -> int:
        """A length in bytes, often at the edge of holes, sectors, share units or of all that is free."""
        holes, chance = self.holes(), self.chance
        unit = self.state.new_map.shape.share if self.state.is_new else self.state.sector
        draw = chance.random()
        if draw < (0.06 if self.mood != "fill" else 0.15):
            size = sum(holes)
        elif draw < 0.2 and holes:
            size = sum(chance.sample(holes, chance.randint(1, min(4, len(holes)))))
        elif draw < 0.45:
            size = chance.randint(1, 12) * unit
        elif draw < 0.47:
            return chance.choice((4294967295, 1 << 31, 1 << 24))
        elif draw < 0.55:
            size = chance.randint(1, max(1, sum(holes) // 3))
        else:
            return chance.randint(1, 3000)
        least = self.state.new_map.shape.least * self.state.new_map.shape.bit_bytes if self.state.is_new else self.state.sector
        return max(0, size - chance.choice((0, 0, 0, 1, -1, least, -least, 2 * least, self.state.sector)))
