#!/usr/bin/env python3
# SPDX-License-Identifier: MIT
"""Sees that no new lemma or definition is one that std or a lower crate has already, or one that nothing uses.

usage: tools/run checks/copies [--all] [--write] [--kit FOLDER] [CRATE...]     the kit's folder is /opt/rattle; without it std is left out
Compared are statements, and for copies of another crate also bodies, up to the names of variables. It reads text and proves
nothing: a copy that it names may still differ in an implicit argument, and the prover says so. What a crate has of std is used by
`use Rattle.std.proofs.lemmas.MODULE.{..}`; what it has of a lower crate has to be `pub` there, in a module that proofs/Lib.antt
exports by `pub mod`. What stands twice or unused today is listed in copies.txt, by crate and name, with how often: a number may only
fall. --all names these too; with --write numbers that are too high fall, and none is added.
"""
from __future__ import annotations

import argparse
import collections
import functools
import glob
import os
import re
import sys
from typing import Callable, Dict, Iterator, List, NamedTuple, Set, Tuple

from tools.checks import exceptions
from tools.files import TOOLS, TOP

NAME = r"[^\W\d][\w'-]*"
END = r"(?![\w'-])"
WORD = re.compile(rf"(?<![\w'.-]){NAME}")
TOKEN = re.compile(rf"{NAME}(?:\.[\w'-]+)*|◌\S*◌|\S")
HEAD = re.compile(rf"^(?:abbrev |unfoldable )?(?P<pub>pub )?(?P<name>{NAME}) : ")
USE = re.compile(r"^(?:ghost )?(?:pub )?use ([\w.]+)\.\{(.*)\};?$")
USING = re.compile(r"using\(([^)]*)\)")
WHOLE_USE = re.compile(rf"^(?:ghost )?(?:pub )?use ([\w.+]+) as ({NAME});?$", re.MULTILINE)
DOTTED = re.compile(rf"(?<![\w'.-])({NAME})((?:\.{NAME})+)")
WRITTEN_BY_GOALS = ("Answers.antt", "Invariants.antt", "Proof.antt", "Lib.antt")
EXCEPTIONS = os.path.join(TOOLS, "checks", "copies.txt")
TOLD = {"std": "copies of std", "copy": "copies of a crate", "unused": "used by nothing"}


def read(path: str) -> str:
    with open(path, encoding="utf-8") as it:
        return it.read()


class Item:
    """A definition or lemma at the top of a file: its name, its statement, and the lines of its body."""

    def __init__(self, file: File, name: str, is_pub: bool, start: int, statement: str) -> None:
        self.file, self.name, self.is_pub, self.start, self.statement = file, name, is_pub, start, statement
        self.body: List[str] = []
        self.end = start + 1


class File:
    """A file of the kit, or of a crate: its items, and what it imports."""

    def __init__(self, path: str) -> None:
        self.path, self.lines = path, read(path).split("\n")
        self.imports: Dict[str, str] = {}
        self.items: List[Item] = []
        for line in filter(None, map(USE.match, self.lines)):
            self.imports.update((name.split(" as ")[-1].strip(), line[1]) for name in line[2].split(","))
        self.read_items()
        self.names = {item.name for item in self.items}

    @property
    def crate(self) -> str:
        return self.path.split("/")[1]

    @property
    def module(self) -> str:
        return "Rattle." + self.path[len("crates/"):-len(".antt")].replace("/", ".")

    def read_items(self) -> None:
        """An item goes on with indented lines, closing brackets, and lines that begin with its name."""
        item, in_statement = None, False
        for at, line in enumerate(self.lines):
            head = HEAD.match(line)
            if head:
                item, in_statement = Item(self, head["name"], bool(head["pub"]), at, line), True
                self.items.append(item)
            elif item and in_statement and line.startswith("    "):
                item.statement += " " + line.strip()
                item.end = at + 1
            elif item and (line.startswith((" ", "]", "}", ")", "unfolding ")) or re.match(re.escape(item.name) + END, line)):
                item.body.append(line)
                item.end, in_statement = at + 1, False
            elif line.strip():
                item = None


def bound_in(text: str) -> Set[str]:
    """The variables of binders and lambdas, and of the patterns before `=`."""
    names = [name for found in re.finditer(rf"[({{]({NAME}(?: {NAME})*) : ", text) for name in found[1].split()]
    names += [name for found in re.finditer(r"λ ([^.]*?)\.", text) for name in re.findall(NAME, found[1].split(" : ")[0])]
    for line in text.split("\n"):
        before, equals, _ = line.partition(" = ")
        names += re.findall(NAME, before)[1:] if equals and not line.startswith(" ") and " : " not in before else []
    return {name for name in names if name[0].islower()}


def spread(text: str) -> str:
    """Each variable of `(a b : T) → ` gets a binder of its own, so that a lemma may group them as it likes."""
    each = lambda found: "".join(f"({name} : {found[2]}) → " for name in found[1].split())
    return re.sub(rf"\(({NAME}(?: {NAME})*) : ([^()]*(?:\([^()]*\)[^()]*)*)\) → ", each, text)


def formed(text: str, own: str, meaning: Callable[[str], str]) -> str:
    """The text with variables by number, and with what it names of other files by where that stands."""
    text = re.sub(r"^(abbrev |unfoldable )?(pub )?", "", text)
    bound, numbers, found = {name for name in bound_in(text) if meaning(name) == name and name != own}, {}, []
    for token in TOKEN.findall(text):
        head, dot, rest = token.partition(".")
        if head in bound:
            found.append(f"%{numbers.setdefault(head, len(numbers))}{dot}{rest}")
        else:
            found.append(f"{'SELF' if head == own else meaning(head)}{dot}{rest}")
    return " ".join(found)


def statement_of(item: Item) -> str:
    """The form of a statement alone, without its name and leading types, as std is looked through."""
    text = re.sub(r"^(\{[^{}]*\} → )+", "", HEAD.sub("", item.statement))
    return formed(spread(text), item.name, lambda name: name)


def form_of(item: Item) -> Tuple[str, str, str]:
    """The form of a statement and its body. What comes of std counts by its name, since std gives it in several modules."""
    def meaning(name: str) -> str:
        module = item.file.imports.get(name) or (item.file.module if name in item.file.names else "")
        return name if not module or module.startswith("Rattle.std.") else f"{module}.{name}"
    kind = item.statement.split(" ")[0] if item.statement.startswith(("abbrev ", "unfoldable ")) else ""
    return kind, formed(item.statement, item.name, meaning), formed("\n".join(item.body), item.name, meaning)


def lemmas_of_std(kit: str) -> Dict[str, Set[str]]:
    """The lemmas that std's modules have or pass on, by the form of their statements."""
    root, found = os.path.join(kit, "rattle"), collections.defaultdict(set)

    @functools.lru_cache(maxsize=None)
    def statements(path: str) -> Dict[str, Item]:
        return {item.name: item for item in File(path).items if item.is_pub} if os.path.isfile(path) else {}

    for path in sorted(glob.glob(f"{root}/std/proofs/lemmas/**/*.antt", recursive=True)):
        module = "Rattle.std." + os.path.relpath(path, f"{root}/std")[:-len(".antt")].replace("/", ".")
        for name, item in statements(path).items():
            found[statement_of(item)].add(f"{module}.{name}")
        for passed in re.finditer(r"^pub use ([\w.]+)\.\{(.*)\}", read(path), re.MULTILINE):
            above = passed[1].split(".")
            folder = {"Rattle": root, "borrow": f"{root}/logic/Borrow"}.get(above[0])
            there = statements("/".join([folder, *above[1:]]) + ".antt") if folder else {}
            for name in passed[2].split(","):
                name, _, other = name.strip().partition(" as ")
                if name in there:
                    found[statement_of(there[name])].add(f"{module}.{other or name}")
    return found


def crates_in_order() -> Dict[str, List[str]]:
    """The crates, lowest first, each with those that it uses."""
    rows = [line.split("#")[0].split(":") for line in read("crates.txt").split("\n") if ":" in line.split("#")[0]]
    return {row[0].strip(): row[1].split() for row in rows}


class Found(NamedTuple):
    what: str
    item: Item
    other: str = ""  # what it is a copy of

    @property
    def key(self) -> exceptions.Key:
        return self.what, self.item.file.crate, self.item.name

    def told(self) -> str:
        return "%s:%d %s %s" % (self.item.file.path, self.item.start + 1, self.item.name,
                                "is " + self.other if self.other else "is used by nothing")


def copies_of_std(files: List[File], std: Dict[str, Set[str]]) -> Iterator[Found]:
    """The lemmas of these files that std has. What only names types says too little to be one."""
    for item in (item for file in files if "/proofs/" in file.path for item in file.items if re.search("→.*[≡≤<⊥]", item.statement)):
        for name in sorted(std.get(statement_of(item), ()))[:1]:
            yield Found("std", item, name)


def copies_of_crates(files: List[File], crates: Dict[str, List[str]]) -> Iterator[Found]:
    """The items that the same crate or one below has already, with the lowest that may be cited."""
    same, order = collections.defaultdict(list), list(crates)
    for item in (item for file in files if not file.path.endswith(WRITTEN_BY_GOALS) for item in file.items if item.body):
        same[form_of(item)].append(item)
    for items in same.values():
        items.sort(key=lambda item: (order.index(item.file.crate), "/proofs/" in item.file.path, item.file.path))
        for at, item in enumerate(items):
            # two definitions may say alike of different things, as that a zone is listed and that a sector is
            lower = [one for one in items[:at] if (one.file.crate == item.file.crate or one.file.crate in crates[item.file.crate])
                     and (one.name == item.name or "/specs/" not in item.file.path)]
            if lower:
                yield Found("copy", item, f"{lower[0].file.module}.{lower[0].name}")


def words_of(lines: List[str]) -> Dict[str, int]:
    """How often each word stands in these lines, without imports and comments."""
    return collections.Counter(word for line in lines if not line.startswith(("use ", "--")) for word in WORD.findall(line))


def unused(files: List[File], asked: Set[str]) -> Iterator[Found]:
    """Lemmas that no other line of their file names, no file imports, and no `using(..)` of the code gives to the prover."""
    for file in (file for file in files if "/proofs/" in file.path and not file.path.endswith(WRITTEN_BY_GOALS)):
        all_words = words_of(file.lines)
        for item in file.items:
            own = words_of(file.lines[item.start:item.end])
            if f"{file.module}.{item.name}" not in asked and all_words[item.name] == own[item.name]:
                yield Found("unused", item)


def names_by_alias(text: str) -> Iterator[str]:
    """What a file names by `other.NAME`, if it has `use MODULE as other`. A name may be followed by a field's."""
    modules = {found[2]: found[1] for found in WHOLE_USE.finditer(text)}
    for found in DOTTED.finditer(text):
        if found[1] in modules:
            name = modules[found[1]]
            for word in found[2][1:].split("."):
                name = f"{name}.{word}"
                yield name


def names_asked_for() -> Set[str]:
    """What any file imports of another, names by its module, or gives to the prover by `using(crate::proofs::MODULE::NAME)`."""
    found = set()
    for path in glob.glob("crates/*/**/*.antt", recursive=True) + glob.glob("crates/*/**/*.rt", recursive=True):
        text = read(path)
        for line in filter(None, map(USE.match, text.split("\n"))):
            found |= {f"{line[1]}.{name.split(' as ')[0].strip()}" for name in line[2].split(",")}
        for given in re.finditer(r"crate((?:::[\w'-]+)+)", " ".join(USING.findall(text))):
            found.add(f"Rattle.{path.split('/')[1]}{given[1].replace('::', '.')}")
        for qualified in re.finditer(rf"Rattle\.fc_\w+(?:\.{NAME})+", text):
            found.add(qualified[0])
        found.update(names_by_alias(text))
    return found


def every(crates: Dict[str, List[str]], kit: str) -> Iterator[Found]:
    paths = [path for part in ("specs", "proofs") for path in glob.glob(f"crates/*/{part}/**/*.antt", recursive=True)]
    files = [File(path) for path in sorted(paths) if path.split("/")[1] in crates]
    yield from copies_of_std(files, lemmas_of_std(kit))
    yield from copies_of_crates(files, crates)
    yield from unused(files, names_asked_for())


def main(words: List[str]) -> bool:
    parser = argparse.ArgumentParser(usage=__doc__, add_help=False)
    parser.add_argument("--kit", default="/opt/rattle")
    for name in ("--all", "--write"):
        parser.add_argument(name, action="store_true")
    parser.add_argument("crates", nargs="*")
    options = parser.parse_args(words)
    os.chdir(TOP)
    crates = crates_in_order()
    looked = set(options.crates or crates)
    found = [one for one in every(crates, options.kit) if one.item.file.crate in looked]
    counts = collections.Counter(one.key for one in found)
    listed = exceptions.read(EXCEPTIONS)
    # without the kit nothing is known of std
    known = {key for key in listed if key[1] in looked and (key[0] != "std" or os.path.isdir(options.kit))}
    new = [one for one in found if counts[one.key] > listed.get(one.key, 0)]
    high = sorted(key for key in known if counts[key] < listed[key])
    for one in found if options.all else new:
        print(one.told())
    if options.write:
        exceptions.write(EXCEPTIONS, {key: counts[key] if key in high else count for key, count in listed.items()
                                      if key not in high or counts[key]})
    for _, crate, name in high if not options.write else []:
        print("%s %s: the exception isn't needed any more: tools/run checks/copies --write" % (crate, name))
    told = ", ".join("%d %s" % (sum(count for key, count in counts.items() if key[0] == what), TOLD[what]) for what in TOLD)
    print("copies: %s; %d new, %d too many exceptions" % (told, len(new), len(high)))
    return not new and (options.write or not high)


if __name__ == "__main__":
    sys.exit(0 if main(sys.argv[1:]) else 1)
