#!/usr/bin/env python3
# SPDX-License-Identifier: MIT
"""Sees that every function of tools and scripts has types: of each parameter but self, and of what it gives; and that none is `Any`.

usage: tools/run checks/annotations [PATH...]
What JSON can hold has the type `Json` (scripts/fcdisc_lib/listing.py), what is only compared or shown `object`. The types themselves
aren't checked here: mypy does that, where it is installed.
"""
import ast
import os
import sys
from typing import Iterator, List

from tools.files import TOP

PLAIN = ("scripts/fcdisc", "tools/run")


def paths() -> Iterator[str]:
    yield from PLAIN
    for folder in ("scripts", "tools"):
        for place, folders, names in os.walk(os.path.join(TOP, folder)):
            folders[:] = sorted(one for one in folders if one != "__pycache__")
            for name in sorted(names):
                if name.endswith(".py"):
                    yield os.path.relpath(os.path.join(place, name), TOP)


def untyped(function: ast.FunctionDef) -> List[str]:
    """The parameters that have no type, and `the result` if it has none."""
    found = function.args
    every = [*found.posonlyargs, *found.args, *found.kwonlyargs, *(one for one in (found.vararg, found.kwarg) if one)]
    missing = [one.arg for at, one in enumerate(every) if not one.annotation and not (at == 0 and one.arg in ("self", "cls"))]
    return missing if function.returns or function.name == "__init__" else [*missing, "the result"]


def is_any(node: ast.AST) -> bool:
    """Whether this is the name `Any`, as it stands or imported."""
    name = node.id if isinstance(node, ast.Name) else node.attr if isinstance(node, ast.Attribute) else ""
    return name == "Any" or isinstance(node, ast.ImportFrom) and any(one.name == "Any" for one in node.names)


def main(words: List[str]) -> bool:
    count = wrong = 0
    for path in words or paths():
        with open(os.path.join(TOP, path)) as file:
            tree = ast.parse(file.read())
        for node in ast.walk(tree):
            told = []
            if isinstance(node, ast.FunctionDef):
                count += 1
                told = ["%s: no type for %s" % (node.name, ", ".join(untyped(node)))] if untyped(node) else []
            elif is_any(node):
                told = ["`Any` says nothing of a value"]
            wrong += len(told)
            for one in told:
                print("%s:%d: %s" % (path, getattr(node, "lineno", 0), one))
    print("annotations: %d functions, %d wrong" % (count, wrong))
    return not wrong


if __name__ == "__main__":
    sys.exit(0 if main(sys.argv[1:]) else 1)
