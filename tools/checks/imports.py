#!/usr/bin/env python3
# SPDX-License-Identifier: MIT
"""Imports each part of fcdisc by itself, and looks up every name that one part takes from another.

usage: tools/run checks/imports
Jobs are loaded when they are asked for, and rescue only for a damaged disc: a wrong import there stays unseen by all other checks. Each
part comes first once, so that two that need each other are found too.
"""
import ast
import importlib.util
import os
import sys
from typing import Iterator, List, Tuple

from tools.files import TOP

SCRIPTS = os.path.join(TOP, "scripts")
PACKAGE = "fcdisc_lib"
TYPES_ALONE = ast.dump(ast.Name("TYPE_CHECKING", ast.Load()))  # what is taken under this test isn't there in a run


def parts() -> Iterator[Tuple[str, str]]:
    """The name of each module, and its file."""
    for place, _, names in sorted(os.walk(os.path.join(SCRIPTS, PACKAGE))):
        for name in sorted(names):
            if name.endswith(".py"):
                path = os.path.join(place, name)
                words = os.path.relpath(path, SCRIPTS)[:-len(".py")].split(os.sep)
                yield ".".join(words[:-1] if words[-1] == "__init__" else words), path


def taken(module: str, path: str) -> Iterator[Tuple[int, str, str]]:
    """Line, module and name of all that a part takes from others, within functions too; and the jobs that it names for later."""
    package = module if path.endswith("__init__.py") else module.rpartition(".")[0]
    with open(path) as file:
        tree = ast.parse(file.read())
    for_types = {one for node in ast.walk(tree) if isinstance(node, ast.If) and ast.dump(node.test) == TYPES_ALONE for one in node.body}
    for node in ast.walk(tree):
        if isinstance(node, ast.ImportFrom) and node.level and node not in for_types:
            holder = importlib.util.resolve_name("." * node.level + (node.module or ""), package)
            yield from ((node.lineno, holder, alias.name) for alias in node.names)
        if isinstance(node, ast.Call) and isinstance(node.func, ast.Name) and node.func.id == "later":
            part, name = (ast.literal_eval(word) for word in node.args)
            yield node.lineno, "%s.%s" % (PACKAGE, part), name


def wrong_names(module: str, path: str) -> Iterator[str]:
    for line, holder, name in taken(module, path):
        try:
            found = importlib.import_module(holder)
            is_there = hasattr(found, name) or importlib.util.find_spec(holder + "." + name) is not None
        except ImportError:
            is_there = False
        if not is_there:
            yield "%s:%d: there is no %s in %s" % (os.path.relpath(path, TOP), line, name, holder)


def wrong_parts() -> Iterator[str]:
    for module, path in parts():
        for known in [name for name in sys.modules if name.split(".")[0] == PACKAGE]:
            del sys.modules[known]
        try:
            importlib.import_module(module)
        except Exception as error:  # whatever it is, the part can't be used
            yield "%s: %s: %s" % (os.path.relpath(path, TOP), type(error).__name__, error)
            continue
        yield from wrong_names(module, path)


def main(_: List[str]) -> bool:
    sys.dont_write_bytecode = True
    sys.path.insert(0, SCRIPTS)
    wrong = list(wrong_parts())
    for text in wrong:
        print(text)
    print("imports: %d parts, %d wrong" % (len(list(parts())), len(wrong)))
    return not wrong


if __name__ == "__main__":
    sys.exit(0 if main(sys.argv[1:]) else 1)
