#!/usr/bin/env python3
# SPDX-License-Identifier: MIT
"""Demos of the built program: the line of `--demo N` beside the replies to the same script, which is drawn here again from docs/FORMAT.md.

usage: tools/run checks/demo PROGRAM
"""
from __future__ import annotations

import hashlib
import os
import re
import subprocess
import sys
import tempfile
from typing import Iterator, List, Optional, Tuple

COUNTS = (1, 2, 63, 64, 65, 1000, 10000)
FORMS = ("E", "F", "D", "L", "E+", "F+")


def draws(seed: int) -> Iterator[int]:
    while True:
        seed = (seed * 1103515245 + 12345) % (1 << 31)
        yield seed // 65536


def line(number: int, drawn: Iterator[int]) -> str:
    one, two, three = next(drawn), next(drawn), next(drawn)
    folder, name, rest = one % 8, two % 16, three // 8
    path = "$.D%d.F%d" % (folder, name)
    word = three % 8
    if word < 3:
        content = bytes((number + at) % 256 for at in range(rest % 64))
        return "save %s fffff000 00000000 %s" % (path, content.hex() or "-")
    return {3: "create %s 00000000 00000000 %d" % (path, rest % 4096), 4: "delete " + path,
            5: "rename %s $.D%d.F%d" % (path, (folder + 1) % 8, name), 6: "load " + path, 7: "cat $.D%d" % folder}[word]


def demo_script(count: int) -> str:
    lines = ["cdir $.D%d" % folder for folder in range(8)]
    drawn = draws(count)
    for number in range(count):
        lines.append(line(number, drawn))
        if number % 64 == 63:
            lines.append("compact")
    return "".join(one + "\n" for one in [*lines, "check", "free"])


def replies_in(text: str) -> List[str]:
    """The replies of a text: each ends with the line `ok`, or is the line of a refusal."""
    found, begun = [], ""
    for one in text.splitlines(keepends=True):
        begun += one
        if one == "ok\n" or re.fullmatch(r"error [0-9]+ [A-Za-z]+\n", begun):
            found.append(begun)
            begun = ""
    assert not begun, begun
    return found


def summary(count: int, text: str) -> Tuple[str, int]:
    replies = replies_in(text)
    refused = sum(one.startswith("error ") for one in replies)
    digest = hashlib.sha256(text.encode()).hexdigest()
    return "demo %d commands %d refused %d sha256 %s\n" % (count, len(replies), refused, digest), int(refused > 0)


class Demos:
    def __init__(self, program: str) -> None:
        self.program, self.passed, self.failed = os.path.abspath(program), 0, 0

    def run(self, words: List[str], script: str = "") -> Tuple[int, str]:
        done = subprocess.run([self.program, *words], input=script.encode(), capture_output=True, timeout=600)
        return done.returncode, done.stdout.decode()

    def expect(self, what: str, wanted: object, found: object) -> None:
        if wanted == found:
            self.passed += 1
        else:
            self.failed += 1
            print("%s: wanted %.300r, got %.300r" % (what, wanted, found))

    def image(self, name: str) -> bytes:
        with open(name, "rb") as opened:
            return opened.read()

    def served(self, form: str, count: int) -> None:
        """The line and the image are those of the script, which is not read, and come again."""
        what = "--new %s --demo %d" % (form, count)
        status, text = self.run(["--new", form, "plain.adf"], demo_script(count))
        self.expect(what + ": the script is served", True, status in (0, 1))
        line, wanted = summary(count, text)
        for name in ("one.adf", "two.adf"):
            self.expect(what, (wanted, line), self.run(["--new", form, "--demo", str(count), name], "lod\n"))
            self.expect(what + ": the image", self.image("plain.adf"), self.image(name))
        # over the image that is there now: its directories are refused, its files are replaced
        status, text = self.run(["plain.adf"], demo_script(count))
        line, wanted = summary(count, text)
        self.expect("--demo %d over %s" % (count, form), (wanted, line), self.run(["one.adf", "--demo=%d" % count]))
        self.expect("--demo %d over %s: the image" % (count, form), self.image("plain.adf"), self.image("one.adf"))
        self.locked(form, count)
        for name in ("plain.adf", "one.adf", "two.adf"):
            os.remove(name)

    def locked(self, form: str, count: int) -> None:
        before = self.image("two.adf")
        status, text = self.run(["two.adf", "--read-only"], demo_script(count))
        line, wanted = summary(count, text)
        answer = self.run(["--read-only", "--demo", str(count), "two.adf"])
        self.expect("--read-only --demo %d over %s" % (count, form), (wanted, line), answer)
        self.expect("--read-only --demo %d over %s: the image" % (count, form), before, self.image("two.adf"))

    def others(self) -> None:
        with open("zeros.adf", "wb") as opened:
            opened.write(bytes(1 << 20))
        self.expect("--demo over a bad image", (3, "bad-image NoKind\n"), self.run(["--demo", "7", "zeros.adf"]))
        self.expect("--demo without an image", (12, ""), self.run(["--demo", "7", "nothing.adf"]))
        self.expect("--demo --safe over a bad image", (3, "bad-image NoKind\n"), self.run(["--demo", "7", "--safe", "zeros.adf"]))
        full = subprocess.run("%s --new E --demo 3 full.adf > /dev/full" % self.program, shell=True).returncode
        self.expect("--demo on a full output", 6, full)
        os.remove("full.adf")


def main() -> Optional[int]:
    demos = Demos(sys.argv[1])
    first = "save $.D6.F14 fffff000 00000000 " + bytes(range(48)).hex() + "\n"
    demos.expect("the script of 1", "".join("cdir $.D%d\n" % d for d in range(8)) + first + "check\nfree\n", demo_script(1))
    with tempfile.TemporaryDirectory() as folder:
        os.chdir(folder)
        for form in FORMS:
            for count in COUNTS:
                demos.served(form, count)
        demos.others()
        os.chdir("/")
    print("demos: %d passed, %d failed" % (demos.passed, demos.failed))
    return int(demos.failed > 0)


if __name__ == "__main__":
    sys.exit(main())
