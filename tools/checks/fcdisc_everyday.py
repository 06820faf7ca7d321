# SPDX-License-Identifier: MIT
"""Checks of what people do with fcdisc every day: wildcards, several files, mkdir -p, cp, other names of jobs, completion; and reclaim."""
from __future__ import annotations

import json
import os
import re
import signal
import subprocess

from tools.checks import fcdisc_cases
from tools.checks.fcdisc_changes import NAMED, SLOW, Changes, little_room, tree_of
from tools.checks.work_folders import snapshot, wait_for
from tools.files import TOP, read

LETTERS = {"o/" + name: name.encode() for name in ("Abc", "Abd", "Bcd", "caf\u00e9", "x1", "x22")}
TREE = {"$.Abc": (3, b"Abc"), "$.Abd": (3, b"Abd"), "$.Bcd": (3, b"Bcd"), "$.caf%E9": (3, "caf\u00e9".encode()), "$.x1": (3, b"x1"), "$.x22": (3, b"x22")}


def lettered(c: Changes) -> None:
    c.start("fresh-F.adf", files=LETTERS)
    c.run("add", "a.adf", "o")
    c.run("undo", "a.adf")
    c.run("add", "a.adf", "o")


def wildcards(c: Changes) -> None:
    """`*` and `#` in every job that takes a path of what is there."""
    lettered(c)
    out, err, status = c.run("list", "a.adf", "Ab*")
    c.checks.expect("list *", names=(["Abc", "Abd"], [line.split()[-1] for line in out.splitlines()[:-1]]), status=(0, status), errors=("", err))
    for pattern, names in (("X#", ["x1"]), ("x##", ["x22"]), ("*B*", ["Abc", "Abd", "Bcd"]), ("caf#", ["caf%E9"]), ("CAF\u00e9", ["caf%E9"]), ("$.#bc", ["Abc"])):
        out, err, status = c.run("list", "a.adf", pattern)
        c.checks.expect("list " + pattern, names=(names, [line.split()[-1] for line in out.splitlines()[:-1]]), status=(0, status))
    for job, words in (("list", ["a.adf", "z*"]), ("get", ["a.adf", "z*"]), ("extract", ["a.adf", "p", "z*"]), ("rm", ["a.adf", "z*"]), ("access", ["a.adf", "R", "z*"]),
                       ("mv", ["a.adf", "z*", "$"]), ("cp", ["a.adf", "z*", "$"]), ("rm", ["a.adf", "Abc", "z*"]), ("rm", ["a.adf", "Abc.*"])):
        got = c.run(job, *words)
        wild = next(word for word in words if "*" in word)
        told = "fcdisc: a.adf: %s: there is no such object on the disc\n" % wild
        c.checks.expect("%s %s" % (job, wild), result=(("", told, 1), got))
    c.good("access *", ["access", "a.adf", "LR", "Ab*"], {**TREE, "$.Abc": (5, b"Abc"), "$.Abd": (5, b"Abd")})
    c.run("access", "a.adf", "WR", "A*")
    c.run("mkdir", "a.adf", "D")
    moved = {path: node for path, node in TREE.items() if not path.startswith("$.x")}
    c.good("mv *", ["mv", "a.adf", "x*", "D"], {**moved, "$.D": 0, "$.D.x1": (3, b"x1"), "$.D.x22": (3, b"x22")})
    c.good("cp *", ["cp", "a.adf", "B*", "Ab#", "D"], {
        **moved, "$.D": 0, "$.D.x1": (3, b"x1"), "$.D.x22": (3, b"x22"), "$.D.Abc": (3, b"Abc"), "$.D.Abd": (3, b"Abd"), "$.D.Bcd": (3, b"Bcd")})
    c.good("rm *", ["rm", "a.adf", "D.*", "#bc"], {path: node for path, node in {**moved, "$.D": 0}.items() if path != "$.Abc"})
    c.good("rm -r *", ["rm", "-r", "a.adf", "*"], {})
    c.refused("mv of several to a name", ["mv", "a.adf", "x", "y", "z"], "a.adf: $.z: several objects need a directory of the disc: use mkdir first")
    c.start("hostile.adf")
    out, err, status = c.run("list", "a.adf", "%2A%3F*")
    c.checks.expect("a star in a name", names=(["%2A?%22<>%7C"], [line.split()[-1] for line in out.splitlines()[:-1]]))


def several(c: Changes) -> None:
    """Several files in `put` and `get`."""
    lettered(c)
    c.run("mkdir", "a.adf", "New")
    c.good("put of several files", ["put", "a.adf", "o/x1", "o/x22", "New"], {**TREE, "$.New": 0, "$.New.x1": (3, b"x1"), "$.New.x22": (3, b"x22")})
    c.refused("put of several to a name", ["put", "a.adf", "o/x1", "o/x22", "$.Z"], "a.adf: $.Z: several files need a directory of the disc: use mkdir first")
    c.refused("put of several, one of which is there", ["put", "a.adf", "o/Abc", "o/x22", "New"],
              "a.adf: $.New.x22: there is something of this name on the disc already: --replace puts the new file in its place")
    os.mkdir(c.at("d"))
    c.checks.expect("get of several", result=(("", "", 0), c.run("get", "a.adf", "Ab*", "x1", "d")), left=(
        {b"Abc,fff": b"Abc", b"Abd,fff": b"Abd", b"x1,fff": b"x1"}, snapshot(c.at("d"))))
    c.checks.expect("get of several to standard output", result=(("AbcAbd", "", 0), c.run("get", "a.adf", "Ab*", "-")))
    c.refused("get of several to a name", ["get", "a.adf", "Abc", "Abd", "name"], "name: several files need a folder of the host as the last word")
    out, err, status = c.run("get", "a.adf", "N*", "x22", "d")
    c.checks.expect("get passes over directories", told=("fcdisc: a.adf: $.New: a directory: passed over; use extract\n", err), status=(1, status), there=(
        True, os.path.exists(c.at("d/x22,fff"))))
    out, err, status = c.run("get", "a.adf", "x*", "d")
    c.checks.expect("get of several that are there", told=(2, err.count(fcdisc_cases.THERE)), status=(1, status))
    c.checks.expect("extract of several", result=(("4 of 4 files written to e\n", "", 0), c.run("extract", "a.adf", "e", "New", "A*")), left=(
        {b"New": None, b"New/x1,fff": b"x1", b"New/x22,fff": b"x22", b"Abc,fff": b"Abc", b"Abd,fff": b"Abd"}, snapshot(c.at("e"))))
    c.start("f-user.adf", files={"n": b"10 REM"})
    out, err, status = c.run("put", "--replace", "a.adf", "n", "$.!Boot.!Run")
    c.checks.expect("put says that a type stays", told=(
        "fcdisc: a.adf: $.!Boot.!Run: it has the type feb of the file whose place it takes (--type gives another)\n", err), status=(0, status))
    c.start(files={"Code,8000-8023": b"c"})
    c.good("short words in a name", ["put", "a.adf", "Code,8000-8023", "$"], {**NAMED, "$.Code": (3, b"c")})
    c.checks.expect("short words", words=((0x8000, 0x8023), tree_of(read(c.at("a.adf")))[(b"Code",)][1:3]))


def directories(c: Changes) -> None:
    c.start()
    c.good("mkdir -p", ["mkdir", "-p", "a.adf", "D.E.F", "G.H"], {**NAMED, "$.D.E": 0, "$.D.E.F": 0, "$.G": 0, "$.G.H": 0})
    c.checks.expect("mkdir -p again", result=(("", "", 0), c.run("mkdir", "-p", "a.adf", "d.e.f")))
    got = c.run("mkdir", "-p", "a.adf", "Ab.X")
    c.checks.expect("mkdir -p below a file", status=(1, got[2]))


def copies(c: Changes) -> None:
    """cp keeps words and access, and replaces nothing."""
    c.start()
    c.run("access", "a.adf", "LR", "A B")
    c.good("cp", ["cp", "a.adf", "A B", "D.Copy"], {**NAMED, "$.A%20B": (5, b"A B!"), "$.D.Copy": (5, b"A B!")})
    nodes = tree_of(read(c.at("a.adf")))
    c.checks.expect("cp keeps words", same=(nodes[(b"A B",)], nodes[(b"D", b"Copy")]))
    c.good("cp -r", ["cp", "-r", "a.adf", "D", "New"], {**NAMED, "$.A%20B": (5, b"A B!"), "$.D.Copy": (5, b"A B!"), "$.New": 0, "$.New.error": (3, b""),
                                                       "$.New.Copy": (5, b"A B!")})
    for name, words, error in (("over a file", ["Ab", "D.Copy"], "$.D.Copy: there is something of this name on the disc already"),
                               ("over its own", ["Ab", "$"], "$.Ab: there is something of this name on the disc already"),
                               ("of a directory", ["D", "E"], "$.D: a directory: use cp -r"), ("of nothing", ["z", "E"], "$.z: there is no such object on the disc")):
        c.refused("cp " + name, ["cp", "a.adf", *words], "a.adf: " + error)
    c.refused("cp into itself", ["cp", "-r", "a.adf", "D", "D.E"], "a.adf: $.D.E: a directory can't be copied into itself")
    c.refused("cp to nowhere", ["cp", "a.adf", "Ab", "x.y"], "a.adf: $.x.y: no copy made: there is no directory for it on the disc")


LONG = "x" * 256
NO_NAME = "a name in a path has 1 to 255 bytes"
NOT_LATIN = "a disc's names have no letters but those of Latin 1"
NO_PATHS = (("a control character", "$.a\1b", "$.a\\x01b: a name has no control characters"), ("a spelled one", "$.a%1Bb", "$.a%1Bb: a name has no control characters"),
            ("..", "..", "..: " + NO_NAME), ("no name", "$.D..x", "$.D..x: " + NO_NAME), ("a very long name", LONG, LONG + ": " + NO_NAME),
            ("a look-alike of A", "$.\uff21b", "$.\uff21b: " + NOT_LATIN), ("look-alikes of dots", "\u2024\u2024", "\u2024\u2024: " + NOT_LATIN),
            ("an accent of its own", "$.e\u0301", "$.e\u0301: " + NOT_LATIN))


def copies_named(c: Changes) -> None:
    """Hostile names in cp: what can't be a name is refused; what can be one is one on the disc, whatever it looks like."""
    c.start()
    for name, path, error in NO_PATHS:
        c.refused("cp to " + name, ["cp", "a.adf", "Ab", path], error, 2)
    c.refused("cp of ..", ["cp", "a.adf", "..", "D"], "..: " + NO_NAME, 2)
    c.refused("cp to a long name", ["cp", "a.adf", "Ab", "$.ElevenBytes"],
              "a.adf: $.ElevenBytes: no copy made: its name has 11 letters, and this disc takes no more than 10")
    c.refused("cp to a name with a space", ["cp", "a.adf", "Ab", "$.c d"],
              "a.adf: $.c%20d: no copy made: no name that is written to a disc may have %20 in it")
    c.refused("cp to what looks like an option", ["cp", "a.adf", "Ab", "--in-place"], "usage: fcdisc cp...", 2)
    tree = dict(NAMED)
    for path, spelled in (("-r", "$.-r"), ("$.x/y", "$.x/y"), ("../..", ""), ("/etc", "$./etc"), ("caf\u00e9", "$.caf%E9"), ("$.a\u00a0b", "$.a%A0b"),
                          ("$.~", "$.~"), ("$.a\udc9bb", "$.a%9Bb")):
        if spelled:
            tree[spelled] = (3, b"\2")
            c.good("cp to " + ascii(path), ["cp", "a.adf", "--", "Ab", path], tree)
        else:
            c.refused("cp to " + path, ["cp", "a.adf", "--", "Ab", path], path + ": " + NO_NAME, 2)
    c.good("cp of what looks like an option", ["cp", "a.adf", "--", "-r", "D"], {**tree, "$.D.-r": (3, b"\2")})
    c.checks.expect("names on the host", left=(["a.adf", "a.adf~"], c.names()))


def no_room_for_copies(c: Changes) -> None:
    c.start()
    c.refused("no room for cp", ["cp", "a.adf", "Ab", "N"],
              "a.adf: its changed copy can't be written beside it (No space left on device): 0.7 MB more are needed; nothing was changed",
              out=". ./a.adf ./pad\n", within=little_room("a.adf"))


def words(c: Changes) -> None:
    """Other names of jobs, the version, JSON, letters of the command line."""
    c.start("f-user.adf")
    c.checks.expect("ls", same=(c.run("list", "a.adf"), c.run("ls", "a.adf")))
    out, err, status = c.run("--version")
    number = read(os.path.join(TOP, "VERSION")).decode().strip()
    c.checks.expect("--version", told=("fcdisc %s, for fcore %s\n" % (number, number), out), status=(0, status))
    out, err, status = c.run("list", "--json", "a.adf")
    row = json.loads(out)
    c.checks.expect("list --json", status=(0, status), disc=(("a.adf", "F", 43), (row["image"], row["format"], len(row["objects"]))), run=(
        {"path": "$.!Boot.!Run", "type": "feb", "load": "ffffeb12", "exec": "5a5a5a5a", "length": 8, "access": "WR/"},
        {key: value for key, value in row["objects"][1].items() if key != "date"}), date=(True, row["objects"][1]["date"].startswith("19")))
    c.start("hostile.adf")
    plain = "LC_ALL=C PYTHONUTF8=0 PYTHONCOERCECLOCALE=0 exec \"$@\""
    out, err, status = c.run("get", "a.adf", "caf\u00e9", "-", within=plain)
    c.checks.expect("letters in another locale", result=(("file 9", "", 0), (out, err, status)))


def completion(c: Changes) -> None:
    """What bash offers."""
    script = os.path.join(TOP, "scripts", "completion", "fcdisc.bash")
    c.start()
    for typed, offered in (("fcdisc ex", ["extract"]), ("fcdisc c", ["catalogue", "check", "compact", "convert", "cp"]), ("fcdisc new E", ["E", "E+"]),
                           ("fcdisc add --f", ["--fit"]), ("fcdisc list --order a", ["adl", "auto"]), ("fcdisc list a", ["a.adf"]), ("fcdisc undo --b", ["--back"]),
                           ("fconvert E", ["E", "E+"]), ("fconvert F a", ["a.adf"]), ("fconvert F a.adf b.adf a", [])):
        program = typed.split()[0]
        line = ('source "$1"; COMP_WORDS=(%s); COMP_CWORD=$((${#COMP_WORDS[@]} - 1)); COMPREPLY=(); _%s; printf "%%s\\n" "${COMPREPLY[@]}" | sort'
                % (typed, program))
        words = ["bash", "-c", line, "bash", script.replace("fcdisc.bash", program + ".bash")]
        run = subprocess.run(words, cwd=c.work, capture_output=True, text=True, check=False)
        c.checks.expect("completion of " + typed, offered=(offered, run.stdout.split()), errors=("", run.stderr))
    out, _, _ = c.run("--help")
    jobs = set(re.findall(r"^    ([a-z]+)", out, re.MULTILINE)) - {"on"}
    with open(script) as file:
        known = set(re.search("jobs='(.*)'", file.read())[1].split())
    c.checks.expect("completion knows all jobs", missing=(set(), jobs - known))


RECLAIM = '#!/bin/sh\ncase "$*" in *read-only*) exec FCORE "$@";; esac\ncat > /dev/null\n%s\n'


def reclaiming(c: Changes) -> None:
    """What comes of fcore's answers; the command itself is checked where fcore is."""
    for answer, result in (("exit 9", ("", "fcdisc: a.adf: this fcore can't do that: it isn't built in: nothing was changed\n", 1)),
                           ("echo reclaimed 3072; echo ok", ("a.adf: 3072 bytes given back\n", "", 0)),
                           ("echo reclaimed 0; echo ok", ("a.adf: 0 bytes given back\n", "", 0)),
                           ("echo error 21 NotNewMap; exit 1", ("", "fcdisc: a.adf: it has an old map, and space that nothing owns can be found on new maps alone\n", 1))):
        before = c.start()
        got = c.run("reclaim", "a.adf", fcore=c.fake(RECLAIM % answer))
        kept = ["a.adf", "a.adf~"] if "3072" in answer else ["a.adf"]
        c.checks.expect("reclaim: " + answer, result=(result, got), left=(kept, c.names()), same=(True, read(c.at("a.adf")) == before))


def interrupted_jobs(c: Changes) -> None:
    """Signals and kills of the newer jobs that change a disc: the image stays as it was, and nothing is left."""
    for words in (["cp", "a.adf", "Ab", "N"], ["put", "a.adf", "note", "note2", "D"], ["add", "--fit", "a.adf", "o"], ["mkdir", "-p", "a.adf", "x.y"],
                  ["reclaim", "a.adf"]):
        for number in (signal.SIGINT, signal.SIGKILL):
            before = c.start(files={"note": b"1", "note2": b"2", "o/long name here": b"3"})
            slow = c.fake(SLOW)
            run = subprocess.Popen([c.checks.fcdisc, *words], cwd=c.work, env=c.checks.environment(slow), stdout=subprocess.DEVNULL, stderr=subprocess.PIPE)
            wait_for(lambda: os.path.exists(c.at("begun")))
            run.send_signal(number)
            run.communicate(timeout=60)
            c.checks.expect("%s ended by %d" % (words[0], number), status=(-number, run.returncode), same=(True, read(c.at("a.adf")) == before),
                            left=(["a.adf", "begun", "note", "note2", "o"], c.names()))


PARTS = (wildcards, several, directories, copies, copies_named, words, completion, reclaiming, interrupted_jobs)
MOUNTED = (no_room_for_copies,)  # these need to mount something
