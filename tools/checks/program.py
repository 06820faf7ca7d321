# SPDX-License-Identifier: MIT
"""The built program over the images of tools/images/table.py, with streams that fail, and as `make install` puts it somewhere.

No image may be changed by the cases of the table: sums show it. These suites are run by tools/checks/run.py.
"""
import hashlib
import os
import shutil
import signal
import subprocess
import tempfile
import time
from typing import Dict, Iterator, List, Optional

from tools.checks.selection import Suite, shortened
from tools.files import TOP, read
from tools.images import table
from tools.images.script_cases import Case

SECONDS = 60


def sums(folder: str) -> Dict[str, str]:
    """The digest of each image."""
    found = {}
    for place, _, names in os.walk(folder):
        for name in names:
            if name.endswith(".adf"):
                path = os.path.join(place, name)
                found[os.path.relpath(path, folder)] = hashlib.sha256(read(path)).hexdigest()
    return found


# ---- the cases of the table


def case_differences(case: Case, program: str, folder: str) -> Iterator[str]:
    ran = subprocess.run([program, *case.words], cwd=folder, input=case.script, capture_output=True, timeout=SECONDS, check=False)
    answer = ran.stdout.decode("utf-8", "replace")
    if (ran.returncode, answer) != (case.status, case.answer):
        yield "wanted status %d, got %d" % (case.status, ran.returncode)
        yield from ["wanted", *shortened(case.answer), "got", *shortened(answer)]
    if ran.stderr:
        yield "something was written to standard error"
    if case.made and read(os.path.join(folder, case.made[0])) != read(os.path.join(folder, case.made[1])):
        yield "%s isn't what it has to be" % case.made[0]
    if case.absent and os.path.exists(os.path.join(folder, case.absent)):
        yield "%s was made" % case.absent


def cases(suite: Suite, program: str) -> None:
    """Output, status and files of each case, and that images stay as they are."""
    with tempfile.TemporaryDirectory() as folder:
        every = table.write_table(folder)
        before = sums(folder)
        wanted = [case for case in every if suite.wants(case.name)]
        for case in wanted:
            suite.note(case.name, list(case_differences(case, program, folder)))
        after = sums(folder)
        changed = sorted(name for name in before if before[name] != after.get(name))
        if wanted:
            suite.note("images-stay", ["changed: " + name for name in changed])


# ---- what no case of the table can say: streams that fail, a folder in an image's place, a name that isn't text

STREAMS = {  # name: what bash runs, and the status
    "full-output": ('"$0" hello.adf < script > /dev/full', 6),
    "input-is-a-folder": ('"$0" hello.adf < . > answer', 5),
    "image-is-a-folder": ("\"$0\" 'a folder' < script > answer", 4),
    "image-in-a-file": ('"$0" hello.adf/image < script > answer', 12),
    "name-too-long": ("\"$0\" \"$(printf '%300s' '' | tr ' ' n)\" < script > answer", 12),
    "fresh-in-no-folder": ('"$0" --new E absent/fresh.adf < script > answer', 4),
    "name-is-no-text": ("\"$0\" $'h\\xffllo.adf' < script > answer", 2),
    "closed-output": ('"$0" hello.adf < script >&-', 6),  # the image must not be taken for the standard output
}


def streams(suite: Suite, program: str) -> None:
    with tempfile.TemporaryDirectory() as folder:
        os.mkdir(os.path.join(folder, "a folder"))
        table.write_image(os.path.join(folder, "hello.adf"), table.hello().image())
        before = sums(folder)
        with open(os.path.join(folder, "script"), "w") as file:
            file.write("load $.hello\n")
        for name, (words, status) in STREAMS.items():
            if suite.wants(name):
                # a closed standard input would lend its number to the first file that is opened
                ran = subprocess.run(["bash", "-c", words, program], cwd=folder, stdin=subprocess.DEVNULL, stderr=subprocess.DEVNULL,
                                     timeout=SECONDS, check=False)
                wrong = [] if ran.returncode == status else ["wanted status %d, got %d" % (status, ran.returncode)]
                suite.note(name, wrong + ([] if sums(folder) == before else ["the image was changed"]))


# ---- the examples of README.md, each after the other


def readme(suite: Suite, program: str) -> None:
    if not suite.wants("README.md"):
        return
    with tempfile.TemporaryDirectory() as folder:
        table.write_table(folder)
        os.mkdir(os.path.join(folder, "bin"))
        os.symlink(program, os.path.join(folder, "bin", "fcore"))
        os.symlink(os.environ["FCONVERT"], os.path.join(folder, "bin", "fconvert"))
        os.symlink(os.path.join(TOP, "scripts", "fcdisc"), os.path.join(folder, "bin", "fcdisc"))
        environment = {**os.environ, "FCORE": program, "PATH": "%s/bin:%s" % (folder, os.environ["PATH"])}
        # the examples also speak of an image with interleaved sides, and of one with a header
        subprocess.run(["fcdisc", "adl", "--back", "l-files.adf", "sides.adl"], cwd=folder, env=environment, check=True)
        with open(os.path.join(folder, "header.adf"), "wb") as file:
            file.write(bytes(512) + read(os.path.join(folder, "f-user.adf")))
        words = [os.path.join(TOP, "tools", "run"), "checks/examples", os.path.join(TOP, "README.md")]
        ran = subprocess.run(words, cwd=folder, env=environment, stdout=subprocess.PIPE, text=True, check=False)
        suite.note("README.md", ran.stdout.splitlines() if ran.returncode else [])


# ---- what `make install` and `make dist` put somewhere works from there, and goes again


def made(words: List[str]) -> Optional[str]:
    """Runs make; what it said if it failed."""
    ran = subprocess.run(["make", "-s", "-C", TOP, *words], stdout=subprocess.PIPE, stderr=subprocess.STDOUT, text=True, check=False)
    return ran.stdout if ran.returncode else None


def installed_differences(program: str, folder: str) -> Iterator[str]:
    root = os.path.join(folder, "root")
    places = ["PROGRAM=" + program, "CONVERTER=" + os.environ["FCONVERT"], "DESTDIR=" + root, "PREFIX=/there"]
    failed = made(["install", "uninstall", *places])
    left = [name for _, _, names in os.walk(root) for name in names]
    if failed or left:
        yield failed or "make uninstall leaves " + " ".join(left)
        return
    failed = made(["install", *places])
    if failed:
        yield failed
        return
    yield from started_differences(root + "/there/bin/fcdisc", folder)
    for page in ("fcdisc.1", "fconvert.1", "fcore.1"):
        if not os.path.exists(root + "/there/share/man/man1/" + page):
            yield "there is no page " + page


def packed_differences(program: str, folder: str) -> Iterator[str]:
    words = [os.path.join(TOP, "tools", "run"), "dist", program, os.environ["FCONVERT"], folder]
    ran = subprocess.run(words, capture_output=True, text=True, check=False)
    if ran.returncode:
        yield ran.stdout + ran.stderr
        return
    (archive,) = (name for name in os.listdir(folder) if name.endswith(".tar.gz"))
    subprocess.run(["tar", "-xzf", archive], cwd=folder, check=True)
    (place,) = (name for name in os.listdir(folder) if os.path.isdir(os.path.join(folder, name)))
    ran = subprocess.run(["sha256sum", "--quiet", "-c", "SHA256SUMS"], cwd=os.path.join(folder, place), capture_output=True, text=True, check=False)
    if ran.returncode:
        yield ran.stdout
    yield from started_differences(os.path.join(folder, place, "bin", "fcdisc"), folder)


def started_differences(fcdisc: str, folder: str) -> Iterator[str]:
    """Jobs of fcdisc, and interrupts while it starts: it ends by them, if it wasn't at its end, and says nothing."""
    table.write_image(os.path.join(folder, "hello.adf"), table.hello().image())
    environment = {name: text for name, text in os.environ.items() if name not in ("FCORE", "FCONVERT")}
    ran = subprocess.run([fcdisc, "convert", "F+", "hello.adf", "new.adf"], cwd=folder, env=environment, capture_output=True, check=False)
    if ran.stdout != b"1 of 1 file copied to new.adf\n":
        yield "fcdisc convert gives %r, and says %r" % (ran.stdout, ran.stderr)
    words = [fcdisc, "get", "hello.adf", "$.Hello", "-"]
    ran = subprocess.run(words, cwd=folder, env=environment, capture_output=True, check=False)
    if ran.stdout != b"Hello":
        yield "fcdisc get gives %r, and says %r" % (ran.stdout, ran.stderr)
    signal.signal(signal.SIGINT, signal.default_int_handler)  # a shell without job control has it ignored in the background
    for at in range(20):
        with subprocess.Popen(words, cwd=folder, env=environment, stdout=subprocess.PIPE, stderr=subprocess.PIPE) as run:
            time.sleep(at * 0.006)
            run.send_signal(signal.SIGINT)
            out, errors = run.communicate(timeout=SECONDS)
        if errors or run.returncode not in (0, -signal.SIGINT):
            yield "interrupted after %d ms it ends by %d, and says %r" % (at * 6, run.returncode, errors)


def installed(suite: Suite, program: str) -> None:
    for name, part in (("install", installed_differences), ("dist", packed_differences)):
        if suite.wants(name):
            with tempfile.TemporaryDirectory() as folder:
                suite.note(name, list(part(program, folder)))


# ---- pages and the embedded image, without a program


def man_pages(suite: Suite) -> None:
    folder = os.path.join(TOP, "man")
    for page in sorted(os.listdir(folder)):
        if suite.wants(page):
            if not shutil.which("mandoc"):
                suite.leave_out(page, "there is no mandoc here")
                continue
            ran = subprocess.run(["mandoc", "-T", "lint", "-W", "warning", os.path.join(folder, page)], stdout=subprocess.PIPE, text=True,
                                 check=False)
            suite.note(page, ran.stdout.splitlines())


def embedded(suite: Suite) -> None:
    """The images that the repository has are those of the table."""
    for data in (os.path.join(TOP, "crates", program, "data") for program in ("fcore", "fconvert")):
        for name in sorted(os.listdir(data)):
            if name.endswith(".adf") and suite.wants(name):
                same = read(os.path.join(data, name)) == bytes(table.table()[0][name])
                suite.note(name, [] if same else ["it isn't the image of the table"])

