"""A checkout of two small crates, for the tests in this folder: its program is a script, and all that runs it is this checkout's."""
import gzip
import hashlib
import importlib.machinery
import importlib.util
import multiprocessing
import os
import re
import shutil
import subprocess
import sys
import tempfile
from concurrent.futures import ProcessPoolExecutor

ROOT = os.path.dirname(os.path.dirname(os.path.dirname(os.path.realpath(__file__))))
LONG_AGO = 978_307_200  # the first second of 2001
# prints its name and its words, so that a test sees which program ran
PROGRAM = "#!/bin/sh\necho {name} \"$*\"\n"
CRATES = "# Two crates.\nbase:\nxvsh_main: base\n"


class Failed(Exception):
    """Something isn't as it has to be."""


def check(holds, *told):
    if not holds:
        raise Failed(" ".join(str(it) for it in told))


def write(path, text):
    os.makedirs(os.path.dirname(path), exist_ok=True)
    with open(path, "w", encoding="utf-8") as file:
        file.write(text)


def age(path):
    """Sets the time at which a file or a folder was written to one long ago."""
    os.utime(path, (LONG_AGO, LONG_AGO))


def run(words, **how):
    """Returns the status, the output and the diagnostics of a command."""
    how = {"stdin": subprocess.DEVNULL, "stdout": subprocess.PIPE, "stderr": subprocess.PIPE, "text": True, "timeout": 120, **how}
    ran = subprocess.run(words, check=False, **how)
    return ran.returncode, ran.stdout, ran.stderr


def load(path):
    """Returns the script at this path as a module."""
    loader = importlib.machinery.SourceFileLoader(os.path.basename(path), path)
    made = importlib.util.module_from_spec(importlib.util.spec_from_loader(loader.name, loader))
    loader.exec_module(made)
    return made


def same(found, due, what):
    check(found == due, f"{what}: found {found!r}, and not {due!r}")


def is_packed(top, crate):
    """Returns whether dist/ of a checkout holds what is built of this crate's sources, as it does but for one that is being changed."""
    with open(os.path.join(top, "dist", "record"), encoding="utf-8") as file:
        recorded = re.search(rf"(?m)^{crate}\.sources (\w+)$", file.read())
    return recorded is not None and run([os.path.join(top, "dist", "digest"), crate])[1] == f"{recorded[1]}\n"


def has_program():
    return is_packed(ROOT, "xvsh_main")


class Toy:
    """The checkout at `top`, in `room`, with a home, a folder for temporary files, and an environment of its own."""

    def __init__(self, room, name="toy"):
        self.room, self.top = room, os.path.join(room, name)
        shutil.copytree(os.path.join(ROOT, "dist"), os.path.join(self.top, "dist"), ignore=shutil.ignore_patterns("*.gz", "tests"))
        shutil.copy2(os.path.join(ROOT, "xvsh"), self.top)
        for path, text in {
            "crates.txt": CRATES, "HANDLES": "Handles allowed: Threads.\n", "crates/base/src/lib.rt": "fn one() {}\n",
            "crates/base/proofs/one/One.antt": "one\n", "crates/xvsh_main/src/main.rt": "fn main() {}\n", "crates/xvsh_main/specs/Main.antt": "main\n",
        }.items():
            write(self.path(path), text)
        self.home, self.tmp = os.path.join(room, "home"), os.path.join(room, "tmp")
        for path in (self.home, self.tmp):
            os.makedirs(path, exist_ok=True)
        self.env = {"PATH": os.environ["PATH"], "HOME": self.home, "TMPDIR": self.tmp, "LC_ALL": "C.UTF-8"}
        self.pack("first")

    def path(self, path):
        return os.path.join(self.top, path)

    def pack(self, name, text=PROGRAM):
        """Packs a program into dist/, as that of the sources that are there."""
        program = text.format(name=name).encode()
        with open(self.path("dist/xvsh_main.gz"), "wb") as file:
            file.write(gzip.compress(program, mtime=0))
        status, digest, told = run([self.path("dist/digest"), "xvsh_main"])
        same((status, told), (0, ""), "dist/digest")
        write(self.path("dist/names"), "xvsh_main xvsh_main\n")
        write(self.path("dist/record"), f"xvsh_main.sources {digest}xvsh_main.program {hashlib.sha256(program).hexdigest()}\n")

    def pack_library(self, folder):
        """Packs the library of a folder into dist/, as that of the sources that are there."""
        record = f"xvsh_c.sources {run([self.path('dist/digest'), 'xvsh_c'])[1]}"
        for name in ("libxvsh.a", "libxvsh.so"):
            with open(os.path.join(folder, name), "rb") as file:
                made = file.read()
            with open(self.path(f"dist/{name}.gz"), "wb") as file:
                file.write(gzip.compress(made, mtime=0))
            record += f"{name}.program {hashlib.sha256(made).hexdigest()}\n"
        with open(self.path("dist/record"), "a", encoding="utf-8") as file:
            file.write(record)
        with open(self.path("dist/names"), "a", encoding="utf-8") as file:
            file.write("xvsh_c libxvsh.a libxvsh.so\n")

    def call(self, *words, env=None, launcher=None, **how):
        return run([launcher or self.path("xvsh"), *words], env={**self.env, **(env or {})}, **how)

    def runs(self, name, what, **how):
        """Sees to it that the launcher runs the program of this name, and tells nothing."""
        same(self.call("a", "b", **how), (0, f"{name} a b\n", ""), what)

    def refuses(self, told, what, **how):
        """Sees to it that the launcher runs nothing, and tells why in a line that this pattern matches."""
        status, out, said = self.call("a", **how)
        same((status, out), (125, ""), f"{what}, which tells {said!r}")
        check(re.fullmatch(told, said), f"{what} tells {said!r}, and not {told!r}")


# the tests that `main` runs
TESTS = []


def attempt(number):
    """Runs a test in a folder of its own; returns what isn't as it has to be, if anything, and why the test was left out, if it was."""
    with tempfile.TemporaryDirectory(prefix="xvsh-tests-") as room:
        try:
            return None, TESTS[number](room)
        except Failed as reason:
            return str(reason), None


def main(tests):
    """Runs each test, whose docstring says what it tries, and prints a line for each that is wrong or left out, and their number."""
    wrong, left = 0, 0
    TESTS[:] = tests
    # Not by threads: what one writes and then runs is busy while a process that another one begins still holds it.
    with ProcessPoolExecutor(4, multiprocessing.get_context("fork")) as pool:
        for test, (reason, left_out) in zip(tests, pool.map(attempt, range(len(tests)))):
            what = " ".join(test.__doc__.split())
            if reason:
                wrong += 1
                print(f"wrong: {what} {reason}")
            elif left_out:
                left += 1
                print(f"left out, since {left_out}: {what}")
    name = os.path.relpath(os.path.realpath(sys.argv[0]), ROOT)
    print(f"{name}: {len(tests)} tests, {left} left out, {wrong} wrong")
    return 1 if wrong else 0
