"""Grades scripts by the program: `grade` runs `xvsh grade --json`, and a Report is what that writes, field by field.

docs/GRADING.md says what a suite is and what each verdict says, and docs/FORMATS.md what each field means. This module needs the
program, and not the library.
"""
from __future__ import annotations

import base64
import dataclasses
import json
import os
import shutil
import signal
import subprocess
import time
from collections.abc import Iterable, Iterator
from typing import Any, Union

from ._given import number, path, paths, seconds
from ._show import Cell, Html, Shown, counted, marked, printable, table

__all__ = ["AnyPath", "Difference", "GradeError", "Graded", "NoProgram", "ProgramError", "Report", "TimedOut", "Verdict", "grade"]

AnyPath = Union[str, bytes, "os.PathLike[str]", "os.PathLike[bytes]"]

_PASSED = ("pass", "pass, every order tried")
_COLOURS = {"pass": "#116329", "pass, every order tried": "#116329", "race": "#7d3c00", "unsure": "#3d4c7a", "wrong so far": "#3d4c7a", "not judged": "#3d4c7a"}


class ProgramError(Exception):
    """The program gave no answer. `status` is that with which it ended, or None where it didn't; `said` is what it told on standard error."""

    status: int | None
    said: str

    def __init__(self, text: str, status: int | None = None, said: str = "") -> None:
        super().__init__(text)
        self.status, self.said = status, said

    def __reduce__(self) -> tuple[type[ProgramError], tuple[str, int | None, str]]:
        return type(self), (str(self), self.status, self.said)


class GradeError(ProgramError):
    """Nothing was graded."""


class NoProgram(GradeError):
    """There is no program, or it can't be run here."""


class TimedOut(GradeError, TimeoutError):
    """The seconds were over, and the program was ended."""


@dataclasses.dataclass(frozen=True, repr=False)
class Difference(Shown):
    """Where what a script left first differs from what is expected: the file, or None, the standard output; whether that file is there; the
    line, from 1; the byte of the line, from 0, that differs; and the line as it is expected and as it was found, with its LF, from the
    byte `start` on, of a long one only a part, or None where no more is."""

    file: str | None
    is_there: bool
    line: int
    byte: int
    start: int
    expected: bytes | None
    found: bytes | None


@dataclasses.dataclass(frozen=True, repr=False)
class Verdict(Shown):
    """What a test says of a script: the script's path, or None where the test has its own; the test's name; the verdict, in the words of
    docs/GRADING.md; the points that it gave, of so many; and where it isn't passed in `message` why. `difference` is where the output or
    a file differs; `right` and `wrong` are the processes by whose turns a race comes out so; `line` is that of a script that is refused,
    from 1; `found` is how many ends of an unsure one were found; `full` is what was full. Each is None where there is none."""

    script: str | None
    name: str
    verdict: str
    points: int
    of: int
    message: str | None = None
    difference: Difference | None = None
    right: tuple[int, ...] | None = None
    wrong: tuple[int, ...] | None = None
    line: int | None = None
    found: int | None = None
    full: str | None = None

    @property
    def passed(self) -> bool:
        """Whether the test is passed, by its meaning or with every order tried."""
        return self.verdict in _PASSED


@dataclasses.dataclass(frozen=True, repr=False)
class Graded(Shown):
    """What the tests say of a script, or with `script` None of their own ones: its points, of so many, how many tests it passed, of so many,
    and the verdicts, in the order of the suite."""

    script: str | None
    points: int
    of: int
    passed: int
    tests: int
    verdicts: tuple[Verdict, ...]


@dataclasses.dataclass(frozen=True, repr=False)
class Report(Shown):
    """What grading told: `status`, which is `all passed`, `not all passed` or `not all judged`, the sums of points and of tests, and what
    each script got, in order. It iterates over all verdicts, in their order. `json` is the program's object."""

    status: str
    points: int
    of: int
    passed: int
    tests: int
    scripts: tuple[Graded, ...]
    json: bytes

    def __iter__(self) -> Iterator[Verdict]:
        for script in self.scripts:
            yield from script.verdicts

    @property
    def verdicts(self) -> tuple[Verdict, ...]:
        """All verdicts, in their order."""
        return tuple(self)

    def _repr_html_(self) -> str:
        caption = f"{self.status}: {self.passed} of {counted(self.tests, 'test')} passed, {self.points} of {counted(self.of, 'point')}"
        return table(caption, ("script", "test", "verdict", "points", "why"), [_row_of(it) for it in self])


def _row_of(verdict: Verdict) -> tuple[Cell, ...]:
    script = Html("<i>the suite's own</i>") if verdict.script is None else printable(verdict.script)
    word = marked(verdict.verdict, _COLOURS.get(verdict.verdict, "#a40e26"))
    return script, printable(verdict.name), word, f"{verdict.points}/{verdict.of}", printable(verdict.message or "")


def _bytes_of(value: Any) -> bytes | None:
    if value is None:
        return None
    return base64.b64decode(value["base64"]) if isinstance(value, dict) else str(value).encode()


def _difference_of(made: dict[str, Any]) -> Difference:
    file = _bytes_of(made["file"])
    return Difference(
        None if file is None else os.fsdecode(file), made["is_there"], made["line"], made["byte"], made["from"], _bytes_of(made["expected"]),
        _bytes_of(made["found"]),
    )


def _verdict_of(script: str | None, made: dict[str, Any]) -> Verdict:
    return Verdict(
        script, made["name"], made["verdict"], made["points"], made["of"], made.get("message"),
        _difference_of(made["difference"]) if "difference" in made else None,
        tuple(made["right"]) if "right" in made else None, tuple(made["wrong"]) if "wrong" in made else None,
        made.get("line"), made.get("found"), made.get("full"),
    )


def _graded_of(made: dict[str, Any]) -> Graded:
    verdicts = tuple(_verdict_of(made["script"], it) for it in made["results"])
    return Graded(made["script"], made["points"], made["of"], made["passed"], made["tests"], verdicts)


def _renamed(graded: Graded, script: str) -> Graded:
    """The same of a script of this name."""
    return dataclasses.replace(graded, script=script, verdicts=tuple(dataclasses.replace(it, script=script) for it in graded.verdicts))


def _report_of(text: bytes) -> Report:
    """The report that the program wrote. ValueError where it is none of version 1."""
    made = json.loads(text)
    try:
        if (made["format"], made["version"], made["command"]) != ("xvsh-result", 1, "grade"):
            raise ValueError("it is of another form")
        return Report(made["status"], made["points"], made["of"], made["passed"], made["tests"], tuple(map(_graded_of, made["scripts"])), text)
    except (KeyError, TypeError) as error:
        raise ValueError(f"a field is missing, or another than it should be: {error}") from None


def _program(given: AnyPath | None) -> str:
    """The program's path."""
    if given is not None:
        return path(given, "a program")
    checkout = os.path.normpath(os.path.join(os.path.dirname(os.path.abspath(__file__)), "..", "..", "..", "xvsh"))
    found = os.environ.get("XVSH") or shutil.which("xvsh") or (checkout if os.path.isfile(checkout) else None)
    if not found:
        raise NoProgram("there is no program xvsh: none is given, XVSH names none, PATH has none, and this module stands in no checkout; dist/install of a checkout of xvsh installs it")
    return found


def _end(child: subprocess.Popen[bytes]) -> None:
    """Ends the program and what it started. A launcher has a second in which it removes what it unpacked."""
    if child.returncode is not None:
        return
    os.killpg(child.pid, signal.SIGTERM)
    last = time.monotonic() + 1
    # it isn't waited for before the last signal, so that its number stays its own
    while time.monotonic() < last and os.waitid(os.P_PID, child.pid, os.WEXITED | os.WNOHANG | os.WNOWAIT) is None:
        time.sleep(0.005)
    os.killpg(child.pid, signal.SIGKILL)
    child.wait()


def _run(words: list[str], timeout: float | None, folder: str | None = None, input: bytes = b"") -> tuple[int, bytes, str]:
    """The status, the output and the diagnostics of the program, which runs in the folder, on this standard input; where that is interrupted, or
    the seconds are over, it is ended."""
    pipe = subprocess.PIPE
    seconds(timeout)
    try:
        child = subprocess.Popen(words, stdin=pipe if input else subprocess.DEVNULL, stdout=pipe, stderr=pipe, start_new_session=True, cwd=folder)
    except OSError as error:
        raise NoProgram(f"the program {words[0]} can't be run: {error.strerror}") from error
    with child:
        try:
            out, said = child.communicate(input or None, timeout=timeout)
        except subprocess.TimeoutExpired:
            _end(child)
            raise TimedOut(f"xvsh {words[1]} took more than {timeout:g} seconds, and was ended") from None
        except BaseException:
            _end(child)
            raise
    return child.returncode, out, said.decode("utf-8", "replace").rstrip("\n")


def _word_of(given: AnyPath, what: str) -> str:
    word = path(given, what)
    # to the program `-` is standard input
    return os.path.join(".", "-") if word == "-" else word


def grade(
    suite: AnyPath, scripts: AnyPath | Iterable[AnyPath] = (), *, program: AnyPath | None = None, jobs: int | None = None, states: int | None = None,
    timeout: float | None = None,
) -> Report:
    """Runs the program `xvsh grade --json` on the suite and the scripts at these paths, and returns its report. One path in place of many is
    one script, and the path `-` is the file of this name.

    The program is `program`, else that which the environment's XVSH names, else the `xvsh` of PATH, else `./xvsh` of the checkout in which
    this module stands. It grades with `jobs` threads, 1 to 256, or as many as there are processors, and tries orders through at most
    `states` states, 1 to 10,000,000. Where it takes more than `timeout` seconds, or the call is interrupted, it is ended, with all that it
    started. Its standard input is empty.

    NoProgram where there is none, or it can't be run; TimedOut; and GradeError where it grades nothing, with its `status`: 1 where a
    path can't be read, 2 where the suite is wrong or a number is out of its range, 4 where memory is refused. A test that isn't passed
    is no error.
    """
    words = [_word_of(suite, "a suite"), *(_word_of(it, "a script") for it in paths(scripts))]
    return _graded_by([_program(program), *_flags(jobs, states), "--", *words], timeout)


def _flags(jobs: int | None, states: int | None) -> list[str]:
    """The words of a grading before its paths."""
    dues = (("jobs", jobs, "1 to 256"), ("states", states, "1 to 10,000,000"))
    return ["grade", "--json", *(f"--{name}={number(given, f'{name} are a number from {due}, or None'):d}" for name, given, due in dues if given is not None)]


def _graded_by(words: list[str], timeout: float | None, folder: str | None = None, input: bytes = b"") -> Report:
    """The report of the program that is called by these words, in the folder and on this standard input."""
    status, out, said = _run(words, timeout, folder, input)
    if status == 125:
        raise NoProgram(f"the program {words[0]} can't be run: {said}", status, said)
    if status not in (0, 3, 4) or not out:
        ended = f"ended with status {status}" if status >= 0 else f"was ended by signal {-status}"
        raise GradeError(f"xvsh grade {ended}{said and f': {said}'}", status, said)
    try:
        return _report_of(out)
    except ValueError as error:
        raise GradeError(f"xvsh grade wrote no report of version 1: {error}", status, said) from None
