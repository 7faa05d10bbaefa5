"""What the library has no call for: runs on threads, and tests with `every_way`. The program makes such runs, and the library replays the
schedule of one; the program judges such tests, on what is in memory."""
from __future__ import annotations

import contextlib
import dataclasses
import itertools
import json
import os
import tempfile
from collections.abc import Iterator

from . import _TURNS, MAX_TURNS, BadTurns, Bytes, Fault, Files, Run, Unfinished, _error_of, replay
from ._given import named_bytes, number, number_in, raw
from .grading import AnyPath, NoProgram, ProgramError, Report, _flags, _graded_by, _program, _run

__all__ = ["grade_harts", "run_harts"]

MAX_HARTS = 8


@dataclasses.dataclass(frozen=True)
class _Task:
    """A task, and how the program is called with it."""

    script: bytes
    input: bytes
    files: dict[str, bytes]
    append: bool
    program: AnyPath | None
    timeout: float | None

    def replayed(self, schedule: bytes) -> Run:
        """The run by this schedule, by the library."""
        return replay(self.script, schedule, self.input, self.files, append=self.append)


def _task_of(script: Bytes, input: Bytes, files: Files | None, append: bool, program: AnyPath | None, timeout: float | None) -> _Task:
    return _Task(raw(script, "a script"), raw(input, "an input"), named_bytes(files), append, program, timeout)


class _Room:
    """A folder with a task in it: the program runs in files/, beside which the rest is."""

    def __init__(self, path: str, task: _Task) -> None:
        self._path, self._task, self._program = path, task, _absolute(task.program)
        os.mkdir(os.path.join(path, "files"))
        self.write("script", task.script)
        self.write("input", task.input)
        # the program takes NAME=PATH where the first `=` is behind the name, and else what is in a folder by its own name
        paths = {name: name if "=" in name else f"_{number}" for number, name in enumerate(task.files)}
        for name, file in paths.items():
            self.write(os.path.join("files", file), task.files[name])
        self._files = [f"./{name}" if "=" in name else f"{name}=./{file}" for name, file in paths.items()]

    def write(self, name: str, data: bytes) -> None:
        with open(os.path.join(self._path, name), "wb") as file:
            file.write(data)

    def read(self, name: str) -> bytes:
        with open(os.path.join(self._path, name), "rb") as file:
            return file.read()

    def run(self, *words: str) -> None:
        """Has the program run the task with these words, to its end."""
        appends = ["--append"] if self._task.append else []
        line = [self._program, "run", "--json", *words, *appends, "--input=../input", "--", "../script", *self._files]
        status, out, said = _run(line, self._task.timeout, os.path.join(self._path, "files"))
        if status == 125:
            raise NoProgram(f"the program {self._program} can't be run: {said}", status, said)
        told = json.loads(out) if out.startswith(b"{") else {}
        if "fault" in told:
            raise _error_of(told["fault"]["number"], told["fault"].get("place", 0), "")
        # where something was full the status isn't 0
        if not told.get("finished"):
            ended = f"ended with status {status}" if status >= 0 else f"was ended by signal {-status}"
            raise ProgramError(f"xvsh run {ended}{said and f': {said}'}", status, said)


def _absolute(program: AnyPath | None) -> str:
    """The program, as it is called from another folder."""
    found = _program(program)
    return os.path.abspath(found) if os.path.dirname(found) else found


@contextlib.contextmanager
def _room(task: _Task) -> Iterator[_Room]:
    with tempfile.TemporaryDirectory(prefix="xvsh-") as path:
        yield _Room(path, task)


def run_harts(
    script: Bytes, input: Bytes = b"", files: Files | None = None, *, harts: int = 4, append: bool = False, turns: int | None = None,
    program: AnyPath | None = None, timeout: float | None = None,
) -> Run:
    r"""Runs the script by its processes on so many harts, 1 to 8, of which each is a thread, and returns that run.

    The library starts no thread, so the program makes the run (`xvsh run --harts`), and the library replays its schedule: what is returned
    is by the library, on these harts. Which run it is the machine's threads decide. The program is found as by `grade`, and has the script, the
    input and the files in a folder that is there for so long; `turns` is a bound on events, and None as many as are enough where that is
    known, else 10,000,000.

    The faults of `run`. NoProgram; TimedOut, after `timeout` seconds; and ProgramError where the program makes no run, as of a file whose
    name is no UTF-8.

    >>> import xvsh
    >>> run = xvsh.run_harts("echo hi | wc", harts=3)
    >>> run.out, {event.hart for event in run} <= {0, 1, 2}
    (b'1 1 3 \n', True)
    """
    count = number_in(harts, 1, MAX_HARTS, f"harts are a number from 1 to {MAX_HARTS}")
    most = None if turns is None else number(turns, f"{_TURNS}, or None")
    if most is not None and not 1 <= most <= MAX_TURNS:
        raise BadTurns(Fault.BadTurns, 0, f"the turns are none of 1 to {MAX_TURNS}")
    task = _task_of(script, input, files, append, program, timeout)
    try:
        # tells what is wrong with them, and else that no event isn't a whole run
        task.replayed(b"")
    except Unfinished:
        pass
    with _room(task) as room:
        room.run(f"--harts={count}", *([] if most is None else [f"--turns={most}"]), "--schedule-to=../schedule")
        schedule = room.read("schedule")
    return task.replayed(schedule)


def _place(folder: str, name: str, data: bytes) -> None:
    """Puts a file below the folder, where a suite names it by this path."""
    path = os.path.join(folder, name)
    os.makedirs(os.path.dirname(path), exist_ok=True)
    with open(path, "xb") as file:
        file.write(data)


def grade_harts(
    suite: Bytes, script: Bytes | None = None, files: Files | None = None, *, states: int | None = None, program: AnyPath | None = None, timeout: float | None = None,
) -> Report:
    r"""Grades a script by the tests of a suite, both in memory, as `grade_script` does, and runs a script that passes a test with `every_way` in
    every way: on threads, too.

    The library starts no thread, so the program judges (`xvsh grade --json --jobs=1`): it is found as by `grade`, and has the suite and the
    files in a folder that is there for so long. Each name of `files` is a path below that folder; a ValueError of one that begins with `/`, has
    a part `..`, or is that of another file or of a folder. A path of the suite that leads out of the folder is read of the machine.

    NoProgram; TimedOut, after `timeout` seconds; and GradeError where nothing is graded, with what the program `said`.

    >>> import xvsh
    >>> suite = '[[test]]\nname = "counts"\ninput_file = "in"\noutput = "1 1 3 \\n"\nevery_way = true\n'
    >>> report = xvsh.grade_harts(suite, "wc", {"in": "hi\n"})
    >>> report.status, [(verdict.script, verdict.verdict) for verdict in report]
    ('all passed', [('-', 'pass')])
    """
    placed = named_bytes(files)
    for name in placed:
        if os.path.isabs(name) or os.pardir in name.split(os.sep) or not name:
            raise ValueError(f"no file of a suite in memory is at {name!r}")
    taken = set(map(os.path.normpath, placed))
    called = next(name for number in itertools.count() if (name := f"suite{number}.toml") not in taken)
    with tempfile.TemporaryDirectory(prefix="xvsh-") as folder:
        try:
            for name, data in {**placed, called: raw(suite, "a suite")}.items():
                _place(folder, name, data)
        except (FileExistsError, NotADirectoryError, IsADirectoryError) as error:
            raise ValueError(f"two files of the suite, or a file and a folder, have one path: {os.path.relpath(error.filename, folder)!r}") from None
        words = [_absolute(program), *_flags(1, states), "--", called, *([] if script is None else ["-"])]
        return _graded_by(words, timeout, folder, b"" if script is None else raw(script, "a script"))
