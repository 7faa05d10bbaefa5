"""xv6's shell, its processes and six programs in this process: what the program `xvsh` does, by its library.

    >>> import xvsh
    >>> xvsh.plain("echo hi | wc").out
    b'1 1 3 \\n'

Over ctypes, with no dependency. The first call that needs the library loads libxvsh.so from the path in XVSH_LIBRARY, else from beside
this file, where `pip install` puts it, else from lib/ of the checkout that this file stands in, where `bindings/build` puts it, which is
called where lib/ has none and dist/ has it; else where the system looks. Where there is none it raises ImportError. `grade` runs the
program, and needs no library; `grade_script` grades bytes in memory by the library, and
`grade_harts` by the program; `run_harts` needs both. `outcomes` and `grade_scripts` are
iterators, whose results come one by one.

Each call raises the faults of what it is given: LineTooLong, ByteZero and ScriptTooLong of the script; where it takes them, TooLong,
BadName and TooManyFiles of the files, and InputTooLong of the input; and Memory. Its own are told at each. What is of another
kind than it has to be is a TypeError, and a number that the library's type can't hold a ValueError that is no XvshError; each names it and says what it has to be. Answers can be compared and hashed, and
answers and faults copied and pickled. A notebook shows an answer as a table.

Scripts, inputs and the bytes of files are `bytes`, or `str` that is encoded as UTF-8. Names of files are `str`; bytes of a name
that are no UTF-8 stand in it as os.fsdecode does it. Any number of threads may call at once: the library has no state, and a call
lets other threads run.
"""
from __future__ import annotations

import base64
import ctypes as c
import ctypes.util
import dataclasses
import enum
import functools
import html
import json
import os
import subprocess
import time
from collections.abc import Callable, Iterable, Iterator, Mapping
from typing import Any, Union

from ._given import callable_or_none, named_bytes, number, number_in, raw, seconds
from ._show import Cell, Shown, code, counted, escaped, files as files_cell, table
from ._svg import svg_of
from .grading import AnyPath, Difference, Graded, GradeError, NoProgram, ProgramError, Report, TimedOut, Verdict, _report_of, grade

__all__ = [
    "Answer", "AnyPath", "BadName", "BadOrder", "BadStates", "BadSuite", "BadTurns", "ByteZero", "Bytes", "Check", "Difference", "Drawing", "Event", "EveryWay", "Explanation",
    "Exploration",
    "Fault", "File", "Files", "Finding", "GivenUp", "GradeError", "Graded", "InputTooLong", "Lack", "LineTooLong", "Memory", "MissingName", "Need", "NoEvent",
    "NoProgram", "NotRunnable", "NotRunning", "Note", "Order", "Outcome", "Outcomes", "Parting", "Picture", "Pipe", "Plain", "Process", "ProgramError", "Reason", "Report", "RoomCheck", "Run",
    "ScriptTooLong", "Scripts", "Session", "Spent", "SuiteTooLong", "TakenName", "TimedOut", "TooLarge", "TooLong", "TooManyFiles", "TurnsCheck", "Unfinished", "UnusedScript",
    "Verdict", "Whys", "XvshError", "check", "check_room", "check_turns", "draw", "draw_svg", "draw_two", "draw_two_svg", "explain", "explain_why", "explore", "grade", "grade_harts", "grade_script", "grade_scripts", "outcomes", "plain", "replay", "run", "run_harts",
    "version",
]
__version__ = "0.3.0"

Bytes = Union[bytes, bytearray, memoryview, str]
Files = Mapping[str, Bytes]

MAX_TURNS = 1_000_000_000
MAX_STATES = 10_000_000
MAX_PID = 63
_VERSION = 3_000


class Fault(enum.IntEnum):
    """Why a call gives no answer; xvsh.h says when each comes."""

    TooLong = 2
    LineTooLong = 3
    ByteZero = 4
    BadName = 5
    TooManyFiles = 6
    TooLarge = 7
    Memory = 8
    Spent = 9
    NoEvent = 10
    NotRunnable = 11
    NotRunning = 12
    Unfinished = 13
    TakenName = 15
    ScriptTooLong = 64
    InputTooLong = 65
    BadTurns = 66
    BadOrder = 67
    BadStates = 68
    GivenUp = 70
    BadSuite = 71
    SuiteTooLong = 72
    UnusedScript = 73
    EveryWay = 74


class XvshError(ValueError):
    """A call was refused: `fault` is the number, a Fault where this module knows it, and `place` what it is about, or 0. Each Fault has
    a class of its own below this one, by its name, as `xvsh.LineTooLong`."""

    fault: int
    place: int

    def __init__(self, fault: int, place: int, text: str) -> None:
        super().__init__(f"{text} ({_PLACES.get(fault, 'place')} {place})" if place else text)
        self.fault, self.place, self._text = fault, place, text

    def __reduce__(self) -> tuple[type[XvshError], tuple[Any, ...]]:
        return type(self), (self.fault, self.place, self._text)


class TooLong(XvshError):
    """A file has too many bytes; the place is the file, from 1."""


class LineTooLong(XvshError):
    """A line of the script has more than 511 bytes; the place is the line, from 1."""


class ByteZero(XvshError):
    """A line of the script holds a byte 0; the place is the line, from 1."""


class BadName(XvshError):
    """No file of a script can have that name; the place is the file, from 1."""


class TooManyFiles(XvshError):
    """There are more than 200 files; the place is the file, from 1."""


class TooLarge(XvshError):
    """The script makes a file too large, or one too many; or a run has more turns than can be counted."""


class Memory(XvshError, MemoryError):
    """Memory was refused, or the budget is spent."""


class Spent(XvshError):
    """The turns are over, and the run isn't finished."""


class NoEvent(XvshError):
    """A line of the schedule is no event; the place is the line, from 1."""


class NotRunnable(XvshError):
    """An event dispatches what can't be dispatched; the place is the event, from 1."""


class NotRunning(XvshError):
    """An event is a call of a process that isn't running there; the place is the event, from 1."""


class Unfinished(XvshError):
    """All events took place, and the run isn't finished."""


class TakenName(XvshError):
    """A file before it has its name; the place is the file, from 1."""


class ScriptTooLong(XvshError):
    """The script has more than 1,048,576 bytes."""


class InputTooLong(XvshError):
    """The standard input has more than 1,048,576 bytes."""


class BadTurns(XvshError):
    """The turns are none of 1 to MAX_TURNS."""


class BadOrder(XvshError):
    """The order is none of Order, or its seed is none of it."""


class BadStates(XvshError):
    """The states are none of 1 to MAX_STATES."""


class GivenUp(XvshError):
    """The watch of the call had it given up."""


class BadSuite(XvshError):
    """The suite is wrong, or names a file that isn't there or is too long; the place is the line of the suite, from 1, and `said` is what is
    wrong with it, as `xvsh grade` says it behind the line."""

    said: str

    def __init__(self, fault: int, place: int, text: str, said: str = "") -> None:
        super().__init__(fault, place, f"{text}: {said}" if said else text)
        self.said, self._text = said, text

    def __reduce__(self) -> tuple[type[XvshError], tuple[Any, ...]]:
        return type(self), (self.fault, self.place, self._text, self.said)


class SuiteTooLong(XvshError):
    """The suite has more than 1,048,576 bytes."""


class UnusedScript(XvshError):
    """Each test of the suite has a script of its own, and a script is given."""


class EveryWay(XvshError):
    """A test is to run in every way, which takes threads; the place is the test, from 1."""


_PLACES: dict[int, str] = {fault: "event" for fault in Fault} | dict.fromkeys((Fault.LineTooLong, Fault.ByteZero, Fault.NoEvent), "line")
_PLACES |= dict.fromkeys((Fault.TooLong, Fault.BadName, Fault.TooManyFiles, Fault.TakenName), "file") | {Fault.BadSuite: "line", Fault.EveryWay: "test"}
_ERRORS: dict[int, type[XvshError]] = {
    Fault.TooLong: TooLong, Fault.LineTooLong: LineTooLong, Fault.ByteZero: ByteZero, Fault.BadName: BadName,
    Fault.TooManyFiles: TooManyFiles, Fault.TooLarge: TooLarge, Fault.Memory: Memory, Fault.Spent: Spent,
    Fault.NoEvent: NoEvent, Fault.NotRunnable: NotRunnable, Fault.NotRunning: NotRunning, Fault.Unfinished: Unfinished,
    Fault.TakenName: TakenName, Fault.ScriptTooLong: ScriptTooLong, Fault.InputTooLong: InputTooLong, Fault.BadTurns: BadTurns,
    Fault.BadOrder: BadOrder, Fault.BadStates: BadStates, Fault.GivenUp: GivenUp, Fault.BadSuite: BadSuite, Fault.SuiteTooLong: SuiteTooLong,
    Fault.UnusedScript: UnusedScript, Fault.EveryWay: EveryWay,
}


def _error_of(number: int, place: int, said: str) -> XvshError:
    """The error of a fault; of one that a newer library has and this module doesn't know it is XvshError itself. Of a suite it has what was said."""
    text = _fault_text(number) or f"fault {number}"
    if number == Fault.BadSuite:
        return BadSuite(Fault.BadSuite, place, text, said)
    return _ERRORS[number](Fault(number), place, text) if number in _ERRORS else XvshError(number, place, text)


class Order(enum.IntEnum):
    """Which process takes the next turn of a run; DRAWN takes a seed, STARVING a slot."""

    KERNEL = 0
    DRAWN = 1
    LOWEST = 2
    HIGHEST = 3
    STARVING = 4
    EAGER = 5


class _Bytes(c.Structure):
    _fields_ = [("at", c.c_void_p), ("length", c.c_size_t)]


class _File(c.Structure):
    _fields_ = [("name", _Bytes), ("bytes", _Bytes)]


class _Task(c.Structure):
    _fields_ = [
        ("script", _Bytes), ("input", _Bytes), ("files", c.POINTER(_File)), ("count", c.c_size_t), ("budget", c.c_uint64), ("appends", c.c_uint32),
    ]


class _Sizes(c.Structure):
    _fields_ = [("name", c.c_size_t), ("bytes", c.c_size_t), ("soft", c.c_uint32)]


class _Answer(c.Structure):
    _fields_ = [
        ("out", _Bytes), ("diag", _Bytes), ("events", _Bytes), ("json", _Bytes), ("block", _Bytes), ("sizes", c.POINTER(_Sizes)),
        ("count", c.c_size_t), ("place", c.c_uint64), ("status", c.c_uint32), ("full", c.c_uint32), ("fine", c.c_uint32), ("whole", c.c_uint32),
    ]


_goes_on = c.CFUNCTYPE(c.c_uint32, c.c_void_p, c.c_uint64)


class _Watch(c.Structure):
    _fields_ = [("goes_on", _goes_on), ("context", c.c_void_p)]


def _find() -> str:
    here = os.path.dirname(os.path.abspath(__file__))
    top = os.path.normpath(os.path.join(here, "..", "..", ".."))
    named = os.environ.get("XVSH_LIBRARY")
    beside, built = os.path.join(here, "libxvsh.so"), os.path.join(top, "lib", "libxvsh.so")
    for path in [named] if named else [beside, built]:
        if os.path.exists(path):
            return path
    build, told = os.path.join(top, "bindings", "build"), ""
    if not named and os.path.exists(build):
        ran = subprocess.run([build, "--packed"], stdin=subprocess.DEVNULL, stderr=subprocess.PIPE, text=True, check=False)
        if ran.returncode == 0:
            return built
        told = f" ({ran.stderr.strip()})"
    found = None if named else ctypes.util.find_library("xvsh")
    if found:
        return found
    raise ImportError(
        f"there is no {named or 'libxvsh.so'}{told}: bindings/build of a checkout of xvsh puts it into lib/, and XVSH_LIBRARY names one that is elsewhere"
    )


_task, _answer = c.POINTER(_Task), c.POINTER(_Answer)
# what each call takes between the task and the answer
_numbers: dict[str, list[Any]] = {
    "plain": [], "run": [c.c_uint64, c.c_uint32, c.c_uint64], "replay": [_Bytes], "check": [c.c_uint32], "explain": [],
    "check_turns": [c.c_uint32], "check_room": [c.c_uint32], "explain_why": [],
    "draw": [c.c_uint64, c.c_uint32, c.c_uint64], "draw_two": [_Bytes, _Bytes],
    "draw_svg": [c.c_uint64, c.c_uint32, c.c_uint64], "draw_two_svg": [_Bytes, _Bytes],
    "explore": [c.c_uint64, c.c_uint32], "explore_watched": [c.c_uint64, c.c_uint32, c.POINTER(_Watch)], "trace": [c.c_uint64, c.c_uint32, c.c_uint64], "look": [_Bytes],
    "grade": [_Bytes, c.c_uint64, c.c_uint32], "grade_watched": [_Bytes, c.c_uint64, c.c_uint32, c.POINTER(_Watch)],
}


@functools.cache
def _library() -> c.CDLL:
    """The library, loaded at the first call."""
    lib = c.CDLL(_find())
    lib.xvsh_version.argtypes, lib.xvsh_version.restype = [], c.c_uint32
    if lib.xvsh_version() // 1000 != _VERSION // 1000:
        raise ImportError(f"libxvsh.so is of version {lib.xvsh_version()}, and the module xvsh of {_VERSION}: they differ before the third number")
    for name, more in _numbers.items():
        function = getattr(lib, f"xvsh_{name}")
        function.argtypes, function.restype = [_task, *more, _answer], c.c_uint32
    lib.xvsh_fault_text.argtypes, lib.xvsh_fault_text.restype = [c.c_uint32], _Bytes
    lib.xvsh_answer_free.argtypes, lib.xvsh_answer_free.restype = [_answer], None
    return lib


def version() -> tuple[int, int, int]:
    """The library's version."""
    number = _library().xvsh_version()
    return number // 1_000_000, number // 1000 % 1000, number % 1000


_BITS_32, _BITS_64 = (1 << 32) - 1, (1 << 64) - 1
_TURNS, _STATES = f"turns are a number from 1 to {MAX_TURNS:,}", f"states are a number from 1 to {MAX_STATES:,}"


def _turns_of(turns: int, order: int, seed: int) -> tuple[int, int, int]:
    """The numbers of a run. The library refuses those that it can hold and that are none."""
    orders = f"an order is one of xvsh.Order, such as xvsh.Order.{Order.LOWEST.name}"
    return number_in(turns, 0, _BITS_64, _TURNS), number_in(order, 0, _BITS_32, orders), number_in(seed, 0, _BITS_64, "a seed is a number from 0 to 2**64 - 1")


def _view(kept: list[Any], data: bytes) -> tuple[int | None, int]:
    held = c.c_char_p(data)
    kept.append(held)
    return c.cast(held, c.c_void_p).value, len(data)


def _text(bytes_: _Bytes) -> bytes:
    return c.string_at(bytes_.at, bytes_.length) if bytes_.length else b""


def _fault_text(number: int) -> str:
    return _text(_library().xvsh_fault_text(number)).decode()


@dataclasses.dataclass(frozen=True, repr=False)
class File(Shown):
    """A file at the end of a run; of a run by meaning `soft` where the left side of a pipe writes it whose right side may stop before it has
    read all: of a settled script no other file depends on the order of processes, and of one that isn't settled every file may."""

    bytes: bytes
    soft: bool = False


@dataclasses.dataclass(frozen=True, repr=False)
class Answer(Shown):
    """What a run leaves: its standard output, and its files by name, in byte order of the names."""

    out: bytes
    files: dict[str, File] = dataclasses.field(hash=False)

    def _caption(self) -> str:
        return "what it leaves" + self._full()

    def _full(self) -> str:
        full: str | None = getattr(self, "full", None)
        return f"; first full: {full}" if full else ""

    def _rows(self) -> list[tuple[Cell, Cell]]:
        shown: list[tuple[Cell, Cell]] = [("output", code(self.out))]
        # a run and an outcome of an exploration have diagnostics, and what was full
        diag: bytes = getattr(self, "diag", b"")
        shown += [("diagnostics", code(diag))] if diag else []
        return shown + [(f"{escaped(os.fsencode(name))}{' (soft)' if file.soft else ''}", code(file.bytes)) for name, file in self.files.items()]

    def _repr_html_(self) -> str:
        return table(self._caption(), (), self._rows())


@dataclasses.dataclass(frozen=True, repr=False)
class Plain(Answer):
    """What a script gives by its meaning; where it is settled, no order of its processes changes that, soft files left out."""

    settled: bool

    def _caption(self) -> str:
        return "settled" if self.settled else "not settled"


@dataclasses.dataclass(frozen=True, repr=False)
class Event(Shown):
    """An event of a run, counted from 1: a `dispatch`, by which the process in slot `pid` begins to run on the hart, or a `trap`, by
    which its call is carried out. In a run that is traced `record` is its line of the trace, as json.loads reads it."""

    n: int
    kind: str
    hart: int
    pid: int
    record: dict[str, Any] | None = dataclasses.field(default=None, hash=False)


@dataclasses.dataclass(frozen=True, repr=False)
class Run(Answer):
    """A finished run by processes: its diagnostics, its schedule, a line an event, what was full first, or None, and the lines of its
    trace, or None where it isn't traced. It iterates over its events."""

    diag: bytes
    schedule: bytes
    full: str | None
    trace: bytes | None = None

    def _caption(self) -> str:
        return counted(self.schedule.count(b"\n"), "event") + self._full()

    def __iter__(self) -> Iterator[Event]:
        if self.trace is not None:
            yield from _traced(self.trace)
            return
        for n, line in enumerate(self.schedule.splitlines(), 1):
            letter, hart, pid = line.split()
            yield Event(n, "dispatch" if letter == b"D" else "trap", int(hart), int(pid))


@dataclasses.dataclass(frozen=True, repr=False)
class Drawing(Shown):
    """A finished run, which has no schedule here unless it was handed in, and the page of HTML that draws it, or it and another. A notebook shows the page in a frame of its own, and
    where it is made into paper the picture alone."""

    run: Run
    html: bytes

    @property
    def svg(self) -> str:
        """The picture of the page alone, in SVG, which needs nothing from elsewhere, in the colours of a light page. Where the page isn't needed, `draw_svg` makes a picture in these
        and in dark colours."""
        return svg_of(self.html.decode("utf-8", "replace"))

    def _repr_svg_(self) -> str:
        return self.svg

    def _repr_html_(self) -> str:
        page = html.escape(self.html.decode("utf-8", "replace"), quote=True)
        return f'<iframe srcdoc="{page}" sandbox="" style="width:100%;height:40em;border:0" title="a drawing of a run"></iframe>'


@dataclasses.dataclass(frozen=True, repr=False)
class Picture(Shown):
    """A finished run, which has no schedule here unless it was handed in, and the picture of it in SVG, or of it and another: a document that stands alone, in light colours or
    where the reader prefers them in dark ones. A notebook shows the picture."""

    run: Run
    svg: str

    def _repr_svg_(self) -> str:
        return self.svg


def _traced(trace: bytes) -> Iterator[Event]:
    for line in trace.splitlines():
        record = json.loads(line)
        if record["kind"] in ("dispatch", "trap"):
            yield Event(record["n"], record["kind"], record["hart"], record["pid"], record)


@dataclasses.dataclass(frozen=True)
class Finding:
    """What a check found in a line, counted from 1: a `fault`, by which it is no command, at a place in bytes from 0; that it holds a `&`,
    a `background`; or its first `clash`, of a kind, on the file `name`."""

    kind: str
    line: int
    fault: str | None = None
    at: int | None = None
    clash: str | None = None
    name: str | None = None


@dataclasses.dataclass(frozen=True, repr=False)
class Check(Shown):
    """What a check found; it is `harmless` where no line holds a `&` or a clash, and strictly each is a command. `json` is the program's object."""

    harmless: bool
    findings: tuple[Finding, ...]
    json: bytes

    def _repr_html_(self) -> str:
        rows = [
            (it.line, it.kind, it.fault or it.clash, it.at, None if it.name is None else escaped(os.fsencode(it.name))) for it in self.findings
        ]
        return table("harmless" if self.harmless else "not harmless", ("line", "what", "which", "byte", "file"), rows)


@dataclasses.dataclass(frozen=True, repr=False)
class TurnsCheck(Check):
    """What a check found that counts turns: in how many a run by processes is finished, whatever their order, or None where these are more than
    1,000,000,000."""

    turns: int | None


@dataclasses.dataclass(frozen=True)
class Need:
    """How much of a table a script needs at most, or None where that is more than 1,000,000, and how much there is."""

    need: int | None
    most: int


@dataclasses.dataclass(frozen=True)
class Lack:
    """With which line first a script may need more of a table than there is: the need up to that line, and how much there is. The line is None
    where the files that are there are too many already."""

    line: int | None
    table: str
    need: int | None
    most: int


@dataclasses.dataclass(frozen=True, repr=False)
class RoomCheck(Check):
    """What a check found that tells room; it is `harmless` where there is room, too. `room` has a Need of each of `processes`, `open_files`,
    `descriptors`, `files` and `size` (bytes of a file), and is None where a line has a clash or a `&`."""

    room: dict[str, Need] | None = dataclasses.field(hash=False)
    lack: Lack | None


@dataclasses.dataclass(frozen=True, repr=False)
class Note(Shown):
    """What is wrong or unexpected in a line, counted from 1, in a sentence; the places that it marks, each from a byte of the line's text, counted from 0, up to another."""

    kind: str
    line: int
    places: tuple[tuple[int, int], ...]
    sentence: str
    text: bytes


@dataclasses.dataclass(frozen=True, repr=False)
class Explanation(Shown):
    """The notes on a script; it is `fine` where there is none and no line may not have room, of which `json`, the program's object, has `lack`."""

    fine: bool
    notes: tuple[Note, ...]
    json: bytes

    def _repr_html_(self) -> str:
        rows: list[tuple[Cell, ...]] = [(it.line, code(it.text), it.sentence) for it in self.notes]
        lack = json.loads(self.json or b"{}").get("lack")
        if lack:
            rows.append((lack.get("line"), None, f"may need {lack['need'] or 'more than 1000000'} {lack['table'].replace('_', ' ')}; there are {lack['most']}"))
        return table("fine" if self.fine else "not fine", ("line", "text", "note"), rows)


@dataclasses.dataclass(frozen=True)
class MissingName:
    """The first name that a line, counted from 1, uses and that no file has when the line runs."""

    line: int
    name: str


@dataclasses.dataclass(frozen=True)
class Reason:
    """Why a script isn't settled, as docs/FORMATS.md has it: a `background`, a `clash` of a kind on the file `name`, a `cut pipe` whose left side
    writes the file `name`, which the line `again` names again, or a `loose input`, which a command of the line `user` uses."""

    kind: str
    line: int
    clash: str | None = None
    name: str | None = None
    again: int | None = None
    user: int | None = None


@dataclasses.dataclass(frozen=True, repr=False)
class Whys(Explanation):
    """The notes on a script on its files and its input; it is `fine` where there is none, no name is missing, no line may not have room, and it
    is `settled`. Where it isn't, there are `reasons`."""

    missing: tuple[MissingName, ...]
    settled: bool
    reasons: tuple[Reason, ...]

    def _repr_html_(self) -> str:
        shown = super()._repr_html_()
        rows: list[tuple[Cell, ...]] = [(it.line, "no file has this name when the line runs", escaped(os.fsencode(it.name))) for it in self.missing]
        rows += [(it.line, it.kind, None if it.name is None else escaped(os.fsencode(it.name))) for it in self.reasons]
        return shown + table("settled" if self.settled else "not settled", ("line", "what", "file"), rows)


@dataclasses.dataclass(frozen=True)
class Parting:
    """The event, counted from 1, up to which a schedule of another outcome and this one's are alike; what happens there, and here; and the
    number of the other outcome, counted from 1: the first one, but of more than four outcomes the one whose difference from this is easiest
    to see."""

    event: int
    there: str
    here: str
    other: int = 1


@dataclasses.dataclass(frozen=True, repr=False)
class Outcome(Answer):
    """What runs of a script can leave; and of a script that was explored the diagnostics, what was full first, or None, a
    schedule that leads there, and where it parts from that of another outcome, where that is told."""

    diag: bytes
    full: str | None
    schedule: bytes | None
    parting: Parting | None


@dataclasses.dataclass(frozen=True, repr=False)
class Exploration(Shown):
    """What every order of a script's processes leaves. It is `single` where all outcomes have one output and one set of files, and `whole`
    where every order was tried, or what it leaves is known without; `stuck` is a schedule after which every process sleeps for ever, or
    None. `dead_lines` are the numbers, from 1, of the script's lines that do nothing, since they are no command or name no program. It
    iterates over the outcomes; `outcomes` below has each as soon as it is found. `json` is the program's object."""

    single: bool
    whole: bool
    states: int
    outcomes: tuple[Outcome, ...]
    stuck: bytes | None
    json: bytes
    dead_lines: tuple[int, ...] = ()

    def __iter__(self) -> Iterator[Outcome]:
        return iter(self.outcomes)

    def _repr_html_(self) -> str:
        tried = "known without trying orders" if not self.states else f"{counted(self.states, 'state')}, {'' if self.whole else 'not '}every order tried"
        stuck = "" if self.stuck is None else "; some order never ends"
        head = ("", "output", "files", "diagnostics", "first full", "parts from", "at event", "there", "here")
        return table(f"{counted(len(self.outcomes), 'outcome')} ({tried}){stuck}", head, [_row_of(n, it) for n, it in enumerate(self.outcomes, 1)])


def _row_of(number: int, outcome: Outcome) -> tuple[Cell, ...]:
    files = files_cell({name: file.bytes for name, file in outcome.files.items()})
    parting: tuple[Cell, ...] = (None, None, None, None)
    if outcome.parting:
        parting = (outcome.parting.other, outcome.parting.event, escaped(_encoded(outcome.parting.there)), escaped(_encoded(outcome.parting.here)))
    return number, code(outcome.out), files, code(outcome.diag) if outcome.diag else None, outcome.full, *parting


@dataclasses.dataclass(frozen=True)
class Process:
    """A process: its slot and its parent's, the program it runs, its state, which is `runnable`, `asleep` or `zombie`, the command that it
    carries out and the line of that, the call that it makes next, and what it sleeps on, where there are such."""

    pid: int
    parent: int
    prog: str
    state: str
    command: str | None
    line: int | None
    next: dict[str, Any] | None = dataclasses.field(hash=False)
    sleep: dict[str, Any] | None = dataclasses.field(hash=False)


@dataclasses.dataclass(frozen=True)
class Pipe:
    """A pipe: its number, how many bytes it holds, and the slots of the processes that hold its ends open."""

    number: int
    held: int
    readers: tuple[int, ...]
    writers: tuple[int, ...]


_FULL = (None, "procs", "open", "descriptors", "files", "size", "memory")


def _full_of(number: int) -> str | None:
    """What was full; of what a newer library has and this module doesn't know its number."""
    return _FULL[number] if number < len(_FULL) else str(number)


class _Call:
    """A call's answer, copied out of the library's memory."""

    __slots__ = ("out", "diag", "events", "json", "files", "full", "fine", "whole")
    fine: bool
    whole: bool

    def __init__(self, answer: _Answer) -> None:
        self.out, self.diag, self.events, self.json = _text(answer.out), _text(answer.diag), _text(answer.events), _text(answer.json)
        block, at, files = _text(answer.block), 0, {}
        for sizes in answer.sizes[: answer.count] if answer.count else ():
            middle, end = at + sizes.name, at + sizes.name + sizes.bytes
            files[os.fsdecode(block[at:middle])] = File(block[middle:end], sizes.soft != 0)
            at = end
        self.files, self.full, self.fine, self.whole = files, _full_of(answer.full), answer.fine != 0, answer.whole != 0


def _call(name: str, script: Bytes, input: Bytes, files: Files | None, append: bool, budget: int, *more: Any) -> _Call:
    kept: list[Any] = []
    budget = number_in(budget, 0, _BITS_64, "a budget is a number from 0 to 2**64 - 1")
    rows = [_File(_view(kept, os.fsencode(file)), _view(kept, data)) for file, data in named_bytes(files).items()]
    given = (_File * len(rows))(*rows)
    task = _Task(_view(kept, raw(script, "a script")), _view(kept, raw(input, "an input")), given, len(rows), budget, 1 if append else 0)
    answer, function = _Answer(), getattr(_library(), f"xvsh_{name}")
    try:
        if function(task, *more, answer):
            raise _error_of(answer.status, answer.place, _text(answer.diag).decode("utf-8", "replace"))
        return _Call(answer)
    finally:
        _library().xvsh_answer_free(answer)


def plain(script: Bytes, input: Bytes = b"", files: Files | None = None, *, append: bool = False, budget: int = 0) -> Plain:
    """Runs the script by its meaning: each pipe's left side to its end before its right side starts.

    `budget` is the most bytes of memory that the run may ask for in all, past which it is Memory; 0: no bound. With `append`, `>>`
    appends; else it writes over the file from its beginning, as xv6's does. TooLarge where the script makes a file too large, or one
    too many.
    """
    call = _call("plain", script, input, files, append, budget)
    return Plain(call.out, call.files, call.fine)


def run(
    script: Bytes, input: Bytes = b"", files: Files | None = None, *, append: bool = False, turns: int = 10_000_000,
    order: Order = Order.KERNEL, seed: int = 0, trace: bool = False,
) -> Run:
    """Runs the script by its processes on one hart, in at most `turns` events, from 1 to MAX_TURNS, in this order, of which DRAWN takes any
    `seed` and STARVING a slot from 0 to 63; with `trace` each event has its record, of some 200 bytes. Spent where the turns are over and
    the run isn't finished; BadTurns; BadOrder."""
    call = _call("trace" if trace else "run", script, input, files, append, 0, *_turns_of(turns, order, seed))
    if not trace:
        return _run_of(call)
    schedule = b"".join(b"%c %d %d\n" % (68 if event.kind == "dispatch" else 84, event.hart, event.pid) for event in _traced(call.events))
    return Run(call.out, call.files, call.diag, schedule, call.full, call.events)


def draw(
    script: Bytes, input: Bytes = b"", files: Files | None = None, *, append: bool = False, turns: int = 10_000_000, order: Order = Order.KERNEL, seed: int = 0,
) -> Drawing:
    """Runs the script as `run` does, and draws the run, as `xvsh draw` draws its trace. The faults are those of `run`.

    >>> import xvsh
    >>> drawing = xvsh.draw("echo hi")
    >>> drawing.html[:15].lower(), drawing.svg[:5]
    (b'<!doctype html>', '<svg ')
    """
    call = _call("draw", script, input, files, append, 0, *_turns_of(turns, order, seed))
    return Drawing(Run(call.out, call.files, call.diag, b"", call.full), call.events)


def draw_two(script: Bytes, schedule: Bytes, other: Bytes, input: Bytes = b"", files: Files | None = None, *, append: bool = False) -> Drawing:
    """Runs the script by two schedules, as `replay` does, and draws both runs on one page, as `xvsh draw` draws their two traces: where they
    part, and once what both begin with. Its `run` is that of the first. The faults are those of `replay`, of the first schedule before the other.

    >>> import xvsh
    >>> one, other = xvsh.explore("echo a &; echo b").outcomes[:2]
    >>> b"What both begin with" in xvsh.draw_two("echo a &; echo b", one.schedule, other.schedule).html
    True
    """
    kept: list[Any] = []
    first = raw(schedule, "a schedule")
    call = _call("draw_two", script, input, files, append, 0, _Bytes(*_view(kept, first)), _Bytes(*_view(kept, raw(other, "the other schedule"))))
    return Drawing(Run(call.out, call.files, call.diag, first, call.full), call.events)


def draw_svg(
    script: Bytes, input: Bytes = b"", files: Files | None = None, *, append: bool = False, turns: int = 10_000_000, order: Order = Order.KERNEL, seed: int = 0,
) -> Picture:
    """Runs the script as `run` does, and gives the picture of the run alone, as `xvsh draw --svg` writes it of its trace. The faults are those of `run`.

    >>> import xvsh
    >>> picture = xvsh.draw_svg("echo hi")
    >>> picture.svg[:5], picture.run.out
    ('<svg ', b'hi\\n')
    """
    call = _call("draw_svg", script, input, files, append, 0, *_turns_of(turns, order, seed))
    return Picture(Run(call.out, call.files, call.diag, b"", call.full), call.events.decode())


def draw_two_svg(script: Bytes, schedule: Bytes, other: Bytes, input: Bytes = b"", files: Files | None = None, *, append: bool = False) -> Picture:
    """Runs the script by two schedules as `draw_two` does, with the same faults, and gives the picture of both runs, as `xvsh draw --svg` writes it of their two traces."""
    kept: list[Any] = []
    first = raw(schedule, "a schedule")
    call = _call("draw_two_svg", script, input, files, append, 0, _Bytes(*_view(kept, first)), _Bytes(*_view(kept, raw(other, "the other schedule"))))
    return Picture(Run(call.out, call.files, call.diag, first, call.full), call.events.decode())


def replay(script: Bytes, schedule: Bytes, input: Bytes = b"", files: Files | None = None, *, append: bool = False) -> Run:
    """Runs it by the events of a schedule: a run's, or any other, of one to eight harts. NoEvent of a line that is none; NotRunnable and
    NotRunning of an event that can't take place; Unfinished where all took place and the run isn't finished."""
    kept: list[Any] = []
    return _run_of(_call("replay", script, input, files, append, 0, _Bytes(*_view(kept, raw(schedule, "a schedule")))))


def _run_of(call: _Call) -> Run:
    return Run(call.out, call.files, call.diag, call.events, call.full)


def check(script: Bytes, *, strict: bool = False) -> Check:
    r"""Tells where commands of a script may clash, and runs nothing.

    >>> import xvsh
    >>> [(found.kind, found.line) for found in xvsh.check("echo a\necho b &\n").findings]
    [('background', 2)]
    """
    call = _call("check", script, b"", None, False, 0, 1 if strict else 0)
    return Check(call.fine, _findings_of(json.loads(call.json)), call.json)


def _findings_of(made: dict[str, Any]) -> tuple[Finding, ...]:
    return tuple(
        Finding(it["kind"], it["line"], it.get("fault"), it.get("first"), it.get("clash"), _name_of(it["name"]) if "name" in it else None)
        for it in made["findings"]
    )


def check_turns(script: Bytes, input: Bytes = b"", files: Files | None = None, *, strict: bool = False) -> TurnsCheck:
    r"""Tells the same, and in how many turns a run by processes is finished, whatever their order.

    >>> import xvsh
    >>> checked = xvsh.check_turns("echo hi | wc")
    >>> checked.harmless, checked.turns >= len([event for event in xvsh.run("echo hi | wc") if event.kind == "trap"])
    (True, True)
    """
    call = _call("check_turns", script, input, files, False, 0, 1 if strict else 0)
    made = json.loads(call.json)
    return TurnsCheck(call.fine, _findings_of(made), call.json, made["turns"])


def check_room(script: Bytes, input: Bytes = b"", files: Files | None = None, *, strict: bool = False) -> RoomCheck:
    r"""Tells the same, and how much of xv6's tables a run may need at most, whatever the order of its processes.

    >>> import xvsh
    >>> xvsh.check_room("echo a | cat").room["processes"]
    Need(need=5, most=64)
    """
    call = _call("check_room", script, input, files, False, 0, 1 if strict else 0)
    made = json.loads(call.json)
    room = {name: Need(it["need"], it["most"]) for name, it in made["room"].items()} if made["room"] else None
    lack = Lack(made["lack"].get("line"), made["lack"]["table"], made["lack"]["need"], made["lack"]["most"]) if "lack" in made else None
    return RoomCheck(call.fine, _findings_of(made), call.json, room, lack)


def explain(script: Bytes) -> Explanation:
    """Tells in sentences what is wrong or unexpected in a script.

    >>> import xvsh
    >>> print(xvsh.explain("lss").notes[0].sentence)
    no program has this name: there are cat, echo, grep, head, tee and wc
    """
    call = _call("explain", script, b"", None, False, 0)
    return Explanation(call.fine, _notes_of(json.loads(call.json)), call.json)


def _notes_of(made: dict[str, Any]) -> tuple[Note, ...]:
    return tuple(
        Note(it["kind"], it["line"], tuple((place["first"], place["past"]) for place in it["places"]), it["sentence"], _bytes_of(it["text"]))
        for it in made["notes"]
    )


def explain_why(script: Bytes, input: Bytes = b"", files: Files | None = None, *, append: bool = False) -> Whys:
    """Tells the same, which names no file has when a line uses them, and why the script isn't settled on this input and these files. TooLarge
    where the script makes a file too large, or one too many.

    >>> import xvsh
    >>> whys = xvsh.explain_why("cat f | tee f; cat g", files={"f": "a"})
    >>> whys.missing, [(reason.kind, reason.name) for reason in whys.reasons]
    ((MissingName(line=1, name='g'),), [('clash', 'f')])
    """
    call = _call("explain_why", script, input, files, append, 0)
    made = json.loads(call.json)
    missing = tuple(MissingName(it["line"], _name_of(it["name"])) for it in made["missing"])
    reasons = tuple(
        Reason(it["kind"], it["line"], it.get("clash"), _name_of(it["name"]) if "name" in it else None, it.get("again"), it.get("user")) for it in made["reasons"]
    )
    return Whys(call.fine, _notes_of(made), call.json, missing, made["settled"], reasons)


def explore(
    script: Bytes, input: Bytes = b"", files: Files | None = None, *, append: bool = False, states: int = 200_000, thorough: bool = False,
    watch: Callable[[int], bool] | None = None, timeout: float | None = None,
) -> Exploration:
    """Tries every order of the script's processes, of at most `states` states of the kernel, from 1 to MAX_STATES, for each of which
    memory is kept. A settled script none of whose files is soft has one outcome, and is explored only if it is to be `thorough`.
    TooLarge where a run has more turns than can be counted; BadStates.

    `watch` is called meanwhile, every 1,024 requests for memory, with the number of these so far; where it returns what is false, the call is
    given up, and is GivenUp; where it raises, as at Ctrl-C, the call is given up and the error raised again. After `timeout` seconds it is
    given up too.

    >>> import xvsh
    >>> [outcome.out for outcome in xvsh.explore("echo a &; echo b").outcomes]
    [b'a\\nb\\n', b'ab\\n\\n', b'b\\na\\n', b'ba\\n\\n']
    """
    numbers = number_in(states, 0, _BITS_64, _STATES), 1 if thorough else 0
    call = _call_watched(watch, timeout, "explore", script, input, files, append, *numbers)
    made = json.loads(call.json)
    stuck = None if made["stuck"] is None else _schedule(made["stuck"])
    return Exploration(call.fine, call.whole, made["states"], tuple(map(_outcome_of, made["outcomes"])), stuck, call.json, tuple(made.get("dead_lines", ())))


def grade_script(
    suite: Bytes, script: Bytes | None = None, files: Files | None = None, *, states: int | None = None, watch: Callable[[int], bool] | None = None,
    timeout: float | None = None,
) -> Report:
    r"""Grades a script by the tests of a suite, both in memory, as `xvsh grade --json` with one job, and returns that report, in which the script
    is at `-`. Without a script each test of the suite must have its own. docs/GRADING.md says what a suite is.

    `suite` is TOML of at most 1,048,576 bytes. `files` are those that it names by paths, at most 200: a path as it stands in the suite is
    the name of its bytes. `states` is an upper bound on the states through which each test tries orders, whatever the suite says; None, or
    0: none. `watch` and `timeout` are as of `explore`.

    BadSuite, with the line and what is `said` of it; SuiteTooLong; UnusedScript where no test is run on the script; EveryWay of a test with
    `every_way`, which takes threads: `grade_harts` runs it; TooManyFiles; GivenUp; and Memory, also where it is refused to the judging of a test. A
    script that is too long, or refused, is a verdict, and no error.

    >>> import xvsh
    >>> report = xvsh.grade_script('[[test]]\nname = "counts"\noutput = "1 1 3 \\n"\n', "echo hi | wc")
    >>> report.status, [(verdict.script, verdict.name, verdict.verdict) for verdict in report]
    ('all passed', [('-', 'counts', 'pass')])
    """
    kept: list[Any] = []
    most = number_in(0 if states is None else states, 0, _BITS_64, f"{_STATES}, or None")
    numbers = _Bytes(*_view(kept, raw(suite, "a suite"))), most, 1 if script is None else 0
    return _report_of(_call_watched(watch, timeout, "grade", b"" if script is None else script, b"", files, False, *numbers).json)


def _call_watched(
    watch: Callable[[int], bool] | None, timeout: float | None, name: str, script: Bytes, input: Bytes, files: Files | None, append: bool, *numbers: Any
) -> _Call:
    """Makes a call, and a watched one where somebody watches it, or a clock does."""
    callable_or_none(watch, "a watch")
    lasts = seconds(timeout)
    if watch is None and lasts is None:
        return _call(name, script, input, files, append, 0, *numbers)
    raised: list[BaseException] = []
    asked, last = watch, None if lasts is None else time.monotonic() + lasts

    def goes_on(_context: Any, requests: int) -> int:
        try:
            return 1 if (last is None or time.monotonic() < last) and (asked is None or asked(requests)) else 0
        except BaseException as error:
            raised.append(error)
            return 0

    held = _Watch(_goes_on(goes_on), None)
    try:
        return _call(f"{name}_watched", script, input, files, append, 0, *numbers, held)
    except GivenUp:
        if raised:
            raise raised[0] from None
        raise


def _bytes_of(value: Any) -> bytes:
    """Bytes in an object of JSON."""
    return base64.b64decode(value["base64"]) if isinstance(value, dict) else str(value).encode()


def _encoded(text: str) -> bytes:
    return text.encode("utf-8", "surrogateescape")


def _text_of(value: Any) -> str:
    return _bytes_of(value).decode("utf-8", "surrogateescape")


def _name_of(value: Any) -> str:
    return os.fsdecode(_bytes_of(value))


def _outcome_of(made: dict[str, Any]) -> Outcome:
    parting = made.get("parting")
    return Outcome(
        _bytes_of(made["output"]),
        {_name_of(it["name"]): File(_bytes_of(it["bytes"])) for it in made["files"]},
        _bytes_of(made.get("diagnostics", "")),
        made.get("full"),
        _schedule(made["schedule"]) if "schedule" in made else None,
        Parting(parting["event"], _text_of(parting["there"]), _text_of(parting["here"]), parting.get("from", 1)) if parting else None,
    )


class Session:
    """A run that is made turn by turn: it is its schedule, which grows by each choice, and is made again for each look.

        >>> import xvsh
        >>> session = xvsh.Session("echo hi")
        >>> while not session.finished:
        ...     session.choose(min(session.choices()))
        >>> session.out
        b'hi\\n'
        >>> session.back(3)
        (1, 1, 0)
        >>> [(process.pid, process.prog, process.state) for process in session.processes]
        [(0, 'init', 'asleep'), (1, 'sh', 'runnable'), (2, 'echo', 'zombie')]
    """

    def __init__(self, script: Bytes, input: Bytes = b"", files: Files | None = None, *, append: bool = False) -> None:
        self._task = (raw(script, "a script"), raw(input, "an input"), named_bytes(files), append)
        self._turns: list[int] = []
        self._look(())

    def __repr__(self) -> str:
        return f"<Session of {counted(len(self._turns), 'turn')}, {'finished' if self.finished else 'not finished'}>"

    def _repr_html_(self) -> str:
        rows = [
            (it.pid, it.prog, it.state, escaped(_encoded(it.command)) if it.command is not None else None, it.next["name"] if it.next else None)
            for it in self.processes
        ]
        return table(f"{counted(len(self._turns), 'turn')}, {'finished' if self.finished else 'not finished'}", ("process", "program", "state", "command", "next call"), rows)

    def _look(self, turns: tuple[int, ...]) -> None:
        """Looks at what these turns lead to."""
        events = _schedule(turns)
        script, input, files, append = self._task
        kept: list[Any] = []
        call = _call("look", script, input, files, append, 0, _Bytes(*_view(kept, events)))
        self._finished, self._made, self._json = call.fine, json.loads(call.json), call.json
        self._turns = list(turns)

    @property
    def schedule(self) -> bytes:
        """The events so far."""
        return _schedule(self._turns)

    @property
    def turns(self) -> tuple[int, ...]:
        """The slots that took turns so far."""
        return tuple(self._turns)

    @property
    def finished(self) -> bool:
        """Whether every process but init has ended."""
        return self._finished

    @property
    def json(self) -> bytes:
        """The library's object: how the run stands, and the answers of `xvsh step --json` to `ps`, `pipes`, `files` and `out`."""
        return self._json

    @property
    def processes(self) -> tuple[Process, ...]:
        """The processes, by their slots."""
        return tuple(
            Process(
                it["pid"], it["parent"], _text_of(it["prog"]), it["state"], _text_of(it["cmd"]) if "cmd" in it else None, it.get("line"),
                it.get("next"), it.get("sleep"),
            )
            for it in self._made["ps"]["processes"]
        )

    @property
    def pipes(self) -> tuple[Pipe, ...]:
        """The pipes that some process holds open."""
        return tuple(Pipe(it["pipe"], it["held"], tuple(it["readers"]), tuple(it["writers"])) for it in self._made["pipes"]["pipes"])

    @property
    def files(self) -> dict[str, bytes]:
        """The files so far."""
        return {_name_of(it["name"]): _bytes_of(it["data"]) for it in self._made["files"]["files"]}

    @property
    def out(self) -> bytes:
        """The output so far."""
        return _bytes_of(self._made["out"]["out"])

    @property
    def diag(self) -> bytes:
        """The diagnostics so far."""
        return _bytes_of(self._made["out"]["diag"])

    def choices(self) -> tuple[int, ...]:
        """The slots of the processes that can take the next turn; none where the run is finished, or stuck."""
        return () if self.finished else tuple(it["pid"] for it in self._made["ps"]["processes"] if it["state"] == "runnable")

    def choose(self, pid: int) -> None:
        """Lets the process in this slot take a turn. NotRunnable where it can't, and ValueError where there is no such slot; nothing changes then."""
        self._look((*self._turns, number_in(pid, 0, MAX_PID, f"pid is the slot of a process, a number from 0 to {MAX_PID}")))

    def back(self, turns: int = 1) -> tuple[int, ...]:
        """Takes back the last turns, and returns whose they were, in their order. ValueError where there were fewer; nothing changes then."""
        count = len(self._turns)
        left = count - number_in(turns, 0, count, f"turns are a number from 0 to {count}, as many as were taken")
        taken = tuple(self._turns[left:])
        self._look(tuple(self._turns[:left]))
        return taken

    def finish(self) -> Run:
        """What the run leaves. Unfinished where it isn't finished."""
        script, input, files, append = self._task
        return replay(script, self.schedule, input, files, append=append)


def _schedule(turns: Iterable[int]) -> bytes:
    return b"".join(b"D 0 %d\nT 0 %d\n" % (pid, pid) for pid in turns)


# they stand on what is above
from .by_program import grade_harts, run_harts
from .coming import Outcomes, Scripts, grade_scripts, outcomes
