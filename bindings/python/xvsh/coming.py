"""Results that come one by one: `outcomes` of an exploration, and `grade_scripts` of many scripts.

Both are iterators over calls of the library, which let other threads run: what is there is handed out, and the next call is made when the
next result is asked for, or by threads of this process before.
"""
from __future__ import annotations

import collections
import hashlib
import threading
from collections.abc import Callable, Iterable, Iterator, Mapping
from concurrent.futures import Future, ThreadPoolExecutor
from typing import Union

from . import _STATES, MAX_STATES, Bytes, Exploration, Files, Outcome, explore, grade_script
from ._given import number, number_in, pairs, raw
from .grading import Graded, _renamed

__all__ = ["Outcomes", "Scripts", "grade_scripts", "outcomes"]

Scripts = Union[Mapping[str, Bytes], Iterable[tuple[str, Bytes]]]

_FIRST, _TIMES = 1_000, 4
MAX_JOBS = 256


class Outcomes(Iterator[Outcome]):
    """An iterator over outcomes, each once. `exploration` is the last that was made so far, or None: when the iterator ends, its `whole` tells
    whether these were all."""

    exploration: Exploration | None

    def __init__(self, explorations: Iterator[Exploration]) -> None:
        self.exploration = None
        self._found = self._new(explorations)

    def __next__(self) -> Outcome:
        return next(self._found)

    def _new(self, explorations: Iterator[Exploration]) -> Iterator[Outcome]:
        seen = set()
        for self.exploration in explorations:
            for outcome in self.exploration.outcomes:
                left = outcome.out, tuple((name, file.bytes) for name, file in outcome.files.items()), outcome.diag, outcome.full
                if left not in seen:
                    seen.add(left)
                    yield outcome


def outcomes(
    script: Bytes, input: Bytes = b"", files: Files | None = None, *, append: bool = False, states: int = 200_000, thorough: bool = False,
    watch: Callable[[int], bool] | None = None, timeout: float | None = None,
) -> Outcomes:
    r"""Yields what runs of the script can leave, each outcome as soon as it is found: it explores through at most 1,000 states, and where these
    aren't enough through four times as many, and so on up to `states`. So all of it may take more than twice as long as `explore`, and the
    first outcome comes long before; `timeout` is of each exploration. An outcome's `parting` is from another outcome of the exploration that found it. The faults of
    `explore` come with the first outcome.

    >>> import xvsh
    >>> found = xvsh.outcomes("echo a &; echo b")
    >>> next(found).out in (b"a\nb\n", b"ab\n\n", b"b\na\n", b"ba\n\n")
    True
    >>> len(list(found)), found.exploration.whole
    (3, True)
    """
    bound = number(states, _STATES)

    def explorations() -> Iterator[Exploration]:
        most = bound if bound > MAX_STATES else min(bound, _FIRST)
        while True:
            found = explore(script, input, files, append=append, states=most, thorough=thorough, watch=watch, timeout=timeout)
            yield found
            if found.whole or most == bound:
                return
            most = min(bound, most * _TIMES)

    return Outcomes(explorations())


class _Judge:
    """Judges scripts by a suite, equal ones once."""

    def __init__(self, suite: bytes, files: Files | None, states: int | None, watch: Callable[[int], bool] | None, timeout: float | None) -> None:
        self._suite, self._files, self._states, self._watch, self._timeout = suite, files, states, watch, timeout
        self._kept: dict[bytes, Future[tuple[Graded, ...]]] = {}
        self._is_over = threading.Event()

    def end(self) -> None:
        """Has the calls that run given up."""
        self._is_over.set()

    def _goes_on(self, requests: int) -> bool:
        return not self._is_over.is_set() and (self._watch is None or bool(self._watch(requests)))

    def _judge(self, script: bytes) -> tuple[Graded, ...]:
        return grade_script(self._suite, script, self._files, states=self._states, watch=self._goes_on, timeout=self._timeout).scripts

    def begin(self, script: bytes, pool: ThreadPoolExecutor | None) -> Future[tuple[Graded, ...]]:
        """What the suite says of the script, once it does; without a pool it does."""
        key = hashlib.sha256(script).digest()
        if key not in self._kept:
            if pool:
                self._kept[key] = pool.submit(self._judge, script)
            else:
                self._kept[key] = Future()
                self._kept[key].set_result(self._judge(script))
        return self._kept[key]


def grade_scripts(
    suite: Bytes, scripts: Scripts, files: Files | None = None, *, states: int | None = None, jobs: int = 1, watch: Callable[[int], bool] | None = None,
    timeout: float | None = None,
) -> Iterator[Graded]:
    r"""Grades many scripts by one suite, all in memory, and yields what each got as soon as it and those before it are graded, in their order.

    `scripts` are names and scripts, as a mapping or as pairs; they are taken as they are needed. A Graded and its verdicts have the name as
    `script`. Tests with a script of their own come first, with `script` None. Equal scripts are graded once. With more than one of `jobs`,
    from 1 to 256, so many threads of this process grade, a few scripts ahead. `suite`, `files`, `states`, `watch` and `timeout` are as of
    `grade_script` of each script, each of whose faults comes at the script at which it is met; `watch` is called in the thread that grades. Where the
    iterator is closed, or Ctrl-C is pressed, the calls that run are given up.

    >>> import xvsh
    >>> suite = '[[test]]\nname = "counts"\noutput = "1 1 3 \\n"\n'
    >>> [(graded.script, graded.points) for graded in xvsh.grade_scripts(suite, {"anna": "echo hi | wc", "ben": "echo hi"})]
    [('anna', 1), ('ben', 0)]
    """
    count = number_in(jobs, 1, MAX_JOBS, f"jobs are a number from 1 to {MAX_JOBS}")
    return _graded(_Judge(raw(suite, "a suite"), files, states, watch, timeout), pairs(scripts), count)


def _graded(judge: _Judge, pairs: Iterable[tuple[str, Bytes]], jobs: int) -> Iterator[Graded]:
    pool = ThreadPoolExecutor(jobs) if jobs > 1 else None
    try:
        own = True
        for name, future in _ahead(((name, judge.begin(raw(script, "a script"), pool)) for name, script in pairs), 2 * jobs if pool else 1):
            *before, graded = future.result()
            yield from before if own else ()
            own = False
            yield _renamed(graded, name)
    finally:
        judge.end()
        if pool:
            pool.shutdown(cancel_futures=True)


def _ahead(begun: Iterable[tuple[str, Future[tuple[Graded, ...]]]], most: int) -> Iterator[tuple[str, Future[tuple[Graded, ...]]]]:
    """The same, while at most so many are under way or waited for; each that is done, and has none before it, before the next is begun."""
    waiting: collections.deque[tuple[str, Future[tuple[Graded, ...]]]] = collections.deque()
    for pair in begun:
        waiting.append(pair)
        while waiting and (len(waiting) >= most or waiting[0][1].done()):
            yield waiting.popleft()
    yield from waiting
