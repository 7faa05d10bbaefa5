"""What callers hand in. Where that is of another kind than it has to be, a TypeError or a ValueError names it and says what it has to be."""
from __future__ import annotations

import numbers
import operator
import os
import reprlib
from collections.abc import Iterable, Iterator, Mapping
from typing import Any

__all__ = ["callable_or_none", "named_bytes", "number", "number_in", "pairs", "path", "paths", "raw", "seconds"]


def _wrong(due: str, value: Any) -> str:
    return f"{due}, and not {reprlib.repr(value)}"


def raw(data: Any, what: str) -> bytes:
    """The bytes of what is text or bytes."""
    if type(data) is bytes:
        return data
    if isinstance(data, str):
        return data.encode()
    try:
        # of bytes(5) there are five, so what is no text has to be a buffer
        return bytes(memoryview(data))
    except TypeError:
        raise TypeError(_wrong(f"{what} is text or bytes", data)) from None


def number(value: Any, due: str) -> int:
    """A number of any size; `due` says what it has to be."""
    try:
        return operator.index(value)
    except TypeError:
        raise TypeError(_wrong(due, value)) from None


def number_in(value: Any, least: int, most: int, due: str) -> int:
    """A number from the one to the other; `due` says what it has to be."""
    given = number(value, due)
    if not least <= given <= most:
        raise ValueError(_wrong(due, given))
    return given


def path(value: Any, what: str) -> str:
    """A path as text."""
    try:
        return os.fsdecode(value)
    except TypeError:
        raise TypeError(_wrong(f"{what} is a path, as text, bytes or a PathLike", value)) from None


def paths(value: Any) -> list[Any]:
    """Many paths, or one."""
    if isinstance(value, (str, bytes, os.PathLike)):
        return [value]
    if not isinstance(value, Iterable):
        raise TypeError(_wrong("scripts are paths, or one path", value))
    return list(value)


def seconds(value: Any) -> float | None:
    """So many seconds, or None."""
    if value is None:
        return None
    if not isinstance(value, numbers.Real):
        raise TypeError(_wrong("a timeout is a number of seconds, or None", value))
    return float(value)


def callable_or_none(value: Any, what: str) -> None:
    """Refuses what is neither a function nor None."""
    if value is not None and not callable(value):
        raise TypeError(_wrong(f"{what} is a function, or None", value))


def named_bytes(files: Any) -> dict[Any, bytes]:
    """The bytes of each file by its name, as that was given, of a mapping or None."""
    if not files:
        return {}
    if not hasattr(files, "items"):
        raise TypeError(_wrong("files are a mapping of names to text or bytes, as {'f': 'a\\n'}", files))
    return {_name(name): raw(data, f"the file {reprlib.repr(name)}") for name, data in files.items()}


def _name(name: Any) -> Any:
    try:
        os.fsencode(name)
    except TypeError:
        raise TypeError(_wrong("the name of a file is text", name)) from None
    return name


def pairs(scripts: Any) -> Iterator[tuple[Any, Any]]:
    """Names and scripts, of a mapping or of pairs of them, each when it is asked for."""
    due = "scripts are a mapping of names to scripts, or pairs of a name and a script"
    if isinstance(scripts, Mapping):
        return iter(scripts.items())
    if isinstance(scripts, (str, bytes)) or not isinstance(scripts, Iterable):
        raise TypeError(_wrong(due, scripts))
    return (_pair(it, due) for it in scripts)


def _pair(given: Any, due: str) -> tuple[Any, Any]:
    if not isinstance(given, (str, bytes)):
        try:
            name, script = given
            return name, script
        except (TypeError, ValueError):
            pass
    raise TypeError(f"{due}: {reprlib.repr(given)} is none")
