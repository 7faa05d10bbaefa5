"""How answers show themselves: in one short line, and in a notebook as a small table.

Bytes stand in a table as the program `xvsh` shows them: printable ASCII but `\\` as it is, and all else as `\\n`, `\\r`, `\\t`, `\\\\` or
`\\xNN`. A table has the colours of what is around it, and nothing from elsewhere.
"""
from __future__ import annotations

import html
import os
import reprlib
from collections.abc import Iterable, Mapping, Sequence
from typing import Union

SHOWN = 2000
"""How many bytes are shown of longer ones."""
ROWS = 100
"""How many rows are shown of more."""
FILES = 20
"""How many files are shown of more, in a row."""

_CHARS = [chr(byte) if 32 <= byte < 127 else f"\\x{byte:02x}" for byte in range(256)]
_CHARS[9], _CHARS[10], _CHARS[13], _CHARS[92] = "\\t", "\\n", "\\r", "\\\\"
_CELL = "text-align:left;vertical-align:top;padding:.2em .7em;border:0;border-bottom:1px solid rgba(128,128,128,.4)"
_CODE = "white-space:pre-wrap;overflow-wrap:anywhere;padding:0;color:inherit;background:transparent"


class Html(str):
    """Text that is HTML; any other text is escaped."""


Cell = Union[str, int, None]


class _Short(reprlib.Repr):
    def __init__(self) -> None:
        super().__init__()
        self.maxstring, self.maxother, self.maxtuple, self.maxdict = 60, 240, 3, 3

    def repr_bytes(self, data: bytes, level: int) -> str:
        return repr(data) if len(data) <= 60 else f"{data[:40]!r}.. ({len(data)} bytes)"


_short = _Short()


class Shown:
    """A frozen dataclass whose repr() is its call with its fields, of which long ones are cut."""

    def __repr__(self) -> str:
        return f"{type(self).__name__}({', '.join(f'{name}={_short.repr(value)}' for name, value in vars(self).items())})"


def escaped(data: bytes) -> str:
    """Bytes on one line, as the program shows them."""
    return "".join([_CHARS[byte] for byte in data])


def printable(text: str) -> str:
    """A name: what prints as it is, and the bytes of all else escaped."""
    return "".join(it if it.isprintable() else escaped(it.encode("utf-8", "surrogateescape")) for it in text)


def code(data: bytes) -> Html:
    """Bytes, of which each line stands on one; no bytes are `(nothing)`."""
    if not data:
        return Html("(nothing)")
    lines = html.escape("\\n\n".join(map(escaped, data[:SHOWN].split(b"\n"))).removesuffix("\n"))
    return Html(f'<code style="{_CODE}">{lines}</code>{f" .. ({len(data)} bytes)" if len(data) > SHOWN else ""}')


def marked(word: str, colour: str) -> Html:
    """A word on a ground of its own, which is dark."""
    return Html(f'<span style="color:#fff;background:{colour};border-radius:.3em;padding:0 .4em;white-space:nowrap">{html.escape(word)}</span>')


def files(given: Mapping[str, bytes]) -> Html:
    """Files, each with its name, in a cell."""
    shown = [f"{html.escape(escaped(os.fsencode(name)))}: {code(data)}" for name, data in list(given.items())[:FILES]]
    return Html("<br>".join(shown + ([f".. ({len(given)} files)"] if len(given) > FILES else [])))


def _cell(value: Cell, tag: str) -> str:
    text = "" if value is None else value if isinstance(value, Html) else html.escape(str(value))
    return f'<{tag} style="{_CELL}">{text}</{tag.split()[0]}>'


def table(caption: str, head: Sequence[str], rows: Iterable[Sequence[Cell]]) -> str:
    """A table; each row's first cell is its head. A column in which nothing stands is left out, and of many rows all but the first are."""
    all_rows = list(rows)
    used = [at for at in range(len(head) or 2) if any(row[at] not in (None, "") for row in all_rows)]
    heads = "".join(_cell(head[at], 'th scope="col"') for at in used) if head else ""
    body = [
        "<tr>" + "".join(_cell(row[at], "td" if number else 'th scope="row"') for number, at in enumerate(used)) + "</tr>" for row in all_rows[:ROWS]
    ]
    if len(all_rows) > ROWS:
        body.append(f'<tr><td style="{_CELL}" colspan="{len(used)}">.. ({len(all_rows)} rows)</td></tr>')
    return (
        '<table style="border-collapse:collapse;color:inherit;background:transparent">'
        f'<caption style="caption-side:top;text-align:left;white-space:nowrap;font-weight:bold;color:inherit">{html.escape(caption)}</caption>'
        f"{heads and f'<thead><tr>{heads}</tr></thead>'}<tbody>{''.join(body)}</tbody></table>"
    )


def counted(number: int, word: str) -> str:
    """A number of what the word says, as `1 event` or `2 events`."""
    return f"{number} {word}{'' if number == 1 else 's'}"
