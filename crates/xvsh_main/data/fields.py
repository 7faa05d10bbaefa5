"""Rows of fields of which some stand several times, a line each, and what is made of their texts."""
import functools

from program import Wrong, run_each

ESCAPES = {"0": 0, "t": 9, "n": 10, "v": 11, "f": 12, "r": 13}


def bytes_of(text):
    """Returns the bytes that a text stands for: `\\xff` for the byte of these digits, and behind another backslash a letter of ESCAPES
    for its byte, and any other for itself."""
    found, letters = bytearray(), iter(text)
    for letter in letters:
        if letter == "\\":
            letter = next(letters, "")
            byte = int(next(letters, "") + next(letters, ""), 16) if letter == "x" else ESCAPES.get(letter)
            found += letter.encode() if byte is None else bytes([byte])
        else:
            found += letter.encode()
    return bytes(found)


def number_of(text, name):
    if not text.isdigit():
        raise Wrong(f"the field {name} is no number")
    return int(text)


class Row:
    """The fields of a row, in order."""

    def __init__(self, line, lines):
        self.line, self.fields = line, [(name, value) for name, _, value in (it.partition(" ") for it in lines)]

    def has(self, *names):
        return any(name in names for name, _ in self.fields)

    def value(self, name, without=None):
        return next((value for found, value in self.fields if found == name), without)

    def all(self, name):
        return [value for found, value in self.fields if found == name]

    def check(self, once, many):
        """Tells of a field with a name that is in neither set, and of one that stands twice where it may stand once."""
        for name, _ in self.fields:
            if name not in once | many:
                raise Wrong(f"there is no field {name!r} here")
            if name in once and len(self.all(name)) > 1:
                raise Wrong(f"the field {name!r} stands twice")

    def placed(self, name):
        """Returns the paths of the fields of this name, each with what stands behind it. A path may stand once."""
        found = {}
        for path, _, rest in (value.partition(" ") for value in self.all(name)):
            if path in found:
                raise Wrong(f"the field {name!r} stands twice for {path}")
            found[path] = rest
        return found


def rows_of(path):
    """Returns the rows of a file."""
    rows, held = [], []
    with open(path, encoding="utf-8", newline="") as file:
        for number, line in enumerate([*file.read().split("\n"), ""], 1):
            if line and not line.startswith("#"):
                held.append(line)
            elif not line and held:
                rows.append(Row(number - len(held), held))
                held = []
    return rows


def outcome_of(run_row, row):
    """Returns what a row gave, and why it isn't right, or None. One with a field `wrong` has to be refused, for that reason."""
    wanted = row.value("wrong")
    try:
        given, why = run_row(row), None
    except Wrong as wrong:
        given, why = None, str(wrong)
    if wanted is None or why == wanted:
        return given, why if wanted is None else None
    return given, f"it isn't refused as {wanted!r}, but as {why!r}"


def report(path, run_row):
    """Runs each row of a file and prints what is wrong, or else how many rows there are, and runs of them; tells whether all is right.

    `run_row` returns how many runs a row had."""
    rows = rows_of(path)
    results = run_each(functools.partial(outcome_of, run_row), rows)
    wrong = [f"{path}:{row.line}: {why}" for row, (_, why) in zip(rows, results) if why]
    if not rows:
        wrong.append(f"{path}:1: there are no rows")
    for line in wrong:
        print(line)
    runs, refused = sum(given or 0 for given, _ in results), sum(given is None for given, _ in results)
    print(f"{path}: {len(rows)} rows, {f'{len(wrong)} failures' if wrong else f'{runs} runs' + f', {refused} refused' * (refused > 0)}")
    return not wrong
