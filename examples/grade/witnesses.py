"""The two runs of a race: their schedules, as files that `xvsh replay` takes, and their figure, as `xvsh draw` makes it.

`class` and `table` beside this file use it. A race of a report has the processes of both runs in the order of their turns. What a run begins with
is what the suite gives to its test, so it is read again, and a run is made again by `xvsh replay`.
"""
import os
import re
import hashlib
import shlex
import tempfile
import urllib.parse

import calls
import reports

# so many events before the one at which two runs part, and behind it, are drawn
BEFORE, BEHIND = 16, 60
# the seconds that one call has
SECONDS = 60
# the most bytes of a file's name, of which what is longer is cut
LONGEST = 200


class Scene:
    """What runs under a test begin with, and what they have to print. OSError where a file can't be read."""

    def __init__(self, suite, table, test):
        self.folder = os.path.dirname(suite)
        self.appends = test.get("append", table.get("append", False))
        self.input = self._bytes_of(test, "input") or b""
        self.output = self._bytes_of(test, "output")
        # the test's own script, or None
        self.script = self._bytes_of(test, "script")
        files = test.get("files", {})
        self.files = {name: value.encode() if isinstance(value, str) else self._read(value["file"]) for name, value in files.items()}

    def _bytes_of(self, test, key):
        if key in test:
            return test[key].encode()
        return self._read(test[f"{key}_file"]) if f"{key}_file" in test else None

    def _read(self, path):
        with open(os.path.join(self.folder, path), "rb") as file:
            return file.read()


def scenes_of(tables, prefixes):
    """Returns the scene of each test, by its name in the report, of suites by their paths. A test that isn't right, or names a file that can't be read,
    has none."""
    scenes = {}
    for (path, table), prefix in zip(tables.items(), prefixes):
        for test in table["test"]:
            try:
                scenes[prefix + test["name"]] = Scene(path, table, test)
            except (OSError, AttributeError, KeyError, TypeError):
                continue
    return scenes


def script_of(script, scene):
    """Returns the bytes of a script of a report, or None where it can't be read any more."""
    if script["script"] is None:
        return scene.script
    try:
        with open(script["script"], "rb") as file:
            return file.read()
    except OSError:
        return None


def races_of(scripts, scenes):
    """Returns each script's student, each of its races, and the race's scene, where that can be read."""
    found = []
    for student, script in zip(reports.students_of(scripts), scripts):
        for result in script["results"]:
            if result["verdict"] == "race" and result["name"] in scenes:
                found.append((student, script, result, scenes[result["name"]]))
    return found


def part_of(result):
    """Returns the number of the turn, from 0, at which the two runs of a race part."""
    right, wrong = result["right"], result["wrong"]
    return next((at for at, (one, other) in enumerate(zip(right, wrong)) if one != other), min(len(right), len(wrong)))


def schedule_of(pids):
    """Returns the schedule of these turns: each process is given to hart 0, and makes its call."""
    return "".join(f"D 0 {pid}\nT 0 {pid}\n" for pid in pids)


def file_name(*names):
    """Returns the name of a file for these names: letters, digits and `_.-~` as they are, anything else by its bytes in hexadecimal, as `%2F`, and a `+`
    between two. A long one is cut, and ends with a digest of the whole."""
    whole = "+".join(urllib.parse.quote(name, safe="", errors="surrogateescape") for name in names)
    if len(whole) <= LONGEST:
        return whole
    return f"{whole[:LONGEST - 17]}~{hashlib.sha256(whole.encode()).hexdigest()[:16]}"


class Folder:
    """The folder for schedules. OSError where something can't be written."""

    def __init__(self, path):
        self.path, self.written = path, set()
        os.makedirs(path, exist_ok=True)

    def put(self, name, data):
        """Writes a file, unless it was written before, and returns its path."""
        path = os.path.join(self.path, name)
        if path not in self.written:
            reports.write_whole(path, data)
            self.written.add(path)
        return path

    def words(self, script, result, scene):
        """Writes what the runs of a race begin with, and returns the words of `xvsh replay` behind the schedule."""
        name = result["name"]
        own = script["script"] if script["script"] is not None else self.put(f"{file_name(name)}.script", scene.script)
        files = [f"{each}={self.put(f'{file_name(name, each)}.file', data)}" for each, data in scene.files.items()]
        return [own, *files]

    def add(self, student, script, result, scene):
        """Writes the schedules of both runs of a race, and what they begin with."""
        begin = ["xvsh", "replay", *(["--append"] if scene.appends else []), "--input", self.put(f"{file_name(result['name'])}.input", scene.input), "--"]
        words = self.words(script, result, scene)
        for kind in ("right", "wrong"):
            name = f"{file_name(student, result['name'])}.{kind}.schedule"
            command = shlex.join([*begin, os.path.join(self.path, name), *words])
            # a note of a schedule is a line of its own
            note = calls.in_ascii(command).replace("\n", " ")
            self.put(name, f"# {note}\n{schedule_of(result[kind])}".encode())


def why_unwritable(path):
    """Returns why no files can be written to the folder at a path, as far as that can be known before, or None."""
    if os.path.isdir(path):
        return None if os.access(path, os.W_OK | os.X_OK) else "it may not be written"
    if os.path.lexists(path):
        return "it is no folder"
    above = os.path.dirname(os.path.abspath(path))
    while not os.path.lexists(above):
        above = os.path.dirname(above)
    if not os.path.isdir(above):
        return f"{above} is no folder"
    return None if os.access(above, os.W_OK | os.X_OK) else f"{above} may not be written"


def write_schedules(path, scripts, scenes):
    """Writes the schedules of both runs of each race to the folder at a path, each whole, and returns how many races these are."""
    try:
        folder = Folder(path)
        races = races_of(scripts, scenes)
        for race in races:
            folder.add(*race)
        return len(races)
    except OSError as error:
        reports.exit_with(1, f"cannot write {path}: {error.strerror}")


def scoped(style):
    """Returns the style of a page of `xvsh draw` for what stands in a `.drawn`."""

    def prefixed(rule):
        names = rule[1].strip()
        if names.startswith("@"):
            return rule[0]
        return ",".join(".drawn" if name == ":root" else f".drawn {name}" for name in names.split(",")) + "{"

    return re.sub(r"([^{}]+)\{", prefixed, re.sub(r"@page\{[^}]*\}", "", style))


class Figures:
    """Draws races: `of` gives the figure of both runs, and `style` and `patterns` are what all figures need. `is_stopped` tells whether no call
    is to begin any more."""

    def __init__(self, running, scenes, is_stopped=lambda: False):
        self.running, self.scenes, self.is_stopped = running, scenes, is_stopped
        self.style, self.patterns, self._drawn = "", "", {}

    def of(self, script, result):
        """Returns the figure of a race as HTML, or None where the runs can't be made again, or don't print what they printed."""
        scene = self.scenes.get(result["name"])
        data = script_of(script, scene) if scene else None
        if data is None or self.is_stopped():
            return None
        key = data, result["name"], tuple(result["right"]), tuple(result["wrong"])
        if key not in self._drawn:
            self._drawn[key] = self._figure(scene, data, result)
        return self._drawn[key]

    def _figure(self, scene, data, result):
        with tempfile.TemporaryDirectory() as folder:
            try:
                page = self._page(folder, scene, data, result)
            except (calls.NoVerdict, OSError):
                return None
        return page and self._cut(page)

    def _page(self, folder, scene, data, result):
        """Returns the page of `xvsh draw`, or None."""

        def put(name, data):
            path = os.path.join(folder, name)
            with open(path, "wb") as file:
                file.write(data)
            return path

        files = [f"{name}={put(f'file{number}', data)}" for number, (name, data) in enumerate(scene.files.items())]
        words = [*(["--append"] if scene.appends else []), "--input", put("input", scene.input), "--"]
        traces = []
        for kind in ("right", "wrong"):
            traces.append(os.path.join(folder, f"{kind}.trace"))
            schedule = put(f"{kind}.schedule", schedule_of(result[kind]).encode())
            status, out, _ = self.running.run(["replay", "--trace", traces[-1], *words, schedule, put("script", data), *files], SECONDS)
            # with 4 something was full
            if status not in (0, 4) or (kind == "right" and out != scene.output):
                return None
        event = 2 * part_of(result) + 1
        status, page, _ = self.running.run(["draw", f"--from={max(1, event - BEFORE)}", f"--to={event + BEHIND}", *traces], SECONDS)
        return page.decode() if status == 0 else None

    def _cut(self, page):
        """Returns the figure of a page, without the tables of all calls, and keeps what all figures need."""
        style, patterns = (re.search(it, page, re.S) for it in ("<style>(.*?)</style>", r'<svg width="0".*?</svg>'))
        figure = re.search("<h2>Where they part</h2>.*(?=</main>)", page, re.S)
        if not (style and patterns and figure):
            return None
        self.style, self.patterns = scoped(style[1]), patterns[0]
        text = re.sub(r'<div class="wide"><table>.*?</table></div>\n?', "", figure[0], flags=re.S)
        text = text.replace("; the table below has each of them", "").replace(" <code>--from</code> and <code>--to</code> draw others.", "")
        return text.replace('<div class="time">', '<div class="time" tabindex="0" role="group" aria-label="calls of a run, from left to right">')
