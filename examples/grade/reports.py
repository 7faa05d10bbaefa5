"""Reports of `xvsh grade --json`, and their forms: sums, lines and the page of a class. `table` and `class` beside this file share it.

A report is what docs/FORMATS.md says of the result of grading. No function here makes a verdict.
"""
import csv
import html
import io
import json
import os
import shutil
import sys

KEYS = {"format": "xvsh-result", "version": 1, "command": "grade"}
SUMS = ("points", "of", "passed", "tests")
PASSED = ("pass", "pass, every order tried")
KIND = {
    "pass": "good",
    "pass, every order tried": "good",
    "race": "race",
    "unsure": "open",
    "wrong so far": "open",
    "not judged": "open",
}
VERDICTS = (*PASSED, "wrong", "wrong so far", "race", "unsure", "no room", "refused", "too large", "spent", "not judged")
HELP = {
    "race": "Processes of this script run at the same time. In one order of their turns it leaves what is expected, in another it doesn't.",
    "unsure": "Each order of its processes that was tried is right, and there are too many to try each.",
    "wrong so far": "No order of its processes that was tried is right, and there are too many to try each.",
}


class Bad(Exception):
    """What is wrong with a report, and where."""


def read(path):
    """Returns the bytes of the file at a path."""
    try:
        if path == "-":
            return sys.stdin.buffer.read()
        with open(path, "rb") as file:
            return file.read()
    except OSError as error:
        exit_with(1, f"cannot read {path}: {error.strerror}")


def need(is_so, path, place, what):
    if not is_so:
        raise Bad(f"{path}: {place}: {what}")


def is_count(value):
    return isinstance(value, int) and not isinstance(value, bool) and value >= 0


def check_sums(path, place, table):
    for key in SUMS:
        need(is_count(table.get(key)), path, f"{place}{key}", "a number from 0 has to stand here")


def check_result(path, place, result):
    need(isinstance(result, dict), path, place, "an object has to stand here")
    need(isinstance(result.get("name"), str), path, f"{place}.name", "a text has to stand here")
    need(result.get("verdict") in VERDICTS, path, f"{place}.verdict", f"{result.get('verdict')!r} is no verdict")
    for key in ("points", "of"):
        need(is_count(result.get(key)), path, f"{place}.{key}", "a number from 0 has to stand here")
    need(isinstance(result.get("message", ""), str), path, f"{place}.message", "a text has to stand here")
    for key in ("right", "wrong") if result["verdict"] == "race" else ():
        pids = result.get(key)
        need(isinstance(pids, list) and all(is_count(pid) for pid in pids), path, f"{place}.{key}", "a list of processes has to stand here")


def check_script(path, place, script):
    need(isinstance(script, dict), path, place, "an object has to stand here")
    need("script" in script and isinstance(script["script"], (str, type(None))), path, f"{place}.script", "a path or null has to stand here")
    check_sums(path, f"{place}.", script)
    need(isinstance(script.get("results"), list) and script["results"], path, f"{place}.results", "a list has to stand here that isn't empty")
    for number, result in enumerate(script["results"]):
        check_result(path, f"{place}.results[{number}]", result)


def report_at(path):
    """Returns the scripts of the report at a path."""
    try:
        report = json.loads(read(path).decode("utf-8"))
    except UnicodeDecodeError as error:
        raise Bad(f"{path}: byte {error.start}: it isn't UTF-8") from None
    except json.JSONDecodeError as error:
        raise Bad(f"{path}: line {error.lineno}, column {error.colno}: it isn't JSON: {error.msg}") from None
    except RecursionError:
        raise Bad(f"{path}: line 1, column 1: it is nested too deeply for a report") from None
    need(isinstance(report, dict), path, "line 1, column 1", "it is no report of xvsh grade --json, which is an object")
    for key, value in KEYS.items():
        need(report.get(key) == value, path, key, f"it is no report of xvsh grade --json, which has {json.dumps(value)} here")
    check_sums(path, "", report)
    need(isinstance(report.get("scripts"), list), path, "scripts", "a list has to stand here")
    for number, script in enumerate(report["scripts"]):
        check_script(path, f"scripts[{number}]", script)
    return report["scripts"]


def tests_of(script):
    return [(result["name"], result["of"]) for result in script["results"]]


def summed(scripts):
    """Returns one report of these scripts, with its sums."""
    results = [result for script in scripts for result in script["results"]]
    passed = sum(result["verdict"] in PASSED for result in results)
    status, code = ("all passed", 0) if results and passed == len(results) else ("not all passed", 3)
    if any(result["verdict"] == "not judged" for result in results):
        status, code = "not all judged", 4
    most = 2**64 - 1
    points, of = (min(most, sum(result[key] for result in results)) for key in ("points", "of"))
    return {**KEYS, "status": status, "code": code, "points": points, "of": of, "passed": passed, "tests": len(results), "scripts": scripts}


def object_of(scripts):
    """Returns the report of these scripts as `xvsh grade --json` writes it."""
    return json.dumps(summed(scripts), ensure_ascii=False, separators=(",", ":")) + "\n"


def prefixes_of(suites):
    """Returns what the tests of each of these suites begin with where they stand in one report: nothing of a single suite."""
    if len(suites) < 2:
        return ["" for _ in suites]
    names = [os.path.splitext(os.path.basename(path))[0] for path in suites]
    return [f"{name}: " for name in (names if len(set(names)) == len(names) else suites)]


def students_of(scripts):
    """Returns the name under which each script stands in a table."""
    paths = [script["script"] for script in scripts if script["script"] is not None]
    folders = [os.path.dirname(path) for path in paths]
    common = folders[0] if folders and len(set(folders)) == 1 else ""
    names = [os.path.splitext(path[len(common) + 1 :] if common else path)[0] for path in paths]
    if len(set(names)) != len(names):
        names = paths
    given = iter(names)
    return ["the suite's own scripts" if script["script"] is None else next(given) for script in scripts]


def csv_of(scripts):
    text = io.StringIO()
    writer = csv.writer(text)
    writer.writerow(["student", "test", "verdict", "points", "of", "message"])
    for student, script in zip(students_of(scripts), scripts):
        # what begins so would be a formula in a table
        name = f"./{student}" if student[:1] in ("=", "+", "-", "@", "\t", "\r") else student
        for result in script["results"]:
            writer.writerow([name, result["name"], result["verdict"], result["points"], result["of"], result.get("message", "")])
    return text.getvalue()


STYLE = """
:root { color-scheme: light dark; --page: #fff; --text: #1b1f24; --soft: #57606a; --line: #d0d7de; --head: #f6f8fa;
  --good: #116329; --good-back: #dafbe1; --bad: #a40e26; --bad-back: #ffebe9; --race: #7d3c00; --race-back: #fff1d6; --open: #3d4c7a; --open-back: #e6ebfa; }
@media (prefers-color-scheme: dark) { :root { --page: #0d1117; --text: #e6edf3; --soft: #9da7b3; --line: #30363d; --head: #161b22;
  --good: #7ee2a0; --good-back: #0f2e1a; --bad: #ffb3ad; --bad-back: #3d1416; --race: #ffcf87; --race-back: #3a2606; --open: #b9c7ff; --open-back: #1a2344; } }
* { box-sizing: border-box; }
body { margin: 0 auto; padding: 1.5rem; max-width: 90rem; background: var(--page); color: var(--text); font: 16px/1.45 system-ui, sans-serif; }
h1 { font-size: 1.5rem; margin: 0 0 .25rem; }
p { margin: .25rem 0; }
.sum { color: var(--soft); }
ul.counts { display: flex; flex-wrap: wrap; gap: .4rem; list-style: none; margin: .75rem 0 1rem; padding: 0; }
.counts li, summary, .only { border-radius: .35rem; padding: .1rem .5rem; }
.good { color: var(--good); background: var(--good-back); }
.bad { color: var(--bad); background: var(--bad-back); }
.race { color: var(--race); background: var(--race-back); }
.open { color: var(--open); background: var(--open-back); }
table { border-collapse: collapse; table-layout: fixed; width: 100%; margin-bottom: 1.5rem; }
thead th:first-child { width: 11rem; }
thead th.points { width: 5rem; }
th, td { border-bottom: 1px solid var(--line); padding: .4rem .5rem; text-align: left; vertical-align: top; overflow-wrap: anywhere; }
thead th { position: sticky; top: 0; background: var(--head); z-index: 1; }
tbody th { font-weight: 600; }
td.points, th.points { text-align: right; white-space: nowrap; font-variant-numeric: tabular-nums; }
.only { display: inline-block; }
summary { cursor: pointer; display: inline-block; }
summary::before { content: "\\25b8\\a0"; }
details[open] > summary::before { content: "\\25be\\a0"; }
summary::-webkit-details-marker { display: none; }
summary:focus-visible, .turns:focus-visible { outline: 3px solid var(--open); outline-offset: 2px; }
details p { font-size: .9rem; margin: .4rem 0 0; }
code { font: .85em/1.4 ui-monospace, monospace; overflow-wrap: anywhere; }
.turns { overflow-x: auto; margin: .4rem 0 0; padding-bottom: .3rem; max-width: 26rem; }
.turns div { display: flex; gap: 2px; align-items: center; white-space: nowrap; font-size: .8rem; margin-top: .2rem; }
.turns b { display: inline-block; width: 3.2rem; flex: none; font-weight: 600; }
.turns i { display: inline-block; flex: none; min-width: 1.5rem; text-align: center; font-style: normal; border: 1px solid var(--line); border-radius: .2rem; }
.turns i.part { background: var(--race-back); color: var(--race); border-color: var(--race); font-weight: 700; }
button { margin: .5rem 0 0; padding: .25rem .6rem; border: 1px solid var(--line); border-radius: .35rem; background: var(--head); color: inherit; font: inherit; font-size: .9rem; cursor: pointer; }
button:focus-visible, .drawn .time:focus-visible { outline: 3px solid var(--open); outline-offset: 2px; }
[popover] { width: min(100vw - 1rem, 84rem); max-height: calc(100vh - 1rem); margin: auto; padding: 0 1rem 1rem; overflow: auto; border: 1px solid var(--line); border-radius: .5rem; background: var(--page); color: var(--text); text-align: left; white-space: normal; }
[popover]::backdrop { background: #0008; }
.bar { position: sticky; top: 0; display: flex; justify-content: space-between; align-items: start; gap: 1rem; margin: 0 -1rem; padding: .5rem 1rem; background: var(--page); border-bottom: 1px solid var(--line); z-index: 1; }
.bar button { margin: 0; flex: none; }
.drawn .two { margin-top: .5rem; }
footer { color: var(--soft); font-size: .9rem; margin-top: 1.5rem; }
@media (max-width: 46rem) {
  body { padding: .75rem; }
  table, tbody, tr, td, tbody th { display: block; width: auto; min-width: 0 !important; }
  thead { position: absolute; width: 1px; height: 1px; overflow: hidden; clip-path: inset(50%); }
  tr { border: 1px solid var(--line); border-radius: .5rem; margin: 0 0 .75rem; }
  tbody th { background: var(--head); border-radius: .5rem .5rem 0 0; }
  td { display: grid; grid-template-columns: minmax(6rem, 38%) minmax(0, 1fr); gap: .5rem; }
  td:has(details[open]) { grid-template-columns: minmax(0, 1fr); }
  td::before { content: attr(data-test); color: var(--soft); }
  tr > :last-child { border-bottom: 0; }
  td.points { text-align: left; }
}
"""


def turns_of(name, pids, part):
    """Returns the turns round that in which two runs part, as boxes with the numbers of the processes."""
    begin, end = max(0, part - 4), part + 16
    boxes = ["<span>..</span>"] if begin else []
    boxes += [f'<i{" class=part" if at == part else ""}>{pid}</i>' for at, pid in enumerate(pids[begin:end], begin)]
    boxes += ["<span>..</span>"] if len(pids) > end else ["<span>end</span>"]
    return f"<div><b>{name}</b>{''.join(boxes)}</div>"


def parting(result):
    """Returns the two runs of a race, where they part."""
    right, wrong = result["right"], result["wrong"]
    part = next((at for at, (a, b) in enumerate(zip(right, wrong)) if a != b), min(len(right), len(wrong)))
    told = f"Which process takes each turn, by its number. The runs part at turn {part + 1}:"
    return f'<p>{told}</p><div class="turns" tabindex="0" role="group" aria-label="turns of two runs">{turns_of("right", right, part)}{turns_of("wrong", wrong, part)}</div>'


def drawn(name, figure, number):
    """Returns the figure of a race in a test of this name, as what a button opens; it has this number on the page."""
    told = html.escape(f"{name}: run 1 leaves what is expected, and run 2 doesn't.", quote=True)
    return (
        f'<div popover id="race{number}" role="dialog" aria-label="{told}"><div class="bar"><b>{told}</b>'
        f'<button type="button" popovertarget="race{number}" popovertargetaction="hide" autofocus>close</button></div><div class="drawn">{figure}</div></div>\n'
    )


class Races:
    """The races of a page: each has its turns, or where `figures` draws it a button that opens its figure. Equal ones have one."""

    def __init__(self, figures=None):
        self.figures, self.numbers = figures, {}

    def shown(self, script, result):
        """Returns what is shown of the two runs of a race."""
        figure = self.figures and self.figures.of(script, result)
        if not figure:
            return parting(result)
        number = self.numbers.setdefault((result["name"], figure), len(self.numbers) + 1)
        return f'<button type="button" popovertarget="race{number}">the two orders, drawn</button>'

    def style(self):
        """Returns the style that the page has for its figures, once all are drawn."""
        return self.figures.style if self.numbers else ""

    def all(self):
        """Returns the figures, and what they refer to, once all are drawn."""
        if not self.numbers:
            return ""
        each = "".join(drawn(name, figure, number) for (name, figure), number in self.numbers.items())
        return f'<div class="drawn">{self.figures.patterns}</div>\n{each}'


def cell_of(script, result, races):
    """Returns the cell of a test: the verdict, which opens why it is so."""
    verdict = html.escape(result["verdict"])
    kind = KIND.get(result["verdict"], "bad")
    name = html.escape(result["name"], quote=True)
    if not result.get("message"):
        return f'<td role="cell" data-test="{name}"><span class="only {kind}">{verdict}</span></td>'
    said = f"<p>{html.escape(HELP[result['verdict']])}</p>" if result["verdict"] in HELP else ""
    said += f"<p><code>{html.escape(result['message'])}</code></p>"
    if result["verdict"] == "race":
        said += races.shown(script, result)
    return f'<td role="cell" data-test="{name}"><details><summary class="{kind}">{verdict}</summary>{said}</details></td>'


def row_of(student, script, races):
    cells = "".join(cell_of(script, result, races) for result in script["results"])
    points = f'<td role="cell" class="points" data-test="points">{script["points"]}/{script["of"]}</td>'
    return f'<tr role="row"><th role="rowheader" scope="row">{html.escape(student)}</th>{points}{cells}</tr>'


def table_of(rows, tests):
    head = "".join(f'<th role="columnheader" scope="col">{html.escape(name)}</th>' for name, _ in tests)
    return (
        f'<table role="table" style="min-width: {17 + 7 * len(tests)}rem"><thead role="rowgroup"><tr role="row"><th role="columnheader" scope="col">student</th>'
        f'<th role="columnheader" scope="col" class="points">points</th>{head}</tr></thead><tbody role="rowgroup">\n' + "\n".join(rows) + "\n</tbody></table>"
    )


def counts_of(scripts):
    """Returns how often each verdict stands in the table, as a list."""
    all_of = [result["verdict"] for script in scripts for result in script["results"]]
    return "".join(f'<li class="{KIND.get(verdict, "bad")}">{all_of.count(verdict)} {html.escape(verdict)}</li>' for verdict in VERDICTS if verdict in all_of)


def page_of(scripts, title, figures=None):
    """Returns the page, in which `figures`, if there are any, draw its races."""
    report = summed(scripts)
    whole = sum(script["passed"] == script["tests"] for script in scripts if script["script"] is not None)
    count = sum(script["script"] is not None for script in scripts)
    tables, races = [], Races(figures)
    for is_own in (True, False):
        some = [(student, script) for student, script in zip(students_of(scripts), scripts) if (script["script"] is None) == is_own]
        if some:
            tables.append(table_of([row_of(student, script, races) for student, script in some], tests_of(some[0][1])))
    said = f"{count} students, {whole} of them with each test passed; {report['passed']} of {report['tests']} tests passed, {report['points']} of {report['of']} points."
    return (
        f'<!DOCTYPE html>\n<html lang="en"><head><meta charset="utf-8"><meta name="viewport" content="width=device-width, initial-scale=1"><title>{html.escape(title)}</title><style>{races.style()}{STYLE}</style></head>\n'
        f'<body><h1>{html.escape(title)}</h1><p class="sum">{said}</p><ul class="counts">{counts_of(scripts)}</ul>\n'
        + "\n".join(tables)
        + "\n<footer><p>Made from reports of <code>xvsh grade --json</code>. A verdict with a triangle opens, and so does what is drawn: click it, or press Tab and Enter. Esc closes what is drawn.</p></footer>\n"
        + races.all()
        + "</body></html>\n"
    )


def why_unwritable(path):
    """Returns why no file can be written at a path, as far as that can be known before, or None."""
    folder = os.path.dirname(path) or "."
    if os.path.isdir(path):
        return "it is a folder"
    if os.path.exists(path):
        return None if os.access(path, os.W_OK) else "it may not be written"
    if not os.path.isdir(folder):
        return f"there is no folder {folder}"
    return None if os.access(folder, os.W_OK | os.X_OK) else "its folder may not be written"


def write_whole(path, data):
    """Writes the bytes to the file at a path, which then holds all of them, or else what it held before."""
    path = os.path.realpath(path)
    if not os.access(os.path.dirname(path), os.W_OK) or (os.path.exists(path) and not os.path.isfile(path)):
        with open(path, "wb") as file:
            file.write(data)
        return
    new = f"{path}.{os.getpid()}.new"
    try:
        with open(new, "wb") as file:
            file.write(data)
        if os.path.exists(path):
            shutil.copymode(path, new)
        os.replace(new, path)
    finally:
        if os.path.exists(new):
            os.remove(new)


def write(path, text):
    """Writes the text to the file at a path."""
    data = text.encode("utf-8", "surrogateescape")
    try:
        if path == "-":
            sys.stdout.buffer.write(data)
            sys.stdout.buffer.flush()
        else:
            write_whole(path, data)
    except OSError as error:
        exit_with(1, f"cannot write {path}: {error.strerror}")


def tell(sentence):
    """Writes a line to standard error, unless that is closed."""
    if sys.stderr is not None:
        print(sentence, file=sys.stderr)


def exit_with(status, sentence):
    tell(f"{os.path.basename(sys.argv[0])}: {sentence}")
    sys.exit(status)
