"""Tries what the Python module does by itself: how answers show themselves, and grading, by programs of a few lines. around runs it.

The answers are made by hand, and so is what is due: cells by docs/FORMATS.md and the program's form of bytes, words by docs/GRADING.md.
"""
import html.parser
import json
import os
import pickle
import signal
import subprocess
import sys
import time

HERE = os.path.dirname(os.path.realpath(__file__))
ROOT = os.path.dirname(os.path.dirname(HERE))
sys.path[:0] = [os.path.join(ROOT, "dist", "tests"), os.path.join(ROOT, "bindings", "python")]
import xvsh
from toy import check, has_program, same, write

TAGS = {"table", "caption", "thead", "tbody", "tr", "th", "td", "code", "span", "i", "br"}


class Table(html.parser.HTMLParser):
    """The caption and the rows of a table, whose tags and attributes are all of few kinds, and closed."""

    def __init__(self, text):
        super().__init__()
        self.caption, self.rows, self.open = "", [], []
        self.feed(text)
        self.close()
        check(not self.open and "url(" not in text, "unclosed or from elsewhere:", text)

    def handle_starttag(self, tag, attrs):
        check(tag in TAGS and {name for name, _ in attrs} <= {"style", "scope", "colspan"}, "what is", tag, attrs)
        if tag != "br":
            self.open.append(tag)
        if tag == "tr":
            self.rows.append([])
        if tag in ("td", "th"):
            self.rows[-1].append("")

    def handle_endtag(self, tag):
        same(self.open.pop(), tag, "a closed tag")

    def handle_data(self, data):
        if self.open[-1] == "caption":
            self.caption += data
        else:
            self.rows[-1][-1] += data


FILE = xvsh.File(b"\x00\xff\xc3\xa9\\ \"\x7f\r\t<b>&")
SHOWN = r"""\x00\xff\xc3\xa9\\ "\x7f\r\t<b>&"""
OUT = {"out": b"b\n", "files": {}, "diag": b"", "full": None}
FIRST = xvsh.Outcome(**OUT, schedule=b"D 0 1\nT 0 1\n", parting=None)
SECOND = xvsh.Outcome(b"<i>", {"f": xvsh.File(b"x\ny"), "\udcff<b>": FILE}, b"odd\n", "size", b"D 0 2\n", xvsh.Parting(3, "a `b\\`", "c \udcff"))
NOTE = xvsh.Note("NoListing", 1, ((0, 2),), "a <sentence>", b"ls")
# an answer, its caption, and its rows; a column in which nothing stands isn't there
TABLES = [
    (xvsh.Plain(b"1 1 3 \n", {}, True), "settled", [["output", "1 1 3 \\n"]]),
    (xvsh.Plain(b"", {"f": FILE, "g": xvsh.File(b"", True)}, False), "not settled", [["output", "(nothing)"], ["f", SHOWN], ["g (soft)", "(nothing)"]]),
    (xvsh.Plain(b"a\nb\n\n\\n", {}, True), "settled", [["output", "a\\n\nb\\n\n\\n\n\\\\n"]]),
    (xvsh.Plain(b"a" * 2000, {}, True), "settled", [["output", "a" * 2000]]),
    (xvsh.Plain(b"a" * 2001, {}, True), "settled", [["output", "a" * 2000 + " .. (2001 bytes)"]]),
    (xvsh.Run(b"a", {"\udcff<b>": xvsh.File(b"x")}, b"cat: \n", b"D 0 0\nT 0 0\n", None), "2 events", [["output", "a"], ["diagnostics", "cat: \\n"], ["\\xff<b>", "x"]]),
    (xvsh.Run(b"a", {}, b"", b"D 0 0\n", "procs"), "1 event; first full: procs", [["output", "a"]]),
    (xvsh.Run(b"a", {}, b"", b"", "<b>"), "0 events; first full: <b>", [["output", "a"]]),
    (FIRST, "what it leaves", [["output", "b\\n"]]),
    (xvsh.Outcome(b"", {"f": xvsh.File(b"x")}, b"odd", "size", None, None), "what it leaves; first full: size", [["output", "(nothing)"], ["diagnostics", "odd"], ["f", "x"]]),
    (
        xvsh.Exploration(False, True, 132, (FIRST, SECOND), None, b""), "2 outcomes (132 states, every order tried)",
        [
            ["", "output", "files", "diagnostics", "first full", "parts from", "at event", "there", "here"], ["1", "b\\n", "", "", "", "", "", "", ""],
            ["2", "<i>", f"f: x\\n\ny\\xff<b>: {SHOWN}", "odd\\n", "size", "1", "3", "a `b\\\\`", "c \\xff"],
        ],
    ),
    (xvsh.Exploration(True, True, 0, (FIRST,), None, b""), "1 outcome (known without trying orders)", [["", "output"], ["1", "b\\n"]]),
    (xvsh.Exploration(False, False, 1, (), b"D 0 1\n", b""), "0 outcomes (1 state, not every order tried); some order never ends", []),
    (xvsh.Exploration(False, True, 9, (FIRST,) * 101, None, b""), "101 outcomes (9 states, every order tried)", [["", "output"], *([str(n), "b\\n"] for n in range(1, 101)), [".. (101 rows)"]]),
    (xvsh.Check(True, (), b""), "harmless", []),
    (
        xvsh.Check(False, (xvsh.Finding("background", 2), xvsh.Finding("fault", 3, "Leftover", 4), xvsh.Finding("clash", 4, clash="PipeSides", name="<f")), b""), "not harmless",
        [["line", "what", "which", "byte", "file"], ["2", "background", "", "", ""], ["3", "fault", "Leftover", "4", ""], ["4", "clash", "PipeSides", "", "<f"]],
    ),
    (xvsh.Explanation(True, (), b"{}"), "fine", []),
    (xvsh.Explanation(False, (NOTE,), b"{}"), "not fine", [["line", "text", "note"], ["1", "ls", "a <sentence>"]]),
    (
        xvsh.Explanation(False, (), b'{"lack": {"line": 2, "table": "processes", "need": 65, "most": 64}}'), "not fine",
        [["line", "note"], ["2", "may need 65 processes; there are 64"]],
    ),
    (
        xvsh.Explanation(False, (), b'{"lack": {"line": 1, "table": "open_files", "need": null, "most": 100}}'), "not fine",
        [["line", "note"], ["1", "may need more than 1000000 open files; there are 100"]],
    ),
]
REPRS = [
    (xvsh.Plain(b"a\n", {"f": xvsh.File(b"x")}, True), "Plain(out=b'a\\n', files={'f': File(bytes=b'x', soft=False)}, settled=True)"),
    (xvsh.File(b"x" * 61), f"File(bytes=b'{'x' * 40}'.. (61 bytes), soft=False)"),
    (xvsh.Event(1, "trap", 0, 2), "Event(n=1, kind='trap', hart=0, pid=2, record=None)"),
]


def shown(_room):
    """Answers show themselves in a notebook as tables in which all is escaped, and elsewhere in a short line."""
    for answer, caption, rows in [*TABLES, *REPORT_TABLES]:
        table = Table(answer._repr_html_())
        same((table.caption, table.rows), (caption, rows), repr(answer))
    for answer, due in REPRS:
        same((repr(answer), str(answer)), (due, due), "repr")
    many = {str(n): xvsh.File(b"x" * 300_000) for n in range(200)}
    long = b"x" * 1_000_000
    outcome = xvsh.Outcome(long, many, long, None, long, None)
    for answer in (xvsh.Run(long, many, long, long, None, long), xvsh.Exploration(True, True, 0, (outcome,) * 500, None, long), REPORT):
        check(len(repr(answer)) < 1500, "a long repr", len(repr(answer)))
    table = Table(xvsh.Exploration(True, True, 0, (outcome,), None, b"")._repr_html_())
    check(table.rows[1][2].endswith(".. (200 files)"), table.rows[1][2][-40:])


# a page of two strips, 10 and 20 wide, 6 and 9 high, and its picture: each strip 12 below the one before it, with no rule of HTML and no variable
PAGE = (
    "<style>\n:root{--ink:#111;" + "".join(f"--h{n}:#{n}{n}{n};--t{n}:#{n}f{n};" for n in range(8)) + "--paper:#fff}\n@media (dark){:root{--ink:#eee}}\npre,.mono,svg{color:var(--ink)}\n"
    ".grid{stroke:var(--ink)}\n.body{fill:var(--t);stroke:var(--c)}\n.h0{--c:var(--h0);--t:var(--t0)}\n@media print{.grid{stroke:var(--paper)}}\n</style><svg><defs><pattern/></defs></svg>"
    "%s" + "".join(
        f'%s<div class="strip"><div class="side"><svg a="b" viewBox="0 0 10 {high}" width="10" height="{high}"><text/></svg></div>'
        f'<div class="time"><svg viewBox="0 0 20 {high}" width="20" height="{high}"><title>Events 1 to 2; the table below has each of them</title></svg></div></div>\n'
        for high in (6, 9)
    )
)
BODIES = "\n".join(f".h{n} .body{{fill:#{n}f{n};stroke:#{n}{n}{n}}}" for n in range(8))


def picture(high, tops, heads=()):
    """The picture of the page."""
    strips = [
        f'<svg x="0" y="{top}" a="b" viewBox="0 0 10 {own}" width="10" height="{own}"><text/></svg><svg x="10" y="{top}" viewBox="0 0 20 {own}" width="20" height="{own}"><title>Events 1 to 2</title></svg>'
        for top, own in zip(tops, (6, 9))
    ]
    heads = [f'<text class="head" x="0" y="{top - 12}">{head}</text>' for top, head in zip(tops, heads)] or ["", ""]
    return (
        f'<svg xmlns="http://www.w3.org/2000/svg" width="30" height="{high}" viewBox="0 0 30 {high}" font-family="\'DejaVu Sans Mono\', monospace">'
        f"<style>.grid{{stroke:#111}}\n{BODIES}\ntext.head{{font-size:15px;font-weight:700}}</style><defs><pattern/></defs>"
        f'<rect width="30" height="{high}" fill="#fff"/>{heads[0]}{strips[0]}{heads[1]}{strips[1]}</svg>\n'
    )


def pictured(_room):
    """The picture of a drawing is that of its strips, and of a page of two runs with what stands above them."""
    run = xvsh.Run(b"a", {}, b"", b"", None)
    one = xvsh.Drawing(run, (PAGE % ("<h2>What happened</h2>", "", "")).encode())
    same((one.svg, one._repr_svg_()), (picture(39, (0, 18)),) * 2, "the picture of a run")
    both = xvsh.Drawing(run, (PAGE % ("<h2>What both begin with</h2>\n<p>", "", "<h2>Run 1</h2><h3>Events &amp;c</h3>")).encode())
    same(both.svg, picture(99, (30, 78), ("What both begin with", "Events &amp;c")), "the picture of two runs")


DIFFERENCE = {"file": None, "is_there": True, "line": 1, "byte": 2, "from": 0, "expected": "2 4\n", "found": None}
OTHER = {"file": {"base64": "/w=="}, "is_there": False, "line": 3, "byte": 0, "from": 0, "expected": {"base64": "/wo="}, "found": "y"}
OWN = {"script": None, "points": 2, "of": 2, "passed": 1, "tests": 1, "results": [{"name": "own é\x07", "verdict": "pass, every order tried", "points": 2, "of": 2}]}
RESULTS = [
    {"name": "<b>", "verdict": "race", "points": 0, "of": 3, "message": "right in one & not", "difference": DIFFERENCE, "right": [0, 1], "wrong": [1, 0]},
    {"name": "w", "verdict": "wrong", "points": 0, "of": 1, "message": "file", "difference": OTHER, "newer": [5]},
    {"name": "u", "verdict": "unsure", "points": 0, "of": 1, "message": "m", "found": 0},
    {"name": "r", "verdict": "refused", "points": 0, "of": 1, "message": "m", "line": 2},
    {"name": "n", "verdict": "no room", "points": 0, "of": 0, "message": "m", "full": "procs"},
    {"name": "p", "verdict": "pass", "points": 1, "of": 1},
]
OBJECT = {
    "format": "xvsh-result", "version": 1, "command": "grade", "status": "not all passed", "code": 3, "points": 3, "of": 9, "passed": 2, "tests": 7,
    "scripts": [OWN, {"script": "a <b>.sh", "points": 1, "of": 7, "passed": 1, "tests": 6, "results": RESULTS}],
}
TEXT = json.dumps(OBJECT).encode() + b"\n"
VERDICTS = (
    xvsh.Verdict(None, "own é\x07", "pass, every order tried", 2, 2),
    xvsh.Verdict("a <b>.sh", "<b>", "race", 0, 3, "right in one & not", xvsh.Difference(None, True, 1, 2, 0, b"2 4\n", None), (0, 1), (1, 0)),
    xvsh.Verdict("a <b>.sh", "w", "wrong", 0, 1, "file", xvsh.Difference("\udcff", False, 3, 0, 0, b"\xff\n", b"y")),
    xvsh.Verdict("a <b>.sh", "u", "unsure", 0, 1, "m", found=0),
    xvsh.Verdict("a <b>.sh", "r", "refused", 0, 1, "m", line=2),
    xvsh.Verdict("a <b>.sh", "n", "no room", 0, 0, "m", full="procs"),
    xvsh.Verdict("a <b>.sh", "p", "pass", 1, 1),
)
REPORT = xvsh.Report(
    "not all passed", 3, 9, 2, 7, (xvsh.Graded(None, 2, 2, 1, 1, VERDICTS[:1]), xvsh.Graded("a <b>.sh", 1, 7, 1, 6, VERDICTS[1:])), TEXT,
)
REPORT_TABLES = [
    (
        REPORT, "not all passed: 2 of 7 tests passed, 3 of 9 points",
        [
            ["script", "test", "verdict", "points", "why"], ["the suite's own", "own é\\x07", "pass, every order tried", "2/2", ""],
            ["a <b>.sh", "<b>", "race", "0/3", "right in one & not"], ["a <b>.sh", "w", "wrong", "0/1", "file"], ["a <b>.sh", "u", "unsure", "0/1", "m"],
            ["a <b>.sh", "r", "refused", "0/1", "m"], ["a <b>.sh", "n", "no room", "0/0", "m"], ["a <b>.sh", "p", "pass", "1/1", ""],
        ],
    ),
]
# tells its words and its input, and then writes a report
TELLING = 'for word; do printf "[%s]" "$word"; done >words; cat >>words; cat report; exit 3\n'
CALLS = [
    (("s.toml",), {}, "[grade][--json][--][s.toml]"),
    (("s.toml", "a.sh"), {}, "[grade][--json][--][s.toml][a.sh]"),
    (("s t.toml", ["-", b"-b", "é"]), {"jobs": 2, "states": 10}, "[grade][--json][--jobs=2][--states=10][--][s t.toml][./-][-b][é]"),
    (("s.toml", iter(["a"])), {"timeout": 60, "jobs": True}, "[grade][--json][--jobs=1][--][s.toml][a]"),
]
# what a program does, and the error, its text and its status
ENDS = [
    ("echo 'xvsh: s: line 1: it is none' >&2; exit 2", xvsh.GradeError, "xvsh grade ended with status 2: xvsh: s: line 1: it is none", 2),
    ("exit 1", xvsh.GradeError, "xvsh grade ended with status 1", 1),
    ("echo 'xvsh: no memory' >&2; exit 4", xvsh.GradeError, "xvsh grade ended with status 4: xvsh: no memory", 4),
    ("exit 0", xvsh.GradeError, "xvsh grade ended with status 0", 0),
    ("kill -SEGV $$", xvsh.GradeError, "xvsh grade was ended by signal 11", -11),
    ("echo 'xvsh: dist/ has no program of these sources' >&2; exit 125", xvsh.NoProgram, "can't be run: xvsh: dist/ has no program of these sources", 125),
    ("echo nothing; exit 3", xvsh.GradeError, "xvsh grade wrote no report of version 1: ", 3),
    ("""echo '{"format":"xvsh-result","version":2,"command":"grade"}'""", xvsh.GradeError, "wrote no report of version 1: it is of another form", 0),
    ("""echo '{"format":"xvsh-result","version":1,"command":"grade","status":"s"}'""", xvsh.GradeError, "wrote no report of version 1: a field is missing, or another", 0),
    ("echo '[]'", xvsh.GradeError, "wrote no report of version 1: a field is missing, or another", 0),
]


def made(room, text, name="program"):
    """Writes a program of the shell, which runs in this room."""
    path = os.path.join(room, name)
    write(path, f"#!/bin/sh\ncd '{room}'\n{text}")
    os.chmod(path, 0o755)
    return path


def raised(kind, call):
    """Returns the error of exactly this kind, which a pickle gives back as it was."""
    try:
        call()
    except kind as error:
        again = pickle.loads(pickle.dumps(error))
        check(not isinstance(error, xvsh.XvshError), error)
        if isinstance(error, xvsh.GradeError):
            same((type(error), type(again), str(again), again.status, again.said), (kind, kind, str(error), error.status, error.said), "a pickled error")
        return error
    check(False, "no", kind)


def graded(room):
    """grade() gives the program its words, reads each field of its report, and tells each way in which there is none."""
    program = made(room, TELLING)
    with open(os.path.join(room, "report"), "wb") as file:
        file.write(TEXT)
    for words, named, due in CALLS:
        report = xvsh.grade(*words, program=program, **named)
        with open(os.path.join(room, "words"), encoding="utf-8") as file:
            same(file.read(), due, "its words and its input")
        same(report, REPORT, "the report")
    same((hash(report), pickle.loads(pickle.dumps(report)), tuple(report), report.verdicts), (hash(REPORT), REPORT, VERDICTS, VERDICTS), "the report")
    same([it.passed for it in report], [True, False, False, False, False, False, True], "which are passed")
    check(report != xvsh.Report(*list(vars(REPORT).values())[:-1], b""), "an equal report")
    for text, kind, told, status in ENDS:
        error = raised(kind, lambda: xvsh.grade("s", program=made(room, text + "\n")))
        check(told in str(error) and error.status == status, text, error)
    write(os.path.join(room, "none"), "")
    for path, told in (("none", "Permission denied"), ("gone", "No such file or directory"), (".", "Permission denied")):
        error = raised(xvsh.NoProgram, lambda: xvsh.grade("s", program=os.path.join(room, path)))
        check(isinstance(error, xvsh.GradeError), error)
        same((str(error), error.status), (f"the program {os.path.join(room, path)} can't be run: {told}", None), path)
    for named in ({"jobs": "2"}, {"states": 1.5}, {"scripts": 5}, {"suite": 5}, {"program": 5}):
        raised(TypeError, lambda: xvsh.grade(**{"suite": "s", "program": program, **named}))
    raised(ValueError, lambda: xvsh.grade("a\0", program=program))


FIND = "import xvsh\ntry: xvsh.grade('s')\nexcept xvsh.GradeError as error: print(type(error).__name__, error)"


def finds(room):
    """grade() runs the program that XVSH names, else that of PATH, else the checkout's, and says so where there is none; it needs no library."""
    for folder in ("named", "path", "empty", "top/bindings/python/xvsh", "bare/xvsh"):
        os.makedirs(os.path.join(room, folder))
    for name in os.listdir(os.path.join(ROOT, "bindings", "python", "xvsh")):
        if name.endswith(".py"):
            for folder in ("top/bindings/python/xvsh", "bare/xvsh"):
                os.symlink(os.path.join(ROOT, "bindings", "python", "xvsh", name), os.path.join(room, folder, name))
    for name in ("named/xvsh", "path/xvsh", "top/xvsh"):
        made(room, f"echo {name} >&2; read -r it && echo $it >&2; exit 2\n", name)
    named, path, empty = os.path.join(room, "named", "xvsh"), os.path.join(room, "path"), os.path.join(room, "empty")
    rows = [
        ("top/bindings/python", {"XVSH": named, "PATH": path}, "GradeError xvsh grade ended with status 2: named/xvsh\n"),
        ("top/bindings/python", {"XVSH": "", "PATH": path}, "GradeError xvsh grade ended with status 2: path/xvsh\n"),
        ("top/bindings/python", {"PATH": empty}, "GradeError xvsh grade ended with status 2: top/xvsh\n"),
        ("top/bindings/python", {"XVSH": f"{empty}/x", "PATH": path}, f"NoProgram the program {empty}/x can't be run: No such file or directory\n"),
        ("bare", {"PATH": empty}, "NoProgram there is no program xvsh: none is given, XVSH names none, PATH has none, and this module stands in no checkout; dist/install of a checkout of xvsh installs it\n"),
    ]
    for top, env, due in rows:
        words = [sys.executable, "-c", FIND]
        env = {"PYTHONPATH": os.path.join(room, top), "PYTHONDONTWRITEBYTECODE": "1", "XVSH_LIBRARY": os.path.join(room, "none"), **env}
        ran = subprocess.run(words, env=env, input="typed\n", capture_output=True, text=True, check=False, timeout=60)
        same((ran.returncode, ran.stdout, ran.stderr), (0, due, ""), env)


def runs(pid):
    """Returns whether a process is there, and not only waited for."""
    try:
        with open(f"/proc/{pid}/stat", encoding="utf-8") as file:
            return file.read().rpartition(")")[2].split()[0] not in "ZX"
    except OSError:
        return False


def alive(path, seconds=5):
    """Returns which of the processes that are listed in a file still run after so many seconds."""
    with open(path, encoding="utf-8") as file:
        pids = file.read().split()
    last = time.monotonic() + seconds
    while any(map(runs, pids)) and time.monotonic() < last:
        time.sleep(0.01)
    return list(filter(runs, pids))


# each starts another process, and lists both
SLOW = "sleep 60 &\necho $$ $! >pids\n"
TIMED = [
    SLOW + "wait\n", SLOW + "exec >/dev/null 2>&1\nwait\n", "trap '' TERM\n" + SLOW + "wait\n",
    "mkdir own\ntrap 'rm -r own' EXIT\ntrap 'exit 130' INT TERM\necho $$ >pids\nsh -c 'echo $$ >>pids; exec sleep 60'\n",
]


def ended(room):
    """grade() ends the program, and what that started, when its seconds are over or it is interrupted; a launcher removes what it made."""
    pids, own = os.path.join(room, "pids"), os.path.join(room, "own")
    for text in TIMED:
        begun = time.monotonic()
        error = raised(xvsh.TimedOut, lambda: xvsh.grade("s", program=made(room, text), timeout=1.5))
        check(1.5 <= time.monotonic() - begun < 20, "it took", time.monotonic() - begun)
        check(isinstance(error, xvsh.GradeError), error)
        same((str(error), error.status, isinstance(error, TimeoutError)), ("xvsh grade took more than 1.5 seconds, and was ended", None, True), text)
        same((alive(pids), os.path.exists(own)), ([], False), "what is left of " + text)
        os.remove(pids)
    # where the tests run behind others SIGINT is ignored, which Python leaves so
    text = f"import signal, sys; signal.signal(signal.SIGINT, signal.default_int_handler); sys.path.insert(0, {os.path.join(ROOT, 'bindings', 'python')!r}); import xvsh; xvsh.grade('s', program={made(room, SLOW + 'wait')!r})"
    with subprocess.Popen([sys.executable, "-B", "-c", text], stderr=subprocess.PIPE, text=True) as child:
        while child.poll() is None and (not os.path.exists(pids) or len(alive(pids, 0)) < 2):
            time.sleep(0.01)
        time.sleep(0.2)
        child.send_signal(signal.SIGINT)
        _, said = child.communicate(timeout=60)
    check(said.endswith("KeyboardInterrupt\n"), said)
    same(alive(pids), [], "what is left where it was interrupted")


def example(_room):
    """The program's report of the submissions of docs/GRADING.md has the table of that page."""
    program = os.environ.get("XVSH") or (os.path.join(ROOT, "xvsh") if has_program() else None)
    if not program:
        return "dist/ has no program of these sources"
    paths = [os.path.join(ROOT, "examples", "grade", name) for name in ("suite.toml", "right.sh", "racy.sh", "none.sh")]
    report = xvsh.grade(paths[0], paths[1:3], program=program, jobs=1, states=1000, timeout=60)
    same([(it.script, it.name, it.verdict, it.points, it.of) for it in report], [
        (paths[1], "two errors", "pass", 3, 3), (paths[1], "no error", "pass", 1, 1), (paths[2], "two errors", "race", 0, 3), (paths[2], "no error", "race", 0, 1),
    ], "the verdicts")
    same((report.status, report.points, report.of, report.passed, report.tests), ("not all passed", 4, 8, 2, 4), "the sums")
    same([(it.script, it.points, it.of) for it in report.scripts], [(paths[1], 4, 4), (paths[2], 0, 4)], "the scripts")
    for words, named, status, told in (((paths[0], paths[3]), {}, 1, f"cannot read {paths[3]}"), ((paths[1],), {}, 2, "line 1"), (paths[:2], {"jobs": 0}, 2, "--jobs")):
        error = raised(xvsh.GradeError, lambda: xvsh.grade(*words, program=program, **named))
        check(error.status == status and told in error.said, error)
    return None


TESTS = [shown, pictured, graded, finds, ended, example]
