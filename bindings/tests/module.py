"""Tests of the Python module: its faults, its numbers beside the header's and the pages', threads, and that calls leave nothing behind.

usage: module.py COUNT
"""
import json
import os
import re
import resource
import subprocess
import sys
import tempfile
import threading
import time
from xml.etree import ElementTree

import xvsh

HERE = os.path.dirname(os.path.dirname(os.path.dirname(os.path.abspath(__file__))))
SUITE = '[[test]]\nname = "t"\ninput_file = "in"\noutput = "x\\n"\n'
SCRIPT, FILES = "echo hello | tee g; cat f g | wc\nlss\n", {"f": "a\nb\n"}


def read(path):
    with open(os.path.join(HERE, path), encoding="utf-8") as file:
        return file.read()


def refused(fault, place, call):
    """Tests that a call is refused so."""
    try:
        call()
    except xvsh.XvshError as error:
        assert type(error) is getattr(xvsh, fault.name) and (error.fault, error.place) == (fault, place), repr(error)
        return
    raise AssertionError(f"not refused: {fault!r}")


def numbers():
    """The numbers of the header are those of the module, and the names of docs/FORMATS.md are theirs."""
    header = {name.replace("_", "").lower(): int(number) for name, number in re.findall(r"^  XVSH_(\w+) = (\d+)", read("include/xvsh.h"), re.M)}
    for fault in xvsh.Fault:
        assert header[fault.name.lower()] == fault, fault
    for order in xvsh.Order:
        assert header[order.name.lower()] == order, order
    page = {int(number): name for number, name in re.findall(r"^\| (\d+) \| `(\w+)` \| .*\|$", read("docs/FORMATS.md"), re.M)}
    assert len(page) > 10
    for fault in xvsh.Fault:
        assert fault >= 64 or page[fault] == fault.name, fault
    assert "Version %d.%d.%d." % xvsh.version() in read("include/xvsh.h")


def faults():
    Fault = xvsh.Fault
    refused(Fault.LineTooLong, 2, lambda: xvsh.plain("echo\necho " + "a" * 600))
    refused(Fault.ByteZero, 1, lambda: xvsh.plain(b"echo \0"))
    refused(Fault.BadName, 1, lambda: xvsh.plain("cat", files={"a/b": "x"}))
    refused(Fault.TooLong, 1, lambda: xvsh.plain("cat", files={"a": b"x" * 274_433}))
    refused(Fault.TooManyFiles, 201, lambda: xvsh.plain("cat", files={str(n): b"" for n in range(201)}))
    refused(Fault.ScriptTooLong, 0, lambda: xvsh.plain("\n" * 1_048_577))
    refused(Fault.InputTooLong, 0, lambda: xvsh.plain("cat", b"x" * 1_048_577))
    refused(Fault.Spent, 0, lambda: xvsh.run(SCRIPT, turns=5))
    refused(Fault.BadTurns, 0, lambda: xvsh.run(SCRIPT, turns=0))
    refused(Fault.BadOrder, 0, lambda: xvsh.run(SCRIPT, order=xvsh.Order.STARVING, seed=64))
    refused(Fault.NoEvent, 2, lambda: xvsh.replay(SCRIPT, "D 0 0\nX\n"))
    refused(Fault.NotRunnable, 1, lambda: xvsh.replay(SCRIPT, "D 0 9\n"))
    refused(Fault.NotRunning, 1, lambda: xvsh.replay(SCRIPT, "T 0 0\n"))
    refused(Fault.Unfinished, 0, lambda: xvsh.replay(SCRIPT, ""))
    whole = xvsh.run(SCRIPT).schedule
    refused(Fault.NoEvent, 2, lambda: xvsh.draw_two(SCRIPT, "D 0 0\nX\n", "Y\n"))
    refused(Fault.NoEvent, 1, lambda: xvsh.draw_two(SCRIPT, whole, "Y\n"))
    refused(Fault.Unfinished, 0, lambda: xvsh.draw_two(SCRIPT, whole, ""))
    refused(Fault.NotRunnable, 1, lambda: xvsh.draw_two(SCRIPT, "D 0 9\n", whole))
    refused(Fault.LineTooLong, 2, lambda: xvsh.check("echo\necho " + "a" * 600))
    refused(Fault.ByteZero, 1, lambda: xvsh.explain(b"echo \0"))
    refused(Fault.ScriptTooLong, 0, lambda: xvsh.check("\n" * 1_048_577))
    refused(Fault.BadName, 1, lambda: xvsh.check_turns("cat", files={"a/b": "x"}))
    refused(Fault.TooLong, 1, lambda: xvsh.check_room("cat", files={"a": b"x" * 274_433}))
    refused(Fault.InputTooLong, 0, lambda: xvsh.explain_why("cat", b"x" * 1_048_577))
    refused(Fault.TooLarge, 0, lambda: xvsh.explain_why("cat a a > b", files={"a": b"x" * 200_000}))
    refused(Fault.BadStates, 0, lambda: xvsh.explore(SCRIPT, states=0))
    refused(Fault.BadStates, 0, lambda: xvsh.explore(SCRIPT, states=xvsh.MAX_STATES + 1))
    refused(Fault.BadName, 1, lambda: xvsh.explore(SCRIPT, files={"a/b": "x"}))
    refused(Fault.Spent, 0, lambda: xvsh.run(SCRIPT, turns=5, trace=True))
    refused(Fault.InputTooLong, 0, lambda: xvsh.Session("cat", b"x" * 1_048_577))
    refused(Fault.Memory, 0, lambda: xvsh.plain("cat f", files={"f": "x" * 1000}, budget=10))
    refused(Fault.BadSuite, 1, lambda: xvsh.grade_script("", SCRIPT))
    refused(Fault.SuiteTooLong, 0, lambda: xvsh.grade_script("#" * 1_048_577, SCRIPT))
    refused(Fault.UnusedScript, 0, lambda: xvsh.grade_script(SUITE + 'script = "echo a"\n', SCRIPT))
    refused(Fault.EveryWay, 1, lambda: xvsh.grade_script(SUITE + "every_way = true\n", SCRIPT, {"in": b""}))
    refused(Fault.TooManyFiles, 201, lambda: xvsh.grade_script(SUITE, SCRIPT, {str(n): b"" for n in range(201)}))
    assert issubclass(xvsh.Memory, MemoryError) and issubclass(xvsh.XvshError, ValueError)
    for number in (-1, 1 << 64):
        for call in (lambda: xvsh.plain("", budget=number), lambda: xvsh.run("", turns=number), lambda: xvsh.explore("", states=number)):
            try:
                call()
            except ValueError as error:
                assert not isinstance(error, xvsh.XvshError)
            else:
                raise AssertionError(number)


# what is of another kind than it has to be, and what is said of it
WRONG = [
    (lambda: xvsh.plain(3), TypeError, "a script is text or bytes, and not 3"),
    (lambda: xvsh.plain("", None), TypeError, "an input is text or bytes, and not None"),
    (lambda: xvsh.plain("", files=["a"]), TypeError, "files are a mapping of names to text or bytes, as {'f': 'a\\n'}, and not ['a']"),
    (lambda: xvsh.plain("", files={3: ""}), TypeError, "the name of a file is text, and not 3"),
    (lambda: xvsh.plain("", files={"a": 3}), TypeError, "the file 'a' is text or bytes, and not 3"),
    (lambda: xvsh.plain("", budget=1.5), TypeError, "a budget is a number from 0 to 2**64 - 1, and not 1.5"),
    (lambda: xvsh.run("", order="low"), TypeError, "an order is one of xvsh.Order, such as xvsh.Order.LOWEST, and not 'low'"),
    (lambda: xvsh.draw("", order=None), TypeError, "an order is one of xvsh.Order, such as xvsh.Order.LOWEST, and not None"),
    (lambda: xvsh.run("", turns=-1), ValueError, "turns are a number from 1 to 1,000,000,000, and not -1"),
    (lambda: xvsh.run("", turns="9"), TypeError, "turns are a number from 1 to 1,000,000,000, and not '9'"),
    (lambda: xvsh.run("", seed=-1), ValueError, "a seed is a number from 0 to 2**64 - 1, and not -1"),
    (lambda: xvsh.replay("", 3), TypeError, "a schedule is text or bytes, and not 3"),
    (lambda: xvsh.draw_two("", "", 3), TypeError, "the other schedule is text or bytes, and not 3"),
    (lambda: xvsh.explore("", states=-1), ValueError, "states are a number from 1 to 10,000,000, and not -1"),
    (lambda: xvsh.explore("", watch=3), TypeError, "a watch is a function, or None, and not 3"),
    (lambda: xvsh.explore("", timeout="1"), TypeError, "a timeout is a number of seconds, or None, and not '1'"),
    (lambda: xvsh.outcomes("", states="1"), TypeError, "states are a number from 1 to 10,000,000, and not '1'"),
    (lambda: xvsh.grade_script(3, ""), TypeError, "a suite is text or bytes, and not 3"),
    (lambda: xvsh.grade_scripts("", 3), TypeError, "scripts are a mapping of names to scripts, or pairs of a name and a script, and not 3"),
    (lambda: list(xvsh.grade_scripts("", ["ab"])), TypeError, "scripts are a mapping of names to scripts, or pairs of a name and a script: 'ab' is none"),
    (lambda: xvsh.grade_scripts("", {}, jobs=0), ValueError, "jobs are a number from 1 to 256, and not 0"),
    (lambda: xvsh.Session("", files=[("a", "b")]), TypeError, "files are a mapping of names to text or bytes, as {'f': 'a\\n'}, and not [('a', 'b')]"),
    (lambda: xvsh.Session("").choose(-1), ValueError, "pid is the slot of a process, a number from 0 to 63, and not -1"),
    (lambda: xvsh.Session("").choose("1"), TypeError, "pid is the slot of a process, a number from 0 to 63, and not '1'"),
    (lambda: xvsh.Session("").back("1"), TypeError, "turns are a number from 0 to 0, as many as were taken, and not '1'"),
    (lambda: xvsh.run_harts("", harts="4"), TypeError, "harts are a number from 1 to 8, and not '4'"),
    (lambda: xvsh.run_harts("", turns="9"), TypeError, "turns are a number from 1 to 1,000,000,000, or None, and not '9'"),
    (lambda: xvsh.grade_harts("", files=["a"]), TypeError, "files are a mapping of names to text or bytes, as {'f': 'a\\n'}, and not ['a']"),
    (lambda: xvsh.grade(3), TypeError, "a suite is a path, as text, bytes or a PathLike, and not 3"),
    (lambda: xvsh.grade("s", 3), TypeError, "scripts are paths, or one path, and not 3"),
    (lambda: xvsh.grade("s", jobs="2"), TypeError, "jobs are a number from 1 to 256, or None, and not '2'"),
]


def wrong():
    """What is of another kind than it has to be is named, with what it has to be."""
    for number, (call, kind, said) in enumerate(WRONG):
        try:
            call()
        except kind as error:
            assert type(error) is kind and str(error) == said, (number, error)
        else:
            raise AssertionError(f"not refused: {said}")


def sessions():
    """A session reaches both outputs of a race, and no other process than a Runnable one takes a turn."""
    script = "echo a &; echo b"
    outputs = set()
    for choose in (min, max):
        session = xvsh.Session(script)
        while not session.finished:
            session.choose(choose(session.choices()))
        assert session.choices() == () and session.finish() == xvsh.replay(script, session.schedule)
        assert session.out == session.finish().out and [process.pid for process in session.processes] == [0]
        outputs.add(session.finish().out)
    assert outputs == {b"a\nb\n", b"b\na\n"}, outputs
    session = xvsh.Session("cat | wc", b"x\n")
    refused(xvsh.Fault.Unfinished, 0, session.finish)
    while not session.finished:
        ready = session.choices()
        for pid in set(range(64)) - set(ready):
            refused(xvsh.Fault.NotRunnable, 2 * len(session.turns) + 1, lambda: session.choose(pid))
        session.choose(min(ready))
    assert session.finish().out == b"1 1 2 \n"
    last_turns = session.turns
    last = last_turns[-1]
    assert session.back() == (last,) and not session.finished and last in session.choices()
    before = session.processes
    for turns in (-1, len(session.turns) + 1):
        try:
            session.back(turns)
        except ValueError:
            assert session.processes == before
        else:
            raise AssertionError(turns)
    assert len(session.back(len(session.turns))) == (len(last_turns) - 1) and session.turns == () and session.out == b""


def views():
    """What a session shows of `echo ab | cat > f`, worked out by xv6's shell: the pipe is made by the child of the shell, then its left
    side, echo, writes word and line's end, and the right side, cat, reads until all write ends are closed."""
    session = xvsh.Session("echo ab | cat > f", files={"g": "x"})
    assert [(it.pid, it.parent, it.prog, it.state) for it in session.processes] == [(0, 0, "init", "runnable"), (1, 0, "sh", "runnable")]
    assert session.processes[1].next == {"name": "fork"} and session.pipes == () and session.files == {"g": b"x"}
    session.choose(1)
    assert [it.pid for it in session.processes] == [0, 1, 2] and session.processes[2].next == {"name": "pipe"}
    assert (session.processes[2].command, session.processes[2].line) == ("echo ab | cat > f", 1)
    session.choose(1)
    assert session.processes[1].state == "asleep" and session.processes[1].sleep == {"on": "children"} and 1 not in session.choices()
    session.choose(2)
    pipe, = session.pipes
    assert (pipe.held, pipe.readers, pipe.writers) == (0, (2,), (2,))
    held = set()
    while not session.finished:
        session.choose(max(session.choices()))
        held |= {(pipe.held, pipe.writers == ()) for pipe in session.pipes}
        for process in session.processes:
            assert (process.next is not None) == (process.state == "runnable") and (process.sleep is not None) == (process.state == "asleep")
    assert {count for count, _ in held} >= {0, 2} and session.pipes == () and session.files == {"f": b"ab\n", "g": b"x"} and session.diag == b""


def asks():
    """What a check, an explanation and an exploration find, by the rules of the manual."""
    told = xvsh.check("echo a > f | cat f\necho b &\necho (\ncat f > f\n")
    assert not told.harmless and [(found.kind, found.line) for found in told.findings][:3] == [("clash", 1), ("background", 2), ("fault", 3)], told
    assert (told.findings[0].clash, told.findings[0].name) == ("PipeSides", "f") and told.findings[2].at is not None
    assert xvsh.check(")").harmless and not xvsh.check(")", strict=True).harmless
    assert xvsh.check("echo a").findings == () and xvsh.check("echo a", strict=True).harmless
    fine = xvsh.explain("echo a")
    assert fine.fine and fine.notes == ()
    note, = xvsh.explain(b"echo a\nlss \xff").notes
    assert (note.kind, note.line, note.places, note.text) == ("NoProgram", 2, ((0, 3),), b"lss \xff")
    race = xvsh.explore("echo a > f &; echo b > f; wc < f", append=True)
    assert race.whole and not race.single and race.stuck is None and len(race.outcomes) > 1
    for outcome in race.outcomes:
        run = xvsh.replay("echo a > f &; echo b > f; wc < f", outcome.schedule, append=True)
        assert (run.out, run.files, run.diag, run.full) == (outcome.out, outcome.files, outcome.diag, outcome.full)
    assert race.outcomes[0].parting is None and all(outcome.parting.event <= len(outcome.schedule.splitlines()) for outcome in race.outcomes[1:])
    assert race.dead_lines == () and xvsh.explore("echo a\necho b & echo c\nlss\n").dead_lines == (2, 3)
    settled, tried = xvsh.explore("cat f | wc", files={"f": "x"}), xvsh.explore("cat f | wc", files={"f": "x"}, thorough=True)
    assert settled.whole and settled.single and settled.states == 0 and settled.outcomes[0].schedule is None
    assert tried.whole and tried.single and tried.states > 10 and [it.out for it in tried.outcomes] == [it.out for it in settled.outcomes] == [b"0 1 1 \n"]
    # of one that is cut runs in a few orders are listed, each of which is one of the runs in all orders
    cut, every = xvsh.explore("echo a &; echo b", states=3), xvsh.explore("echo a &; echo b")
    assert not cut.whole and not cut.single and every.whole and sorted(it.out for it in every.outcomes) == [b"a\nb\n", b"ab\n\n", b"b\na\n", b"ba\n\n"]
    assert {b"a\nb\n", b"b\na\n"} <= {it.out for it in cut.outcomes} <= {it.out for it in every.outcomes}
    assert all(xvsh.replay("echo a &; echo b", it.schedule).out == it.out for it in cut.outcomes)


def gradings():
    """What a suite says of a script, and what is wrong with one, by docs/GRADING.md."""
    files = {"in": "x\n"}
    report = xvsh.grade_script(SUITE, "cat", files)
    assert (report.status, report.points, report.of) == ("all passed", 1, 1) and [(it.script, it.name, it.verdict) for it in report] == [("-", "t", "pass")]
    race, = xvsh.grade_script(SUITE, "cat > f &\ncat f", files)
    assert (race.verdict, race.passed, race.difference.file) == ("race", False, None) and race.right != race.wrong
    unsure, = xvsh.grade_script(SUITE, "cat &", files, states=2)
    assert (unsure.verdict, unsure.found) == ("unsure", 1), unsure
    own = xvsh.grade_script(SUITE + 'script = "cat"\n', files=files)
    assert [(it.script, it.passed) for it in own] == [(None, True)]
    try:
        xvsh.grade_script(SUITE, "cat")
    except xvsh.BadSuite as error:
        assert (str(error), error.said, error.place) == ("the suite is wrong: cannot read in (line 3)", "cannot read in", 3), error
    else:
        raise AssertionError("a file that isn't given")
    refused(xvsh.Fault.BadSuite, 1, lambda: xvsh.grade_script(SUITE, files=files))
    asked = []
    refused(xvsh.Fault.GivenUp, 0, lambda: xvsh.grade_script(SUITE + "states = 1000000\n", "(cat; cat; cat) &\n" * 6, files, watch=lambda n: asked.append(n) or len(asked) < 3))
    assert asked == [1024, 2048, 3072], asked
    begun = time.monotonic()
    refused(xvsh.Fault.GivenUp, 0, lambda: xvsh.explore("(cat; cat; cat) &\n" * 8, states=xvsh.MAX_STATES, timeout=0.3))
    assert 0.3 <= time.monotonic() - begun < 10, time.monotonic() - begun


# scripts, and how many outcomes they have, worked out by hand: two echoes write two bytes each, in one write or in two
COMING = [("echo a &; echo b", 4), ("echo a > f &; echo b", 1), ("cat f | wc", 1), ("echo a | cat | cat | cat | cat; (echo b; echo c) &\necho d", None)]


def comings():
    """Results that come one by one are those that come at once: outcomes, whatever the number of states, and what scripts get."""
    def left(outcome):
        return outcome.out, tuple((name, file.bytes) for name, file in outcome.files.items()), outcome.diag, outcome.full

    for script, count in COMING:
        every = xvsh.explore(script, files={"f": "x"}, thorough=True)
        came = xvsh.outcomes(script, files={"f": "x"}, thorough=True)
        first = next(came)
        assert xvsh.replay(script, first.schedule, files={"f": "x"}).out == first.out and came.exploration.states < 2000
        found = [first, *came]
        assert every.whole and came.exploration == every and {left(it) for it in found} == {left(it) for it in every} and len(found) == len(every.outcomes), script
        assert count in (None, len(found)), (script, len(found))
    assert every.states > 4000, every.states
    refused(xvsh.Fault.BadStates, 0, lambda: next(xvsh.outcomes(SCRIPT, states=0)))
    refused(xvsh.Fault.BadStates, 0, lambda: next(xvsh.outcomes(SCRIPT, states=xvsh.MAX_STATES + 1)))
    refused(xvsh.Fault.BadName, 1, lambda: next(xvsh.outcomes(SCRIPT, files={"a/b": "x"})))

    suite, files = SUITE + '[[test]]\nname = "own"\nscript = "cat"\noutput = ""\n', {"in": "x\n"}
    scripts = [("anna", "cat"), ("ben", "cat > f &\ncat f"), ("cleo", b"\xff"), ("dan", "cat"), ("eve", "echo (")]
    due = [xvsh.grade_script(suite, script, files).scripts for _, script in scripts]
    for jobs in (1, 2, 5):
        own, *came = xvsh.grade_scripts(suite, scripts, files, jobs=jobs)
        assert own == due[0][0] and own.script is None and [it.script for it in came] == [name for name, _ in scripts]
        for graded, (_, theirs) in zip(came, due):
            assert (graded.points, graded.of, graded.passed, graded.tests) == (theirs.points, theirs.of, theirs.passed, theirs.tests)
            assert [(it.script, it.verdict, it.message, it.difference) for it in graded.verdicts] == [(graded.script, it.verdict, it.message, it.difference) for it in theirs.verdicts]
    # a long search is given up where the iterator is closed
    long = xvsh.grade_scripts(SUITE + "states = 10000000\n", [("a", "cat"), ("b", "(cat; cat; cat) &\n" * 8)], files, jobs=2)
    assert next(long).script == "a"
    long.close()
    refused(xvsh.Fault.BadSuite, 3, lambda: next(xvsh.grade_scripts(SUITE, {"a": "cat"})))


def pictures():
    """The picture of a drawing is XML that stands alone, as wide and as high as its strips, and has the title of each event of the run."""
    name = "{http://www.w3.org/2000/svg}"
    for script in ("echo hi | wc", b"echo <&\"'> \xff\x01\x7f\t | cat > f; lss", "(echo a; echo b) &\necho c | cat | cat | wc\n" * 3):
        picture = ElementTree.fromstring(xvsh.draw(script, files={"g": b"\0\xff<b>\n"}).svg)
        traps = [event for event in xvsh.run(script, files={"g": b"\0\xff<b>\n"}, trace=True) if event.kind == "trap"]
        titles = [it.text for it in picture.iter(name + "title")]
        assert [f"event {it.n}, hart {it.hart}, process {it.pid}: {it.record['call']['name']}" for it in traps] == [it for it in titles if it.startswith("event ")]
        strips = picture.findall(name + "svg")
        ends = [(int(it.get("x")) + int(it.get("width")), int(it.get("y")) + int(it.get("height"))) for it in strips]
        assert len(strips) % 2 == 0 and (max(x for x, _ in ends), max(y for _, y in ends) + 12) == (int(picture.get("width")), int(picture.get("height")))
        text = ElementTree.tostring(picture, encoding="unicode")
        assert "var(" not in text and set(re.findall(r"url\((.)", text)) <= {"#"} and "@" not in picture.find(name + "style").text


def alone():
    """A picture is the program's of the library's trace, is XML, and has the title of each call of the run; of two runs it tells where they part."""
    program = os.environ.get("XVSH") or os.path.join(HERE, "xvsh")
    name, files = "{http://www.w3.org/2000/svg}", {"g": b"\0\xff<b>\n"}
    for script in ("echo hi | wc", b"echo <&\"'> \xff\x01\x7f\t | cat > f; lss", "(echo a; echo b) &\necho c | cat | cat | wc\n" * 3):
        picture, traced = xvsh.draw_svg(script, files=files), xvsh.run(script, files=files, trace=True)
        assert picture.svg.encode() == subprocess.run([program, "draw", "--svg", "-"], input=traced.trace, stdout=subprocess.PIPE, check=True).stdout and picture.run.out == traced.out
        titles = [it.text for it in ElementTree.fromstring(picture.svg).iter(name + "title")]
        due = [f"event {it.n}, hart {it.hart}, process {it.pid}: {it.record['call']['name']}" for it in traced if it.kind == "trap"]
        assert due == [it for it in titles if it.startswith("event ")]
        whole = xvsh.run(script, files=files)
        both = xvsh.draw_two_svg(script, whole.schedule, whole.schedule, files=files)
        assert both.run == whole and "The events of both are the same." in [it.text for it in ElementTree.fromstring(both.svg).iter(name + "text")]


def pairs():
    """A page of two runs is the program's page of the library's traces of these two, the first before the other; its picture has three parts."""
    program = os.environ.get("XVSH") or os.path.join(HERE, "xvsh")
    for script, files, append, orders in (
        ("echo a > f &; echo b; cat f", {"f": "", "a=b": "x"}, False, (xvsh.Order.LOWEST, xvsh.Order.HIGHEST)), ("echo b | cat >> f; cat f", {"f": "a\n"}, True, (xvsh.Order.KERNEL, xvsh.Order.STARVING)),
    ):
        runs = [xvsh.run(script, b"x", files, append=append, order=order, seed=2, trace=True) for order in orders]
        drawn = xvsh.draw_two(script, runs[0].schedule, runs[1].schedule, b"x", files, append=append)
        with tempfile.TemporaryDirectory() as room:
            for name, traced in zip("12", runs):
                with open(os.path.join(room, name), "wb") as file:
                    file.write(traced.trace)
            due = subprocess.run([program, "draw", os.path.join(room, "1"), os.path.join(room, "2")], stdout=subprocess.PIPE, check=True).stdout
        assert drawn.html == due and (drawn.run.out, drawn.run.files, drawn.run.schedule) == (runs[0].out, runs[0].files, runs[0].schedule)
        heads = [it.text for it in ElementTree.fromstring(drawn.svg).findall("{http://www.w3.org/2000/svg}text")]
        shared = len(os.path.commonprefix([run.schedule.splitlines() for run in runs]))
        assert shared < len(list(runs[0])) and heads == ["What both begin with"] * (shared > 0) + [f"Run {n}, from event {shared + 1} on" for n in (1, 2)], heads
    # a run on other harts is drawn on these
    run = xvsh.run("echo a | cat")
    assert b"harts: 6; events" in xvsh.draw_two("echo a | cat", run.schedule.replace(b" 0 ", b" 5 "), run.schedule).html


def in_every_way():
    """A suite in memory is graded by the program as by the library, byte for byte; and what needs threads is graded by it alone."""
    files = {"in": "hi\n", "x/b": "1 1 3 \n"}
    suite = '[[test]]\nname = "t"\ninput_file = "in"\noutput_file = "x/b"\n'
    for script in ("wc", "cat", "wc &", "(", b"\xff\0"):
        assert xvsh.grade_harts(suite, script, files).json == xvsh.grade_script(suite, script, files).json
    own = suite + 'script = "wc"\n'
    assert xvsh.grade_harts(own, files=files).json == xvsh.grade_script(own, files=files).json
    # where the newest process runs first there is no room for 32 that are made one by the other
    every, crowd = '[[test]]\nname = "t"\noutput = "a\\n"\nevery_way = %s\n', "echo a" + "|cat" * 31
    assert [it.verdict for ways in ("false", "true") for it in xvsh.grade_harts(every % ways, crowd)] == ["pass", "no room"]
    assert [it.verdict for script in ("echo a", "echo b") for it in xvsh.grade_harts(every % "true", script)] == ["pass", "wrong"]
    refused(xvsh.Fault.EveryWay, 1, lambda: xvsh.grade_script(every % "true", "echo a"))
    try:
        xvsh.grade_harts(suite, "wc")
        raise AssertionError("a file is missing")
    except xvsh.GradeError as error:
        assert error.status == 2 and error.said.endswith(": line 3: cannot read in"), error


def on_harts():
    """A run on threads is one on these harts, of a settled script its meaning, of files of any names; a long one is by several harts."""
    files = {**FILES, "a=b": "1", ".": "2", "-": "3", "-c": "4", "é": "5"}
    due = xvsh.plain(SCRIPT, b"x", files)
    for harts in (1, 2, 8):
        run = xvsh.run_harts(SCRIPT, b"x", files, harts=harts)
        assert (run.out, run.full, {name: file.bytes for name, file in run.files.items()}) == (due.out, None, {name: file.bytes for name, file in due.files.items()})
        assert {event.hart for event in run} <= set(range(harts)) and xvsh.replay(SCRIPT, run.schedule, b"x", files) == run
    assert xvsh.run_harts("echo b >> f", files={"f": "a\n"}, append=True).files["f"].bytes == b"a\nb\n"
    refused(xvsh.Fault.LineTooLong, 2, lambda: xvsh.run_harts("echo\necho " + "a" * 600))
    refused(xvsh.Fault.Spent, 0, lambda: xvsh.run_harts(SCRIPT, turns=5))
    crowd = xvsh.run_harts("cat b" + "|cat" * 70, files={"b": "x"})  # each side of a pipe is forked by a process that then waits
    assert crowd.full == "procs", crowd.full
    # which harts take part the machine decides: so it may take more than one run
    for _ in range(20):
        long = xvsh.run_harts("cat b | cat | cat | cat | wc\n" * 60, files={"b": "x" * 250_000}, turns=100_000_000)
        assert long.out == b"0 1 250000 \n" * 60
        if len({line.split()[1] for line in long.schedule.splitlines()}) > 1:
            return
    raise AssertionError("20 runs on one hart")


def traces():
    """A trace has the run's events, each with its record, and leaves what the run leaves."""
    for order in xvsh.Order:
        run = xvsh.run("echo hi | cat > f; lss", order=order, seed=3)
        traced = xvsh.run("echo hi | cat > f; lss", order=order, seed=3, trace=True)
        assert (traced.out, traced.files, traced.diag, traced.full, traced.schedule) == (run.out, run.files, run.diag, run.full, run.schedule)
        assert [(it.n, it.kind, it.hart, it.pid) for it in traced] == [(it.n, it.kind, it.hart, it.pid) for it in run]
        assert all(it.record["n"] == it.n and (it.kind == "dispatch") != ("call" in it.record) for it in traced) and len(traced.trace.splitlines()) == len(list(run)) + 2
        assert [it.record["call"]["name"] for it in traced if it.kind == "trap"].count("pipe") == 1


def schemas():
    """Each look of a run is as the schema of looks says, where python3-jsonschema is installed."""
    try:
        import jsonschema
    except ImportError:
        print("looks aren't compared with their schema, since python3-jsonschema isn't installed")
        return
    schema = json.loads(read("docs/schema/look.schema.json").replace("urn:xvsh-step:1#", "#"))
    looks = jsonschema.Draft202012Validator({**schema, "$defs": json.loads(read("docs/schema/step.schema.json"))["$defs"]})
    session = xvsh.Session("cat f | (wc; lss) > g &; echo a", files={"f": b"\xff\n" * 300})
    while not session.finished:
        looks.validate(json.loads(session.json))
        session.choose(max(session.choices()))
    looks.validate(json.loads(session.json))
    assert not looks.is_valid({**json.loads(session.json), "stands": "asleep"})


def forms():
    """What is handed in may be of any bytes-like form."""
    assert xvsh.plain(bytearray(b"cat"), memoryview(b"x\n"), {"f": bytearray(b"y")}).files["f"].bytes == b"y"
    assert xvsh.plain("cat 'é'").out == xvsh.plain("cat 'é'".encode()).out
    odd = os.fsdecode(b"\xff\n")
    assert xvsh.plain("wc", files={odd: "x"}).files == {odd: xvsh.File(b"x")}
    run = xvsh.run("echo hi | wc")
    assert list(run)[:2] == [xvsh.Event(1, "dispatch", 0, list(run)[0].pid), xvsh.Event(2, "trap", 0, list(run)[0].pid)]
    assert len(list(run)) == run.schedule.count(b"\n")


def threads():
    wrong = []

    def many():
        for number in range(200):
            if xvsh.plain(SCRIPT, files=FILES).out != b"hello\n3 3 10 \n" or xvsh.run(SCRIPT, files=FILES).out != b"hello\n3 3 10 \n":
                wrong.append(1)
            if number % 20 == 0 and not (xvsh.check(SCRIPT).harmless and xvsh.explore(SCRIPT, files=FILES).single and xvsh.Session(SCRIPT, files=FILES).choices() == (0, 1)):
                wrong.append(2)

    made = [threading.Thread(target=many) for _ in range(4)]
    for thread in made:
        thread.start()
    for thread in made:
        thread.join()
    assert not wrong


def growth(count):
    """So many calls leave nothing behind: the process grows by less than a megabyte."""
    def calls():
        xvsh.plain(SCRIPT, files=FILES)
        xvsh.check(SCRIPT)
        try:
            xvsh.grade_script(SUITE, SCRIPT)
        except xvsh.BadSuite:
            pass
        try:
            xvsh.plain("echo \0", files=FILES)
        except xvsh.ByteZero:
            pass

    for _ in range(1000):
        calls()
    before = resource.getrusage(resource.RUSAGE_SELF).ru_maxrss
    for _ in range(count // 2):
        calls()
    grown = resource.getrusage(resource.RUSAGE_SELF).ru_maxrss - before
    assert grown < 1024, f"{count} calls left {grown} KiB"


def main():
    numbers()
    faults()
    wrong()
    sessions()
    views()
    asks()
    gradings()
    comings()
    on_harts()
    in_every_way()
    pairs()
    pictures()
    alone()
    traces()
    schemas()
    forms()
    threads()
    growth(int(sys.argv[1]))
    print(f"the Python module: faults, sessions, checks, explorations, gradings, traces, threads, and {sys.argv[1]} calls that leave nothing")


if __name__ == "__main__":
    main()
