"""Grades by the library and by the program, and compares the two reports byte for byte, and what is told of a suite that is wrong.

The suites and the scripts are those of tests/grades.rows, one script at a time, of examples/grade, and the worked scripts of
tests/scripts.toml, but for the key that takes threads.

usage: graded.py PROGRAM
"""
import importlib.machinery
import importlib.util
import json
import os
import re
import subprocess
import sys
import tempfile

sys.dont_write_bytecode = True
import xvsh

ROOT = os.path.dirname(os.path.dirname(os.path.dirname(os.path.abspath(__file__))))
TESTS = os.path.join(ROOT, "tests")
# each verdict that a row has; a report without one of these says little
VERDICTS = {"pass", "pass, every order tried", "wrong", "wrong so far", "race", "unsure", "no room", "refused", "too large", "spent"}


def read(path):
    with open(path, "rb") as file:
        return file.read()


def rows_of(path):
    """The commands of a file of rows, by the program that runs these."""
    sys.path.insert(0, TESTS)
    loader = importlib.machinery.SourceFileLoader("rows", os.path.join(TESTS, "run"))
    rows = importlib.util.module_from_spec(importlib.util.spec_from_loader("rows", loader))
    sys.modules["rows"] = rows
    loader.exec_module(rows)
    sheet = rows.Sheet(path)
    return [rows.command_of(row, sheet.texts) for row in sheet.rows]


def gradings(command):
    """What a command grades, as paths: the suite, its bytes, a script or None, the files, and a bound on states."""
    words = [word for word in command.lines[0][1:] if word not in ("--json", "--tap", "--gradescope")]
    states = None
    while words and words[0] in ("--jobs", "--states"):
        if words[0] == "--states":
            states = int(words[1])
        words = words[2:]
    if not words or words[0].startswith("--") or command.stdin is None or not command.has_memory:
        return
    given = {**command.files, "-": command.stdin}
    suite, scripts = words[0], [given.get(script, command.absent) for script in words[1:]]
    if suite in given and None not in scripts:
        for script in scripts or [None]:
            yield suite if suite != "-" else "suite.toml", given[suite], script, command.files, states


def by_program(program, path, suite, script, files, states):
    """The report that the program writes, or what it says."""
    with tempfile.TemporaryDirectory() as room:
        for name, data in {**files, path: suite}.items():
            os.makedirs(os.path.join(room, os.path.dirname(name)), exist_ok=True)
            with open(os.path.join(room, name), "wb") as file:
                file.write(data)
        words = [program, "grade", "--json", "--jobs", "1", *(["--states", str(states)] if states else []), path, *([] if script is None else ["-"])]
        done = subprocess.run(words, cwd=room, input=script or b"", stdout=subprocess.PIPE, stderr=subprocess.PIPE, check=False)
    return done.stdout or done.stderr.decode("utf-8", "replace")


def by_library(path, suite, script, files, states):
    """The same of the library, in the program's words."""
    folder = os.path.dirname(path)
    beside = {os.path.relpath(name, folder or "."): data for name, data in files.items()}
    try:
        return xvsh.grade_script(suite, script, {"/dev/null": b"", **beside}, states=states).json
    except xvsh.BadSuite as error:
        return f"xvsh: {path}: line {error.place}: {error.said}\n"
    except xvsh.UnusedScript:
        return f"xvsh: the tests of {path} have scripts of their own: no other is graded\n"
    except xvsh.SuiteTooLong:
        return f"xvsh: {path} is too long\n"


def in_words(path, suite, said):
    """What the program says of a path in a suite, whose folder the library doesn't know, begins there."""
    folder = os.path.dirname(path)
    return said.replace(f" {folder}/", " ") if isinstance(said, str) and folder and f"xvsh: {path}" in said else said


def worked():
    """The worked scripts, without the key that takes threads; and that the library refuses it."""
    suite = read(os.path.join(TESTS, "scripts.toml"))
    texts = {f"texts/{name}": read(os.path.join(TESTS, "texts", name)) for name in os.listdir(os.path.join(TESTS, "texts"))}
    try:
        xvsh.grade_script(suite, None, texts)
    except xvsh.EveryWay as error:
        assert error.place == 1, error
    else:
        raise AssertionError("every_way")
    return "scripts.toml", re.sub(rb"(?m)^every_way = true$", b"", suite), None, texts, None


def main():
    program = os.path.abspath(sys.argv[1])
    folder = os.path.join(ROOT, "examples", "grade")
    cases = [case for command in rows_of(os.path.join(TESTS, "grades.rows")) for case in gradings(command) if b"every_way" not in case[1]]
    cases += [("suite.toml", read(os.path.join(folder, "suite.toml")), read(os.path.join(folder, name)), {}, None) for name in ("right.sh", "racy.sh")]
    cases.append(worked())
    seen, refused = set(), 0
    for case in cases:
        due, told = by_program(program, *case), by_library(*case)
        if in_words(case[0], case[1], due) != told:
            sys.exit(f"graded.py: {case[1]!r} on {(case[2] or b'')[:200]!r}:\n{told!r} beside\n{due!r}")
        if isinstance(told, bytes):
            seen |= {result["verdict"] for script in json.loads(told)["scripts"] for result in script["results"]}
        else:
            refused += 1
    if not VERDICTS <= seen or not refused:
        sys.exit(f"graded.py: only {sorted(seen)} were told, and {refused} suites refused")
    print(f"{len(cases)} gradings: the same from Python as by the program ({refused} refused)")


if __name__ == "__main__":
    main()
