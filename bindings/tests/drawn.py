"""Draws scripts, and compares what the library tells of each from Python with the program's own answers.

usage: drawn.py PROGRAM COUNT [SEED]
"""
import base64
import json
import os
import random
import subprocess
import sys
import tempfile

import xvsh

NAMES = ["f", "g", "todo", "out", "a.b"]
WORDS = ["a", "hello", "x1", "-2", "-n", "^a", "e$", ".", "no_such", "é", "tenth"]
PROGRAMS = ["cat", "echo", "grep", "head", "tee", "wc", "lss"]


def simple(draw):
    """A simple command, most often one that runs a program on what it takes."""
    program = draw.choice(PROGRAMS)
    words = [draw.choice(NAMES + WORDS) for _ in range(draw.randrange(4))]
    if program == "grep":
        words = [draw.choice(["a", "^h", "o$", "."])] + words[:2]
    text = " ".join([program, *words])
    for mark in ("<", ">", ">>"):
        if draw.random() < 0.15:
            text += f" {mark} {draw.choice(NAMES)}"
    return text


def command(draw, depth):
    """A command of the grammar."""
    kind = draw.random()
    if depth == 0 or kind < 0.45:
        return simple(draw)
    if kind < 0.7:
        return f"{command(draw, depth - 1)} | {command(draw, depth - 1)}"
    if kind < 0.85:
        return f"{command(draw, depth - 1)}; {command(draw, depth - 1)}"
    if kind < 0.95:
        return f"({command(draw, depth - 1)})" + (f" > {draw.choice(NAMES)}" if draw.random() < 0.4 else "")
    return f"{command(draw, depth - 1)} &"


def script(draw):
    """Some lines, of which some are no command, with bytes that are no UTF-8 now and then."""
    lines = [command(draw, 3).encode() for _ in range(draw.randrange(1, 4))]
    if draw.random() < 0.1:
        lines.append(draw.choice([b"(echo a", b"echo > ", b"echo 1 2 3 4 5 6 7 8 9 10", b"cd /", b"# a", b"x" * 512, b"echo \0"]))
    text = b"\n".join(lines) + draw.choice([b"\n", b""])
    return text.replace(b"hello", b"h\xff") if draw.random() < 0.1 else text


def files(draw):
    """Some files."""
    made = {}
    for name in NAMES[:3]:
        if draw.random() < 0.6:
            made[name] = b"".join(draw.choice([b"alpha\n", b"hello a\n", b"\n", b"o\xfe\n", b"no end"]) for _ in range(draw.randrange(6)))
    return made


def bytes_of(value):
    """The bytes of a value of docs/FORMATS.md."""
    return base64.b64decode(value["base64"]) if isinstance(value, dict) else value.encode()


def files_of(made):
    return {os.fsdecode(bytes_of(it["name"])): xvsh.File(bytes_of(it["bytes"]), it.get("soft", False)) for it in made["files"]}


class Program:
    """The program, on a task that lies in a folder."""

    def __init__(self, path, room, text, stdin, given, append):
        self.path, self.room, self.stdin = path, room, stdin
        for name in os.listdir(room):
            os.remove(os.path.join(room, name))
        with open(os.path.join(room, "script of it"), "wb") as file:
            file.write(text)
        for name, data in given.items():
            with open(os.path.join(room, name), "wb") as file:
                file.write(data)
        self.given, self.append = sorted(given), ["--append"] if append else []

    def prints(self, *words, given=True, schedule=(), stdin=None):
        """What a command prints."""
        line = [self.path, *words, *schedule, os.path.join(self.room, "script of it")]
        line += [os.path.join(self.room, name) for name in self.given] if given else []
        done = subprocess.run(line, input=self.stdin if stdin is None else stdin, stdout=subprocess.PIPE, stderr=subprocess.PIPE, check=False)
        if not done.stdout:
            raise SystemExit(f"{line} printed nothing: {done.stderr!r}")
        return done.stdout

    def json(self, *words, given=True, schedule=()):
        """The object that a command prints."""
        return json.loads(self.prints(*words, "--json", given=given, schedule=schedule))

    def draws(self, trace, *others):
        """The page, or with `--svg` the picture, that the program draws of a trace, or of it and another at a path."""
        return subprocess.run([self.path, "draw", "-", *others], input=trace, stdout=subprocess.PIPE, check=True).stdout

    def place(self, name, data):
        """The path of a file beside the script, which has these bytes now."""
        path = os.path.join(self.room, name)
        with open(path, "wb") as file:
            file.write(data)
        return path


def object_differs(what, printed, call):
    """Why a call's object isn't the one that was printed, or nothing."""
    try:
        told = call()
    except xvsh.XvshError as error:
        made = json.loads(printed).get("fault") or {}
        return None if (made.get("name"), made.get("line")) == (error.fault.name, error.place or None) else f"{what}: {error!r} beside {printed!r}"
    return None if told.json == printed else f"{what}: {told.json!r} beside {printed!r}"


def asks_differ(program, text, stdin, given, append, draw):
    """Compares the bytes of the objects of a check, an explanation and an exploration, and returns why they differ, or nothing."""
    strict, thorough, states = draw.random() < 0.5, draw.random() < 0.3, draw.choice([1, 50, 400])
    why = object_differs("check", program.prints("check", "--json", *["--strict"] * strict, given=False), lambda: xvsh.check(text, strict=strict))
    why = why or object_differs("explain", program.prints("explain", "--json", given=False), lambda: xvsh.explain(text))
    for flag, call in (("--turns", xvsh.check_turns), ("--room", xvsh.check_room)):
        why = why or object_differs(f"check {flag}", program.prints("check", flag, "--json", *["--strict"] * strict), lambda: call(text, stdin, given, strict=strict))
    why = why or object_differs("explain --why", program.prints("explain", "--why", "--json", *program.append), lambda: xvsh.explain_why(text, stdin, given, append=append))
    words = ["explore", "--json", "--states", str(states), *["--all"] * thorough, *program.append]
    return why or object_differs("explore", program.prints(*words), lambda: xvsh.explore(text, stdin, given, append=append, states=states, thorough=thorough))


WORDS_OF = {
    xvsh.Order.KERNEL: lambda number: ["--harts", "1"], xvsh.Order.DRAWN: lambda number: ["--seed", str(number)],
    xvsh.Order.LOWEST: lambda number: ["--order", "low"], xvsh.Order.HIGHEST: lambda number: ["--order", "high"],
    xvsh.Order.STARVING: lambda number: ["--order", f"starve:{number}"], xvsh.Order.EAGER: lambda number: ["--order", "eager"],
}


def look_differs(program, text, stdin, given, append, turns):
    """Compares what a session shows after these turns with the answers of `step`, and returns why they differ, or nothing."""
    schedule = b"".join(b"D 0 %d\nT 0 %d\n" % (pid, pid) for pid in turns)
    paths = ["--schedule", program.place("schedule of it", schedule), "--input", program.place("input of it", stdin)]
    answers = program.prints("step", "--json", *program.append, schedule=paths, stdin=b"ps\npipes\nfiles\nout\n").splitlines()
    session = xvsh.Session(text, stdin, given, append=append)
    for pid in turns:
        session.choose(pid)
    stands = "finished" if session.finished else "runnable" if session.choices() else "stuck"
    ps, pipes, files_, out = map(json.loads, answers)
    if stands == "finished" and [it["pid"] for it in ps["processes"]] != [0]:
        return f"look: finished beside {answers}"
    whole = b'{"format":"xvsh-look","version":1,"stands":"%s","ps":%s,"pipes":%s,"files":%s,"out":%s}\n' % (stands.encode(), *answers)
    return None if session.json == whole else f"look: {session.json!r} beside {whole!r}"


def pair_differs(program, text, stdin, given, append, run, trace, seed):
    """Compares the page of this run and of one in another order with the program's page of both traces, and returns why they differ, or nothing."""
    try:
        other = xvsh.run(text, stdin, given, append=append, turns=1_000_000, order=xvsh.Order.DRAWN, seed=seed + 1, trace=True)
    except xvsh.Spent:
        return None if "&" in text.decode("latin-1") else "run: the turns are spent"
    both = xvsh.draw_two(text, run.schedule, other.schedule, stdin, given, append=append)
    path = program.place("other of it", other.trace)
    page = program.draws(trace, path)
    if both.html != page or both.run != run:
        return f"draw_two: {both} beside {page!r} and {run}"
    both, picture = xvsh.draw_two_svg(text, run.schedule, other.schedule, stdin, given, append=append), program.draws(trace, path, "--svg")
    return None if both.svg.encode() == picture and both.run == run else f"draw_two_svg: {both} beside {picture!r} and {run}"


def same(program, text, stdin, given, append, draw):
    """Compares each call with its command, and returns why they differ, or nothing."""
    why = asks_differ(program, text, stdin, given, append, draw)
    if why:
        return why
    made = program.json("plain", *program.append)
    try:
        plain = xvsh.plain(text, stdin, given, append=append)
    except xvsh.XvshError as error:
        told = made.get("fault") or {}
        return None if (told.get("name"), told.get("line")) == (error.fault.name, error.place or None) else f"plain: {error!r} beside {made}"
    if "fault" in made or (plain.out, plain.settled, plain.files) != (bytes_of(made["output"]), made["settled"], files_of(made)):
        return f"plain: {plain} beside {made}"
    try:
        order, seed = draw.choice(list(xvsh.Order)), draw.randrange(1, 64)
        run = xvsh.run(text, stdin, given, append=append, turns=1_000_000, order=order, seed=seed)
    except xvsh.Spent:
        return None if "&" in text.decode("latin-1") else "run: the turns are spent"
    traced = xvsh.run(text, stdin, given, append=append, turns=1_000_000, order=order, seed=seed, trace=True)
    printed = program.prints("run", *WORDS_OF[order](seed), "--turns", "1000000", *program.append, "--trace", "-")
    if traced.trace != printed or (traced.out, traced.files, traced.diag, traced.full, traced.schedule) != (run.out, run.files, run.diag, run.full, run.schedule):
        return f"trace: {traced} beside {printed!r} and {run}"
    drawn = xvsh.draw(text, stdin, given, append=append, turns=1_000_000, order=order, seed=seed)
    page = program.draws(printed)
    if drawn.html != page or (drawn.run.out, drawn.run.files, drawn.run.diag) != (run.out, run.files, run.diag):
        return f"draw: {drawn} beside {page!r} and {run}"
    drawn, picture = xvsh.draw_svg(text, stdin, given, append=append, turns=1_000_000, order=order, seed=seed), program.draws(printed, "--svg")
    if drawn.svg.encode() != picture or (drawn.run.out, drawn.run.files, drawn.run.diag) != (run.out, run.files, run.diag):
        return f"draw_svg: {drawn} beside {picture!r} and {run}"
    why = pair_differs(program, text, stdin, given, append, run, printed, seed)
    if why:
        return why
    turns = [event.pid for event in run if event.kind == "trap"]
    why = look_differs(program, text, stdin, given, append, turns[: draw.randrange(len(turns) + 1)])
    if why:
        return why
    path = program.place("schedule of it", run.schedule)
    made = program.json("replay", *program.append, schedule=[path])
    if "fault" in made or (run.out, run.diag, run.files, run.full) != (bytes_of(made["output"]), bytes_of(made["diagnostics"]), files_of(made), made["full"]):
        return f"run: {run} beside {made}"
    if len(list(run)) != made["events"]:
        return f"run: {len(list(run))} events beside {made}"
    if xvsh.replay(text, run.schedule, stdin, given, append=append) != xvsh.Run(run.out, run.files, run.diag, run.schedule, run.full):
        return "replay: another run than the one whose schedule it is"
    if plain.settled and run.full is None:
        left = {name: file.bytes for name, file in run.files.items() if not plain.files.get(name, file).soft}
        if (run.out, left) != (plain.out, {name: file.bytes for name, file in plain.files.items() if not file.soft}):
            return f"a settled script has two answers: {plain} and {run}"
    return None


def main():
    path, count = sys.argv[1], int(sys.argv[2])
    seed = int(sys.argv[3]) if len(sys.argv) > 3 else 1
    refused = settled = 0
    with tempfile.TemporaryDirectory() as room:
        for number in range(count):
            draw = random.Random(seed * 1_000_003 + number)
            text, given, append = script(draw), files(draw), draw.random() < 0.3
            stdin = draw.choice([b"", b"one\ntwo a\n", b"h\xff\n" * 300])
            why = same(Program(path, room, text, stdin, given, append), text, stdin, given, append, draw)
            try:
                settled += xvsh.plain(text, stdin, given, append=append).settled
            except xvsh.XvshError:
                refused += 1
            if why:
                sys.exit(f"drawn.py: script {number} of seed {seed}: {text!r} with {given!r} on {stdin!r}, append {append}:\n{why}")
    # what is drawn must be of each kind, else little was compared
    if count >= 200 and not (count // 100 <= refused < count // 2 and settled > count // 10 and settled + refused < count):
        sys.exit(f"drawn.py: of {count} scripts {refused} were refused and {settled} settled")
    print(f"{count} drawn scripts: the same from Python as by the program ({settled} settled, {refused} refused)")


if __name__ == "__main__":
    main()
