"""Grades students' scripts: what each prints, whether it prints that every time, what else it can print, and what is odd in it.

    bindings/build
    PYTHONPATH=bindings/python python3 examples/grade.py
"""
import xvsh

FRUIT = {"fruit": "apple pie\nplum\nfig\n"}
WANTED = b"apple pie\n2 3 15 \n"
SCRIPTS = [
    "grep p fruit | head -1 ; grep p fruit | wc\n",
    "echo b &; echo a\n",
    "echo a > " + "b" * 511 + "\n",
]

for number, script in enumerate(SCRIPTS, 1):
    print(f"script {number}")
    try:
        answer = xvsh.plain(script, files=FRUIT, budget=1 << 20)
    except xvsh.LineTooLong as fault:
        print(f"  refused: {fault}")
        continue
    for note in xvsh.explain(script).notes:
        print(f"  line {note.line}: {note.sentence}")
    print("  right" if answer.out == WANTED else "  wrong", "settled" if answer.settled else "not settled", sep=", ")
    if not answer.settled:
        outputs = {outcome.out for outcome in xvsh.explore(script, files=FRUIT).outcomes}
        print("  prints", " or ".join(repr(out.decode()) for out in sorted(outputs)))

run = xvsh.run("echo hi | wc")
print("echo hi | wc:", sum(event.kind == "trap" for event in run), "calls of", len({event.pid for event in run}), "processes")

session = xvsh.Session("echo a > f; cat f")
while not session.finished:
    session.choose(max(session.choices()))
print("turn by turn:", session.out.decode(), end="")
session.back(1)
print("before the last turn:", ", ".join(f"{it.prog} {it.state}" for it in session.processes))
