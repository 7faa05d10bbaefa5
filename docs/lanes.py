#!/usr/bin/env python3
"""Draws a script's processes as lanes, a line a turn, in an order drawn from SEED: docs/lanes.py SEED SCRIPT [FILE]..

`|` is a process that waits for its turn, `:` one that sleeps, and `z` a zombie.
"""
import json
import os
import random
import subprocess
import sys

PROGRAM = os.path.join(os.path.dirname(os.path.abspath(__file__)), "..", "xvsh")
SIGNS = {"runnable": "|", "asleep": ":", "zombie": "z"}


def ask(session, line):
    """Returns the answer to a line."""
    print(line, file=session.stdin, flush=True)
    return json.loads(session.stdout.readline())


def main(seed, *words):
    drawn, pipe, told = random.Random(seed), subprocess.PIPE, {"stands": "runnable"}
    with subprocess.Popen([PROGRAM, "step", "--json", *words], stdin=pipe, stdout=pipe, encoding="utf-8") as session:
        while told["stands"] == "runnable":
            states = {it["pid"]: it["state"] for it in ask(session, "ps")["processes"]}
            turn = drawn.choice([pid for pid, state in states.items() if state == "runnable"])
            told = ask(session, str(turn))
            signs = [SIGNS.get(states.get(pid), "") for pid in range(max(states) + 1)]
            signs[turn] = told["records"][-1]["call"]["name"]
            print("".join(f"{sign:8}" for sign in signs).rstrip())
        print(told["stands"], json.dumps(ask(session, "out")))


if __name__ == "__main__":
    if len(sys.argv) < 3:
        print("usage: docs/lanes.py SEED SCRIPT [FILE]..", file=sys.stderr)
        sys.exit(2)
    try:
        main(*sys.argv[1:])
    except (BrokenPipeError, ValueError):
        sys.exit("lanes: the session ended early")
