"""What bench/wrong and bench/plant share: the prover, and what it says of a crate with an edit."""
import contextlib
import importlib.machinery
import importlib.util
import os
import re
import shutil
import sys
import tempfile
import time

ROOT = os.path.dirname(os.path.dirname(os.path.abspath(__file__)))

# What comes of an edit that the prover tried.
CAME = ("refused", "form", "limit", "survived")


def load(name, path):
    """Returns the program at this path as a module."""
    loader = importlib.machinery.SourceFileLoader(name, path)
    made = importlib.util.module_from_spec(importlib.util.spec_from_loader(name, loader))
    loader.exec_module(made)
    return made


def toolchain():
    """Returns the toolchain's own command as a module, so that an edit is judged as the gate judges it; sums of sources are made once."""
    rt = load("rt", os.path.realpath(shutil.which("rt") or sys.exit(f"{os.path.basename(sys.argv[0])}: there is no command rt")))
    load("by_rt", os.path.join(ROOT, "dist", "rt")).make_once(rt.rtlib.Crate)
    return rt


def came_of(answer, told):
    """Returns what came of an edit, by what `rt must-fail` says of it, and by which clauses or goals: `refused`, `form` where a proof that
    the function has doesn't fit any more, `limit` where the prover gave up, `survived`, or nothing where it couldn't be tried."""
    if answer == "limit":
        return "limit", ""
    if answer in (True, "refused"):
        goals = re.findall(r"\(`([\w-]+)`", told)
        if "only because a proof file" in told or "no proof:" in told or "expected answers" in told or "proofs/" in told.split("refused, as it must be")[-1][:80]:
            return "form", ""
        return "refused", ", ".join(goals) or told.split(": ")[-1][:60]
    return {"missed": "survived", False: "survived"}.get(answer), ""


@contextlib.contextmanager
def proved(rt, crate):
    """Holds what a check of the crate as it stands proved, or nothing, with a line that says so, where the crate isn't proved."""
    with tempfile.TemporaryDirectory(prefix="edits-") as room:
        kept = os.path.join(room, "kept")
        known = os.path.join(crate.folder, "out", "incremental")
        shutil.copytree(known, kept) if os.path.isdir(known) else os.mkdir(kept)
        if rt.checked(crate, {}, ["--jobs", "1"], kept).returncode:
            print(f"{crate.name}: the crate itself is not proved, so nothing was tried", flush=True)
            yield None
        else:
            yield kept


# ---- Edits of several functions in one check: a function is proved over the contracts of those that it calls, whatever their bodies are.
class Change:
    """An edit of a function of a crate: what it is known by, the function, and its parts, each a file and the texts before and after."""

    def __init__(self, key, function, text):
        self.key, self.function, self.parts, path, old = key, function, [], "", ""
        for line in text.split("\n"):
            kind, _, rest = line.partition(":")
            if kind == "file":
                path = rest.strip()
            elif kind == "old":
                old = rest[1:]
            elif kind == "new":
                self.parts.append((path, old, rest[1:]))

    def applied(self, texts):
        """Returns the texts of the crate with this edit, or nothing where one of its parts doesn't stand in them once."""
        texts = dict(texts)
        for path, old, new in self.parts:
            if texts.get(path, "").count(old) != 1:
                return None
            texts[path] = texts[path].replace(old, new)
        return texts

    def is_place(self, line):
        """Returns whether a line of the prover names a place in the function."""
        at = re.match(r"(?:note: |error: )?(?:\./)?(src/\S+?):(\d+):\d+", line)
        return bool(at) and at[1] == self.function.file and self.function.first < int(at[2]) <= self.function.last + 1

    def owner(self):
        """Returns the name that the prover gives the type whose method this is, with its trait's; nothing of a function that is no method."""
        return re.sub(r"<.*|\W", "", self.function.name.rpartition("::")[0].removeprefix("<").replace(" as ", ""))

    def is_proof(self, line):
        """Returns whether a line of the prover names a place in the function's proof files."""
        module = self.function.file.removeprefix("src/").removesuffix(".rt")
        name, owner = self.function.name.rpartition("::")[2], self.owner()
        folder = f"{owner}/{name}" if owner else f"(?:fn/)?{name}"
        return bool(re.match(rf"(?:note: )?(?:\./)?proofs/{module}/{folder}/(?:\w+/)*\w+\.antt:\d+:\d+: (?!note)", line))

    def verdict(self, lines):
        """Returns what the prover says of the function as a whole, if it says it of one function of this name alone."""
        module = self.function.file.removeprefix("src/").removesuffix(".rt").replace("/", "::")
        path = "" if module == "lib" else f"{module}::"
        name = self.function.name.rpartition("::")[2]
        said = [it for it in lines if re.match(rf"fn {self.function.crate}::{path}(\w+::)?{name}: ", it)]
        if len(said) > 1:
            said = [it for it in said if re.match(rf"fn {self.function.crate}::{path}{self.owner()}::{name}: ", it)]
        return said[0].partition(": ")[2] if len(said) == 1 else ""

    def came(self, lines):
        """Returns what came of the edit by the lines of a check, and by which goals; nothing where they don't say it."""
        said = self.verdict(lines)
        if said == "proved":
            return "survived", ""
        goals = [goal for line in lines if self.is_place(line) and " it is not proved" in line for goal in re.findall(r"\(`([\w-]+)`\)", line)]
        goals += re.findall(r"`([\w-]+)`", said.partition("did not prove ")[2].partition(";")[0])
        if goals:
            return "refused", ", ".join(dict.fromkeys(goals))
        if any(self.is_proof(line) for line in lines):
            return "form", ""
        return None


def check_together(rt, crate, changes, kept):
    """Checks the crate once with all these changes, which are of different functions. Returns what came of each that the check decides,
    by its key: `bad` where it can't be compiled."""
    texts, tried = {}, []
    for path in {part[0] for change in changes for part in change.parts}:
        with open(os.path.join(crate.folder, path), encoding="utf-8") as file:
            texts[path] = file.read()
    for change in changes:
        after = change.applied(texts)
        if after:
            texts = after
            tried.append(change)
    ran = rt.checked(crate, texts, ["--jobs", "1"], kept)
    lines = ran.stdout.rstrip("\n").split("\n")
    if ran.returncode == 0:
        return {change.key: ("survived", "") for change in tried}
    if lines[-1].startswith("logic=not-proved"):
        found = {change.key: change.came(lines) for change in tried}
        return {key: came for key, came in found.items() if came}
    # it wasn't compiled: those whose lines are named are to blame
    return {change.key: ("bad", "") for change in tried if any("error" in line and change.is_place(line) for line in lines)}


def try_together(rt, crate, changes, kept, until, done):
    """Tries changes, those of different functions in one check; `done(change, came, by, seconds)` is called of each that a check decides.
    Returns those of which no check with others says what comes of them."""
    left, alone = list(changes), []
    while left and time.monotonic() < until:
        wave = list({change.function.path(): change for change in reversed(left)}.values())
        while wave and time.monotonic() < until:
            began = time.monotonic()
            found = check_together(rt, crate, wave, kept)
            seconds = (time.monotonic() - began) / max(1, len(found))
            for change in wave:
                if change.key in found:
                    done(change, *found[change.key], seconds)
            if not found:
                alone += wave
            left = [change for change in left if change.key not in found and (found or change not in wave)]
            wave = [change for change in wave if change.key not in found] if found else []
    return alone


def is_built_below(crate):
    """Returns whether the libraries below a crate are there, or could be proved."""
    return not any(below.build_rlib(["--jobs", "1"], anew=False) for below in crate.below())
