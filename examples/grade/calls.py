"""Calls of `xvsh grade`, many at a time, each on one script; `class` beside this file uses it.

Each verdict is one that the program gives. Where a search takes too long the program is called again with a lower bound on the states,
and each verdict that a deeper search could change says so in its sentence.
"""
import json
import os
import shutil
import signal
import stat
import subprocess
import threading
import time

HERE = os.path.dirname(os.path.abspath(__file__))
# the bound on states that a test has which says none
STATES = 40_000
# the seconds that a script has where neither the call nor the suite says
SECONDS = 10
# with so many, what says most is the 64 runs that come before a search, and it is quick
FEW = 500
# each bound has so many times the states of the one before, so that all before the last take a third of its time
TIMES = 4
# scripts of so many bytes at most are compared with others, and so many bytes are kept for that
LARGEST, KEPT = 2**20, 2**26


class NoVerdict(Exception):
    """Why a call gave no verdicts."""


class WrongSuite(Exception):
    """With which status nothing is graded, and what the program says of it."""

    def __init__(self, status, said):
        super().__init__(said)
        self.status, self.said = status, said


def in_ascii(text):
    """Returns the text on one line of printable ASCII."""
    return "".join(char if " " <= char <= "~" else char.encode("unicode_escape", "surrogatepass").decode() for char in text)


def program_behind(path):
    """Returns the program that the launcher of a checkout runs, since the launcher takes longer than it; of any other path that path."""
    top = os.path.dirname(os.path.realpath(path))
    if not os.path.isfile(os.path.join(top, "dist", "programs.sh")):
        return path
    lines = 'here=$1; unset CDPATH; . "$here/dist/programs.sh"; find_program xvsh_main; echo "$program"'
    done = subprocess.run(["sh", "-c", lines, "sh", top], capture_output=True, text=True, check=False)
    program = done.stdout.rstrip("\n")
    # one that was unpacked for that call alone is gone, and where there is none the launcher says why
    return program if done.returncode == 0 and os.access(program, os.X_OK) else path


def program_path():
    """Returns the path of xvsh: that which XVSH names, else that of PATH, else that of the tree in which this file stands; or None."""
    own = [os.path.join(HERE, "..", "..", "xvsh"), os.path.join(HERE, "..", "..", "..", "..", "..", "bin", "xvsh")]
    found = os.environ.get("XVSH") or shutil.which("xvsh") or next((path for path in own if os.path.isfile(path)), None)
    return found and program_behind(found)


def end_group(child, number):
    """Sends a signal to a child and what it started."""
    try:
        os.killpg(child.pid, number)
    except ProcessLookupError:
        pass


class Calls:
    """Runs the program, from several threads at once, until it is told to stop: then each child is ended, and no further one is begun."""

    def __init__(self):
        self.program, self.children, self.lock, self.stopped, self.last = None, set(), threading.Lock(), None, None

    def begin(self, words):
        with self.lock:
            if self.stopped:
                raise NoVerdict(self.stopped)
            pipe = subprocess.PIPE
            try:
                child = subprocess.Popen([self.program, *words], stdin=subprocess.DEVNULL, stdout=pipe, stderr=pipe, start_new_session=True)
            except OSError as error:
                raise NoVerdict(f"xvsh can't be run: {error.strerror}") from None
            self.children.add(child)
            return child

    def run(self, words, seconds):
        """Returns the status, the output and the diagnostics of the program. NoVerdict where it can't be run, or was ended: after so many
        seconds, unless these are None, or since all is to stop."""
        child = self.begin(words)
        try:
            out, said = child.communicate(timeout=seconds)
        except subprocess.TimeoutExpired:
            raise NoVerdict("") from None
        finally:
            self.end(child)
        if self.stopped and child.returncode not in (0, 3):
            raise NoVerdict(self.stopped)
        return child.returncode, out, said.decode("utf-8", "replace").strip()

    def end(self, child):
        """Ends a child, if it hasn't ended. A launcher has a second to remove what it unpacked."""
        if child.returncode is None:
            end_group(child, signal.SIGTERM)
            last = time.monotonic() + 1
            # it isn't waited for before the last signal, so that its number stays its own
            while time.monotonic() < last and os.waitid(os.P_PID, child.pid, os.WEXITED | os.WNOHANG | os.WNOWAIT) is None:
                time.sleep(0.005)
            end_group(child, signal.SIGKILL)
            child.communicate()
        with self.lock:
            self.children.discard(child)

    def stop(self, reason):
        """Ends each child, and begins no further one, for this reason. It is called again and again: a child has a second to end by itself."""
        with self.lock:
            if not self.stopped:
                self.stopped, self.last = reason, time.monotonic() + 1
            for child in self.children:
                if child.returncode is None:
                    end_group(child, signal.SIGTERM if time.monotonic() < self.last else signal.SIGKILL)

    def kill(self):
        """Ends each child at once; in the handler of a signal, so without the lock."""
        for child in list(self.children):
            if child.returncode is None:
                end_group(child, signal.SIGKILL)


def stamp_of(path):
    """Returns what tells whether the file at a path was written since, or None where there is none."""
    try:
        at = os.stat(path)
    except OSError:
        return None
    return at.st_ino, at.st_size, at.st_mtime_ns


def seconds_of(given, table):
    """Returns the seconds that a script has by a suite, or None where it has all: those that are given, else those that the suite's table says, if it is
    one, else 10."""
    said = (table or {}).get("seconds")
    seconds = given if given is not None else said if isinstance(said, int) else SECONDS
    return seconds or None


class Suite:
    """A suite: its path, what its tests begin with in the report, the seconds that a script has by it, or None, and the name, points and bound on states
    of each test, of those with a script of their own and of the others. `most` is the user's bound on states, or None."""

    def __init__(self, path, prefix, table, most, seconds, stamp):
        self.path, self.prefix, self.seconds, self.stamp = path, prefix, seconds, stamp
        self.own, self.others = [], []
        for test in table["test"]:
            states = min(test.get("states", table.get("states", STATES)), most or 2**64)
            kind = self.own if "script" in test or "script_file" in test else self.others
            kind.append((test["name"], test.get("points", 1), states))

    def tests(self, is_own):
        return self.own if is_own else self.others

    def bounds(self, is_own, is_limited):
        """Returns the bounds on states with which its tests are judged, one after the other, as far as time goes; the last one is the largest that a
        test has."""
        most = max([states for _, _, states in self.tests(is_own)], default=STATES)
        bound, found = STATES, []
        while is_limited and bound * TIMES <= most:
            found.append(bound)
            bound *= TIMES
        return [*found, most]


def is_open(result, states, bound):
    """Whether a search through more states than this bound could change a verdict, of a test that may have so many states."""
    if states <= bound:
        return False
    return result["verdict"] in ("unsure", "wrong so far", "spent") or "line" in result


def with_note(result, reason, bound):
    return {**result, "message": f"{result['message']}; {reason}: this is what {bound} states say"}


def late(suite):
    return f"its time was over ({suite.seconds:g} s)"


class Judge:
    """Judges scripts by suites, a call for each script and suite. `threads` are those of one call."""

    def __init__(self, calls, threads):
        self.calls, self.threads = calls, threads

    def words(self, suite, path, bound):
        script = path if path is not None else os.devnull if suite.others else None
        return ["grade", "--json", f"--jobs={self.threads}", f"--states={bound}", "--", suite.path, *([] if script is None else [script])]

    def results(self, suite, path, bound, seconds):
        """Returns what the program gives on a script, or with None on the suite's own. NoVerdict where it gives nothing."""
        status, out, said = self.calls.run(self.words(suite, path, bound), seconds)
        if status not in (0, 3, 4) or not out:
            ended = f"ended with status {status}" if status >= 0 else f"was ended by signal {-status}"
            raise NoVerdict(in_ascii(f"xvsh grade {ended}{said and f': {said}'}"))
        scripts = json.loads(out)["scripts"]
        found = next((it["results"] for it in scripts if (it["script"] is None) == (path is None)), [])
        is_same = [(it["name"], it["of"]) for it in found] == [(name, points) for name, points, _ in suite.tests(path is None)]
        if not is_same or stamp_of(suite.path) != suite.stamp:
            raise NoVerdict("the suite was changed while it was graded")
        return found

    def check(self, path, scripts, seconds):
        """WrongSuite where the program says, within these seconds, that the suite at a path is wrong, or doesn't fit to these scripts."""
        status, out, said = self.calls.run(["grade", "--json", f"--jobs={self.threads}", "--states=1", "--", path, *scripts], seconds)
        if status not in (0, 3, 4) or not out:
            raise WrongSuite(status, said)

    def first(self, suite, path, bound):
        """Returns what the first call says, and by which bound; where that comes to nothing, what one with few states says, and why."""
        try:
            return self.results(suite, path, bound, suite.seconds), bound, None
        except NoVerdict as why:
            reason = str(why) or late(suite)
            if self.calls.stopped or bound <= FEW:
                raise NoVerdict(reason) from None
        try:
            return self.results(suite, path, FEW, suite.seconds), FEW, reason
        except NoVerdict as why:
            raise NoVerdict(str(why) or f"{reason}, and again with {FEW} states") from None

    def deeper_results(self, suite, path, bound, end):
        """Returns what the program gives with more states, as `results` does; NoVerdict where memory is refused to it, too."""
        left = end - time.monotonic()
        if left <= 0:
            raise NoVerdict("")
        found = self.results(suite, path, bound, left)
        if any(it["verdict"] == "not judged" for it in found):
            raise NoVerdict("memory was refused")
        return found

    def judged(self, suite, path):
        """Returns the results of a suite on a script, or with None on its own ones: each test's once, in order."""
        tests = suite.tests(path is None)
        if not tests:
            return []
        end = None if suite.seconds is None else time.monotonic() + suite.seconds
        bounds = suite.bounds(path is None, end is not None)
        try:
            found, bound, reason = self.first(suite, path, bounds[0])
        except NoVerdict as why:
            return not_judged(suite, path is None, str(why))
        for deeper in bounds[1:]:
            if reason or not any(is_open(it, states, bound) for it, (_, _, states) in zip(found, tests)):
                break
            try:
                found, bound = self.deeper_results(suite, path, deeper, end), deeper
            except NoVerdict as why:
                reason = str(why) or late(suite)
        noted = [with_note(it, reason, bound) if reason and is_open(it, states, bound) else it for it, (_, _, states) in zip(found, tests)]
        return [{**it, "name": suite.prefix + it["name"]} for it in noted]


def not_judged(suite, is_own, reason):
    """Returns the results of a suite on a script that isn't judged, for this reason."""
    return [{"name": suite.prefix + name, "verdict": "not judged", "points": 0, "of": points, "message": reason} for name, points, _ in suite.tests(is_own)]


def bytes_at(path):
    """Returns the bytes of the script at a path, or None where these are too many to compare. OSError where there is no script."""
    if any("\udc80" <= char <= "\udcff" for char in path):
        raise OSError(0, "its path isn't UTF-8")
    if not stat.S_ISREG(os.stat(path).st_mode):
        raise OSError(0, "it is no file")
    with open(path, "rb") as file:
        data = file.read(LARGEST + 1)
    return data if len(data) <= LARGEST else None


class Class:
    """The scripts of a class, judged by several threads in their order: where two are equal byte by byte, the first of them.

    `paths` begins with None where the suites have scripts of their own. `found` has the results of each as soon as they are there."""

    def __init__(self, judge, suites, paths):
        self.judge, self.suites, self.paths = judge, suites, paths
        self.changed = threading.Condition()
        self.found = [None] * len(paths)
        self.searched = {}
        self._next, self._firsts, self._kept = 0, {}, 0

    def start(self, threads):
        for _ in range(threads):
            threading.Thread(target=self._work, daemon=True).start()

    def first_with(self, number, data):
        """Returns the number of the first script with these bytes."""
        if data is None or len(data) + self._kept > KEPT:
            return number
        first = self._firsts.setdefault(data, number)
        if first == number:
            self._kept += len(data)
        return first

    def take(self):
        """Returns the number of the next script to judge, or None where there is none."""
        with self.changed:
            while self._next < len(self.paths):
                number, self._next = self._next, self._next + 1
                if self.paths[number] is None:
                    return number
                try:
                    first = self.first_with(number, bytes_at(self.paths[number]))
                except OSError as error:
                    self.found[number] = self.without(number, f"cannot read it: {in_ascii(error.strerror or str(error))}")
                    continue
                if first == number:
                    return number
                self.found[number] = first
        return None

    def without(self, number, reason):
        return [it for suite in self.suites for it in not_judged(suite, self.paths[number] is None, reason)]

    def _work(self):
        while (number := self.take()) is not None:
            with self.changed:
                self.searched[number] = time.monotonic()
            path = self.paths[number]
            try:
                results = [it for suite in self.suites for it in self.judge.judged(suite, path)]
            # what isn't foreseen is told, too, and the others are judged
            except Exception as error:
                results = self.without(number, in_ascii(f"{type(error).__name__}: {error}"))
            with self.changed:
                del self.searched[number]
                self.found[number] = results
                self.changed.notify_all()

    def results(self, number):
        """Returns the results of a script, or None as long as there are none. An equal one has those of the first."""
        found = self.found[number]
        return self.results(found) if isinstance(found, int) else found

    def count(self):
        """Returns how many scripts have results."""
        return sum(self.results(number) is not None for number in range(len(self.paths)))
