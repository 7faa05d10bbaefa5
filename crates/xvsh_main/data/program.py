"""Runs the program for the tests beside this file, and says what is wrong with what it does."""
import collections
import concurrent.futures
import contextlib
import functools
import multiprocessing
import os
import resource
import subprocess
import tempfile

# The most seconds of a run.
MOST_SECONDS = 120

# The program's path.
PROGRAM = ""


def begin(path):
    """Takes a program to run: each run is in a folder of its own, in memory where that can be had, for there are thousands."""
    global PROGRAM
    PROGRAM = os.path.abspath(path)
    resource.setrlimit(resource.RLIMIT_CORE, (0, 0))
    if os.access("/dev/shm", os.W_OK | os.X_OK):
        tempfile.tempdir = "/dev/shm"


def run_each(make, items):
    """Returns what `make` makes of each item, in order, by as many processes as there are processors."""
    with concurrent.futures.ProcessPoolExecutor(mp_context=multiprocessing.get_context("fork")) as pool:
        return list(pool.map(make, items))


class Wrong(Exception):
    """Why a row or a test isn't right."""


@contextlib.contextmanager
def about(what):
    try:
        yield
    except Wrong as wrong:
        raise Wrong(f"{what}: {wrong}") from None


def shown(data):
    return repr(data[:40])[1:] + (".." if len(data) > 40 else "")


def expect(what, found, wanted):
    """Tells of bytes that aren't those that are wanted, from the first one on that differs."""
    if found != wanted:
        place = len(os.path.commonprefix([found, wanted]))
        raise Wrong(f"{what} from byte {place} on: {shown(found[place:])}, not {shown(wanted[place:])}")


def expect_status(told, wanted):
    if told.status != wanted:
        raise Wrong(f"the status is {told.status}, not {wanted}, and standard error is {shown(told.err)}")


Told = collections.namedtuple("Told", "status out err")


def put(room, path, data):
    path = os.path.join(room, path)
    os.makedirs(os.path.dirname(path), exist_ok=True)
    with open(path, "wb") as file:
        file.write(data)


def files_at(folder):
    """Returns the files right in a folder with their bytes, none where there is no folder."""
    found = {}
    for entry in os.scandir(folder) if os.path.isdir(folder) else ():
        if entry.is_file():
            with open(entry.path, "rb") as file:
                found[entry.name] = file.read()
    return found


@contextlib.contextmanager
def limited(kind, most):
    """Sets a limit of this process, and so of those that it starts, for a while; None is no limit."""
    before = resource.getrlimit(kind)
    resource.setrlimit(kind, before if most is None else (most, before[1]))
    try:
        yield
    finally:
        resource.setrlimit(kind, before)


@contextlib.contextmanager
def opened(room, stdin):
    """Opens a standard input with these bytes, or, for None, one that can't be read, which is a folder."""
    if stdin is None:
        folder = os.open(room, os.O_RDONLY)
        try:
            yield folder
        finally:
            os.close(folder)
    else:
        with tempfile.TemporaryFile() as file:
            file.write(stdin)
            file.seek(0)
            yield file


def refusing(memory):
    """Returns what gives a process that it is called in so much memory; None is no limit."""
    return functools.partial(resource.setrlimit, resource.RLIMIT_AS, (memory, memory)) if memory else None


@functools.cache
def least_memory(*commands):
    """Returns how much memory these commands take on an empty script, by which nothing of a mebibyte can be read."""
    least, most = 0, 1 << 32
    while most - least > 1 << 16:
        middle = (least + most) // 2
        does = all(tell([it, "--input", "none", "-c", ""], ".", memory=middle).status == 0 for it in commands)
        least, most = (least, middle) if does else (middle, most)
    return most


def tell(words, room, stdin=b"", fails=None, memory=None):
    """Runs the program in a folder. `fails` is a stream and how many bytes that takes, `memory` how much memory there is."""
    streams, most = {"stdout": subprocess.PIPE, "stderr": subprocess.PIPE}, fails and fails[1]
    with opened(room, stdin) as given, tempfile.TemporaryFile() as taker:
        if fails:
            streams["std" + fails[0]] = taker
        try:
            # a file that is full refuses a write: the signal of that, which this program ignores, the other ignores too
            with limited(resource.RLIMIT_FSIZE, most):
                ran = subprocess.run([PROGRAM, *words], cwd=room, stdin=given, **streams, preexec_fn=refusing(memory), restore_signals=False,
                                     timeout=MOST_SECONDS, check=False)
        except subprocess.TimeoutExpired:
            raise Wrong(f"it takes more than {MOST_SECONDS} seconds") from None
        taker.seek(0)
        taken = taker.read()
    return Told(ran.returncode, taken if ran.stdout is None else ran.stdout, taken if ran.stderr is None else ran.stderr)
