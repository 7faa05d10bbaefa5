"""What `check` and `check_class` beside this file share."""
import os
import sys

HERE = os.path.dirname(os.path.realpath(__file__))


def fail(reason):
    sys.exit(f"examples/grade/{os.path.basename(sys.argv[0])}: {reason}")


def same(what, found, due):
    if found != due:
        fail(f"{what}: found {found!r}, and not {due!r}")


def text_of(path):
    with open(os.path.join(HERE, path), encoding="utf-8") as file:
        return file.read()


def write(path, data, mode=0o644):
    os.makedirs(os.path.dirname(path), exist_ok=True)
    with open(path, "wb") as file:
        file.write(data)
    os.chmod(path, mode)
