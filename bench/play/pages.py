"""The scripts whose pages are tried, and the pages, written by a program."""
import concurrent.futures
import json
import os
import re
import shlex
import subprocess

# Of each its script, and the bytes of the files that it runs on.
SCRIPTS = {
    "race": ("echo a > f &\ncat f\n", {"f": b"old\n"}),
    "tee": ("echo a | tee f | cat f\n", {}),
    "screen": ("echo a &\necho b\n", {}),
    "pipe": ("echo a > f | cat f\n", {}),
    "reading": ("cat f | tee f\n", {"f": b"x\n"}),
    "file": ("echo a >> f | echo b >> f\n", {}),
    "half": ("cat p > f | wc f\n", {"f": b"x\n", "p": b"b\naab\naabc\ncb\n"}),
    "writers": ("echo abc > f &\necho d > f\n", {}),
    "settled": ("(echo one; echo two) | grep t\nlss\n", {}),
    "hostile": ("cat p > q &\ncat q \"b'\\x41%s\u202e\nlss </script>b\n",
                {"p": b"</script>\x00\xff\xe2\x80\xae\\n\"\t", "a b": b"", "<i>": b"\r\n", "\u202enames": b"left", **{f"f{n:03}": b"%d\n" % n for n in range(190)}}),
}


class Page:
    """A page, the script's path and its files, in a folder."""

    def __init__(self, room, name, maker):
        script, files = SCRIPTS[name]
        self.name, self.room = name, os.path.join(room, name)
        os.makedirs(os.path.join(self.room, "files"))
        self.path = os.path.join(self.room, "page.html")
        self.words = [os.path.join(self.room, "script")]
        with open(self.words[0], "w", encoding="utf-8") as file:
            file.write(script)
        for file_name, data in sorted(files.items()):
            self.words.append(os.path.join(self.room, "files", file_name))
            with open(self.words[-1], "wb") as file:
                file.write(data)
        told = subprocess.run([*maker, self.path, *self.words], stdin=subprocess.DEVNULL, stdout=subprocess.PIPE, stderr=subprocess.STDOUT, check=False)
        if told.returncode not in (0, 3, 4) or not os.path.exists(self.path):
            raise SystemExit(f"{name}: {shlex.join(maker)} ends with status {told.returncode}: {told.stdout.decode(errors='replace')[:500]}")
        with open(self.path, encoding="utf-8") as file:
            self.text = file.read()
        found = re.findall(r'<script type="application/json" id="data">(.*?)</script>', self.text, re.S)
        assert len(found) == 1 and found[0].isascii(), f"{name}: the page has {len(found)} objects of data, or one that isn't ASCII"
        self.data = json.loads(found[0])
        self.address = "file://" + self.path
        # The commands for a terminal that it shows, by the turns that it shows them after.
        self.commands = {}

    def outcomes(self):
        """Returns the outcomes, each as whether it sleeps for ever, its output, its diagnostics and its files, as they are shown."""
        texts = self.data["B"]
        return [(row[0] == 1, texts[row[1]], texts[row[2]], tuple((texts[row[i]], texts[row[i + 1]]) for i in range(4, len(row), 2)))
                for row in self.data["O"]]


def made(room, maker):
    """Returns the pages of all scripts, some of which are made side by side."""
    with concurrent.futures.ThreadPoolExecutor(os.cpu_count()) as makers:
        return list(makers.map(lambda name: Page(room, name, maker), SCRIPTS))


def shown(data):
    """Returns bytes as the program shows them on one line."""
    marks = {10: "\\n", 9: "\\t", 13: "\\r", 92: "\\\\"}
    return "".join(marks.get(byte) or (chr(byte) if 32 <= byte < 127 else f"\\x{byte:02x}") for byte in data)


def shown_name(name):
    """Returns the name of a file as the program shows it."""
    if name and all(33 <= byte <= 126 for byte in name):
        return name.decode()
    return '"' + "".join(("\\" if byte == 34 else "") + shown(bytes([byte])) for byte in name) + '"'


def words_of(arguments):
    """Returns the program, and the words that write a page, of `PROGRAM [--by MAKER]`."""
    program = os.path.abspath(arguments[0])
    if arguments[1:2] == ["--by"]:
        return program, shlex.split(arguments[2]), arguments[3:]
    return program, [program, "explore", "--play"], arguments[1:]
