"""Which public functions of the crates have wrong bodies: what `bench/wrong --list` prints.

The source is read by its layout, which `rt fmt` settles: a function ends at the first line that is a closing brace as
far in as its first line.
"""
import os
import re

FUNCTION = re.compile(r"( *)(pub |pub\(\w+\) )?(?:const )?(?:unsafe )?fn (\w+)")
OUTSIDE = " (outside the gate)"
OWNER = re.compile(r"( *)(?:pub )?(impl|trait)\b(.*)")


class Function:
    """A function of a crate: its name with its type's, the file and the lines that it spans, and its first part."""

    def __init__(self, crate, file, name, is_public, first, last, head):
        self.crate, self.file, self.name, self.is_public = crate, file, name, is_public
        self.first, self.last, self.head = first, last, head
        self.bodies = []

    def is_law(self):
        """Returns whether it returns nothing and is lent nothing to change, so that it can only be a statement."""
        return not re.search(r"->|&mut |\brt: ", self.head)

    def is_exported(self, names):
        """Returns whether another crate can call it, where the crate exports these names and modules."""
        owner = re.match(r"<?(\w+)(?: as .*)?>?::", self.name)
        module = os.path.splitext(os.path.basename(self.file))[0]
        return self.is_public and ((owner[1] if owner else self.name) in names or module in names or module == "lib")

    def path(self):
        return f"{self.crate}::{self.name}"


def without_arguments(text):
    """Returns the text without its `<..>`, which may nest; `->` and `=>` stay."""
    kept, depth = "", 0
    for at, letter in enumerate(text):
        if letter == "<":
            depth += 1
        elif letter == ">" and text[at - 1] not in "-=":
            depth -= 1
        elif depth == 0:
            kept += letter
    return kept


def owner_of(kind, rest):
    """Returns the name of the type or trait whose methods follow, and whether they are as public as the type."""
    plain = without_arguments(rest).split(" where ")[0].rstrip(" {").strip()
    if kind == "trait":
        return plain.split(":")[0].strip(), False
    trait, _, of_type = plain.rpartition(" for ")
    if not trait:
        return of_type.strip(), False
    # an impl's name keeps the trait's argument, which tells two impls of From from each other
    whole = rest.split(" for ")[0].strip()
    whole = whole if without_arguments(whole).strip() == whole else re.sub(r"^<[^ ]*> |^<.*?> (?=[A-Z])", "", whole)
    return f"<{of_type.strip()} as {whole}>", trait.strip().split("::")[-1] not in ("Model", "Display")


def functions_in(crate, file, text):
    """Returns the functions of a file that have a body."""
    lines, found, owner = text.split("\n"), [], (-1, "", False)
    for number, line in enumerate(lines):
        said = OWNER.match(line)
        if said:
            owner = (len(said[1]), *owner_of(said[2], said[3]))
        elif line.startswith("}"):
            owner = (-1, "", False)
        said = FUNCTION.match(line)
        if said:
            last = end_of(lines, number, said[1])
            head = head_of(lines[number : last + 1])
            is_method = len(said[1]) > owner[0] >= 0
            name = f"{owner[1]}::{said[3]}" if is_method else said[3]
            is_public = said[2] == "pub " or is_method and owner[2]
            if not head.endswith(";"):
                found.append(Function(crate, file, name, is_public, number, last, head))
    return found


def end_of(lines, first, indent):
    """Returns the line that a function ends on: its closing brace, its empty body, or the end of what has no body."""
    for number in range(first, len(lines)):
        line = lines[number]
        inside = not line.startswith(indent) or line[len(indent) : len(indent) + 1] == " "
        if number > first and not inside and line[len(indent) :] in ("}", "{}"):
            return number
        if line.endswith(("{}", ";")) and (number == first or line.startswith(f"{indent}    ensures") and line.endswith(";")):
            return number
    return len(lines) - 1


def head_of(lines):
    """Returns a function's signature, up to its clauses or its body, in one line."""
    kept = []
    for line in lines:
        part = line.strip()
        if kept and re.match(r"(requires|ensures)\b|\{", part):
            break
        kept.append(part)
        if part.endswith(("{", ";", "{}")):
            break
    return " ".join(kept).rstrip(" {}")


def exported_by(root_text):
    """Returns the names that a crate's root file exports: its public modules, and what it brings in for others."""
    names = set(re.findall(r"^pub mod (\w+);", root_text, re.M))
    for path in re.findall(r"^pub use ([^;]*);", root_text, re.M):
        names.update(re.findall(r"\w+", path.split("{")[-1] if "{" in path else path.split("::")[-1]))
    return names


def texts_of(root, crate):
    folder = os.path.join(root, "crates", crate)
    texts = {}
    for at, _, names in os.walk(os.path.join(folder, "src")):
        for name in sorted(names):
            if name.endswith(".rt"):
                path = os.path.join(at, name)
                with open(path, encoding="utf-8") as file:
                    texts[os.path.relpath(path, folder)] = file.read()
    return texts


def place_of(edit, texts):
    """Returns the file and the line of the last text that an edit changes; earlier ones only prepare it. Each must stand once."""
    texts, place, path, old = dict(texts), ("", 0), "", ""
    with open(edit, encoding="utf-8") as file:
        for line in file.read().split("\n"):
            if line.startswith("file: "):
                path = line[len("file: ") :].strip()
            elif line.startswith("old: "):
                old = line[len("old: ") :]
            elif line.startswith("new:"):
                if texts.get(path, "").count(old) != 1:
                    raise SystemExit(f"{edit}: an old: text stands in {path} {texts.get(path, '').count(old)} times")
                place = path, texts[path][: texts[path].index(old)].count("\n")
                new = line[len("new:") :].removeprefix(" ")
                texts[path] = texts[path].replace(old, new)
    return place


def edits_in(folder):
    names = os.listdir(folder) if os.path.isdir(folder) else []
    return sorted(os.path.join(folder, it) for it in names if it.endswith(".edit"))


def read_crate(root, crate):
    """Returns the public functions of a crate with their wrong bodies, and the wrong bodies of what stands below them.

    A program and a crate of tests alone have none.
    """
    texts, below = texts_of(root, crate), []
    if "src/lib.rt" not in texts or any("#[cfg(test)]" in text for text in texts.values()):
        return [], below
    names = exported_by(texts["src/lib.rt"])
    found = [it for file, text in texts.items() for it in functions_in(crate, file, text)]
    found = [it for it in found if it.is_exported(names) and not it.is_law()]
    gate = edits_in(os.path.join(root, "crates", crate, "must-fail"))
    outside = edits_in(os.path.join(root, "bench", "wrong_bodies", crate))
    for edit in [*gate, *outside]:
        file, line = place_of(edit, texts)
        name = os.path.basename(edit).removesuffix(".edit") + ("" if edit in gate else OUTSIDE)
        function = next((it for it in found if it.file == file and it.first <= line <= it.last), None)
        (function.bodies if function else below).append(name)
    return found, below


def crates_of(root):
    with open(os.path.join(root, "crates.txt"), encoding="utf-8") as file:
        return [line.split(":")[0].split()[0] for line in file if ":" in line and not line.startswith("#")]


def reasons_of(root):
    """Returns why each function that is listed as without a wrong body has none: lines of PATH: REASON."""
    with open(os.path.join(root, "bench", "wrong_bodies", "none"), encoding="utf-8") as file:
        lines = [line.rstrip("\n") for line in file if line.strip() and not line.startswith("#")]
    return dict(line.split(": ", 1) for line in lines)


def listed(root, chosen):
    """Prints each public function with its wrong bodies, and returns whether each has one or a reason for none."""
    reasons, used, lacking, whole = reasons_of(root), set(), [], 0
    for crate in crates_of(root):
        if chosen and crate not in chosen:
            continue
        found, below = read_crate(root, crate)
        for function in found:
            whole += 1
            path = function.path()
            told = function.bodies
            if not told and path in reasons:
                used.add(path)
                told = [f"none: {reasons[path]}"]
            elif not told:
                lacking.append(path)
                told = ["NONE"]
            print(f"{path}: {', '.join(told)}")
        if below:
            print(f"{crate}, below its public functions: {', '.join(below)}")
    needless = [] if chosen else sorted(set(reasons) - used)
    for path in needless:
        print(f"{path}: is in bench/wrong_bodies/none, but it has a wrong body or is no public function")
    print(f"{whole} public functions, {len(used)} without a wrong body for a reason, {len(lacking)} without one")
    return not lacking and not needless
