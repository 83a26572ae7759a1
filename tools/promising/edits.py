"""The must-fail edits: what each changes, and of what it is a wrong answer."""
import glob
import os
import re

from promising.source import ROOT, crates, files, functions, read

# What a name stands at the beginning of, where a file of antt declares it.
DECLARES = r"^\s*(?:(?:pub|abbrev|unfoldable|record|data|ruleset) )*{}(?=\s|$)"


class Edit:
    """An edit: its crate and name, what it is `of`, and its pairs of (file, old, new)."""

    def __init__(self, path):
        self.path = os.path.relpath(path, ROOT)
        self.crate = self.path.split(os.sep)[1]
        self.name = os.path.splitext(os.path.basename(path))[0]
        self.of, self.files, self.pairs = [], [], []
        old = None
        for line in read(self.path).split("\n"):
            key, _, value = line.partition(": ")
            if key == "of":
                self.of.append(value)
            elif key == "file":
                self.files.append(value)
            elif key == "old":
                old = value
            elif key == "new":
                self.pairs.append((self.files[-1] if self.files else "", old, value))

    def kind(self):
        """`law`, `definition` or `function`; and the name that follows. An edit that does not say has none."""
        word, _, name = (self.of or [""])[0].partition(" ")
        return (word, name) if name else ("function", word)


def edits(crate="*"):
    return [Edit(path) for path in sorted(glob.glob(os.path.join(ROOT, "crates", crate, "must-fail", "*.edit")))]


def program_functions(crate):
    """Of a program, which has no public functions, every function."""
    own = files(crate)
    if all(file.stem != "main" for file in own):
        return set()
    return {name for file in own for name in re.findall(r"^\s*(?:pub\(crate\) )?fn (\w+)", file.text, re.M)}


def stands(crate, sides, name):
    """Whether a module of a crate declares a name."""
    module, _, word = name.rpartition(".")
    for side in sides:
        path = os.path.join("crates", crate, side, *module.split(".")) + ".antt"
        if module and os.path.exists(os.path.join(ROOT, path)) and re.search(DECLARES.format(re.escape(word)), read(path), re.M):
            return True
    return False


def faults(edit, public):
    """What keeps an edit from applying, or from being one wrong answer of one thing."""
    texts = {}
    for name, old, new in edit.pairs:
        path = os.path.join("crates", edit.crate, name)
        if not os.path.exists(os.path.join(ROOT, path)):
            yield f"no file {name}"
            return
        text = texts.get(path) or read(path)
        if text.count(old) != 1:
            yield f"stands {text.count(old)} times: {old}"
            return
        texts[path] = text.replace(old, new)
    if not edit.pairs:
        yield "changes nothing"
    if len(edit.of) != 1:
        yield f"has {len(edit.of)} lines `of:`"
        return
    kind, name = edit.kind()
    known = {
        "function": lambda: name in public or name in program_functions(edit.crate),
        "definition": lambda: stands(edit.crate, ["specs"], name),
        "law": lambda: stands(edit.crate, ["proofs", "specs"], name),
    }
    if kind not in known or not known[kind]():
        yield f"is of {edit.of[0]}, which {edit.crate} does not have"


def all_faults():
    """The faults of all edits."""
    for crate in crates():
        public = [f.path() for f in functions(crate)]
        for edit in edits(crate):
            for fault in faults(edit, public):
                yield f"{edit.path}: {fault}"
