"""The public functions of the crates, as their sources have them: head, contract, and what the contract's names are."""
import glob
import os
import re

ROOT = os.path.dirname(os.path.dirname(os.path.dirname(os.path.abspath(__file__))))
# No part of the product: their functions have no line of demand 1.
BESIDE = {"witness", "counted"}
# They call the system, whose answers no equation can promise: their functions have neither uniqueness nor a line of demand 1.
SYSTEM = {"streams", "bundle_lines"}
NUMBERS = {"u8", "u16", "u32", "u64", "usize"}
HEAD = re.compile(r'^( *)(?:#\[unsafe\(no_mangle\)\]\s*)?pub\s+(?:extern\s+"C"\s+)?fn\s+(\w+)\s*', re.M)
PARAMETER = re.compile(r"(?:mut\s+)?(\w+)\s*:\s*(.*)", re.S)
CLAUSE = re.compile(r"\s*(ensures|requires)\s*(\w*)\s*\{")
GHOST = re.compile(r"^ghost use ([^;{]*?)(?:\.\{([^}]*)\}| as (\S+))\s*;", re.M)
CLOSES = {"(": ")", "{": "}", "[": "]"}


class Unfit(Exception):
    """Of a function that no promise can be made of."""


class Function:
    """A public function: where it stands, its parameters and result as (name, type), and its one contract."""

    def __init__(self, crate, module, owner, name):
        self.crate, self.module, self.owner, self.name = crate, module, owner, name
        self.parameters, self.result, self.lifetimes = [], None, 0
        self.clauses, self.contract, self.file = [], None, None

    def path(self):
        """The function's name, with its type's where it is a method."""
        return f"{self.owner}::{self.name}" if self.owner else self.name

    def place(self):
        """The function's module below a crate's `proofs`."""
        return ".".join(part for part in (self.module, self.owner, self.name) if part)


class File:
    """A source file: its text without comments, what it brings in for its contracts, and the types it names."""

    def __init__(self, crate, path):
        self.crate = crate
        self.stem = os.path.splitext(os.path.basename(path))[0]
        with open(path, encoding="utf-8") as file:
            self.text = re.sub(r"^\s*//.*$", "", file.read(), flags=re.M)
        self.names, self.aliases = {}, {}
        for module, names, alias in GHOST.findall(self.text):
            if alias:
                self.aliases[alias] = module
            for name in names.split(",") if names else []:
                self.names[name.strip()] = module
        self.types = {}
        for crate_name, row, one in re.findall(r"^(?:pub )?use (\w+)::(?:\{([^}]*)\}|(\w+));", self.text, re.M):
            for name in (row or one).split(","):
                self.types[name.strip()] = crate if crate_name == "crate" else crate_name


def read(*path):
    with open(os.path.join(ROOT, *path), encoding="utf-8") as file:
        return file.read()


def crates():
    """The crates of crates.txt, in its order."""
    return re.findall(r"^(\w+):", read("crates.txt"), re.M)


def files(crate):
    return [File(crate, path) for path in sorted(glob.glob(os.path.join(ROOT, "crates", crate, "src", "**", "*.rt"), recursive=True))]


def balanced(text, at):
    """Where the bracket that opens at a place closes."""
    depth, opened = 0, text[at]
    for i in range(at, len(text)):
        depth += (text[i] == opened) - (text[i] == CLOSES[opened])
        if depth == 0:
            return i
    raise Unfit("a bracket does not close")


def angle(text, at):
    """Where the row of generic parameters that opens at a place closes; the `>` of an arrow closes none."""
    depth = 0
    for i in range(at, len(text)):
        depth += (text[i] == "<") - (text[i] == ">" and text[i - 1] != "-")
        if depth == 0:
            return i
    raise Unfit("a row of generic parameters does not close")


def parted(text):
    """The parts of a row between its outer commas."""
    parts, depth, last = [], 0, 0
    for i, c in enumerate(text):
        depth += (c in "([{<") - (c in ")]}>")
        if c == "," and depth == 0:
            parts.append(text[last:i])
            last = i + 1
    return [part.strip() for part in parts + [text[last:]] if part.strip()]


def owner_at(text, place):
    """The type whose `impl` block a place lies in."""
    blocks = [m for m in re.finditer(r"^impl(?:<[^>]*>)? (\w+)", text[:place], re.M)]
    return blocks[-1].group(1) if blocks and not re.search(r"^}", text[blocks[-1].start():place], re.M) else ""


def function_at(file, head):
    """The function whose head is found."""
    text = file.text
    module = "" if file.stem in ("lib", "main") else file.stem
    f = Function(file.crate, module, owner_at(text, head.start()), head.group(2))
    f.file = file
    at, named = head.end(), set()
    if text[at] == "<":
        end = angle(text, at)
        named = set(re.findall(r"'\w+", text[at:end]))
        at = end + 1
    end = balanced(text, at)
    for part in parted(text[at + 1:end]):
        if part in ("self", "mut self", "&self", "&mut self"):
            f.parameters.append(("self", part.removeprefix("mut ").replace("self", f.owner)))
            continue
        name, type_ = PARAMETER.fullmatch(part).groups()
        f.parameters.append((name, type_.replace("Self", f.owner)))
    heads = " ".join(type_ for _, type_ in f.parameters)
    f.lifetimes = len(named) + len(re.findall(r"&(?!')", heads))
    at = end + 1
    told = re.compile(r"\s*->\s*(.*?)\s*(?=\s(?:where|ensures|requires)\b|\{)", re.S).match(text, at)
    if told:
        f.result, at = told.group(1).replace("Self", f.owner), told.end()
    bounds = re.compile(r"\s*where\b.*?(?=\s(?:ensures|requires)\b|\{)", re.S).match(text, at)
    if bounds:
        at = bounds.end()
    while CLAUSE.match(text, at):
        clause = CLAUSE.match(text, at)
        end = balanced(text, clause.end() - 1)
        f.clauses.append((clause.group(1), " ".join(text[clause.end():end].split())))
        at = end + 1
    return f


def functions(crate):
    """The public functions of a crate, in the order of its files."""
    return [function_at(file, head) for file in files(crate) for head in HEAD.finditer(file.text)]


def check_asks(f):
    """A public function asks nothing of its caller."""
    if any(kind == "requires" for kind, _ in f.clauses):
        raise Unfit("it has a `requires`")


def check_clauses(f):
    """It has one `ensures`, and asks nothing."""
    check_asks(f)
    if len(f.clauses) != 1:
        raise Unfit(f"it has {len(f.clauses)} `ensures`")
    f.contract = f.clauses[0][1]


def declared(crate, name):
    """The crate that declares a type, found from one that brings it in, and the type's module there."""
    for file in files(crate):
        if re.search(rf"^pub (?:struct|enum) {name}\b", file.text, re.M):
            return crate, "declared." + (name if file.stem in ("lib", "main") else f"{file.stem}.{name}")
    brought = [file.types[name] for file in files(crate) if file.types.get(name, crate) != crate]
    return declared(brought[0], name) if brought else None


def type_module(f, name):
    """The crate that declares a type of a function's head, and the type's module there."""
    brought = f.file.types.get(name)
    found = declared(brought, name) if brought else declared(f.crate, name)
    if not found:
        raise Unfit(f"no type {name} is declared in {f.crate} or brought in")
    return found
