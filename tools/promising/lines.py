"""The files of antt that are made of the promises of a crate."""
import re

from promising.contract import RELATIONS, antt_type, arguments, atom
from promising.source import Unfit, crates

WIDTH = 140
MADE = "-- tools/promises makes this file from the contracts, and the gate holds it to them.\n"
GROUPS = ("Rattle.std", "contract", "Rattle")
BASE = {
    "ℕ": "Rattle.std.specs.Prelude",
    "Bool": "Rattle.std.specs.Prelude",
    "List": "Rattle.std.specs.Prelude",
    "Option": "Rattle.std.specs.Prelude",
    "Result": "Rattle.std.specs.Prelude",
    "Some": "Rattle.std.specs.Prelude",
    "None": "Rattle.std.specs.Prelude",
    "Ok": "Rattle.std.specs.Prelude",
    "Err": "Rattle.std.specs.Prelude",
    "◌≡◌": "Rattle.std.specs.Prelude",
    "refl": "Rattle.std.specs.Prelude",
    "Lfts": "contract.Lifetimes",
    "Bor": "Rattle.std.specs.Borrow",
    "MutBor": "Rattle.std.specs.Borrow",
    "ExactlyOne": "Rattle.basis.specs.Unique",
    "equation": "Rattle.basis.proofs.Unique",
    "part": "Rattle.basis.proofs.Unique",
    "both": "Rattle.basis.proofs.Unique",
    "left_with": "Rattle.text.specs.Written",
}
PROVES = {"equation": "answered", "part": "part_answered", "Put": "buffer_answered", "Paged": "page_answered",
          "Writes": "line_answered"}


class Uses:
    """The `use` lines of a file of a crate."""

    def __init__(self, crate):
        self.crate, self.order = crate, crates()
        self.names, self.aliases = {}, {}

    def name(self, path, name):
        rows = self.names.setdefault(path, [])
        if name not in rows:
            rows.append(name)
        if sum(name in names for names in self.names.values()) > 1:
            raise Unfit(f"{name} is brought in from two modules")

    def alias(self, path, alias):
        self.aliases[path] = alias

    def text(self, body):
        """The lines, with the names of every file that the body cites."""
        words = set(re.findall(r"[^\s(){};,.]+", body))
        for name, path in BASE.items():
            if name in words or name.strip("◌") in words:
                self.name(path, name)
        rows = {path: path + ".{" + ", ".join(sorted(names, key=self.rank)) + "}" for path, names in self.names.items()}
        rows.update({path: f"{path} as {alias}" for path, alias in self.aliases.items()})
        return "".join(f"use {rows[path]}\n" for path in sorted(rows, key=self.place))

    @staticmethod
    def rank(name):
        return (name != "ℕ", name.startswith("◌"), name)

    def place(self, path):
        """Libraries first; then crate by crate, types before definitions before proofs."""
        group = next(i for i, name in enumerate(GROUPS) if path.startswith(name + "."))
        crate = path.split(".")[1]
        return (group, self.order.index(crate) if crate in self.order else 0, ".proofs." in path, ".declared." not in path, path)


def theorem(promise, promises):
    """The name of a function's uniqueness theorem, and of its line."""
    f = promise.function
    alone = [p.function.name for p in promises].count(f.name) == 1
    return (f.name if alone else f"{f.owner}_{f.name}".lower()) + "_one"


def binders(promise, uses):
    """A function's lifetimes and arguments, bound; and their names."""
    f, rows = promise.function, []
    for name, type_ in f.parameters:
        said, brought = antt_type(f, type_)
        for path, one in brought:
            uses.name(path, one)
        if rows and rows[-1][1] == said:
            rows[-1][0].append(name)
        else:
            rows.append(([name], said))
    if f.lifetimes:
        rows.insert(0, (["κs"], f"Lfts {f.lifetimes}"))
    return " ".join(f"({' '.join(names)} : {said})" for names, said in rows), [name for names, _ in rows for name in names]


def tupled(names):
    return f"({names[0]}, {tupled(names[1:])})" if names else "tt"


def at_exit(promise, bytes_):
    """The arguments, where the buffer is left with other bytes."""
    names = [f"left_with {name} {bytes_}" if name == promise.buffer else name for name, _ in promise.function.parameters]
    return tupled(names)


def parts(word):
    """A word that is too long for a line, parted between its arguments; a tuple stays whole."""
    if not word.startswith("(") or not word.endswith(")") or ", " in word:
        return [word]
    inner = arguments(word[1:-1])
    return ["(" + inner[0]] + inner[1:-1] + [inner[-1] + ")"] if len(inner) > 1 else [word]


def folded(words, indent):
    """Words in lines of the allowed width."""
    rows = [""]
    for word in words:
        for piece in [word] if len(indent + word) <= WIDTH else parts(word):
            if rows[-1] and len(indent + rows[-1] + " " + piece) > WIDTH:
                rows.append("")
            rows[-1] += (" " if rows[-1] else "") + piece
    return f"\n{indent}".join(rows)


def stated(name, bound, rows, indent):
    """A statement: in one line where it fits, else its arguments in a line, then what is said of them, a row a line."""
    whole = f"{indent}pub {name} : {bound + ' → ' if bound else ''}{' '.join(word for row in rows for word in row)}"
    if len(whole) <= WIDTH:
        return whole + "\n"
    deep = indent + "    "
    rows = [[("→ " if bound else ": ") + rows[0][0]] + rows[0][1:]] + rows[1:]
    joined = [word for row in rows for word in row]
    lines = [" ".join(joined)] if len(deep + " ".join(joined)) <= WIDTH else [folded(row, deep) for row in rows]
    head = [f"{indent}pub {name}"] + ([deep + folded(re.split(r"(?<=\)) (?=\()", ": " + bound), deep)] if bound else [])
    return "\n".join(head + [deep + line for line in lines]) + "\n"


def unique_theorem(promise, promises, uses):
    """A function's uniqueness theorem, over its own contract."""
    f, name = promise.function, theorem(promise, promises)
    short = name[: -len("_one")] + "'"
    bound, names = binders(promise, uses)
    uses.alias(f"Rattle.{f.crate}.proofs.{f.place()}.Reads", short)
    result, brought = antt_type(f, f.result)
    lifetimes, given = "κs" if f.lifetimes else "tt", tupled([name for name, _ in f.parameters])
    post = [f"{short}.Post", lifetimes, given]
    if promise.form == "part":
        said = [f"(λ (v : List ℕ). (r : {result}) → r.now ≡ v →"] + post + ["r", given + ")"]
        rows, proof = [["ExactlyOne (List ℕ)"], said], ["part", names[1], atom(promise.terms[0])]
    elif promise.form in RELATIONS:
        pair = f"{atom(result)} × List ℕ"
        said = [f"(λ (r : {pair})."] + post + ["r.0", at_exit(promise, "r.1") + ")"]
        rows, proof = [[f"ExactlyOne ({pair})"], said], ["both", "_", "_"]
    else:
        said = [f"(λ (r : {result})."] + post + ["r", given + ")"]
        rows, proof = [["ExactlyOne " + atom(result)], said], ["equation", atom(promise.terms[0])]
    for path, one in brought:
        uses.name(path, one)
    left = " ".join([name] + names)
    proved = " ".join([left, "="] + proof)
    return stated(name, bound, rows, "") + (proved if len(proved) <= WIDTH else f"{left} =\n    {folded(proof, '    ')}") + "\n"


def unique_file(crate, promises):
    """crates/X/proofs/Unique.antt."""
    uses, body = Uses(crate), []
    for promise in promises:
        body.append(unique_theorem(promise, promises, uses))
        if promise.form not in RELATIONS:
            cite(promise, uses)
    text = "\n".join(body)
    return f"-- Exactly one result meets each public function's own contract.\n{MADE}{uses.text(text)}\n{text}"


def cite(promise, uses):
    names, aliases = promise.names()
    for path, name in names:
        uses.name(path, name)
    for path, alias in aliases:
        uses.alias(path, alias)


def line(promise, promises, uses):
    """A function's line of demand 1."""
    f, name = promise.function, theorem(promise, promises)
    short = name[: -len("_one")] + "'"
    bound, _ = binders(promise, uses)
    reads = name[: -len("_one")] + "_reads"
    uses.alias(f"Rattle.{f.crate}.specs.contracts.{f.place()}", short)
    uses.alias(f"Rattle.{f.crate}.proofs.{f.place()}.Reads", reads)
    lifetimes, given = "κs" if f.lifetimes else "tt", tupled([name for name, _ in f.parameters])
    says = {"equation": "Answers", "part": "PartAnswers"}.get(promise.form) or RELATIONS[promise.form]
    uses.name("Rattle.acceptance.specs.Promised", says)
    over = [says, f"{short}.signature", lifetimes, f"({reads}.Pre {lifetimes})", f"({reads}.Post {lifetimes})"]
    left = [f"(λ bytes. {at_exit(promise, 'bytes')})"] if promise.buffer else []
    return stated(name, bound, [over, [given] + left + promise.lasts()], "  ")


def line_file(crate, promises):
    """The lines of a crate, in the statement."""
    uses, body = Uses("acceptance"), ""
    for promise in promises:
        body += line(promise, promises, uses)
        names, aliases = promise.names()
        for path, name in names:
            if name not in RELATIONS:
                uses.name(path, name)
        for path, alias in aliases:
            uses.alias(path, alias)
    head = f"-- Demand 1, a line for each public function of {crate}.\n{MADE}"
    return f"{head}{uses.text(body)}\npub record Promises : Type 0 where\n{body}"


def proof_file(crate, promises):
    """And in the proof."""
    uses, body = Uses("acceptance"), ""
    uses.alias(f"Rattle.{crate}.proofs.Unique", "unique")
    uses.name(f"Rattle.acceptance.specs.Promises.{crate}", "Promises")
    for promise in promises:
        name, (_, names) = theorem(promise, promises), binders(promise, Uses("acceptance"))
        given = " ".join([f"unique.{name}"] + names)
        some = [names[1]] if promise.form == "part" else []
        proves = PROVES[promise.form]
        uses.name("Rattle.acceptance.proofs.Promised", proves)
        lead = [f"λ {' '.join(names)}."] if names else []
        same = ["(λ r m. m)"] if promise.form == "part" else ["(λ m. m)"]
        proof = lead + [proves, "tt", f"({given})"] + some + same + ["refl;"]
        whole = f"      {name} = {' '.join(proof)}"
        body += (whole if len(whole) <= WIDTH else f"      {name} =\n          {folded(proof, ' ' * 10)}") + "\n"
    head = f"-- The lines of {crate}, by its uniqueness theorems.\n{MADE}"
    return f"{head}{uses.text(body)}\npub promises : Promises\npromises =\n    record {{\n{body}    }}\n"


def all_lines(names):
    """What collects the crates' lines, in the statement."""
    mods = "".join(f"pub mod {name}\n" for name in names)
    uses = "".join(f"use Rattle.acceptance.specs.Promises.{name} as {name}'\n" for name in names)
    fields = "".join(f"  pub {name} : {name}'.Promises\n" for name in names)
    head = f"-- Demand 1, crate by crate, in the order of crates.txt.\n{MADE}"
    return f"{head}{uses}{mods}\npub record EachCrate : Type 0 where\n{fields}"


def all_proofs(names):
    """And in the proof."""
    mods = "".join(f"pub mod {name}\n" for name in names)
    uses = "use Rattle.acceptance.specs.Promises.{EachCrate}\n"
    uses += "".join(f"use Rattle.acceptance.proofs.Promises.{name} as {name}'\n" for name in names)
    fields = "".join(f"      {name} = {name}'.promises;\n" for name in names)
    head = f"-- The lines of demand 1, crate by crate.\n{MADE}"
    return f"{head}{uses}{mods}\npub each_crate : EachCrate\neach_crate =\n    record {{\n{fields}    }}\n"
