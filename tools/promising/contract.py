"""What a contract says, in the words of a file of antt."""
import re

from promising.source import NUMBERS, Unfit, parted, type_module

# A contract that is a relation of a lent buffer, the result and the buffer at exit, by its name; and what a line of demand 1 says of it.
RELATIONS = {"Put": "BufferAnswers", "Paged": "PageAnswers", "Writes": "LineAnswers"}
OLD = re.compile(r"(?<![\w.])(\w+)\.old(?!\w)")
NEW = re.compile(r"(\w+)\.new")
WORD = re.compile(r"«[^»]*»|[(){};,]|[^\s(){};,]+")


def atom(text):
    """A term that stands as an argument."""
    return f"({text})" if " " in text and not re.fullmatch(r"\([^()]*\)|\[[^\[\]]*\]", text) else text


def arguments(text):
    """The outer words of an application."""
    words, depth, word = [], 0, ""
    for c in text:
        depth += (c in "({") - (c in ")}")
        if c == " " and depth == 0:
            words.append(word)
            word = ""
        else:
            word += c
    return words + [word]


class Promise:
    """A function's promise: its form, the terms that say which answer it is, and the parameter that it writes."""

    def __init__(self, f):
        self.function = f
        result, said = "result", f.contract
        lent = [name for name, type_ in f.parameters if type_.startswith("&mut") or re.match(r"&'\w+ mut", type_)]
        self.form, self.buffer = "equation", None
        if said.startswith(f"{result} ≡ "):
            self.terms = [said[len(f"{result} ≡ "):]]
        elif said.startswith(f"{result}.now ≡ "):
            self.form, self.terms = "part", [said[len(f"{result}.now ≡ "):]]
        else:
            self.form, *self.terms = arguments(said)
            left = NEW.fullmatch(self.terms[-1]) if self.terms else None
            if self.form not in RELATIONS or self.terms[-2:-1] != [result] or not left:
                raise Unfit("its contract is no equation `result ≡ definition`, nor a relation that is known here")
            self.buffer, self.terms = left.group(1), self.terms[:-2]
        if lent != ([self.buffer] if self.buffer else []):
            raise Unfit("its contract does not say what a buffer that it is lent is left with")
        self.said = " ".join(self.terms)
        words = set(WORD.findall(self.said))
        if any(word == result or word.startswith(result + ".") or word.endswith(".new") for word in words):
            raise Unfit("its result stands on both sides of its contract")
        if words & {"≡", "×", "⊎", "→", "↔", "⊤", "⊥", "⌜", "⌝"}:
            raise Unfit("its contract is not one equation")
        self.terms = [self.plain(term) for term in self.terms]

    @staticmethod
    def plain(term):
        """A term over the arguments by their names: what a buffer holds at entry is what it holds `now`."""
        return OLD.sub(r"\1.now", term)

    def names(self):
        """The names that the contract cites, each with the module that it is brought in from; and the modules cited by another name."""
        names, aliases = [], []
        given = {name for name, _ in self.function.parameters}
        for word in WORD.findall(" ".join([self.form] + self.terms)):
            alias = word.split(".")[0]
            if alias in given:
                continue
            for name in (word, f"◌{word}◌"):
                if name in self.function.file.names:
                    names.append((self.function.file.names[name], name))
            if "." in word and alias in self.function.file.aliases:
                aliases.append((self.function.file.aliases[alias], alias))
        return names, aliases

    def lasts(self):
        """The definition, as the last arguments of a line."""
        return [atom(term) if self.form in ("equation", "part") else term for term in self.terms]


def applied(f, name, types):
    """A type that takes others, and what these bring in."""
    said, brought = [], []
    for one in types:
        inner, names = antt_type(f, one)
        said.append(atom(inner))
        brought += names
    return " ".join([name] + said), brought


def antt_type(f, type_):
    """A type of a head, and what it brings in."""
    if type_ in NUMBERS:
        return "ℕ", []
    if type_ == "bool":
        return "Bool", []
    if type_ == "()":
        return "Unit {0}", []
    generic = re.fullmatch(r"(Option|Result)<(.*)>", type_ or "", re.S)
    if generic:
        return applied(f, generic.group(1), parted(generic.group(2)))
    if (type_ or "").startswith("("):
        said, brought = applied(f, "", parted(type_[1:-1]))
        return " × ".join(arguments(said)[1:]), brought
    row = re.fullmatch(r"(&(?:'\w+ )?(mut )?)?\[(\w+)(?:; [^\]]+)?\]", type_)
    if row and row.group(3) in NUMBERS:
        return ("MutBor (List ℕ)" if row.group(2) else "Bor (List ℕ)" if row.group(1) else "List ℕ"), []
    rows = re.fullmatch(r"\[\[(\w+); \w+\]; \w+\]", type_ or "")
    if rows and rows.group(1) in NUMBERS:
        return "List (List ℕ)", []
    told = re.fullmatch(r"(&(?:'\w+ )?(?:mut )?)?(\w+)(?:<'\w+>)?", type_ or "")
    if told:
        crate, module = type_module(f, told.group(2))
        said = f"{'MutBor' if 'mut ' in (told.group(1) or '') else 'Bor'} {told.group(2)}" if told.group(1) else told.group(2)
        return said, [(f"Rattle.{crate}.specs.{module}", told.group(2))]
    rows = re.fullmatch(r"\[(\w+); \w+\]", type_ or "")
    if rows:
        return applied(f, "List", [rows.group(1)])
    raise Unfit(f"no form for the type {type_}")
