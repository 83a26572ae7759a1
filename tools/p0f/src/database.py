"""A p0f database: the labels and signatures of its TCP sections, as they stand in the file."""

import re
from dataclasses import dataclass, field

REQUEST, RESPONSE = "tcp:request", "tcp:response"
LABEL = re.compile(r"[sg]:[^:]+:[^:]+:.*")
MOST_LABELS = 65535


class NoDatabase(Exception):
    """Its text says why."""


@dataclass
class Signature:
    line: int
    text: str


@dataclass
class Label:
    number: int
    line: int
    section: str
    name: str
    signatures: list = field(default_factory=list)

    @property
    def generic(self):
        return self.name.startswith("g:")


class Reader:
    def __init__(self):
        self.labels, self.sections, self.section, self.label = [], set(), None, None

    def row(self, line, row):
        """A row that is neither empty nor a comment."""
        if row.startswith("["):
            match = re.fullmatch(r"\[([a-z:]+)\]", row)
            if not match:
                raise NoDatabase(f"line {line}: {row!r} is no section")
            self.section, self.label = match[1], None
            self.sections.add(match[1])
            return
        match = re.fullmatch(r"([A-Za-z_]+)[ \t]*=[ \t]*(.*)", row)
        if not match:
            raise NoDatabase(f"line {line}: neither a section nor 'name = value'")
        if self.section is None and match[1] in ("label", "sig"):
            raise NoDatabase(f"line {line}: a {match[1]} before any section")
        if self.section in (REQUEST, RESPONSE):
            self.value(line, match[1], match[2])

    def value(self, line, name, value):
        """A value of a TCP section."""
        if name == "label":
            self.add_label(line, value)
        elif name not in ("sig", "sys"):
            raise NoDatabase(f"line {line}: {name!r} is neither label, sys nor sig")
        elif self.label is None:
            raise NoDatabase(f"line {line}: a {name} before any label of its section")
        elif name == "sig":
            self.label.signatures.append(Signature(line, value))

    def add_label(self, line, name):
        if not LABEL.fullmatch(name):
            raise NoDatabase(f"line {line}: {name!r} is no label: s or g, class, name and flavor, with colons between")
        if len(self.labels) == MOST_LABELS:
            raise NoDatabase(f"line {line}: more than {MOST_LABELS} labels")
        self.label = Label(len(self.labels) + 1, line, self.section, name)
        self.labels.append(self.label)


def read_database(text):
    """The sections that there are, and the labels of the TCP sections, numbered from 1 in their order."""
    reader = Reader()
    for line, row in enumerate(text.split("\n"), 1):
        row = row.strip(" \t\r")
        if row and not row.startswith(";"):
            reader.row(line, row)
    return reader.sections, reader.labels
