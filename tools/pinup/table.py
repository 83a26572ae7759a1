"""The table of all TTL bytes, taken from the constants by which the library reads one (crates/ttl/src/table.rt)."""
import os
import re

ROOT = os.path.dirname(os.path.dirname(os.path.dirname(os.path.abspath(__file__))))
SOURCE = "crates/ttl/src/table.rt"
IN_A_ROW = 8
VALUE, DISTANCE, BAD = 0, 1, 3


class Unfit(Exception):
    """Of a table that the page cannot show as it is."""


def constant(text, name):
    """The entries of a constant: a row of eight a line, with the byte that it begins with behind it."""
    found = re.findall(rf"^pub\(crate\) const {name}: \[\[u8; 8\]; 32\] = \[\n(.*?)^\];$", text, re.M | re.S)
    if len(found) != 1:
        raise Unfit(f"{SOURCE} has not one constant {name} of 32 rows of eight")
    rows = [re.fullmatch(r"    \[((?:\d+, ){7}\d+)\], // (\d+)", line) for line in found[0].split("\n")[:-1]]
    if len(rows) != 32 or any(not row or int(row[2]) != IN_A_ROW * place for place, row in enumerate(rows)):
        raise Unfit(f"{SOURCE}: the rows of {name} are not `[..], // BYTE`, eight entries each, from byte 0 on")
    return [int(entry) for row in rows for entry in row[1].split(", ")]


class Entry:
    """What a byte is taken for."""

    def __init__(self, byte, code, guess):
        self.byte, self.code, self.guess = byte, code, guess
        self.start = byte + guess

    def said(self):
        words = {VALUE: "Value", DISTANCE: f"Distance, {self.guess} hops from {self.start}", BAD: "Bad"}
        return f"{self.byte}: {words[self.code]}"


def table():
    with open(os.path.join(ROOT, SOURCE), encoding="utf-8") as source:
        text = source.read()
    codes, guesses = constant(text, "CLASSES"), constant(text, "GUESSES")
    entries = [Entry(byte, code, guess) for byte, (code, guess) in enumerate(zip(codes, guesses))]
    for entry in entries:
        if entry.code not in (VALUE, DISTANCE, BAD):
            raise Unfit(f"byte {entry.byte} has the class {entry.code}, which has no name on the page")
    return entries


class Rule:
    """The numbers of the rule, as the table has them. What the page says of them in words is held to every entry."""

    def __init__(self, entries):
        self.starts = sorted({entry.start for entry in entries})
        self.most = max(entry.guess for entry in entries if entry.code == DISTANCE)
        for entry in entries:
            start = min((start for start in self.starts if start >= entry.byte), default=None)
            code = BAD if entry.byte == 0 else DISTANCE if entry.guess <= self.most else VALUE
            if (entry.start, entry.code) != (start, code):
                raise Unfit(f"the page's two sentences are not true of byte {entry.byte}")

    def sentences(self):
        *before, last = (str(start) for start in self.starts)
        starts = f"{', '.join(before)} and {last}"
        return [
            f"A packet is taken to have started with the least of {starts} that its TTL byte does not exceed, "
            "and its hops are what the byte lacks to that start.",
            f"Up to {self.most} hops make a Distance, more make a Value, and byte 0 is Bad.",
        ]
