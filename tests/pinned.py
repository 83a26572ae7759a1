"""What the page that is pinned up says of each TTL byte: docs/TTL.svg, in the words that stand with its cells."""
import os
import re

PAGE = os.path.join(os.path.dirname(os.path.dirname(os.path.abspath(__file__))), "docs", "TTL.svg")
CELL = re.compile(r"<title>(\d+): (?:(Value)|Distance, (\d+) hops from (\d+)|(Bad))</title>")


class Cell:
    """A byte, its code, its reading as tools/ask writes it, and of a Distance its hops."""

    def __init__(self, byte, value, hops, start, bad):
        self.byte, self.code = int(byte), 0 if value else 3 if bad else 1
        self.hops = int(hops) if hops else None
        if hops and self.byte + self.hops != int(start):
            raise ValueError(f"{PAGE}: byte {byte} and {hops} hops do not make {start}")
        form = {0: "value", 1: "distance", 3: "bad"}[self.code]
        self.reading = f"{form}:{byte}" + (f":{hops}" if hops else "")


def cells():
    """The cells of the page, one for each byte."""
    with open(PAGE, encoding="ascii") as file:
        found = sorted((Cell(*words) for words in CELL.findall(file.read())), key=lambda cell: cell.byte)
    if [cell.byte for cell in found] != list(range(256)):
        raise ValueError(f"{PAGE} does not have every byte once")
    return found
