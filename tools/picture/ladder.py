"""The ladder: seven gates, what is tolerated, the answer of a record, and which record a search answers."""
from picture import svg

LEFT, RIGHT = 20, 1082
DARK, TOLERATED = "#222222", "url(#dots)"
# Document 01, module 7; matching/specs/Gates.antt and distances/specs/DistanceGates.antt. `*` is the record's.
GATES = [
    ("version", ["the same,", "or *"]),
    ("option length", ["the same", "number"]),
    ("MSS", ["the same,", "or *"]),
    ("window", ["the same; %N, mss*N", "or mtu*N holds; or *"]),
    ("scale", ["the same,", "or *"]),
    ("layout", ["the same options,", "in the same order"]),
    ("payload", ["both empty, or", "both not; or *"]),
]
# The same module; distances/specs/Distances.antt and matching/specs/Tolerance.antt.
JUDGED = [
    ("TTL", ["at the record's initial TTL,", "or up to 35 below it"], ["above it,", "or more than 35 below it"],
     ["above T, of a record that", "says T- (then all else is in range)"]),
    ("quirks", ["the same on both sides"], ["df or id+ missing,", "id- or ecn added"], ["any other quirk missing", "or added"]),
]
MASKED = "(Of a record of any version, flow is left out against IPv4; df, id+ and id- against IPv6.)"
# Document 02, Wish 3; found/specs/Rank.antt. What may be stored: condition B.
STEPS = [
    ("exact", "the first specific record that is exact", "EXACT", "may be stored as sure; the search ends here"),
    ("exact", "else the first generic record that is exact", "EXACT, generic", "a last resort: it says less; keep the mark with it"),
    ("fuzzy", "else the first fuzzy record, of either kind", "FUZZY, with its reason", "never to be stored as sure"),
    ("none", "else", "NONE", "no record of the list fits"),
]


def lines(x, y, size, said, step=13.0, **more):
    return [svg.text(x, y + step * place, size, line, **more) for place, line in enumerate(said)]


def answer(x, y, wide, kind, said, size=14.0):
    """A box of an answer: exact white on black, fuzzy on dots with a dashed frame, none plain."""
    fill = {"exact": DARK, "fuzzy": TOLERATED, "none": "white"}[kind]
    yield svg.box(x, y, wide, 30, fill, strength=1.8, dash="6 3" if kind == "fuzzy" else "", round_=5)
    if kind == "fuzzy":
        yield svg.box(x + wide / 2 - 4.6 * len(said), y + 6, 9.2 * len(said), 18, stroke="none")
    yield svg.text(x + wide / 2, y + 20, size, said, bold=True, fill="white" if kind == "exact" else "black", middle=True)


def gates(top):
    yield svg.text(LEFT, top, 13, "1. Seven gates. A record that fails one of them does not fit.", bold=True)
    wide, step = 134, 154.6
    y = top + 12
    for place, (name, rule) in enumerate(GATES):
        x = LEFT + step * place
        yield svg.box(x, y, wide, 54, "white", strength=1.3)
        yield svg.text(x + wide / 2, y + 17, 12.5, name, bold=True, middle=True)
        yield from lines(x + wide / 2, y + 33, 10.5, rule, middle=True)
        if place + 1 < len(GATES):
            yield svg.way([(x + wide, y + 27), (x + step - 6, y + 27)], strength=1.6)
            yield svg.head(x + step, y + 27)


COLUMNS = [(130, 250, "white", "fits"), (410, 250, TOLERATED, "is tolerated"), (690, 250, "white", "does not fit")]


def judged(top):
    yield svg.text(LEFT, top, 13, "2. All seven hold: then the TTL and the quirks, judged together.", bold=True)
    yield svg.text(LEFT + 500, top, 10.5, MASKED)
    y = top + 12
    for x, wide, fill, name in COLUMNS:
        yield svg.text(x + wide / 2, y + 12, 12, name, bold=True, middle=True)
        for row, (_, *cells) in enumerate(JUDGED):
            said = cells[COLUMNS.index((x, wide, fill, name))]
            at = y + 20 + 46 * row
            yield svg.box(x, at, wide, 40, fill, dash="6 3" if fill == TOLERATED else "")
            if fill == TOLERATED:
                yield svg.box(x + 40, at + 5, wide - 80, 30, stroke="none")
            yield from lines(x + wide / 2, at + (24 if len(said) == 1 else 17), 11, said, middle=True)
    for row, (name, *_) in enumerate(JUDGED):
        yield svg.text(LEFT + 20, y + 45 + 46 * row, 12.5, name, bold=True)
    below = y + 20 + 92
    said = ["both here", "one or both here, none at the right", "one or both here"]
    for (x, wide, _, _), kind, words in zip(COLUMNS, ("exact", "fuzzy", "none"), said):
        middle = x + wide / 2
        yield svg.way([(middle, below - 6), (middle, below + 20)], strength=1.6)
        yield svg.head(middle, below + 26, down=True)
        yield svg.text(middle + 10, below + 12, 10.5, words)
        yield from answer(middle - 55, below + 26, 110, kind, {"exact": "exact", "fuzzy": "fuzzy", "none": "none"}[kind])
    yield svg.text(LEFT, below + 46, 12, "The record is", bold=True)


def failing(top, bottom):
    """From each gate, past what is judged, to none."""
    x, bus = 1015, top + 12
    for place in range(len(GATES)):
        middle = LEFT + 154.6 * place + 67
        yield svg.way([(middle, top), (middle, bus)], strength=1.2, dash="3 2")
    yield svg.way([(LEFT + 67, bus), (x, bus), (x, bottom), (880, bottom)], strength=1.2, dash="3 2")
    points = f"872,{svg.number(bottom)} 880,{svg.number(bottom - 4)} 880,{svg.number(bottom + 4)}"
    yield f'<polygon points="{points}" fill="black"/>'
    yield from lines(x + 8, top + 100, 10.5, ["one gate", "fails"])


def search(top):
    yield svg.text(LEFT, top, 13, "3. Of the records of the list, in its order: the first of these that applies.", bold=True)
    for place, (kind, which, said, stored) in enumerate(STEPS):
        y, x = top + 12 + 38 * place, LEFT + 20 + 26 * place
        yield svg.disc(x, y + 15, "abcd"[place], DARK)
        yield svg.text(x + 16, y + 19, 12, which)
        yield svg.way([(x + 28 + 6.6 * len(which), y + 15), (452, y + 15)], strength=1.4)
        yield svg.head(460, y + 15)
        yield from answer(460, y, 220, kind, said)
        yield svg.text(696, y + 19, 12, stored)


def drawn(top):
    yield svg.way([(LEFT, top), (RIGHT, top)], strength=1.0)
    yield svg.text(LEFT, top + 26, 17, "The ladder: from a record of the list to an answer", bold=True)
    yield from gates(top + 52)
    yield from judged(top + 158)
    yield from failing(top + 118, top + 158 + 12 + 112 + 41)
    yield from search(top + 372)


TALL = 372 + 12 + 38 * len(STEPS)
