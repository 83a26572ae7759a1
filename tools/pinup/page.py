"""The page: every TTL byte in a cell, cells of one start together, and the rule in two sentences."""
from pinup.shapes import DIGIT_HEIGHT, Box, Group, Text
from pinup.table import BAD, DISTANCE, VALUE, Unfit

TITLE = "What a TTL byte is taken for"
MADE = "Made by tools/ttl_page from the table by which a TTL is read, crates/ttl/src/table.rt."
LEFT, RIGHT, BOTTOM = 8, 203, 288
COLUMNS = 16
CELLS_LEFT = 25.8  # the start stands left of it
CELL_WIDTH = (RIGHT - CELLS_LEFT) / COLUMNS
CELL_HEIGHT = 13.7
GAP = 2.6  # between two starts
FRAME = 0.25
BYTE, HOPS, WORDS, START, SMALL = 5.5, 5.0, 5.1, 9.0, 2.8  # sizes of letters
FROM_A_METRE = 3.5  # the least height of a digit in a cell: 12 minutes of arc
# The bytes that are explained in words.
EXAMPLES = {DISTANCE: 52, VALUE: 200}


def cell(x, y, entry):
    """The byte; under it `+` and its hops for a Distance, a bar for a Value. A Bad one is white on black."""
    bad, middle = entry.code == BAD, x + CELL_WIDTH / 2
    shapes = [Box(x, y, CELL_WIDTH, CELL_HEIGHT, frame=FRAME, filled=bad)]
    shapes.append(Text(middle, y + 5.9, BYTE, str(entry.byte), bold=True, white=bad, middle=True))
    if entry.code == DISTANCE:
        shapes.append(Text(middle, y + 11.7, HOPS, f"+{entry.guess}", middle=True))
    if entry.code == VALUE:
        shapes.append(Box(x + 1.4, y + 8.5, CELL_WIDTH - 2.8, 2.7, filled=True))
    return Group(entry.said(), shapes)


def rows_of(entries):
    return [entries[at:at + COLUMNS] for at in range(0, len(entries), COLUMNS)]


def band(y, start, entries):
    """The bytes of one start, with the start left of them."""
    rows = rows_of(entries)
    middle = y + CELL_HEIGHT * len(rows) / 2
    shapes = [Text(LEFT, middle - 4.4, WORDS, "start"), Text(LEFT, middle + 4.4, START, str(start), bold=True)]
    for line, row in enumerate(rows):
        shapes += [cell(CELLS_LEFT + CELL_WIDTH * column, y + CELL_HEIGHT * line, entry) for column, entry in enumerate(row)]
    return shapes, y + CELL_HEIGHT * len(rows) + GAP


def example(x, y, entry, words):
    lines = [Text(x + CELL_WIDTH + 2, y + 5.6 + 5.8 * line, WORDS, text) for line, text in enumerate(words)]
    return cell(x, y, entry).shapes + lines


def first_row(y, entries):
    """The bytes that are Bad; and right of them how a cell is read."""
    bad = [entry for entry in entries if entry.code == BAD]
    near, far = (entries[byte] for byte in EXAMPLES.values())
    if len(bad) != 1 or (near.code, far.code) != tuple(EXAMPLES):
        raise Unfit("the page has room for one Bad byte, and explains a Distance and a Value")
    shapes = [Text(LEFT, y + 9, 7.5, "Bad", bold=True), cell(CELLS_LEFT, y, bad[0])]
    shapes.append(Text(CELLS_LEFT + CELL_WIDTH + 5, y + 8.5, WORDS, "Read:"))
    shapes += example(60, y, near, [f"a Distance of {near.guess}", f"hops from {near.start}"])
    shapes += example(127, y, far, ["a Value: no hops and", "no start are claimed"])
    return shapes, y + CELL_HEIGHT + GAP


def wrapped(text, most):
    """A sentence in lines of at most so many letters."""
    lines = [""]
    for word in text.split(" "):
        if lines[-1] and len(lines[-1]) + 1 + len(word) > most:
            lines.append("")
        lines[-1] += (" " if lines[-1] else "") + word
    return lines


def drawn(entries, rule):
    """The shapes of the page."""
    shapes, y = [Text(LEFT, 17, START, TITLE, bold=True)], 26
    for line in [line for sentence in rule.sentences() for line in wrapped(sentence, 80)]:
        shapes.append(Text(LEFT, y, WORDS, line))
        y += 6.4
    row, y = first_row(y - 1.5, entries)
    shapes += row
    for start in rule.starts:
        row, y = band(y, start, [entry for entry in entries if entry.start == start and entry.code != BAD])
        shapes += row
    if y - GAP > BOTTOM:
        raise Unfit("the rows do not fit on the page")
    if min(BYTE, HOPS) * DIGIT_HEIGHT < FROM_A_METRE:
        raise Unfit("the digits of a cell are too small to be read from a metre")
    return shapes + [Text(LEFT, 293, SMALL, MADE)]
