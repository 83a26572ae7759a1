"""The packet as three rows of bytes, with ways from each to the fields of its line."""
from picture import svg
from picture.packet import ASKED, COLOURS, FREE, NAMES, PARTS, TINTS, ZERO_OR_NOT

LEFT, CELL, TALL, IN_A_ROW = 20, 38, 38, 20
RIGHT = LEFT + CELL * IN_A_ROW
ROWS = ["IP header, bytes 0 to 19", "TCP header, bytes 20 to 39", "TCP options, bytes 40 to 59"]
ROW_TALL = 153
ABOVE = 42  # from a row's top to its cells: its title, the names, the places
BELOW = TALL + 16  # from the cells' top to the first lane: the quirks that a part can show
LANE = 9
# The lanes of each row from above: what comes from furthest left runs lowest, so that few ways cross.
LANES = [[2, 8, 9, 3, 1], [5, 9, 7, 8], [6, 8, 4, 7]]
# The upright ways beside the rows, from left to right, in the order with the fewest crossings.
UPRIGHT = [1, 2, 3, 5, 6, 9, 8, 4, 7]
UPRIGHT_LEFT, UPRIGHT_STEP = RIGHT + 14, 10
BOX_LEFT, BOX_WIDE, BOX_TALL, BOX_STEP = 902, 180, 42, 50.5
DASH = {8: "5 2"}


def cells_top(top, row):
    return top + ROW_TALL * row + ABOVE


def lane_y(top, row, field):
    return cells_top(top, row) + BELOW + LANE * LANES[row].index(field)


def upright_x(field):
    return UPRIGHT_LEFT + UPRIGHT_STEP * UPRIGHT.index(field)


def box_y(top, field):
    """The middle of a field's box."""
    return top + 12 + BOX_TALL / 2 + BOX_STEP * (field - 1)


def fill_of(part):
    return {FREE: svg.GREY, ZERO_OR_NOT: "url(#stripes)", ASKED: "white"}.get(part.kind) or TINTS[part.fields[0]]


def extent(part):
    """From where to where a part lies in its row."""
    left = LEFT + CELL * (part.start % IN_A_ROW)
    if part.half is None:
        return left, left + CELL * (part.end - part.start)
    return left + CELL / 2 * part.half, left + CELL / 2 * (part.half + 1)


def digits(packet, part, at):
    return packet[at:at + 1].hex() if part.half is None else packet[at:at + 1].hex()[part.half]


def drop_x(part, field):
    """Where the way of one of its fields leaves a part."""
    left, right = extent(part)
    return left + (right - left) * (2 * part.fields.index(field) + 1) / (2 * len(part.fields))


def byte_cells(packet, part, y):
    left, right = extent(part)
    wide = (right - left) / (part.end - part.start)
    for at in range(part.start, part.end):
        x = left + wide * (at - part.start)
        yield svg.box(x, y, wide, TALL, fill_of(part), strength=0.8)
        if part.kind == ZERO_OR_NOT:
            yield svg.box(x + 7, y + 5, wide - 14, TALL - 7, stroke="none")
        yield svg.text(x + wide / 2, y + (20 if part.fields else 24), 14, digits(packet, part, at), mono=True, middle=True)
        if part.fields:
            said = ",".join(str(field) for field in part.fields)
            yield svg.text(x + wide / 2, y + TALL - 5, 9, said, bold=True, fill=COLOURS[part.fields[0]], middle=True)
        if part.half != 1:
            yield svg.text(LEFT + CELL * (at % IN_A_ROW) + CELL / 2, y - 3, 8.5, str(at), fill="#555555", middle=True)


def names(part, y):
    """What a part is, above it, and the quirks that it can show, below it."""
    left, right = extent(part)
    if part.half is None:
        yield svg.text((left + right) / 2, y - 14, 9.5, part.name, middle=True)
    elif part.half == 0 and part.name:
        joined = "/".join(other.name for other in PARTS if other.start == part.start and other.name)
        yield svg.text(left + CELL / 2, y - 14, 9.5, joined, middle=True)
    if part.quirks:
        yield svg.text(drop_x(part, 8), y + TALL + 11, 9, part.quirks, fill=COLOURS[8], middle=True)


def drops(part, y, top, row):
    """A way down from a part to the lane of each of its fields, with a dot where it joins."""
    for field in part.fields:
        x, lane = drop_x(part, field), lane_y(top, row, field)
        start = y + TALL + (14 if part.quirks and field == 8 else 0)
        yield svg.way([(x, start), (x, lane)], COLOURS[field], dash=DASH.get(field, ""))
        yield svg.dot(x, lane, COLOURS[field])


def lane_start(row, field):
    return min(drop_x(part, field) for part in PARTS if part.start // IN_A_ROW == row and field in part.fields)


def lanes(top):
    """Along the rows to the upright ways."""
    for row, fields in enumerate(LANES):
        for field in fields:
            y = lane_y(top, row, field)
            yield svg.way([(lane_start(row, field), y), (upright_x(field), y)], COLOURS[field], dash=DASH.get(field, ""))
            yield svg.dot(upright_x(field), y, COLOURS[field])


def uprights(top):
    """Up or down to the boxes."""
    for field in NAMES:
        x, out = upright_x(field), box_y(top, field)
        ys = [lane_y(top, row, field) for row, fields in enumerate(LANES) if field in fields]
        yield svg.way([(x, min(ys + [out])), (x, max(ys + [out]))], COLOURS[field], dash=DASH.get(field, ""))
        yield svg.way([(x, out), (BOX_LEFT - 5, out)], COLOURS[field], dash=DASH.get(field, ""))
        yield svg.head(BOX_LEFT, out, COLOURS[field])


def boxes(top, fields):
    for field, said in fields.items():
        y = box_y(top, field) - BOX_TALL / 2
        yield svg.box(BOX_LEFT, y, BOX_WIDE, BOX_TALL, TINTS[field], COLOURS[field], 1.4)
        yield svg.disc(BOX_LEFT + 15, y + BOX_TALL / 2, str(field), COLOURS[field])
        yield svg.text(BOX_LEFT + 30, y + 18, 14, said, bold=True, mono=True)
        yield svg.text(BOX_LEFT + 30, y + 34, 10.5, NAMES[field])


def drawn(top, packet, fields):
    for row, title in enumerate(ROWS):
        yield svg.text(LEFT, top + ROW_TALL * row + 14, 12, title, bold=True)
    yield from uprights(top)
    yield from lanes(top)
    for part in PARTS:
        row = part.start // IN_A_ROW
        y = cells_top(top, row)
        yield from drops(part, y, top, row)
        yield from byte_cells(packet, part, y)
        yield from names(part, y)
    yield from boxes(top, fields)


def whole_line(top, line, fields):
    """The line as it is printed, with the number of each field under it."""
    yield svg.text(LEFT, top, 13, "The raw line of this packet, field by field:", bold=True)
    wide, x, place = 14.5, LEFT + 20, 0
    for field, said in fields.items():
        place = line.index(said, place)
        left, right = x + wide * place, x + wide * (place + len(said))
        yield svg.box(left - 1, top + 12, right - left + 2, 30, TINTS[field], COLOURS[field], 1.2)
        yield svg.disc((left + right) / 2, top + 54, str(field), COLOURS[field])
        place += len(said)
    for at, sign in enumerate(line):
        yield svg.text(x + wide * (at + 0.5), top + 34, 21, sign, mono=True, middle=True)


def legend(top):
    """How the cells are told apart."""
    rows = [
        (svg.GREY, "grey", "free: any value, the same answer and the same line"),
        ("url(#stripes)", "striped", "free while zero stays zero, and not zero stays not zero"),
        (TINTS[7], "tinted", "goes to the fields whose numbers stand in it"),
        ("white", "white", "asked before (no fragment; protocol TCP), in no field"),
    ]
    x, y = 706, top - 10
    for place, (fill, name, said) in enumerate(rows):
        yield svg.box(x, y + 19 * place, 26, 14, fill, strength=0.8)
        yield svg.text(x + 32, y + 19 * place + 11, 10.5, f"{name}: {said}")
