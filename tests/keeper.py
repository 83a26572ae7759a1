"""A second reading of docs/FORMATS.md, "Keeper's file", for tests to compare with: which list is made of a file, which refusal, and which
file is written of a list.

Which bytes a line goes on with is asked of the grammar itself: the ways that are left behind each byte, all of them at once. What a
signature line means is read by tools/p0f/src/lines.py, what is written of a record by rawlines.py.
"""
import os
import re
import struct
import sys
from functools import cache
from typing import NamedTuple

sys.path.append(os.path.join(os.path.dirname(os.path.dirname(os.path.abspath(__file__))), "tools", "p0f", "src"))

import rawlines  # noqa: E402
from lines import KINDS, QUIRKS, line_of, record_of  # noqa: E402

BAD_LINE, NO_ROOM, MANY_SIGNATURES, MANY_ENTRIES = 13, 15, 24, 25
NO_LIST, BAD_RECORD = 9, 10
BYTE, WORD = 255, 65535
LONGEST, LAYOUT, SIGNATURES, ENTRIES = 512, 40, 65535, 32763


# ---- the grammar

class Number(NamedTuple):
    """Digits, one at least, whose number never goes over the most; it does not end with one of `barred`. `value`: of those so far."""
    most: int
    barred: frozenset = frozenset()
    value: int | None = None


class OneOf(NamedTuple):
    ways: tuple


class Listed(NamedTuple):
    """Nothing, or a comma, an item and more of the same, so often at most."""
    item: tuple
    left: float


def words(*names):
    return OneOf(tuple((name.encode(),) for name in names))


VERSION, PAYLOAD = words("4", "6", "*"), words("0", "+", "*")
TTL = (Number(BYTE), OneOf(((), (b"+", Number(BYTE)), (b"+?",), (b"-",))))
MSS = OneOf(((b"*",), (Number(WORD),)))
WINDOW = OneOf(((b"*",), (Number(WORD),), (b"%", Number(WORD)), (b"mss*", Number(BYTE)), (b"mtu*", Number(BYTE))))
SCALE = OneOf(((b"*",), (Number(BYTE),)))
ENTRY = OneOf(((b"eol+", Number(BYTE)), (b"?", Number(BYTE, frozenset({0, *KINDS.values()}))), *((name.encode(),) for name in KINDS)))
QUIRK = words(*QUIRKS)


def any_of(item, most):
    return OneOf(((), (item, Listed((item,), most - 1))))


LINE = (VERSION, b":", *TTL, b":", Number(BYTE), b":", MSS, b":", WINDOW, b",", SCALE, b":", any_of(ENTRY, LAYOUT), b":",
        any_of(QUIRK, float("inf")), b":", PAYLOAD)
KEPT = (Number(WORD), b" ", OneOf(((), (b"g ",))), *LINE)


def opened(way):
    """The ways that a way stands for, each with a byte or a digit to come; the empty one has ended."""
    if not way:
        return {way}
    first, rest = way[0], way[1:]
    if isinstance(first, OneOf):
        return set().union(*(opened((*each, *rest)) for each in first.ways))
    if isinstance(first, Listed):
        more = opened((b",", *first.item, Listed(first.item, first.left - 1), *rest)) if first.left else set()
        return opened(rest) | more
    if first == b"":
        return opened(rest)
    if isinstance(first, Number) and first.value is not None and first.value not in first.barred:
        return {way} | opened(rest)
    return {way}


def behind(way, byte):
    """What is left of an opened way behind a byte: no way, if it does not go on with it."""
    if not way:
        return set()
    first, rest = way[0], way[1:]
    if isinstance(first, bytes):
        return opened((first[1:], *rest)) if first[0] == byte else set()
    value = 10 * (first.value or 0) + byte - ord("0")
    return opened((first._replace(value=value), *rest)) if byte in b"0123456789" and value <= first.most else set()


@cache
def all_behind(ways, byte):
    return frozenset().union(*(behind(way, byte) for way in ways))


START = frozenset(opened(KEPT))


# ---- a line of the file

def plain(digits):
    """The digits of a number without its leading zeros; of one that is far over any bound only some."""
    return int(digits.lstrip(b"0")[:9] or b"0")


def start_of_line(text):
    """Where the signature line starts, behind label and `g`; nothing, if these are not there."""
    head = re.match(rb"([0-9]+) (?:g |(?!g))", text)
    return head.end() if head and plain(head[1]) <= WORD else None


@cache
def refused_at(text):
    """The offset of refusal 13; nothing, if the text is a signature."""
    start = start_of_line(text)
    if start is not None and len(text) - start > LONGEST:
        return start + LONGEST
    ways = START
    for at, byte in enumerate(text):
        ways = all_behind(ways, byte)
        if not ways:
            return at
    return None if () in ways else len(text)


@cache
def meaning(text):
    label, *mark, line = text.split(b" ")
    return line_of(plain(label), True, "g:x" if mark else "s:x", line.decode())


# ---- the file

def lines_of(file):
    """The lines without their ends."""
    *ended, last = file.split(b"\n")
    return [line.removesuffix(b"\r") for line in ended] + [last] * (last != b"")


def signatures(file):
    """The lines that are not passed over, each with its number."""
    return [(number, text) for number, text in enumerate(lines_of(file), 1) if text and not text.startswith(b";")]


def compile(file, room=None):  # noqa: A001
    """The bytes of the list, or the refusal: its number, the line, the offset. `room`: the buffer's bytes, if they are counted."""
    kept = signatures(file)
    for number, text in kept:
        if refused_at(text) is not None:
            return BAD_LINE, number, refused_at(text)
    records, entries = bytearray(), bytearray()
    for number, text in kept:
        line = meaning(text)
        if len(records) == 24 * SIGNATURES:
            return MANY_SIGNATURES, number, 0
        if len(entries) // 2 + len(line.layout) > ENTRIES:
            return MANY_ENTRIES, number, 0
        records += record_of(line, len(entries) // 2)
        entries += bytes(byte for entry in line.layout for byte in entry)
    made = struct.pack(">HHHH", len(records) // 24, 8 + len(entries), len(entries) // 2, 8) + entries + records
    return bytes(made) if room is None or len(made) <= room else (NO_ROOM, 0, 0)


# ---- the way back

def kept_text(data, raw):
    """The line of a record that is well formed, with its end."""
    return f"{rawlines.number(raw, 22)} {'g ' if raw[21] else ''}{rawlines.of_good(raw, rawlines.layout_of(data, raw))}\n".encode()


def show(data):
    """The file of a list, or the refusal: 9, or 10 with the record's index."""
    if not rawlines.fits(data):
        return (NO_LIST,)
    records = [rawlines.record(data, index) for index in range(rawlines.number(data, 0))]
    for index, raw in enumerate(records):
        if not rawlines.is_good(data, raw):
            return BAD_RECORD, index
    return b"".join(kept_text(data, raw) for raw in records)
