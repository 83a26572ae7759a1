"""A model of what p0f loads: the grammar of a line, changed by the rules of loads.py; random lines from a fixed seed against p0f."""

import random
import re
from collections import Counter

from lines import KINDS, MODULUS, MSS, MTU, NAMES, QUIRKS, TTL_GUESS, line_of
from parsed import asked

SHAPE = re.compile(
    r"[46*]:\d+(?:\+\?|\+\d+|-)?:\d+:(?:\*|\d+):(?:\*|%?\d+|mss\*\d+|mtu\*\d+),(?:\*|\d+):([^:]*):([^:]*):[0+*]", re.ASCII)
ENTRY = re.compile(r"eol\+\d+|\?\d+|" + "|".join(KINDS), re.ASCII)
NUMBER = re.compile(r"(?<![0-9])[0-9]+")
SEED, GOOD, CHANGED = 61, 2000, 4000


# ---- the model

def named(match):
    """The name of a kind; 0, which p0f keeps apart from an end of options, as a kind that has none."""
    return {0: "?77", **NAMES}.get(int(match[1]), match[0])


def behind_minus(text):
    """A minus behind the TTL: with a colon, the byte behind that is passed over; without one, it stands for the colon."""
    minus = re.match(r"([46*]:\d+)-(:.)?(.*)", text)
    if not minus:
        return text, []
    if not minus[2]:
        return f"{minus[1]}:{minus[3]}", ["minus for a colon"]
    length = "0" if minus[3].startswith(":") else ""
    return f"{minus[1]}-:{length}{minus[3]}", [] if is_line(text) else ["byte behind a bad ttl"]


def mended(text):
    """The line that p0f's loader takes this one for, with the rules that it takes: those by which p0f loads more."""
    text, used = behind_minus(text)
    fields = text.split(":")

    def change(name, at, new):
        if fields[at] != new:
            used.append(name)
            fields[at] = new

    if len(fields) != 8:
        return text, used
    change("no digits", 1, re.sub(r"^\+(\d+)$", r"\1+\1", re.sub(r"^(\d+)\+$", r"\1", fields[1])))
    change("no digits", 2, fields[2] or "0")
    change("no digits", 3, fields[3] or "0")
    change("no digits", 4, re.sub(r",$", ",0", re.sub(r"^,", "0,", fields[4])))
    change("multiple over 255", 4, re.sub(r"^(mss|mtu)\*0*(25[6-9]|2[6-9]\d|[3-9]\d\d|1000),", r"\1*255,", fields[4]))
    change("comma at the end", 5, re.sub(r"((?:^|,)(?!eol)[^,]+),$", r"\1", fields[5]))
    change("comma at the end", 6, re.sub(r"([^,]),$", r"\1", fields[6]))
    change("no digits", 5, re.sub(r"(eol\+|\?)(?=,|$)", r"\g<1>0", fields[5]))
    change("named kind", 5, re.sub(r"\?(\d{1,9})(?=,|$)", named, fields[5]))
    return ":".join(fields), used


def is_line(text):
    """Whether p0f finds a line's shape and numbers within their fields."""
    shape = SHAPE.fullmatch(text)
    if not shape:
        return False
    layout, quirks = (part.split(",") if part else [] for part in shape.groups())
    fields = text.split(":")
    size, scale = fields[4].split(",")
    bytes_of = [fields[1], fields[2], scale, *layout] + ([size] if size.startswith("m") else [])
    words_of = [fields[3]] + ([] if size.startswith("m") else [size])
    return (all(ENTRY.fullmatch(entry) for entry in layout) and all(quirk in QUIRKS for quirk in quirks)
            and all(int(n) < 256 for part in bytes_of for n in NUMBER.findall(part))
            and all(int(n) < 65536 for part in words_of for n in NUMBER.findall(part)))


def refusals(line):
    """The rules by which p0f does not load a line that is one."""
    kinds = [kind for kind, _ in line.layout]
    other = {6: ("df", "id+", "id-", "0+"), 4: ("flow",)}.get(line.version, ())
    return [name for name, holds in {
        "guessed ttl": line.ttl_form == TTL_GUESS,
        "ttl of 0": line.ttl == 0,
        "ttl over 255": line.ttl + line.hops > 255,
        "small modulus": line.window_form == MODULUS and line.window < 2,
        "multiple of 0": line.window_form in (MSS, MTU) and line.window == 0,
        "end not last": 0 in kinds[:-1],
        "over 24 options": len(kinds) > 24,
        "quirk of the other version": any(line.quirks & QUIRKS[name] for name in other),
    }.items() if holds]


def predicted(text):
    """Whether p0f loads the line, and the rules by which that is not what is done here."""
    good, more = mended(text)
    if not is_line(good):
        return False, []
    fewer = refusals(line_of(1, True, "s:unix:Q:1", good))
    return not fewer, fewer or more + ["over 512 bytes"] * (len(text) > 512)


# ---- random lines

def number(draw, most):
    n = draw.choice((0, 1, 2, 8, 64, 255, most, draw.randrange(most + 1)))
    return "0" * draw.choice((0, 0, 0, 0, 1, 3)) + str(n)


def entry(draw):
    return draw.choice((*KINDS, *KINDS, f"eol+{number(draw, 255)}", f"?{draw.choice((6, 7, 9, 77, 255))}"))


def random_line(draw):
    byte = number(draw, 255)
    ttl = draw.choice((f"{1 + draw.randrange(255)}",) * 4 + (byte, f"{byte}-", f"{byte}+?", f"{byte}+{number(draw, 255)}", f"{byte}+7"))
    size = draw.choice(("*", number(draw, 65535), f"%{number(draw, 65535)}", f"mss*{number(draw, 255)}", f"mtu*{number(draw, 255)}"))
    layout = ",".join(entry(draw) for _ in range(draw.choice((0, 1, 2, 3, 5, 8, 23, 24, 25, 40))))
    quirks = ",".join(draw.choice(list(QUIRKS)) for _ in range(draw.choice((0, 1, 1, 2, 4))))
    mss, scale = draw.choice(("*", number(draw, 65535))), draw.choice(("*", number(draw, 255)))
    return f"{draw.choice('46***')}:{ttl}:{number(draw, 255)}:{mss}:{size},{scale}:{layout}:{quirks}:{draw.choice('0+*')}"


def changed_line(draw, text):
    """One byte put in, taken out or replaced; or what p0f's loader passes over."""
    at = draw.randrange(len(text))
    letter = draw.choice("0123456789:,+-*?%abcdefimnoprstuwx")
    ways = (text[:at] + letter + text[at:], text[:at] + text[at + 1:], text[:at] + letter + text[at + 1:],
            re.sub(r"\d+", "", text, count=1), re.sub(r":\d+([:,])", r":\1", text, count=draw.randrange(1, 3)),
            re.sub(r"(mss|mtu)\*\d+", f"mss*{draw.choice((256, 999, 1000, 1001))}", text), re.sub(r"(eol\+|\?)\d+", r"\1", text),
            re.sub(r"\?\d+", f"?{draw.choice((0, 1, 2, 3, 4, 5, 8, 256))}", text), re.sub(r":([^:]+):([^:]*):(.)$", r":\1,:\2:\3", text),
            re.sub(r":([^:]*):([^:]+):(.)$", r":\1:\2,:\3", text))
    return draw.choice(ways)


def lines():
    draw = random.Random(SEED)
    good = [random_line(draw) for _ in range(GOOD)]
    return good + [changed_line(draw, random_line(draw)) for _ in range(CHANGED)]


def print_loading(loaded, reader):
    """True if p0f loads a line that the model does not, or the other way round, or a difference from the port has no rule."""
    texts, counts, wrong = lines(), Counter(), 0
    for text, row in zip(texts, asked(reader, texts), strict=True):
        here, there = row.startswith("0 "), loaded(text) is True
        says, rules = predicted(text)
        counts[here, there] += 1
        counts.update(rules if here != there else [])
        if says != there or (here != there and not rules) or (here == there and here and rules):
            wrong += 1
            print(f"  {text}: p0f {'loads' if there else 'does not load'} it, the model says {says} by {rules}; here {row}")
    print(f"\n== {len(texts)} random lines: {counts[True, True]} read by both, {counts[True, False]} here alone,"
          f" {counts[False, True]} by p0f alone, {counts[False, False]} by neither; {wrong} not as the model says")
    for name, count in counts.items():
        if isinstance(name, str):
            print(f"  {name}: {count}")
    return bool(wrong)
