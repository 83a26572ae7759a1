"""Why a text is no signature line here (docs/FORMATS.md, "Signature line"), in words."""

import re

from lines import KINDS, NAMES, QUIRKS

LONGEST, ENTRIES = 512, 40
BYTE, WORD = 255, 65535


class NoLine(Exception):
    """Its text says why."""


def number(text, most, what):
    if not text:
        raise NoLine(f"{what}: a number without digits")
    if not re.fullmatch("[0-9]+", text):
        raise NoLine(f"{what}: {text!r} is no number")
    if int(text) > most:
        raise NoLine(f"{what}: over {most}")
    return int(text)


def one_of(text, words, what):
    if text not in tuple(words):
        raise NoLine(f"{what}: {text!r} is none of {' '.join(words)}")


def number_or_any(text, most, what):
    if text != "*":
        number(text, most, what)


def ttl(text):
    start, plus, hops = text.partition("+")
    if plus:
        number(start, BYTE, "TTL")
        if hops != "?":
            number(hops, BYTE, "hops")
    else:
        number(text.removesuffix("-"), BYTE, "TTL")


def window(text):
    for start in ("mss*", "mtu*"):
        if text.startswith(start):
            number(text.removeprefix(start), BYTE, "multiple")
            return
    if text.startswith("%"):
        number(text.removeprefix("%"), WORD, "modulus")
    else:
        number_or_any(text, WORD, "window")


def parts(text, what):
    """What stands between the commas."""
    if text.endswith(","):
        raise NoLine(f"{what}: a comma at the end")
    return text.split(",") if text else []


def entry(text):
    if text.startswith("eol+"):
        number(text.removeprefix("eol+"), BYTE, "eol+")
    elif text.startswith("?"):
        name = {0: "eol+n", **NAMES}.get(number(text.removeprefix("?"), BYTE, "kind of an option"))
        if name:
            raise NoLine(f"layout: {text} is a kind that has a name, {name}")
    else:
        one_of(text, [*KINDS, "eol+n", "?n"], "layout")


def must_be_line(text):
    """Nothing, if the text is a signature line."""
    if len(text) > LONGEST:
        raise NoLine(f"over {LONGEST} bytes")
    fields = text.split(":")
    if len(fields) != 8:
        raise NoLine(f"{len(fields)} fields with colons between, not 8")
    size, comma, scale = fields[4].partition(",")
    if not comma:
        raise NoLine("window: no comma and scale behind it")
    one_of(fields[0], "46*", "version")
    ttl(fields[1])
    number(fields[2], BYTE, "option length")
    number_or_any(fields[3], WORD, "MSS")
    window(size)
    number_or_any(scale, BYTE, "scale")
    layout = parts(fields[5], "layout")
    for option in layout:
        entry(option)
    if len(layout) > ENTRIES:
        raise NoLine(f"layout: over {ENTRIES} entries")
    for quirk in parts(fields[6], "quirks"):
        one_of(quirk, QUIRKS, "quirks")
    one_of(fields[7], "0+*", "payload")


def why_not(text):
    """Why the text is no line; nothing, if it is one."""
    try:
        must_be_line(text)
    except NoLine as why:
        return str(why)
    return None
