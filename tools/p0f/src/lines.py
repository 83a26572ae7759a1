"""Lines of a p0f list, and the signature list of document 01 made from them."""

import re
import struct
from dataclasses import dataclass, replace

QUIRKS = {
    "df": 0x2, "id+": 0x4, "id-": 0x8, "ecn": 0x1, "0+": 0x10, "flow": 0x20,
    "seq-": 0x1000, "ack+": 0x2000, "ack-": 0x4000, "uptr+": 0x8000, "urgf+": 0x10000, "pushf+": 0x20000,
    "ts1-": 0x1000000, "ts2+": 0x2000000, "opt+": 0x4000000, "exws": 0x8000000, "bad": 0x10000000,
}
KINDS = {"nop": 1, "mss": 2, "ws": 3, "sok": 4, "sack": 5, "ts": 8}
NAMES = {kind: name for name, kind in KINDS.items()}
ANY, VALUE, MODULUS, MSS, MTU = range(5)
TTL_VALUE, TTL_DISTANCE, TTL_GUESS, TTL_BAD = range(4)


@dataclass(frozen=True)
class Line:
    number: int
    request: bool
    label: str
    text: str
    generic: bool
    tool: bool
    version: int
    ttl_form: int
    ttl: int
    hops: int
    olen: int
    mss: int | None
    window_form: int
    window: int
    scale: int | None
    layout: tuple
    quirks: int
    payload: int

    @property
    def initial(self):
        return min(255, self.ttl + self.hops)


def ttl_of(text):
    if text.endswith("-"):
        return TTL_BAD, int(text[:-1]), 0
    if text.endswith("+?"):
        return TTL_GUESS, int(text[:-2]), 0
    if "+" in text:
        ttl, hops = text.split("+")
        return TTL_DISTANCE, int(ttl), int(hops)
    return TTL_VALUE, int(text), 0


def window_of(text):
    if text == "*":
        return ANY, 0
    for start, form in (("mss*", MSS), ("mtu*", MTU), ("%", MODULUS)):
        if text.startswith(start):
            return form, int(text[len(start):])
    return VALUE, int(text)


def option_of(text):
    if text.startswith("eol+"):
        return 0, int(text[4:])
    if text.startswith("?"):
        return int(text[1:]), 0
    return KINDS[text], 0


def number_or_any(text):
    return None if text == "*" else int(text)


def names(text):
    return [n for n in text.split(",") if n]


def line_of(number, request, label, text):
    version, ttl, olen, mss, window, layout, quirks, payload = text.split(":")
    size, scale = window.split(",")
    form, initial, hops = ttl_of(ttl)
    window_form, amount = window_of(size)
    bits = 0
    for name in names(quirks):
        bits |= QUIRKS[name]
    return Line(
        number, request, label, text, label.startswith("g:"), label.split(":")[1] == "!",
        0 if version == "*" else int(version), form, initial, hops, int(olen), number_or_any(mss), window_form, amount,
        number_or_any(scale), tuple(option_of(o) for o in names(layout)), bits, "0+*".index(payload))


def read_lines(path):
    """The lines of the sections tcp:request and tcp:response, in the order of the file."""
    section = label = ""
    lines = []
    with open(path, encoding="utf-8") as file:
        for number, row in enumerate(file, 1):
            row = row.strip()
            if row.startswith("["):
                section = row
            match = re.match(r"(label|sig)\s*=\s*(.*)", row)
            if not match or section not in ("[tcp:request]", "[tcp:response]"):
                continue
            if match[1] == "label":
                label = match[2]
            else:
                lines.append(line_of(number, section == "[tcp:request]", label, match[2]))
    return lines


def record_of(line, first):
    return struct.pack(
        ">BBBBBBHBHBBBIHBBH", line.version, line.ttl_form, line.ttl, line.hops, line.olen, line.mss is not None, line.mss or 0,
        line.window_form, line.window, line.scale is not None, line.scale or 0, line.payload, line.quirks, first,
        len(line.layout), line.generic, line.number)


def list_of(lines):
    """Document 01's list: the records in order, each line's number as its label, its kind (1 for a label of g) as byte 21."""
    records = entries = b""
    for line in lines:
        records += record_of(line, len(entries) // 2)
        entries += bytes(b for entry in line.layout for b in entry)
    header = struct.pack(">HHHH", len(lines), 8, len(entries) // 2, 8 + len(records))
    return header + records + entries


def repaired(line):
    """The line with any MSS and any scale where its layout has no such option; p0f writes 0 there."""
    kinds = [kind for kind, _ in line.layout]
    return replace(line, mss=line.mss if 2 in kinds else None, scale=line.scale if 3 in kinds else None)


def relabelled(lines):
    """The same lines as a file for p0f in which each line has a label of its own: its number."""
    out = ["classes = win,unix,other"]
    for request in (True, False):
        out.append("[tcp:request]" if request else "[tcp:response]")
        for line in lines:
            if line.request == request:
                kind, family = line.label.split(":")[:2]
                out.append(f"label = {kind}:{family}:L:{line.number}")
                if line.tool:
                    out.append("sys = @unix,@win")
                out.append(f"sig = {line.text}")
    return "\n".join(out) + "\n"
