"""The line that is written of an observation, and of a record of a list, by document 02's Wish 7, the grammar of Wish 1 and document 01's
list alone: a second reading, for tests to compare with.

`ver:ittl:olen:mss:wsize,scale:olayout:quirks:pclass`: no number has a leading zero, quirks stand in display order.
"""
import re

# A bit and a name each, in display order.
QUIRKS = ((1, "df"), (2, "id+"), (3, "id-"), (0, "ecn"), (4, "0+"), (5, "flow"), (12, "seq-"), (13, "ack+"), (14, "ack-"), (15, "uptr+"),
          (16, "urgf+"), (17, "pushf+"), (24, "ts1-"), (25, "ts2+"), (26, "opt+"), (27, "exws"), (28, "bad"))
KINDS = {1: "nop", 2: "mss", 3: "ws", 4: "sok", 5: "sack", 8: "ts"}
TTLS = {"value": "{}", "distance": "{}+{}", "guess": "{}+?", "bad": "{}-"}
WINDOWS = ("*", "{}", "%{}", "mss*{}", "mtu*{}")
LONGEST = 434


def entry(kind, byte):
    """The byte counts beside kind 0 alone."""
    return f"eol+{byte}" if kind == 0 else KINDS.get(kind, f"?{kind}")


def joined(version, ttl, olen, mss, window, scale, layout, quirks, payload):
    names = [name for bit, name in QUIRKS if quirks >> bit & 1]
    return f"{version}:{ttl}:{olen}:{mss}:{window},{scale}:{','.join(entry(*each) for each in layout)}:{','.join(names)}:{payload}"


def into(room, line):
    """What is answered of a line that is to be written into so many bytes; a refusal has come before."""
    if line.startswith("refused"):
        return line
    return "refused 15" if len(line) > room else f"ok {len(line)} {line}"


# ---- an observation

def of_observation(text):
    """The raw line of an observation as tools/ask writes it, or the refusal."""
    said = dict(word.split("=", 1) for word in text.split(" "))
    form, *numbers = said["ttl"].split(":")
    layout = [] if said["layout"] == "-" else [tuple(map(int, each.split("/"))) for each in said["layout"].split(",")]
    if len(layout) > 40:
        return "refused 11"
    mss, scale = (said[name].replace("-", "*") for name in ("mss", "wscale"))
    return joined(said["v"], TTLS[form].format(*numbers), said["olen"], mss, said["wsize"], scale, layout, int(said["quirks"], 16),
                  said["pclass"])


def of_answer(answer):
    """What `rawpacket` answers, by what `observe` does."""
    kind, _, rest = answer.partition(" ")
    return f"{kind} {of_observation(rest)}" if kind in ("syn", "synack") else " ".join(answer.split(" ")[:2])


# ---- a record

def number(data, at, size=2):
    return int.from_bytes(data[at:at + size], "big")


def fits(data):
    """Whether a list's header and both areas lie within it."""
    return len(data) >= 8 and all(number(data, at + 2) + size * number(data, at) <= len(data) for at, size in ((0, 24), (4, 2)))


def record(data, index):
    start = number(data, 2) + 24 * index
    return data[start:start + 24]


def layout_of(data, raw):
    start = number(data, 6) + 2 * number(raw, 18)
    return [tuple(data[at:at + 2]) for at in range(start, start + 2 * raw[20], 2)]


def is_good(data, raw):
    """Whether no condition of document 01, byte 21 by Wish 3, makes a record bad."""
    scalars = (raw[0] in (0, 4, 6) and raw[1] < 4 and (raw[1] == 1 or raw[3] == 0) and raw[5] < 2 and (raw[5] or not number(raw, 6))
               and raw[8] < 5 and (raw[8] or not number(raw, 9)) and (raw[8] < 3 or number(raw, 9) < 256)
               and raw[11] < 2 and (raw[11] or not raw[12]) and raw[13] < 3
               and not number(raw, 14, 4) & ~sum(1 << bit for bit, _ in QUIRKS) and raw[21] < 2)
    return (scalars and raw[20] <= 40 and number(raw, 18) + raw[20] <= number(data, 4)
            and all(kind == 0 or byte == 0 for kind, byte in layout_of(data, raw)))


def of_good(raw, layout):
    """The line of a well-formed record's 24 bytes and its entries."""
    ttl = list(TTLS.values())[raw[1]].format(raw[2], raw[3])
    return joined({0: "*"}.get(raw[0], raw[0]), ttl, raw[4], number(raw, 6) if raw[5] else "*", WINDOWS[raw[8]].format(number(raw, 9)),
                  raw[12] if raw[11] else "*", layout, number(raw, 14, 4), "0+*"[raw[13]])


def of_record(data, index):
    """The line of a list's record, or the refusal."""
    if not fits(data):
        return "refused 9"
    for at in range(number(data, 0)):
        if not is_good(data, record(data, at)):
            return f"refused 10 {at}"
    if index >= number(data, 0):
        return "refused 23"
    return of_good(record(data, index), layout_of(data, record(data, index)))


# ---- written form

def is_written(line):
    """Whether a line that is read is in written form: no number with a leading zero, the quirks strictly rising in display order."""
    order = [name for _, name in QUIRKS]
    places = [order.index(name) for name in line.split(":")[6].split(",") if name]
    return not re.search(r"(?<!\d)0\d", line) and all(a < b for a, b in zip(places, places[1:]))


def list_of_one(raw, layout):
    """A list with one record, as `line` gives it: its bytes and its entries in hexadecimal."""
    entries = bytes.fromhex(layout.strip("-"))
    return b"".join(n.to_bytes(2, "big") for n in (1, 8, len(entries) // 2, 32)) + bytes.fromhex(raw) + entries
