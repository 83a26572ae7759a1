"""The packet of the picture, its raw line, and what each of its bytes goes to.

The packet is the first of tests/stored/observe.in, a SYN over IPv4 of 60 bytes. Its observation stands in observe.out, and raw.in and
raw.out have the line of that observation: the gate asks the library for both (tests/ask).
"""
import os

ROOT = os.path.dirname(os.path.dirname(os.path.dirname(os.path.abspath(__file__))))
STORED = "tests/stored"


class Unfit(Exception):
    """Of a packet that the picture cannot show as it is."""


def stored(name):
    with open(os.path.join(ROOT, STORED, name), encoding="ascii") as file:
        return file.read().split("\n")


def packet_and_line():
    packet = bytes.fromhex(stored("observe.in")[0].split(" ")[1])
    kind, observation = stored("observe.out")[0].split(" ", 1)
    for asked, answered in zip(stored("raw.in"), stored("raw.out")):
        if asked.partition(" ")[2] == observation and answered.startswith("ok ") and kind == "syn":
            return packet, answered.split(" ")[2]
    raise Unfit(f"{STORED} has no raw line of its first packet")


# ---- the fields of a line

COLOURS = {1: "#1f5fa8", 2: "#b3541e", 3: "#4f6f12", 4: "#7b3fa0", 5: "#0b6f6a", 6: "#a61c5b", 7: "#24602b", 8: "#b02318", 9: "#6b5300"}
TINTS = {1: "#cfe0f4", 2: "#f6dcc8", 3: "#e2ecc4", 4: "#e6d6f0", 5: "#c9e9e6", 6: "#f5d0e1", 7: "#d0e8d2", 8: "#fad4cf", 9: "#efe6bd"}
NAMES = {1: "version", 2: "TTL, and hops behind it", 3: "IP option bytes", 4: "MSS", 5: "window", 6: "scale", 7: "layout of options",
         8: "quirks", 9: "payload: none"}


def fields_of(line):
    """The nine fields of a line; its window and scale are two of them."""
    parts = line.split(":")
    return dict(enumerate(parts[:4] + parts[4].split(",") + parts[5:], 1))


# ---- the bytes

FREE, ZERO_OR_NOT, ASKED, FIELD = "free", "zero or not", "asked", "field"


class Part:
    """Bytes from a place up to another, which is not among them: what they are, to which fields they go, which quirks they can show.

    `half` is 0 or 1 for the upper or lower four bits of a byte.
    """

    def __init__(self, start, end, name, kind, fields=(), quirks="", half=None):
        self.start, self.end, self.name, self.kind = start, end, name, kind
        self.fields, self.quirks, self.half = fields, quirks, half


# Document 01, "Free bytes of demand 3", and alike/specs/Free.antt, of an IPv4 header of 20 bytes and a TCP header with these options.
PARTS = [
    Part(0, 1, "ver", FIELD, (1,), half=0),
    Part(0, 1, "len", FIELD, (3, 9), half=1),
    Part(1, 2, "service", FIELD, (8,), "ecn"),
    Part(2, 4, "total length", FIELD, (9,)),
    Part(4, 6, "identification", ZERO_OR_NOT, (8,), "id+ id-"),
    Part(6, 7, "flags", FIELD, (8,), "df 0+"),
    Part(7, 8, "offset", ASKED),
    Part(8, 9, "TTL", FIELD, (2,)),
    Part(9, 10, "proto.", ASKED),
    Part(10, 12, "checksum", FREE),
    Part(12, 16, "source address", FREE),
    Part(16, 20, "destination address", FREE),
    Part(20, 22, "source port", FREE),
    Part(22, 24, "dest. port", FREE),
    Part(24, 28, "sequence number", ZERO_OR_NOT, (8,), "seq-"),
    Part(28, 32, "acknowledgment number", ZERO_OR_NOT, (8,), "ack+ ack-"),
    Part(32, 33, "offset", FIELD, (7, 9), half=0),
    Part(32, 33, "", FREE, half=1),
    Part(33, 34, "flags", FIELD, (8,), "ecn urgf+ pushf+"),
    Part(34, 36, "window", FIELD, (5,)),
    Part(36, 38, "checksum", FREE),
    Part(38, 40, "urgent ptr.", ZERO_OR_NOT, (8,), "uptr+"),
    Part(40, 42, "MSS option", FIELD, (7,)),
    Part(42, 44, "its number", FIELD, (4,)),
    Part(44, 46, "SACK ok", FIELD, (7,)),
    Part(46, 48, "timestamps", FIELD, (7,)),
    Part(48, 52, "own timestamp", ZERO_OR_NOT, (8,), "ts1-"),
    Part(52, 56, "peer's timestamp", ZERO_OR_NOT, (8,), "ts2+"),
    Part(56, 57, "nop", FIELD, (7,)),
    Part(57, 59, "scale opt.", FIELD, (7,)),
    Part(59, 60, "scale", FIELD, (6, 8), "exws"),
]


def said_by(packet):
    """The fields as the places of PARTS say them, of such a packet; held against the stored line."""
    if [at for part in PARTS if part.half != 1 for at in range(part.start, part.end)] != list(range(len(packet))):
        raise Unfit("the parts of the picture are not the packet's bytes, one after the other")
    kinds = [packet[at] for at in (40, 44, 46, 56, 57)] if len(packet) == 60 else []
    if kinds != [2, 4, 8, 1, 3] or packet[0] != 0x45 or packet[32] >> 4 != 10:
        raise Unfit("the packet is not an IPv4 SYN of 60 bytes with the options mss, sok, ts, nop, ws")
    start = min(start for start in (32, 64, 128, 255) if start >= packet[8])
    return {1: str(packet[0] >> 4), 2: f"{packet[8]}+{start - packet[8]}", 3: str(4 * (packet[0] % 16) - 20),
            4: str(int.from_bytes(packet[42:44], "big")), 5: str(int.from_bytes(packet[34:36], "big")), 6: str(packet[59]),
            7: "mss,sok,ts,nop,ws", 8: "df", 9: "0" if int.from_bytes(packet[2:4], "big") == 20 + 40 else "+"}
