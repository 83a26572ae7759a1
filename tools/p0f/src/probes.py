"""Packets made for the rules of rules.py, and packets drawn at random from fixed seeds."""

import random
import struct
from dataclasses import replace

from make import case_of
from packets import ACK, CWR, ECE, PSH, SYN, URG, Case, Fields, changed

MSS_1460 = bytes.fromhex("020405b4")
DAMAGED = (
    "020405", "02000000", "02010000", "020505b4", "020305b4", "03030000", "0304070001010101", "0402", "04030101", "04000000",
    "05020101", "050a000000000000000001", "0523", "0801", "080a000000070000", "080900000007000000000101", "1e01", "1e00", "1e02", "1e29",
    "fe0400", "00000100", "00000001", "01010001", "030f", "03030f", "020405b4020402bc", "0303070303090101",
    "080a0000000000000000080a000000070000000001010101", "080a0000000700000000080a000000000000000001010101",
    "080600000007", "080a00000007000000010101",
)
STAMPS = MSS_1460 + bytes.fromhex("080a0000000000000000080a00000007000000000101")


def multiples():
    """Windows where a sum or a difference leaves 16 bits, and multiples over 32,767."""
    ack = Fields(flags=SYN | ACK, ack=0x01000001, options=MSS_1460)
    big = Fields(options=bytes.fromhex("0204ffdc"), window=65535)
    yield Case("rule", big)
    yield Case("rule", replace(big, version=6))
    for peer, window in ((11, 40000), (11, 30001), (12, 40001), (1, 40001), (1, 30001), (2, 65534), (5, 35007), (24, 25008), (0, 40001)):
        yield Case("rule", replace(ack, window=window), peer=peer)
    yield Case("rule", Fields(options=STAMPS, window=1448 * 3))
    yield Case("rule", Fields(options=bytes.fromhex("020403e80801") + b"\1\1", window=988 * 7))


def lengths(plain):
    """IP lengths, header lengths, data offsets, fragments, bytes past the IP length."""
    six = changed(plain, "rule", version=6)
    yield from (changed(plain, "rule", offset=n) for n in range(16))
    yield from (changed(case, "rule", past=b"xyz") for case in (plain, six))
    yield from (changed(plain, "rule", total=n) for n in (0, 20, 39, 40, 43, 60))
    yield from (changed(six, "rule", total=n) for n in (0, 19, 20, 23, 60))
    yield from (changed(plain, "rule", words=n) for n in range(8))
    yield from (changed(plain, "rule", fragment=n) for n in (1, 255, 256, 0x1FFF, 0x2000))


def probes():
    plain = Case("rule", Fields(options=MSS_1460))
    out = [Case("rule", Fields(version=v, options=bytes.fromhex(o))) for v in (4, 6) for o in DAMAGED]
    out += [changed(plain, "rule", ttl=ttl) for ttl in range(256)]
    out += [changed(plain, "rule", flags=flags) for flags in range(256)]
    out += [changed(plain, "rule", reserved=r) for r in range(16)]
    out += [changed(plain, "rule", ack=1 << i) for i in range(32)]
    out += [changed(plain, "rule", options=b"\1" * n) for n in range(41)]
    echoed = Fields(flags=SYN | ACK, ack=1, options=struct.pack(">BBH", 2, 4, 1331))
    out += [Case("rule", echoed, peer=1331), Case("rule", replace(echoed, flags=SYN, ack=0))]
    return out + list(lengths(plain)) + list(multiples())


def random_options(rng):
    pieces = [b"\1", MSS_1460, b"\3\3\7", b"\4\2", bytes.fromhex("080a0000000700000000"), bytes.fromhex("050a0000000000000000")]
    out = b""
    while len(out) < 36 and rng.random() < 0.8:
        piece = rng.choice(pieces)
        if rng.random() < 0.15:
            piece = bytes([piece[0], rng.choice((0, 1, 2, 3, 4, 5, 9, 10, 11, 34, 40, 41, 255))]) + piece[2:]
        if rng.random() < 0.1:
            piece = bytes([rng.choice((0, 6, 9, 19, 30, 254))]) + bytes(rng.choice((0, 0, 1, 2, 3)) for _ in range(rng.randrange(6)))
        out += piece
    return out[:40]


def shaken(rng, case):
    """One field of the case drawn anew."""
    f = case.fields
    name = rng.choice(("ttl", "traffic", "ident", "df", "mbz", "flow", "seq", "ack", "flags", "reserved", "window", "urgent", "options",
                       "payload", "mss"))
    if name == "mss" and MSS_1460 in f.options:
        size = rng.choice((b"\0\0", b"\0\x64", b"\xff\xf0", rng.randbytes(2)))
        return changed(case, "random", options=f.options.replace(MSS_1460, b"\2\4" + size))
    draws = {
        "ttl": rng.randrange(256), "traffic": rng.choice((0, 1, 2, 3, 0x10, 0xb8)), "ident": rng.choice((0, 1, 256)),
        "df": rng.random() < 0.5, "mbz": rng.random() < 0.5, "flow": rng.choice((0, 1, 0xF0000)), "seq": rng.choice((0, 1)),
        "ack": rng.choice((0, 1, 0x01000000, 0x02000000)), "flags": f.flags | rng.choice((ECE, CWR, URG, PSH)),
        "reserved": rng.randrange(16), "window": rng.choice((0, 5840, 1500, 65535, rng.randrange(65536))), "urgent": rng.choice((0, 9)),
        "options": random_options(rng), "payload": rng.choice((b"", b"abc")),
    }
    return changed(case, "random", **{name: draws[name]}) if name in draws else case


def random_cases(lines, count):
    rng = random.Random(19)
    out = []
    for _ in range(count):
        line = rng.choice(lines)
        peer = rng.choice((0, 1, 11, 12, 13, 536, 1400, 1460, rng.randrange(65536)))
        case = replace(case_of(line, rng.choice((4, 6)), rng.random() < 0.6, peer=peer), family="random")
        for _ in range(rng.randrange(1, 4)):
            case = shaken(rng, case)
        out.append(case)
    return out
