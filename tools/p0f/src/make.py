"""Cases made for a line: one that fits it as p0f reads it, and variations of one thing at a time."""

import struct
from dataclasses import replace

from lines import ANY, MODULUS, MTU, QUIRKS, VALUE
from packets import ACK, ECE, PSH, SYN, URG, Case, Fields, changed

OPEN_MSS = (1460, 1448, 1380, 536, 100, 99, 8960)
PEERS = (1460, 1400, 0)


def shows(bits, name):
    return bool(bits & QUIRKS[name])


def option_bytes(kind, left, line, mss, scale):
    if kind == 0:
        return bytes(1 + left) if not shows(line.quirks, "opt+") else b"\0\1".ljust(1 + left, b"\0")
    if kind == 2:
        return struct.pack(">BBH", 2, 5 if shows(line.quirks, "bad") else 4, mss)
    if kind == 8:
        return struct.pack(">BBII", 8, 10, 0 if shows(line.quirks, "ts1-") else 7777, 5 if shows(line.quirks, "ts2+") else 0)
    if kind == 5:
        return bytes([5, 10]) + bytes(8)
    return {1: b"\1", 3: bytes([3, 3, scale]), 4: b"\4\2"}.get(kind, bytes([kind, 4, 0, 0]))


def options_of(line, mss, scale):
    return b"".join(option_bytes(kind, left, line, mss, scale) for kind, left in line.layout)


def header_of(line, version, syn):
    """Fields that show the line's quirks of the headers."""
    q = line.quirks
    df = shows(q, "df")
    flags = SYN | (0 if syn else ACK) | (URG if shows(q, "urgf+") else 0) | (PSH if shows(q, "pushf+") else 0)
    ack = 0x01000001 if shows(q, "ack+") or not (syn or shows(q, "ack-")) else 0
    return Fields(
        version=version, ttl=line.initial, traffic=2 if shows(q, "ecn") else 0, df=df,
        ident=0x1234 if (shows(q, "id+") if df else not shows(q, "id-")) else 0, mbz=shows(q, "0+"),
        flow=0x777 if shows(q, "flow") and version == 6 else 0, ip_options=b"\1" * line.olen if version == 4 else b"",
        seq=0 if shows(q, "seq-") else 0x01020304, ack=ack, flags=flags, urgent=3 if shows(q, "uptr+") else 0,
        payload=b"x" if line.payload == 1 else b"")


def divisors(line, fields, mss, peer):
    """What a window may be a multiple of, for the line's form of window, in the order of the tests."""
    head = (20 + len(fields.ip_options) if fields.version == 4 else 40) + 20 + len(options_of(line, mss, 0))
    if line.window_form == MTU:
        return [mss + 40, mss + head, 1500] + ([mss + 60] if fields.version == 6 else [])
    found = [mss, 1460, 1448] + ([1440, 1428] if fields.version == 6 else [])
    if (8, 0) in line.layout:
        found.insert(1, mss - 12)
    return found + ([peer, peer - 12] if peer else [])


def windows(line, fields, mss, peer):
    if line.window_form == VALUE:
        return [line.window]
    if line.window_form == MODULUS:
        return [line.window, 2 * line.window, 0]
    if line.window_form == ANY:
        return [5840, 0, 65535, 5841]
    return [line.window * d for d in divisors(line, fields, mss, peer) if 0 < line.window * d < 65536]


def case_of(line, version, syn, mss=None, peer=1400, scale=None, window=None, family="fits"):
    mss = mss if mss is not None else line.mss if line.mss is not None else 1460
    scale = scale if scale is not None else line.scale if line.scale is not None else 7
    if shows(line.quirks, "exws"):
        scale = 15
    fields = header_of(line, version, syn)
    if window is None:
        window = (windows(line, fields, mss, 0 if syn else peer) or [5840])[0]
    fields = replace(fields, options=options_of(line, mss, scale), window=window)
    return Case(family, fields, line.number, 0 if syn else peer)


def measured(line, version, syn):
    """Segment sizes, windows and scales."""
    base = case_of(line, version, syn)
    for mss in OPEN_MSS:
        yield case_of(line, version, syn, mss=mss, family="mss")
    own = line.mss if line.mss is not None else 1460
    for peer in (0,) if syn else PEERS:
        for window in windows(line, base.fields, own, peer):
            yield case_of(line, version, syn, peer=peer, window=window, family="window")
    yield changed(base, "window", window=(base.fields.window + 1) % 65536)
    if (3, 0) in line.layout:
        for scale in (0, 1, 14, 15):
            yield case_of(line, version, syn, scale=scale, family="scale")


def varied(line, version, syn):
    """TTLs, quirks, payload, option length."""
    base = case_of(line, version, syn)
    f = base.fields
    for ttl in {f.ttl - 1, f.ttl - 7, f.ttl - 30, f.ttl - 31, f.ttl - 35, f.ttl - 36, f.ttl + 1, 1, 255}:
        if 0 <= ttl < 256:
            yield changed(base, "ttl", ttl=ttl)
    yield changed(base, "quirk", df=not f.df)
    yield changed(base, "quirk", ident=0 if f.ident else 1)
    yield changed(base, "quirk", df=False, ident=0)
    yield changed(base, "quirk", traffic=f.traffic ^ 2)
    yield changed(base, "quirk", flags=f.flags | ECE)
    yield changed(base, "quirk", seq=0 if f.seq else 1)
    yield changed(base, "quirk", ack=0 if f.ack else 0x01000000)
    yield changed(base, "quirk", flow=0 if f.flow else 1)
    yield changed(base, "payload", payload=b"" if f.payload else b"x")
    yield changed(base, "tos", traffic=f.traffic | 0x10)
    if version == 4:
        yield changed(base, "olen", ip_options=f.ip_options + b"\1\1\1\1")


def cases_for(line):
    for version in (4, 6):
        for syn in (True, False):
            yield case_of(line, version, syn, family="fits" if line.version in (0, version) else "version")
            yield from measured(line, version, syn)
            yield from varied(line, version, syn)
