"""Packets from their fields, and captures of them."""

import struct
from dataclasses import dataclass, replace

FIN, SYN, RST, PSH, ACK, URG, ECE, CWR = (1 << i for i in range(8))


@dataclass(frozen=True)
class Fields:
    version: int = 4
    ttl: int = 64
    traffic: int = 0
    ident: int = 0x1234
    df: bool = True
    mbz: bool = False
    flow: int = 0
    ip_options: bytes = b""
    seq: int = 0x01020304
    ack: int = 0
    flags: int = SYN
    reserved: int = 0
    window: int = 5840
    urgent: int = 0
    options: bytes = b""
    payload: bytes = b""
    offset: int | None = None
    total: int | None = None
    past: bytes = b""
    words: int | None = None
    fragment: int = 0


@dataclass(frozen=True)
class Case:
    """A packet of a family, the line it was made for, the rule it is an example of (if any); the peer's MSS of a SYN+ACK, which the
    SYN before it carries (0: none); the answer that p0f and the port must both give (if any)."""
    family: str
    fields: Fields
    line: int = 0
    peer: int = 0
    rule: str = ""
    agreed: tuple | None = None

    @property
    def syn(self):
        return not self.fields.flags & ACK


def tcp_part(f, ports):
    offset = f.offset if f.offset is not None else 5 + (len(f.options) + 3) // 4
    options = f.options if f.offset is not None else f.options.ljust(4 * (offset - 5), b"\0")
    return struct.pack(">HHIIBBHHH", *ports, f.seq, f.ack, offset << 4 | f.reserved, f.flags, f.window, 0, f.urgent) + options + f.payload


def address(version, side, index):
    tail = bytes([side]) + index.to_bytes(3, "big")
    return tail if version == 4 else b"\x20\x01\x0d\xb8" + bytes(8) + tail


def packet_of(f, index, server=False):
    """The packet of case index; the server of a flow sends from port 80."""
    ends = [address(f.version, 10, index), address(f.version, 20, index)]
    ports = [40000, 80]
    if server:
        ends.reverse()
        ports.reverse()
    tcp = tcp_part(f, ports)
    if f.version == 6:
        total = len(tcp) if f.total is None else f.total
        head = struct.pack(">IHBB", 6 << 28 | f.traffic << 20 | f.flow, total, 6, f.ttl)
        return head + b"".join(ends) + tcp + f.past
    words = 5 + len(f.ip_options) // 4
    total = 4 * words + len(tcp) if f.total is None else f.total
    bits = f.mbz << 15 | f.df << 14 | f.fragment
    head = struct.pack(">BBHHHBBH", 64 + (words if f.words is None else f.words), f.traffic, total, f.ident, bits, f.ttl, 6, 0)
    return head + b"".join(ends) + f.ip_options + tcp + f.past


def opening(case):
    """The SYN that comes before a SYN+ACK in the capture, as a case of its own."""
    options = struct.pack(">BBH", 2, 4, case.peer) if case.peer else b""
    return Case("opening", Fields(version=case.fields.version, options=options))


def with_openings(cases):
    """Each case with the index of its flow; a SYN+ACK follows its opening."""
    out = []
    for index, case in enumerate(cases):
        if not case.syn:
            out.append((index, opening(case)))
        out.append((index, case))
    return out


def write_capture(path, numbered):
    """Raw IP packets (link type 101), a millisecond apart."""
    with open(path, "wb") as file:
        file.write(struct.pack("<IHHiIII", 0xA1B2C3D4, 2, 4, 0, 0, 65535, 101))
        for tick, (index, case) in enumerate(numbered):
            data = packet_of(case.fields, index, not case.syn)
            file.write(struct.pack("<IIII", 1700000000 + tick // 1000, tick % 1000 * 1000, len(data), len(data)) + data)


def changed(case, family, **fields):
    return replace(case, family=family, fields=replace(case.fields, **fields))
