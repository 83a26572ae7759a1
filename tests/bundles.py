"""Packets, signature lists and bundles as bytes, laid out by the documents' text."""


def be16(*numbers):
    return b"".join(n.to_bytes(2, "big") for n in numbers)


# ---- packets

def tcp(flags=2, window=5840, options="02 04 05 b4", words=None, seq=1, ack=0, payload=b""):
    options = bytes.fromhex(options)
    words = 5 + len(options) // 4 if words is None else words
    return (be16(1, 2) + seq.to_bytes(4, "big") + ack.to_bytes(4, "big") + bytes([words << 4, flags])
            + be16(window, 0, 0) + options + payload)


def v4(part, ttl=64, tos=0, identity=0, fragment=0x4000, protocol=6, length=None, first=0x45):
    length = 20 + len(part) if length is None else length
    return bytes([first, tos]) + be16(length, identity, fragment) + bytes([ttl, protocol]) + bytes(10) + part


def v6(part, hops=64, label=0, next_header=6, length=None):
    length = len(part) if length is None else length
    return (0x60000000 + label).to_bytes(4, "big") + be16(length) + bytes([next_header, hops]) + bytes(32) + part


# Packets A, B and C of the whole example, written out as the document has them.
A = bytes.fromhex("45 00 00 2c 00 00 40 00 40 06 00 00" + "00" * 8
                  + "00 01 00 02 00 00 00 01 00 00 00 00 60 02 16 d0 00 00 00 00 02 04 05 b4")
B = A[:8] + b"\x1c" + A[9:]
C = bytes.fromhex("45 00 00")
SYNACK = v4(tcp(flags=0x12, ack=1))


# ---- lists

def record(version=0, ttl=(0, 64, 0), olen=0, mss=(0, 0), window=(3, 4), scale=(0, 0), payload=0, quirks=2, first=0, count=1,
           generic=0, label=7):
    """The record of the whole example, but for what is given."""
    return (bytes([version, *ttl, olen, mss[0]]) + be16(mss[1]) + bytes([window[0]]) + be16(window[1])
            + bytes([scale[0], scale[1], payload]) + quirks.to_bytes(4, "big") + be16(first) + bytes([count, generic]) + be16(label))


def siglist(records, entries=((2, 0),)):
    header = be16(len(records), 8, len(entries), 8 + 24 * len(records))
    return header + b"".join(records) + bytes(x for entry in entries for x in entry)


LIST = siglist([record()])
EMPTY_LIST = be16(0, 0, 0, 0)


# ---- bundles

def packet(data, peer=0):
    return be16(peer, len(data)) + data


def bundle(packets, signatures=LIST):
    """The list behind the header, the packets behind the list; a packet is its bytes, or its bytes and its peer's MSS."""
    packets = [p if isinstance(p, tuple) else (p, 0) for p in packets]
    header = be16(len(packets), 8 + len(signatures), len(signatures), 8)
    return header + signatures + b"".join(packet(*p) for p in packets)


WHOLE = bundle([A, B, C])
