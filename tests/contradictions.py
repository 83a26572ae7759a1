"""When the strict mode refuses by 14, by the text of documents 01 and 02 alone: a second reading, for tests to compare with.

"14, after 6 and before 7, exactly when data offset is under 5 or 4 x data offset exceeds the TCP part", the part being that "from 4 x
header length to total length, for v6 from 40 to 40 + payload length, never past the slice".
"""

REFUSED = "refused 14"


def number(packet, at):
    return int.from_bytes(packet[at:at + 2], "big")


def area(packet):
    """Where the TCP part begins, and where the IP length says that it ends; None if refusals 1 to 5 come first."""
    version, size = (packet[0] >> 4 if packet else 0), len(packet)
    if version == 4 and size >= 20 and packet[0] % 16 >= 5 and packet[9] == 6:
        more_fragments, fragment_offset = packet[6] & 0x20, number(packet, 6) & 0x1FFF
        return None if more_fragments or fragment_offset else (4 * (packet[0] % 16), number(packet, 2))
    if version == 6 and size >= 40 and packet[6] == 6:
        return 40, 40 + number(packet, 4)
    return None


def contradicts(packet):
    """Whether a packet's answer is refusal 14: none of 1 to 6 comes first, and the data offset does not fit the TCP part."""
    if area(packet) is None:
        return False
    start, end = area(packet)
    part = packet[start:max(start, min(end, len(packet)))]
    if len(part) < 20:
        return False
    offset = part[12] >> 4
    return offset < 5 or 4 * offset > len(part)


def strictly(packet, plain):
    """The strict answer to a packet without damaged options (damage.py), whose plain one is given."""
    return REFUSED if contradicts(packet) else plain


def parts(bundle):
    """The packets of a good bundle, each as its peer's MSS and its bytes, and the bundle's list."""
    count, at, length, start = (number(bundle, i) for i in (0, 2, 4, 6))
    packets = []
    for _ in range(count):
        size = number(bundle, at + 2)
        packets.append((number(bundle, at), bundle[at + 4:at + 4 + size]))
        at += 4 + size
    return packets, bundle[start:start + length]
