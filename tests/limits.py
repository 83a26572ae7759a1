"""Cases of the program `termread` at the limits of a bundle: its size, counts, offsets and areas."""
import cases
import strict
from bundles import A, B, EMPTY_LIST, LIST, SYNACK, WHOLE, be16, bundle, packet, record, siglist
from cases import lines

MOST = 65535


def sizes():
    yield "the whole example", WHOLE, "packets 3\nsyn exact 7\nsyn fuzzy 7\nrefused 2\n"
    yield "nothing", b"", "refused 12\n"
    for k in range(len(WHOLE)):
        yield f"the whole example cut at {k}", WHOLE[:k], "refused 12\n"
    yield "a byte behind the whole example", WHOLE + b"x", "packets 3\nsyn exact 7\nsyn fuzzy 7\nrefused 2\n"
    # The last packet is A with as many bytes past its IP length as the bundle has room for.
    room = MOST - len(bundle([B, A]))
    full = bundle([B, A + bytes(room)])
    assert len(full) == MOST
    yield "exactly 65,535 bytes", full, lines("syn fuzzy 7", "syn exact 7")
    yield "65,536 bytes, the first 65,535 a good bundle", full + b"\0", "refused 12\n"
    yield "a million bytes, the first 65,535 a good bundle", full + bytes(1000000 - MOST), "refused 12\n"
    yield "65,534 bytes", bundle([B, A + bytes(room - 1)]), lines("syn fuzzy 7", "syn exact 7")
    yield "65,535 zero bytes", bytes(MOST), "refused 9\n"
    yield "65,535 bytes of 255", b"\xff" * MOST, "refused 12\n"


def pages():
    """Outputs of several pages of 4,096 bytes."""
    most = (MOST - 8 - len(EMPTY_LIST)) // 4
    yield f"{most} empty packets", bundle([b""] * most, EMPTY_LIST), lines(*["refused 1"] * most)
    longest = siglist([record(label=65535)])
    count = (MOST - 8 - len(longest)) // 48
    yield f"{count} longest lines", bundle([SYNACK] * count, longest), lines(*["synack exact 65535"] * count)
    for shift in range(20):
        answers = ["refused 1"] * shift + ["synack exact 65535"] * 500
        yield f"pages that end elsewhere: {shift}", bundle([b""] * shift + [SYNACK] * 500, longest), lines(*answers)
    answers = ["synack exact 65535"] * 212 + ["refused 1"] * 600 + ["syn none"] * 3
    yield "lines of three lengths", bundle([SYNACK] * 212 + [b""] * 600 + [A[:40]] * 3, longest), lines(*answers)


def header(count, offset, length, at, behind=b""):
    return be16(count, offset, length, at) + behind


def counts_and_offsets():
    body = EMPTY_LIST + packet(A)
    size = 8 + len(body)
    yield "one packet", header(1, 16, 8, 8, body), lines("syn none")
    for count in (2, 256, 65535):
        yield f"packet count {count}", header(count, 16, 8, 8, body), "refused 12\n"
    yield "count 0, packets at the end", header(0, size, 8, 8, body), lines()
    yield "count 0, packets past the end", header(0, size + 1, 8, 8, body), "refused 12\n"
    yield "count 0, packets at 65535", header(0, 65535, 8, 8, body), "refused 12\n"
    yield "packets so that four bytes are missing one", header(1, size - 3, 8, 8, body), "refused 12\n"
    yield "packet of no bytes at the end", header(1, size, 8, 8, body + be16(0, 0)), lines("refused 1")
    yield "packet length one past the end", header(1, 16, 8, 8, EMPTY_LIST + be16(0, len(A) + 1) + A), "refused 12\n"
    yield "packet length 65535", header(1, 16, 8, 8, EMPTY_LIST + be16(0, 65535) + A), "refused 12\n"
    yield "second packet past the end", header(2, 16, 8, 8, EMPTY_LIST + packet(A) + be16(0, 1)), "refused 12\n"
    yield "list up to the end", header(0, 0, size - 8, 8, body), lines()
    yield "list one past the end", header(0, 0, size - 7, 8, body), "refused 12\n"
    yield "list length 65535", header(0, 0, 65535, 8, body), "refused 12\n"
    yield "list offset 65535", header(0, 0, 8, 65535, body), "refused 12\n"
    yield "list of no bytes at the end", header(0, 0, 0, size, body), "refused 9\n"
    yield "list of no bytes past the end", header(0, 0, 0, size + 1, body), "refused 12\n"
    yield "12 comes before 9", header(1, 65535, 0, 8, body), "refused 12\n"
    far = header(1, 65531, 8, 65523) + bytes(65535 - 8)
    yield "list and packet at the end of 65,535 bytes", far, lines("refused 1")
    yield "packets at 65535 of 65,535 bytes", header(0, 65535, 8, 65527) + bytes(65535 - 8), lines()


def lists():
    def one(name, signatures, expected):
        return f"list: {name}", bundle([A], signatures), expected
    for k in range(len(LIST)):
        yield one(f"cut at {k}", LIST[:k], "refused 9\n")
    yield one("whole", LIST, lines("syn exact 7"))
    tail = LIST[8:]
    yield one("a record too many", be16(2, 8, 1, 32) + tail, "refused 9\n")
    yield one("65535 records", be16(65535, 8, 1, 32) + tail, "refused 9\n")
    yield one("records one byte too far", be16(1, 11, 1, 32) + tail, "refused 9\n")
    yield one("records at 65535", be16(1, 65535, 1, 32) + tail, "refused 9\n")
    yield one("an entry too many", be16(1, 8, 2, 32) + tail, "refused 9\n")
    yield one("65535 entries", be16(1, 8, 65535, 32) + tail, "refused 9\n")
    yield one("entries at 65535", be16(1, 8, 1, 65535) + tail, "refused 9\n")
    yield one("no record, offset at the end", be16(0, 34, 0, 34) + tail, lines("syn none"))
    yield one("no record, offset past the end", be16(0, 35, 0, 34) + tail, "refused 9\n")
    yield one("no entry, offset past the end", be16(0, 34, 0, 35) + tail, "refused 9\n")
    yield one("a byte between its areas", be16(1, 9, 1, 33) + b"\xff" + tail, lines("syn exact 7"))
    yield one("entries before records", be16(1, 10, 1, 8) + tail[24:] + tail[:24], lines("syn exact 7"))
    shared = be16(2, 8, 1, 56) + record(label=8) + record(label=9) + b"\x02\x00"
    yield one("two records share an entry", shared, lines("syn exact 8"))
    # The entry lies in the record: its last two bytes, the label, are kind 2 and byte 0.
    yield one("the entry over the record's label", be16(1, 8, 1, 30) + record(label=512), lines("syn exact 512"))


def overlaps():
    yield "packet over the header", header(1, 0, 8, 8, EMPTY_LIST), lines("refused 1")
    yield "packets over the list", header(2, 8, 8, 8, EMPTY_LIST), lines("refused 1", "refused 1")
    yield "list over the header", header(0, 0, 8, 0, bytes(8)), "refused 9\n"
    yield "list over the header's end", header(0, 0, 8, 2, be16(4)), lines()
    # The eight zero bytes of A's addresses and their neighbours are a list without records.
    yield "list over a packet's bytes", header(1, 8, 8, 8 + 4 + 12, packet(A)), lines("syn none")
    within = bytes.fromhex("45 00 00 50 00 00 40 00 40 06 00 00") + A[12:] + LIST
    yield "list over a packet's payload", header(1, 8, len(LIST), 8 + 4 + 44, packet(within)), lines("syn none")
    behind = A + LIST
    yield "list over a packet's bytes past its IP length", header(1, 8, len(LIST), 8 + 4 + 44, packet(behind)), lines("syn exact 7")
    yield "whole bundle as list", header(0, 0, 16, 0, EMPTY_LIST), "refused 9\n"


FAMILIES = [sizes, cases.packets, cases.peers, cases.searches, cases.kinds, cases.bad_records, strict.plain_bundles, counts_and_offsets,
            lists, overlaps, pages]


def all_cases():
    return [case for family in FAMILIES for case in family()]
