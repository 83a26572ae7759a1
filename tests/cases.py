"""The cases of the program `termread`: a name, the input, the output that the documents ask for, worked out by hand."""
from bundles import A, B, C, SYNACK, bundle, record, siglist, tcp, v4, v6


def lines(*answers):
    return f"packets {len(answers)}\n" + "".join(a + "\n" for a in answers)


def answered():
    """A packet of each kind of line that is no refusal, against the record of the whole example."""
    yield "exact", A, "syn exact 7"
    yield "TTL out of range", B, "syn fuzzy 7"
    yield "no DF: df missing", v4(tcp(), identity=1, fragment=0), "syn fuzzy 7"
    yield "no DF, no identification: df missing, id- added", v4(tcp(), fragment=0), "syn fuzzy 7"
    yield "ECN added", v4(tcp(), tos=1), "syn fuzzy 7"
    yield "id+ added", v4(tcp(), identity=1), "syn none"
    yield "window of no multiple", v4(tcp(window=5841)), "syn none"
    yield "no options", v4(tcp(options="")), "syn none"
    yield "payload", v4(tcp(payload=b"x")), "syn none"
    yield "bytes past the IP length", A + b"xyz", "syn exact 7"
    yield "version 6", v6(tcp()), "syn exact 7"
    yield "version 6, flow label", v6(tcp(), label=1), "syn none"
    yield "version 6, 36 hops", v6(tcp(), hops=28), "syn fuzzy 7"
    yield "SYN+ACK", SYNACK, "synack exact 7"
    yield "SYN+ACK, 36 hops", v4(tcp(flags=0x12, ack=1), ttl=28), "synack fuzzy 7"
    yield "SYN+ACK, 35 hops", v4(tcp(flags=0x12, ack=1), ttl=29), "synack exact 7"
    yield "SYN+ACK, TTL above", v4(tcp(flags=0x12, ack=1), ttl=65), "synack fuzzy 7"
    yield "SYN+ACK, acknowledgment 0", v4(tcp(flags=0x12)), "synack none"
    yield "version 6, SYN+ACK", v6(tcp(flags=0x12, ack=1)), "synack exact 7"
    for flags in (0x10, 0x01, 0x04, 0x11, 0x14, 0x18):
        yield f"flags {flags:#x}", v4(tcp(flags=flags, ack=1)), "nothing"


def refused():
    """A packet of each way to a refusal."""
    yield "empty", b"", "refused 1"
    for first in (0x00, 0x35, 0x50, 0x75, 0xF5):
        yield f"first byte {first:#x}", v4(tcp(), first=first), "refused 1"
    yield "three bytes", C, "refused 2"
    yield "19 bytes of version 4", A[:19], "refused 2"
    yield "39 bytes of version 6", v6(tcp())[:39], "refused 2"
    for first in (0x40, 0x44):
        yield f"header length {first & 15}", v4(tcp(), first=first), "refused 3"
    yield "UDP", v4(tcp(), protocol=17), "refused 4"
    yield "version 6, UDP", v6(tcp(), next_header=17), "refused 4"
    yield "fragment offset", v4(tcp(), fragment=0x0001), "refused 5"
    yield "more fragments", v4(tcp(), fragment=0x2000), "refused 5"
    yield "no TCP part", A[:20], "refused 6"
    yield "IP length 39", v4(tcp(), length=39), "refused 6"
    yield "IP length 0", v4(tcp(), length=0), "refused 6"
    yield "IP length 65535 of 39 bytes", v4(tcp(), length=65535)[:39], "refused 6"
    yield "version 6, payload length 19", v6(tcp(), length=19), "refused 6"
    yield "header length 15 of 44 bytes", v4(tcp(), first=0x4F), "refused 6"
    for flags in (0x00, 0x03, 0x05, 0x06, 0x07, 0x08, 0x17, 0xE8):
        yield f"flags {flags:#x}", v4(tcp(flags=flags)), "refused 7"


def packets():
    every = list(answered()) + list(refused())
    for name, data, answer in every:
        yield f"one packet: {name}", bundle([data]), lines(answer)
    yield "all of them in one bundle", bundle([data for _, data, _ in every]), lines(*(answer for _, _, answer in every))
    # Packet A cut: nothing, no whole IP header, no whole TCP header, a layout without a number, whole.
    cut = ["refused 1"] + ["refused 2"] * 19 + ["refused 6"] * 20 + ["syn none"] * 4 + ["syn exact 7"]
    yield "packet A cut at every length", bundle([A[:k] for k in range(45)]), lines(*cut)


def peers():
    """The peer's MSS is a divisor of a SYN+ACK's window: itself, then less 12; 0 is absent, and a divisor of 0 is passed over."""
    def answer(multiple, window, flags, peer, expected):
        signatures = siglist([record(window=(3, multiple), quirks=2)])
        data = v4(tcp(flags=flags, window=window, ack=1 if flags == 0x12 else 0))
        name = f"peer {peer}, window {window}, flags {flags:#x}, MSS x {multiple}"
        return name, bundle([(data, peer)], signatures), lines(expected)
    yield answer(4, 5840, 0x12, 0, "synack exact 7")
    yield answer(2, 24, 0x12, 12, "synack exact 7")
    yield answer(2, 25, 0x12, 12, "synack none")
    yield answer(24, 24, 0x12, 0, "synack none")
    yield answer(24, 24, 0x12, 1, "synack exact 7")
    yield answer(24, 24, 2, 1, "syn none")
    yield answer(1, 65535, 0x12, 0, "synack none")
    yield answer(1, 65535, 0x12, 65535, "synack exact 7")
    yield answer(1, 65523, 0x12, 65535, "synack exact 7")
    yield answer(1, 65535, 2, 65535, "syn none")
    yield answer(4, 5840, 2, 65535, "syn exact 7")


def searches():
    first, second = record(label=1), record(label=2)
    far = record(ttl=(0, 128, 0), label=3)
    other = record(window=(1, 9), label=4)
    for name, records, answer in (
            ("no record", [], "syn none"), ("the first of two exact", [first, second], "syn exact 1"),
            ("exact behind fuzzy", [far, second], "syn exact 2"), ("fuzzy behind none", [other, far], "syn fuzzy 3"),
            ("the first of two fuzzy", [far, record(ttl=(0, 200, 0))], "syn fuzzy 3"), ("none fits", [other, other], "syn none"),
            ("the last of 2,600 records", [other] * 2599 + [first], "syn exact 1")):
        yield f"search: {name}", bundle([A], siglist(records)), lines(answer)
    for label in (0, 9, 10, 99, 100, 999, 1000, 9999, 10000, 65535):
        signatures = siglist([record(label=label)])
        yield f"label {label}", bundle([A, B], signatures), lines(f"syn exact {label}", f"syn fuzzy {label}")
    noops = v4(tcp(options="01" * 40, window=0))
    forty = record(window=(0, 0), count=40)
    yield "40 layout entries", bundle([noops], siglist([forty], [(1, 0)] * 40)), lines("syn exact 7")
    yield "a modulus of 0", bundle([v4(tcp(window=0))], siglist([record(window=(2, 0))])), lines("syn none")
    yield "a modulus of 8", bundle([v4(tcp(window=0))], siglist([record(window=(2, 8))])), lines("syn exact 7")


def kinds():
    """The first specific record that fits exactly; else the first generic one; else the first of either kind that fits fuzzily."""
    first, second, third, fourth = (record(label=n, generic=n > 2) for n in (1, 2, 3, 4))
    far, generic_far = (record(ttl=(0, 128, 0), label=n, generic=n > 5) for n in (5, 6))
    other, generic_other = (record(window=(1, 9), label=n, generic=n > 7) for n in (7, 8))
    for name, records, answer in (
            ("generic alone", [third], "exact 3"), ("generic before specific", [third, first], "exact 1"),
            ("specific before generic", [first, third], "exact 1"), ("two generic", [third, fourth], "exact 3"),
            ("generic, specific, generic, specific", [third, first, fourth, second], "exact 1"),
            ("two generic before two specific", [fourth, third, second, first], "exact 2"),
            ("fuzzy before generic", [far, third], "exact 3"), ("generic before fuzzy", [third, far], "exact 3"),
            ("generic fuzzy before generic", [generic_far, third, fourth], "exact 3"),
            ("fuzzy, generic, specific", [far, third, first], "exact 1"), ("generic, fuzzy, specific", [third, far, first], "exact 1"),
            ("fuzzy between two generic", [third, far, fourth], "exact 3"), ("generic fuzzy alone", [generic_far], "fuzzy 6"),
            ("generic fuzzy before fuzzy", [generic_far, far], "fuzzy 6"), ("fuzzy before generic fuzzy", [far, generic_far], "fuzzy 5"),
            ("a specific one that does not fit", [other, third, other], "exact 3"), ("neither kind fits", [generic_other, other], "none"),
            ("generic that does not fit before fuzzy", [generic_other, far], "fuzzy 5"),
            ("specific behind 2,599 generic", [third] * 2599 + [first], "exact 1"),
            ("generic before 2,599 others", [third] + [fourth, generic_far, other] * 866 + [far], "exact 3")):
        yield f"kinds: {name}", bundle([A], siglist(records)), lines(f"syn {answer}")
        yield f"kinds, SYN+ACK: {name}", bundle([SYNACK], siglist(records)), lines(f"synack {answer}")
    # What is generic and exact for A is fuzzy for B, and the first of what is fuzzy then.
    signatures = siglist([other, third, far, first])
    yield "kinds: by packet", bundle([B, A, C, B], signatures), lines("syn fuzzy 3", "syn exact 1", "refused 2", "syn fuzzy 3")


def bad_records():
    for name, bad in (
            ("version 5", record(version=5)), ("TTL form 4", record(ttl=(4, 64, 0))), ("unused distance", record(ttl=(0, 64, 1))),
            ("MSS presence 2", record(mss=(2, 0))), ("absent MSS with a number", record(mss=(0, 1))),
            ("window form 5", record(window=(5, 0))), ("any window with a number", record(window=(0, 1))),
            ("256 of MSS", record(window=(3, 256))), ("256 of MTU", record(window=(4, 256))),
            ("scale presence 2", record(scale=(2, 0))), ("absent scale with a number", record(scale=(0, 1))),
            ("payload 3", record(payload=3)), ("quirk 0x40", record(quirks=0x40)), ("quirk 0x20000000", record(quirks=0x20000000)),
            ("byte 21 of 2", record(generic=2)), ("byte 21 of 3", record(generic=3)), ("byte 21 of 255", record(generic=255)),
            ("first entry past the end", record(first=1)), ("entries past the end", record(count=2)), ("41 entries", record(count=41)),
            ("first entry 65535", record(first=65535, count=255))):
        yield f"bad record: {name}", bundle([A], siglist([record(), bad])), "refused 10\n"
    yield "bad entry", bundle([A], siglist([record()], [(2, 1)])), "refused 10\n"
    yield "bad entry of no record", bundle([A], siglist([record()], [(2, 0), (2, 1)])), lines("syn exact 7")
    yield "41 entries that are there", bundle([A], siglist([record(count=41)], [(1, 0)] * 41)), "refused 10\n"
    yield "255 of MSS, no entries at the end", bundle([A], siglist([record(window=(3, 255), first=1, count=0)])), lines("syn none")
    for kind in (2, 255):
        signatures = siglist([record(label=1), record(generic=kind), record(version=5)])
        yield f"byte 21 of {kind} behind the record that fits", bundle([A], signatures), "refused 10\n"
    yield "a bad record before a refused packet", bundle([C], siglist([record(version=1)])), "refused 10\n"
