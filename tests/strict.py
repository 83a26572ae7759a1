"""Packets on both sides of refusal 14, which the strict mode alone gives, and of damaged options, before which its walk stops. Of each,
worked out by hand from the text of documents 01 and 02: what `observe` says in the plain mode, what the search of the whole example's list
finds, whether the strict mode refuses it, and what it observes else, if it is not the same.
"""
from typing import NamedTuple

from bundles import A, SYNACK, bundle, record, siglist, tcp, v4, v6
from cases import lines
from contradictions import REFUSED
from forms import SEEN, seen


class Packet(NamedTuple):
    name: str
    data: bytes
    plain: str
    found: str  # behind `syn` or `synack` in a line of the program; of other answers nothing
    refused: bool
    peer: int = 0
    stopped: str = ""  # the strict mode's observation, if its walk stops; the search finds none for it

    def line(self):
        words = self.plain.split(" ")
        return f"{words[0]} {self.found}" if self.found else " ".join(words[:2])

    def strict(self):
        return REFUSED if self.refused else self.stopped or self.plain

    def strict_line(self):
        return REFUSED if self.refused else f"{self.stopped.split(' ')[0]} {NONE}" if self.stopped else self.line()


NONE, EXACT = "none", "exact 7"


def bare(**fields):
    """An observation without options."""
    return "syn " + seen(**{"mss": "-", "layout": "-", "win": "-", **fields})


def numberless(**fields):
    """An observation whose one option, MSS, has lost its number."""
    return bare(layout="2/0", **fields)


def offsets():
    """Every data offset over a part of 24, of 20 and of 60 bytes. Below 5 there are no options and the payload begins at 20; past the
    part the options are clipped and there is no payload; `tot_hdr` takes the offset as it stands."""
    for words in range(16):
        part24, part20 = v4(tcp(words=words)), v4(tcp(options="", words=words))
        total = 20 + 4 * words
        if words <= 5:
            yield Packet(f"offset {words} of 24 bytes", part24, bare(pclass="+", tot_hdr=total), NONE, words < 5)
        else:
            yield Packet(f"offset {words} of 24 bytes", part24, "syn " + seen(tot_hdr=total), EXACT, words > 6)
        yield Packet(f"offset {words} of 20 bytes", part20, bare(tot_hdr=total), NONE, words != 5)
    full, noops = tcp(options="01" * 40), ",".join(["1/0"] * 40)
    yield Packet("offset 15 of 60 bytes", v4(full), bare(layout=noops, tot_hdr=80), NONE, False)
    yield Packet("offset 15 of 61 bytes", v4(full + b"x"), bare(layout=noops, tot_hdr=80, pclass="+"), NONE, False)
    yield Packet("offset 15 of 59 bytes", v4(full[:59]), bare(layout=noops[4:], tot_hdr=80), NONE, True)
    # The four bits below the offset are not of it.
    for byte, plain, found, refused in ((0x4F, bare(pclass="+", tot_hdr=36), NONE, True), (0x5F, bare(pclass="+", tot_hdr=40), NONE, False),
                                        (0x6F, "syn " + SEEN, EXACT, False), (0x7F, "syn " + seen(tot_hdr=48), EXACT, True)):
        yield Packet(f"byte {byte:#x}", A[:32] + bytes([byte]) + A[33:], plain, found, refused)


def ends():
    """A part that ends with the IP length while the packet has more bytes, and one that ends with the packet's bytes."""
    for size, plain in ((40, bare()), (41, numberless()), (42, numberless()), (43, numberless())):
        yield Packet(f"IP length {size} of 44 bytes", v4(tcp(), length=size), plain, NONE, True)
        yield Packet(f"IP length {size} of 144 bytes", v4(tcp(), length=size) + bytes(100), plain, NONE, True)
        yield Packet(f"captured {size} of 44 bytes", A[:size], plain, NONE, True)
    for size in (44, 45, 65535):
        yield Packet(f"IP length {size} of 44 bytes, offset 6", v4(tcp(), length=size), "syn " + SEEN, EXACT, False)
        yield Packet(f"IP length {size} of 44 bytes, offset 7", v4(tcp(words=7), length=size), "syn " + seen(tot_hdr=48), EXACT, True)
    yield Packet("offset 7 reaches bytes past the IP length", v4(tcp(words=7)) + b"\1" * 4, "syn " + seen(tot_hdr=48), EXACT, True)
    yield Packet("offset 7 within the IP length", v4(tcp(words=7) + b"\1" * 4), "syn " + seen(
        layout="2/0,1/0,1/0,1/0,1/0", tot_hdr=48), NONE, False)
    long = v4(tcp(payload=bytes(100)))
    yield Packet("captured up to the payload", long[:44], "syn " + SEEN, EXACT, False)
    yield Packet("captured with a byte of the payload", long[:45], "syn " + seen(pclass="+"), NONE, False)
    yield Packet("captured but for a byte of the options", long[:43], numberless(), NONE, True)
    noops = v4(tcp(options="01" * 40))
    yield Packet("captured 64 bytes of 80", noops[:64], bare(layout=",".join(["1/0"] * 24), tot_hdr=80), NONE, True)


def ip_options():
    """The part begins behind the IP options."""
    for words, plain, refused in ((4, bare(olen=4, tot_hdr=40, pclass="+"), True), (6, "syn " + seen(olen=4, tot_hdr=48), False),
                                  (7, "syn " + seen(olen=4, tot_hdr=52), True)):
        yield Packet(f"4 bytes of IP options, offset {words}", v4(bytes(4) + tcp(words=words), first=0x46), plain, NONE, refused)
    for words, refused in ((6, False), (7, True)):
        yield Packet(f"40 bytes of IP options, offset {words}", v4(bytes(40) + tcp(words=words), first=0x4F),
                     "syn " + seen(olen=40, tot_hdr=60 + 4 * words), NONE, refused)


def version_six():
    six = {"v": 6, "quirks": "0x00000000"}
    for words in range(16):
        data, total = v6(tcp(words=words)), 40 + 4 * words
        plain, found = (bare(pclass="+", tot_hdr=total, **six), NONE) if words <= 5 else ("syn " + seen(tot_hdr=total, **six), EXACT)
        yield Packet(f"version 6, offset {words} of 24 bytes", data, plain, found, words not in (5, 6))
    yield Packet("version 6, offset 5 of 20 bytes", v6(tcp(options="")), bare(tot_hdr=60, **six), NONE, False)
    yield Packet("version 6, offset 6 of 20 bytes", v6(tcp(options="", words=6)), bare(tot_hdr=64, **six), NONE, True)
    for name, data in (("payload length 23", v6(tcp(), length=23)), ("payload length 23, more bytes", v6(tcp(), length=23) + bytes(50)),
                       ("captured but for a byte", v6(tcp())[:63])):
        yield Packet(f"version 6, {name}", data, numberless(tot_hdr=64, **six), NONE, True)
    for size in (25, 65535):
        yield Packet(f"version 6, payload length {size}", v6(tcp(), length=size), "syn " + seen(tot_hdr=64, **six), EXACT, False)
    yield Packet("version 6, offset 7 reaches bytes past the payload length", v6(tcp(words=7)) + b"\1" * 4,
                 "syn " + seen(tot_hdr=68, **six), EXACT, True)


def other_answers():
    """Before 7 and before `nothing`, behind 1 to 6."""
    for words, refused in ((0, True), (4, True), (5, False), (6, False), (7, True)):
        for flags in (0x10, 0x01, 0x04, 0x11, 0x14, 0x18):
            yield Packet(f"flags {flags:#x}, offset {words}", v4(tcp(flags=flags, ack=1, words=words)), "nothing", "", refused)
        for flags in (0x00, 0x03, 0x05, 0x06, 0x07, 0x08, 0x17, 0xE8):
            yield Packet(f"flags {flags:#x}, offset {words}", v4(tcp(flags=flags, words=words)), f"refused 7 0x{flags:02X}", "", refused)
        yield Packet(f"version 6, ACK, offset {words}", v6(tcp(flags=0x10, ack=1, words=words)), "nothing", "", refused)
    for words in (0, 4, 7):
        part = tcp(words=words)
        for refusal, data in ((1, v4(part, first=0x35)), (1, v4(part, first=0x50)), (2, v4(part)[:19]), (2, v6(part)[:39]),
                              (3, v4(part, first=0x40)), (3, v4(part, first=0x44)), (4, v4(part, protocol=17)),
                              (4, v6(part, next_header=17)), (4, v6(part, next_header=0)), (5, v4(part, fragment=0x0001)),
                              (5, v4(part, fragment=0x2000)), (6, v4(part)[:20]), (6, v4(part)[:39]), (6, v4(part, length=39)),
                              (6, v4(part, length=0)), (6, v4(part, first=0x4F)), (6, v6(part, length=19)), (6, v6(part)[:59])):
            yield Packet(f"refusal {refusal}, {len(data)} bytes {data[:12].hex()}, offset {words}", data, f"refused {refusal}", "", False)


def syn_acks():
    """With a peer, which a SYN's answer does not take."""
    for words, fields, refused in ((4, dict(mss="-", layout="-", pclass="+", tot_hdr=36, win="-"), True),
                                   (6, dict(win="mss:2"), False), (7, dict(win="mss:2", tot_hdr=48), True)):
        data = v4(tcp(flags=0x12, ack=1, window=24, words=words))
        yield Packet(f"SYN+ACK, peer 12, offset {words}", data, "synack " + seen(wsize=24, peer=12, **fields), NONE, refused, 12)
    yield Packet("SYN+ACK, peer 65535, offset 6", SYNACK, "synack " + seen(peer=65535), EXACT, False, 65535)
    yield Packet("SYN+ACK, peer 65535, offset 7", v4(tcp(flags=0x12, ack=1, words=7)), "synack " + seen(peer=65535, tot_hdr=48), EXACT,
                 True, 65535)
    yield Packet("SYN+ACK, peer absent, captured 43 bytes", SYNACK[:43], numberless().replace("syn", "synack", 1), NONE, True)
    yield Packet("version 6, SYN+ACK, offset 7", v6(tcp(flags=0x12, ack=1, words=7)), "synack " + seen(
        v=6, quirks="0x00000000", tot_hdr=68), EXACT, True)
    yield Packet("SYN, peer 12, offset 7", v4(tcp(words=7)), "syn " + seen(tot_hdr=48), EXACT, True, 12)


def sound_options():
    """Options without damage, and what looks like it behind an end-of-options: the same in both modes."""
    for options, fields in (("02 04 05 b4 01 01 04 02", dict(layout="2/0,1/0,1/0,4/0")),
                            ("02 04 05 b4 01 03 03 0e", dict(layout="2/0,1/0,3/0", wscale=14)),
                            ("02 04 05 b4 ff 02 ff 02", dict(layout="2/0,255/0,255/0")),
                            ("02 04 05 b4 00 02 00 08", dict(layout="2/0,0/3", quirks="0x04000002")),
                            ("02 04 05 b4 01 00 02 04", dict(layout="2/0,1/0,0/2", quirks="0x04000002"))):
        yield Packet(f"options {options}", v4(tcp(options=options)), "syn " + seen(tot_hdr=48, **fields), NONE, False)


def damaged(options, plain, stopped, found=NONE):
    """A SYN in whose options the strict walk stops: the fields that differ from packet A's, in the plain mode and in the strict one."""
    total, bad = 40 + len(bytes.fromhex(options)), "0x10000002"
    return Packet(f"damaged options {options}", v4(tcp(options=options)), "syn " + seen(**{"tot_hdr": total, **plain}), found, False,
                  stopped="syn " + seen(**{"tot_hdr": total, "quirks": bad, **stopped}))


def damaged_options():
    nothing = dict(layout="-", mss="-", win="-")
    # Past the end: the plain mode clips. Without its options A's layout does not fit the record.
    yield damaged("02 0a 05 b4", {}, nothing, EXACT)
    yield damaged("02 04 05 b4 02 0a 05 b4", dict(layout="2/0,2/0"), {})
    yield damaged("02 04 05 b4 03 03 01 08", dict(layout="2/0,3/0,8/0", wscale=1), dict(layout="2/0,3/0", wscale=1))
    yield damaged("01 01 01 02", {**nothing, "layout": "1/0,1/0,1/0,2/0"}, {**nothing, "layout": "1/0,1/0,1/0"})
    # A short length: the plain mode takes two bytes.
    for length in ("00", "01"):
        yield damaged(f"02 04 05 b4 03 {length} 01 01", dict(layout="2/0,3/0,1/0,1/0"), {})
        yield damaged(f"01 01 03 {length}", {**nothing, "layout": "1/0,1/0,3/0"}, {**nothing, "layout": "1/0,1/0"})
    # Both, and what stands behind the damage: a number, a scale, quirks.
    yield damaged("02 00 05 b4", {**nothing, "layout": "2/0,5/0"}, nothing)
    yield damaged("03 00 02 04 05 b4 01 01", dict(layout="3/0,2/0,1/0,1/0"), nothing)
    yield damaged("03 00 03 03 0f 00 ff ff", {**nothing, "layout": "3/0,3/0,0/2", "wscale": 15, "quirks": "0x0C000002"}, nothing)
    stamps = "08 0a 00 00 00 00 00 00 00 01 03 00"
    yield damaged(stamps, {**nothing, "layout": "8/0,3/0", "quirks": "0x03000002"}, {**nothing, "layout": "8/0", "quirks": "0x13000002"})
    reply = v4(tcp(flags=0x12, ack=1, options=stamps))
    yield Packet("SYN+ACK, damaged options", reply, "synack " + seen(tot_hdr=52, layout="8/0,3/0", mss="-", win="-", quirks="0x01000002"),
                 NONE, False, stopped="synack " + seen(tot_hdr=52, layout="8/0", mss="-", win="-", quirks="0x11000002"))
    six = dict(v=6, tot_hdr=68)
    yield Packet("version 6, damaged options", v6(tcp(options="02 04 05 b4 03 00 01 01")), "syn " + seen(
        layout="2/0,3/0,1/0,1/0", quirks="0x00000000", **six), NONE, False, stopped="syn " + seen(quirks="0x10000000", **six))
    payload = v4(tcp(options="02 04 05 b4 01 01 01 08", payload=b"\x0a" * 10))
    yield Packet("an option that would end in the payload", payload, "syn " + seen(
        layout="2/0,1/0,1/0,1/0,8/0", pclass="+", tot_hdr=48), NONE, False, stopped="syn " + seen(
        layout="2/0,1/0,1/0,1/0", pclass="+", tot_hdr=48, quirks="0x10000002"))


def damaged_elsewhere():
    """Where options are not read, or 14 comes first, damage changes nothing."""
    for options in ("02 0a 05 b4", "02 00 05 b4", "02 04 05 02"):
        for flags in (0x10, 0x11, 0x14):
            yield Packet(f"flags {flags:#x}, options {options}", v4(tcp(flags=flags, ack=1, options=options)), "nothing", "", False)
        yield Packet(f"flags 0, options {options}", v4(tcp(flags=0, options=options)), "refused 7 0x00", "", False)
        yield Packet(f"offset 5, then {options}", v4(tcp(options=options, words=5)), bare(pclass="+", tot_hdr=40), NONE, False)
    yield Packet("damaged options, offset 7 of 24 bytes", v4(tcp(options="02 00 01 01", words=7)), bare(
        layout="2/0,1/0,1/0", tot_hdr=48), NONE, True)


FAMILIES = (offsets, ends, ip_options, version_six, other_answers, syn_acks, sound_options, damaged_options, damaged_elsewhere)
PACKETS = [packet for family in FAMILIES for packet in family()]


def observed(mode):
    """The lines of `observe` in a mode, with their answers."""
    for packet in PACKETS:
        yield f"{packet.peer} {packet.data.hex()}", packet.strict() if mode == "strict" else packet.plain


def bundles():
    """A bundle of each family and one of them all: a name, the bytes, the program's output, the strict one."""
    for name, packets in [(family.__name__, list(family())) for family in FAMILIES] + [("all", PACKETS)]:
        plain = [packet.line() for packet in packets]
        strict = [packet.strict_line() for packet in packets]
        data = bundle([(packet.data, packet.peer) for packet in packets])
        yield f"modes: {name.replace('_', ' ')}", data, lines(*plain), lines(*strict)
    # A record that asks for OptBad: a quirk like any other.
    one = damaged("02 04 05 b4 03 00 01 01", {}, {}).data
    yield "modes: a record of OptBad", bundle([one], siglist([record(quirks=0x10000002)])), lines("syn none"), lines("syn exact 7")


def plain_bundles():
    """As cases of the program, which is plain."""
    for name, data, plain, _ in bundles():
        yield name, data, plain
