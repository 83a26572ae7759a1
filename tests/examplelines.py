"""Lines of packets and of records, worked out by hand from documents 01 and 02: what the examples print with -l and -w."""
from bundles import A, B, C, SYNACK, bundle, record, siglist, tcp, v4, v6

PLAIN = "4:64+0:0:1460:5840,*:mss:df:0"


def with_quirks(quirks):
    return f"4:64+0:0:1460:5840,*:mss:{quirks}:0"


def options(text, **more):
    return v4(tcp(options=text, **more))


def packets():
    """A packet and its raw line; - where it has none."""
    yield A, PLAIN
    yield B, "4:28+4:0:1460:5840,*:mss:df:0"
    yield C, "-"
    yield SYNACK, PLAIN
    # The TTL: a distance of at most 30, else the byte alone; 0 is bad.
    for ttl, text in ((0, "0-"), (1, "1"), (2, "2+30"), (32, "32+0"), (33, "33"), (34, "34+30"), (97, "97"), (98, "98+30"), (128, "128+0"),
                      (224, "224"), (225, "225+30"), (255, "255+0")):
        yield v4(tcp(), ttl=ttl), f"4:{text}:0:1460:5840,*:mss:df:0"
        yield v6(tcp(), hops=ttl), f"6:{text}:0:1460:5840,*:mss::0"
    # Options of the IP header, four bytes and forty.
    yield v4(bytes(4) + tcp(), first=0x46), "4:64+0:4:1460:5840,*:mss:df:0"
    yield v4(bytes(40) + tcp(), first=0x4F), "4:64+0:40:1460:5840,*:mss:df:0"
    # The window is never a multiple, and the peer's MSS does not change a line.
    for window in (0, 1460, 2920, 65535):
        yield v4(tcp(window=window)), f"4:64+0:0:1460:{window},*:mss:df:0"
    yield (v4(tcp(flags=0x12, ack=1, window=24)), 12), "4:64+0:0:1460:24,*:mss:df:0"
    yield v4(tcp(payload=b"x")), "4:64+0:0:1460:5840,*:mss:df:+"
    # Options of the TCP header, in their order.
    yield options(""), "4:64+0:0:*:5840,*::df:0"
    yield options("02 04 05 b4 04 02 08 0a 00 00 00 01 00 00 00 00 01 03 03 07"), "4:64+0:0:1460:5840,7:mss,sok,ts,nop,ws:df:0"
    yield options("02 04 00 00 03 03 00 01"), "4:64+0:0:0:5840,0:mss,ws,nop:df:0"
    yield options("02 04 ff ff 03 03 0f 00"), "4:64+0:0:65535:5840,15:mss,ws,eol+0:df,exws:0"
    yield options("05 02 1c 04 aa bb 00 00"), "4:64+0:0:*:5840,*:sack,?28,eol+1:df:0"
    yield options("01 06 02 00 00 00 00 01"), "4:64+0:0:*:5840,*:nop,?6,eol+4:df,opt+:0"
    yield options("ff 02 07 02"), "4:64+0:0:*:5840,*:?255,?7:df:0"
    yield options("00" * 40), "4:64+0:0:*:5840,*:eol+39:df:0"
    yield options("01" * 40), f"4:64+0:0:*:5840,*:{','.join(['nop'] * 40)}:df:0"
    yield options("08 0a 00 00 00 00 00 00 00 09 01 01"), "4:64+0:0:*:5840,*:ts,nop,nop:df,ts1-,ts2+:0"
    # The quirks of both headers, in display order.
    yield v4(tcp(), fragment=0, identity=1), with_quirks("")
    yield v4(tcp(), fragment=0), with_quirks("id-")
    yield v4(tcp(), identity=1, tos=1), with_quirks("df,id+,ecn")
    yield v4(tcp(), fragment=0xC000), with_quirks("df,0+")
    yield v6(tcp(), label=0x100001), "6:64+0:0:1460:5840,*:mss:ecn,flow:0"
    yield v4(tcp(flags=0xEA, seq=0, ack=1)), with_quirks("df,ecn,seq-,ack+,urgf+,pushf+")
    yield v4(tcp(flags=0x12)), with_quirks("df,ack-")
    # Neither SYN nor SYN+ACK, and refusals.
    for flags in (0x10, 0x01, 0x04, 0x00, 0x03):
        yield v4(tcp(flags=flags, ack=1)), "-"
    for data in (b"", b"\x75", A[:39], v4(tcp(), protocol=17), v6(tcp(), next_header=0)):
        yield data, "-"


def strict_packets():
    """A packet, its raw line, and its raw line in strict mode, which is another one."""
    yield options("02 04 05 b4 03 00 00 00"), "4:64+0:0:1460:5840,*:mss,ws,eol+1:df:0", with_quirks("df,bad")
    yield options("02 04 05 b4 08 0a 00 01"), "4:64+0:0:1460:5840,*:mss,ts:df:0", with_quirks("df,bad")
    yield options("03 14 07 01"), "4:64+0:0:*:5840,7:ws:df:0", "4:64+0:0:*:5840,*::df,bad:0"
    yield options("02 04 05 b4", words=4), "4:64+0:0:*:5840,*::df:+", "-"
    yield options("02 04 05 b4", words=15), PLAIN, "-"


def records():
    """A record and its signature line; its label and whether it is generic are not written. Entries of the area: mss, eol+3, ?28, ts."""
    yield record(), "*:64:0:*:mss*4,*:mss:df:0"
    yield record(version=4, ttl=(1, 64, 5), label=9), "4:64+5:0:*:mss*4,*:mss:df:0"
    yield record(version=6, ttl=(2, 255, 0), generic=1), "6:255+?:0:*:mss*4,*:mss:df:0"
    yield record(ttl=(3, 0, 0), olen=255), "*:0-:255:*:mss*4,*:mss:df:0"
    yield record(mss=(1, 0), scale=(1, 0), payload=1), "*:64:0:0:mss*4,0:mss:df:+"
    yield record(mss=(1, 65535), scale=(1, 255), payload=2), "*:64:0:65535:mss*4,255:mss:df:*"
    for window, text in (((0, 0), "*"), ((1, 8192), "8192"), ((2, 65535), "%65535"), ((3, 255), "mss*255"), ((4, 0), "mtu*0")):
        yield record(window=window), f"*:64:0:*:{text},*:mss:df:0"
    yield record(count=0), "*:64:0:*:mss*4,*::df:0"
    yield record(count=4), "*:64:0:*:mss*4,*:mss,eol+3,?28,ts:df:0"
    yield record(first=2, count=2), "*:64:0:*:mss*4,*:?28,ts:df:0"
    yield record(quirks=0), "*:64:0:*:mss*4,*:mss::0"
    every = "df,id+,id-,ecn,0+,flow,seq-,ack+,ack-,uptr+,urgf+,pushf+,ts1-,ts2+,opt+,exws,bad"
    yield record(quirks=0x1F03F03F), f"*:64:0:*:mss*4,*:mss:{every}:0"


LISTED = siglist([data for data, _ in records()], [(2, 0), (0, 3), (28, 0), (8, 0)])


def expected(raws):
    """What an example prints with -l and -w, without what it says of each packet before its raw line."""
    lines = [f"record {number} {line}" for number, (_, line) in enumerate(records())]
    return lines + [f"packets {len(raws)}"] + [f"raw {line}" for line in raws]


def cases():
    """A name, a bundle, what is expected in the plain mode, and in strict mode."""
    plain, strict = list(packets()), list(strict_packets())
    yield "lines by hand", bundle([data for data, _ in plain], LISTED), *[expected([line for _, line in plain])] * 2
    yield ("lines by hand, strict", bundle([data for data, _, _ in strict], LISTED), expected([line for _, line, _ in strict]),
           expected([line for _, _, line in strict]))
