"""Lines of tools/ask record, raw and rawpacket, worked out by hand from the text of documents 01 and 02."""
from bundles import A, B, C, EMPTY_LIST, LIST, SYNACK, be16, record, siglist, tcp, v4, v6
from forms import BAD, SEEN, seen

LINE = "*:64:0:*:mss*4,*:mss:df:0"
RAW = "4:64+0:0:1460:5840,*:mss:df:0"
NAMES = "df,id+,id-,ecn,0+,flow,seq-,ack+,ack-,uptr+,urgf+,pushf+,ts1-,ts2+,opt+,exws,bad"
EOLS = ",".join(["eol+255"] * 40)


def ok(line):
    return f"ok {len(line)} {line}"


def raw():
    yield f"434 {SEEN}", "ok 29 4:64+0:0:1460:5840,*:mss:df:0"
    # Exactly a line that is longer than the buffer is refused.
    for room in (29, 30, 1000000):
        yield f"{room} {SEEN}", ok(RAW)
    for room in (0, 1, 28):
        yield f"{room} {SEEN}", "refused 15"
    # The multiplier, the peer's MSS, the headers' length and the type of service are not written.
    yield f"029 {SEEN[:SEEN.index(' win=')]}", ok(RAW)
    yield f"29 {seen(peer=1460, tot_hdr=65535, tos=63, win='mtu:9')}", ok(RAW)
    for ttl, text in (("value:64", "64"), ("distance:0:255", "0+255"), ("guess:200", "200+?"), ("bad:0", "0-"), ("bad:7", "7-")):
        yield f"434 {seen(ttl=ttl)}", ok(f"4:{text}:0:1460:5840,*:mss:df:0")
    yield f"434 {seen(v=6, olen=12, mss='-', wscale=0, layout='-', quirks='0x00000000', pclass='+')}", "ok 22 6:64+0:12:*:5840,0:::+"
    yield f"434 {seen(mss=0, wsize=0, wscale=255, layout='0/0')}", ok("4:64+0:0:0:0,255:eol+0:df:0")
    # The byte beside a kind other than 0 is not written, nor is a bit that is no quirk's.
    yield f"434 {seen(layout='1/1,2/2,3/3,4/4,5/5,8/8,6/6,7/7,9/9,10/0,255/255,0/3')}", ok(
        "4:64+0:0:1460:5840,*:nop,mss,ws,sok,sack,ts,?6,?7,?9,?10,?255,eol+3:df:0")
    yield f"434 {seen(quirks='0xE0FC0FC0')}", ok("4:64+0:0:1460:5840,*:mss::0")
    yield f"434 {seen(quirks='0xFFFFFFFF')}", ok(f"4:64+0:0:1460:5840,*:mss:{NAMES}:0")
    longest = seen(ttl="distance:255:255", olen=255, mss=65535, wsize=65535, wscale=255, layout=",".join(["0/255"] * 40),
                   quirks="0x1F03F03F", pclass="+")
    yield f"432 {longest}", f"ok 432 4:255+255:255:65535:65535,255:{EOLS}:{NAMES}:+"
    yield f"431 {longest}", "refused 15"
    # 11 comes before 15.
    for room in (0, 434):
        yield f"{room} {seen(layout=','.join(['1/0'] * 41))}", "refused 11"
    for bad in ("", "434", "434 ", SEEN, f" 434 {SEEN}", f"434  {SEEN}", f"434 {SEEN} ", f"434 {SEEN}\r", f"434 {SEEN} 434", f"-1 {SEEN}",
                f"- {SEEN}", f"1000001 {SEEN}", f"99999999999999999999 {SEEN}", f"0x10 {SEEN}", f"434 {SEEN} | {LIST.hex()}",
                f"434 {seen(v=5)}", f"434 {seen(olen=256)}"):
        yield bad, BAD


def lists():
    """Several records, whose layouts share entries; labels and kinds are not written."""
    records = [record(count=2), record(version=4, ttl=(1, 60, 4), olen=8, mss=(1, 1460), window=(1, 65535), scale=(1, 14), payload=1,
                                       quirks=0x1F03F03F, first=1, count=3, generic=1, label=65535),
               record(version=6, ttl=(2, 255, 0), window=(2, 0), payload=2, quirks=0, first=4, count=0),
               record(ttl=(3, 1, 0), window=(4, 255)), record(window=(0, 0), mss=(1, 0), scale=(1, 0), first=3)]
    data = siglist(records, [(1, 0), (2, 0), (0, 255), (19, 0)]).hex()
    lines = ["*:64:0:*:mss*4,*:nop,mss:df:0", f"4:60+4:8:1460:65535,14:mss,eol+255,?19:{NAMES}:+", "6:255+?:0:*:%0,*:::*",
             "*:1-:0:*:mtu*255,*:nop:df:0", "*:64:0:0:*,0:?19:df:0"]
    for index, line in enumerate(lines):
        yield f"{data} {index} 434", ok(line)
        yield f"{data} {index} {len(line)}", ok(line)
        yield f"{data} {index} {len(line) - 1}", "refused 15"
    for index in (5, 6, 65536, 2 ** 32, 2 ** 63, 2 ** 64 - 1):
        yield f"{data} {index} 434", "refused 23"
        yield f"{data} {index} 0", "refused 23"


def list_texts():
    data = LIST.hex()
    yield f"{data} 0 434", "ok 25 *:64:0:*:mss*4,*:mss:df:0"
    yield f"{data.upper()} 000 0025", ok(LINE)
    yield f"{LIST[:-1].hex()}~00*1 0 25", ok(LINE)
    yield f"{data}~ff*65536 0 1000000", ok(LINE)
    yield from lists()
    for none in ("-", "", "~00*7", LIST[:-1].hex()):
        for index in (0, 1, 2 ** 64 - 1):
            yield f"{none} {index} 0", "refused 9"
    for empty in ("~00*8", EMPTY_LIST.hex()):
        yield f"{empty} 0 434", "refused 23"
    for at in (0, 1, 299):
        bad = siglist([record()] * at + [record(version=5), record(olen=1), record(version=5)]).hex()
        for index in (0, at, at + 1, at + 3):
            yield f"{bad} {index} {25 * (index % 2)}", f"refused 10 {at}"
    forty = siglist([record(version=4, ttl=(1, 255, 255), olen=255, mss=(1, 65535), window=(3, 255), scale=(1, 255), payload=1,
                            quirks=0x1F03F03F, count=40)], [(0, 255)] * 40).hex()
    yield f"{forty} 0 434", f"ok 434 4:255+255:255:65535:mss*255,255:{EOLS}:{NAMES}:+"
    yield f"{forty} 0 433", "refused 15"
    # The most records that a list can have; their one entry lies over the first, the last byte of its quirks and the next.
    most = be16(65535, 8, 1, 25) + record(olen=1) * 65534 + record()
    yield f"{most.hex()} 65534 25", ok(LINE)
    yield f"{most.hex()} 65535 25", "refused 23"


def records():
    yield from list_texts()
    data = LIST.hex()
    for bad in ("", " ", data, f"{data} 0", f"{data} 0 ", f"{data}  434", f"{data} 0  434", f" {data} 0 434", f"{data} 0 434 ",
                f"{data} 0 434\r", f"{data} - 434", f"{data} 0 -", f"{data} -1 434", f"{data} 0 1000001", f"{data} {2 ** 64} 434",
                f"{data} {10 ** 30} 434", f"{data} 0 {2 ** 64}", f"{data[1:]} 0 434", f"{data} 0x0 434", f"- 0 434 | {SEEN}",
                f"434 {data} 0"):
        yield bad, BAD


def rawpacket():
    for peer in ("0", "-", "1460"):
        yield f"{peer} {A.hex()}", "syn 4:64+0:0:1460:5840,*:mss:df:0"
    yield f"0 {B.hex()}", "syn 4:28+4:0:1460:5840,*:mss:df:0"
    yield f"0 {SYNACK.hex()}", "synack 4:64+0:0:1460:5840,*:mss:df:0"
    yield f"0 {v6(tcp(options='', payload=b'x'), hops=0).hex()}", "syn 6:0-:0:*:5840,*:::+"
    yield f"0 {v4(tcp(options='01 03 03 0f', window=1), ttl=1, tos=1).hex()}", "syn 4:1:0:*:1,15:nop,ws:df,ecn,exws:0"
    for flags in (0x00, 0x06, 0xE8):
        yield f"0 {v4(tcp(flags=flags)).hex()}", "refused 7"
    yield f"0 {v4(tcp(flags=0x10, ack=1)).hex()}", "nothing"
    yield f"0 {C.hex()}", "refused 2"
    for none in ("0", "0 ", "0 -", "-"):
        yield none, "refused 1"
    for bad in ("", " ", A.hex(), "0  45", "0 45 ", "65536 45", "0 4g", f"434 0 {A.hex()}"):
        yield bad, BAD


LINES = {"record": records, "raw": raw, "rawpacket": rawpacket}
