"""Lines for tools/ask whose answers are worked out by hand from the documents' text: a command, its lines, their answers."""
import places
from bundles import A, B, C, EMPTY_LIST, LIST, SYNACK, WHOLE, be16, record, siglist, tcp, v4, v6

BAD = "bad line"
SEEN = ("v=4 ttl=distance:64:0 olen=0 mss=1460 wsize=5840 wscale=- layout=2/0 quirks=0x00000002 pclass=0 peer=- tot_hdr=44 tos=0"
        " win=mss:4")
FAR = SEEN.replace("64:0", "28:4")
FIELDS = SEEN.split(" ")
FOUND = "exact 7 at=0 count=1"


def seen(**fields):
    """The observation of packet A, but for some fields."""
    return " ".join(f"{name}={fields.get(name, value)}" for name, value in (field.split("=", 1) for field in FIELDS))


def observe():
    yield f"0 {A.hex()}", "syn " + SEEN
    yield f"- {A.hex()}", "syn " + SEEN
    yield f"0 {A.hex().upper()}", "syn " + SEEN
    yield f"1460 {A.hex()}", "syn " + SEEN
    yield f"0 {B.hex()}", "syn " + FAR
    yield f"0 {C.hex()}", "refused 2"
    yield f"0 {SYNACK.hex()}", "synack " + SEEN
    yield f"65535 {SYNACK.hex()}", "synack " + seen(peer=65535)
    yield f"12 {v4(tcp(flags=0x12, ack=1, window=24)).hex()}", "synack " + seen(wsize=24, peer=12, win="mss:2")
    yield f"0 {v4(tcp(window=1500), ttl=1).hex()}", "syn " + seen(ttl="value:1", wsize=1500, win="mtu:1")
    yield f"0 {v4(tcp(window=1, payload=b'x'), ttl=0, tos=0xff).hex()}", "syn " + seen(
        ttl="bad:0", wsize=1, quirks="0x00000003", pclass="+", tos=63, win="-")
    yield f"0 {v6(tcp()).hex()}", "syn " + seen(v=6, quirks="0x00000000", tot_hdr=64)
    yield f"0 {v4(tcp(options='01 03 03 0e')).hex()}", "syn " + seen(mss="-", wscale=14, layout="1/0,3/0", win="-")
    yield f"0 {v4(tcp(options='')).hex()}", "syn " + seen(mss="-", layout="-", tot_hdr=40, win="-")
    for flags in (0x00, 0x06, 0xE8):
        yield f"0 {v4(tcp(flags=flags)).hex()}", f"refused 7 0x{flags:02X}"
    yield f"0 {v4(tcp(flags=0x10, ack=1)).hex()}", "nothing"
    for none in ("0", "0 ", "0 -", "- -", "-", "65535 -"):
        yield none, "refused 1"
    yield "0 45~00*18", "refused 2"
    yield "0 45~00*19", "refused 4"
    yield "0 ~45*19", "refused 2"
    yield "0 -~45*1", "refused 2"
    yield f"0 {A[:43].hex()}~b4*1", "syn " + SEEN
    yield f"0 {A.hex()}~00*100000", "syn " + SEEN
    for bad in ("", " ", A.hex(), " 0 45", "0  45", "0 45 ", "0 4", "0 4g", "0 45 00", "0 0x45", "0\t45", "0 45\r", "0 45\0", "65536 45",
                "+1 45", "-1 45", "0 --", "0 -45", "0 45-", "0 ~", "0 45~", "0 45~0*1", "0 45~00", "0 45~00*", "0 45~00*-1", "0 45~00*1 ",
                "0 45~00*1~00*1", "0 45~00*1 00", "0 ~00*1073741825", "0 ~00*99999999999999999999", "0 45\u00e9"):
        yield bad, BAD


def options():
    yield "", "layout=- mss=- wscale=- malformed=0"
    yield "-", "layout=- mss=- wscale=- malformed=0"
    yield "00000100", "layout=0/3 mss=- wscale=- malformed=0"
    yield "020405", "layout=- mss=- wscale=- malformed=1"
    yield "020405b4", "layout=2/0 mss=1460 wscale=- malformed=0"
    yield "020405b40204FFFF", "layout=2/0,2/0 mss=65535 wscale=- malformed=0"
    yield "0303ff", "layout=3/0 mss=- wscale=255 malformed=0"
    yield "ff02", "layout=255/0 mss=- wscale=- malformed=0"
    yield "020405b4~01*2", "layout=2/0,1/0,1/0 mss=1460 wscale=- malformed=0"
    yield "~01*40", f"layout={','.join(['1/0'] * 40)} mss=- wscale=- malformed=0"
    yield "~00*40", "layout=0/39 mss=- wscale=- malformed=0"
    yield "~01*41", "refused 8"
    yield "~00*16777216", "refused 8"
    yield "0~1*0", BAD
    yield "01~01*0", "layout=1/0 mss=- wscale=- malformed=0"
    for bad in (" ", "0", "0x01", "01 ", " 01", "01,01", "1/0", "- ", "\r", "01\r"):
        yield bad, BAD


def ttl_forms():
    """Against a record of TTL 64: in range up to 35 below it. A Guess and a Bad are taken as the TTL that they hold."""
    reason = "added=0x00000000 missing=0x00000000"
    for ttl, answer in (("value:64", "exact 7 at=0"), ("value:29", "exact 7 at=0"), ("distance:29:35", "exact 7 at=0"),
                        ("guess:64", "exact 7 at=0"), ("bad:64", "exact 7 at=0"), ("value:28", f"fuzzy 7 at=0 hop=36 {reason}"),
                        ("value:65", f"fuzzy 7 at=0 hop=0 {reason}")):
        yield f"{seen(ttl=ttl)} | {LIST.hex()}", f"{answer} count=1"


def found():
    yield f"{SEEN} | {LIST.hex()}", FOUND
    yield f"{FAR} | {LIST.hex()}", "fuzzy 7 at=0 hop=36 added=0x00000000 missing=0x00000000 count=1"
    yield f"{seen(quirks='0x00000009')} | {LIST.hex()}", "fuzzy 7 at=0 hop=- added=0x00000009 missing=0x00000002 count=1"
    other, far = record(window=(1, 9), label=9), record(ttl=(0, 128, 0), label=65535)
    for records, answer in (([], "none count=0"), ([other] * 3, "none count=3"),
                            ([other, far, record(), record()], "exact 7 at=2 count=3"),
                            ([other, far, far], "fuzzy 65535 at=1 hop=64 added=0x00000000 missing=0x00000000 count=3"),
                            ([other] * 2599 + [record()], "exact 7 at=2599 count=2600")):
        yield f"{SEEN} | {siglist(records).hex()}", answer
    # A record of any version has its df dropped for a packet of version 6, a record of version 6 has not.
    yield f"{seen(v=6, quirks='0x00000000')} | {LIST.hex()}", FOUND
    yield (f"{seen(v=6, quirks='0x00000000')} | {siglist([record(version=6)]).hex()}",
           "fuzzy 7 at=0 hop=- added=0x00000000 missing=0x00000002 count=1")
    yield f"{seen(pclass='+')} | {LIST.hex()}", "none count=1"
    yield f"{seen(peer=0)} | {LIST.hex()}", FOUND
    forty = siglist([record(window=(0, 0), count=40)], [(1, 0)] * 40)
    yield f"{seen(layout=','.join(['1/0'] * 40))} | {forty.hex()}", FOUND
    # The multiplier on input is not looked at.
    for window in ("win=-", "win=mss:5", "win=mtu:1", "win=", "win=any"):
        yield f"{' '.join(FIELDS[:-1])} {window} | {LIST.hex()}", FOUND
    yield f"{' '.join(FIELDS[:-1])} | {LIST.hex()}", FOUND


def counts():
    """How many records are examined: a specific exact one ends the search, a generic exact, a fuzzy or another one does not."""
    exact, generic, far, other = record(), record(generic=1, label=2), record(ttl=(0, 128, 0), label=3), record(window=(1, 9))
    rejected = record(quirks=0x2002)  # the gates hold, ack+ is missing
    reason = "hop=64 added=0x00000000 missing=0x00000000"
    for records, answer in (([exact] * 2, "exact 7 at=0 count=1"), ([exact] + [other] * 299, "exact 7 at=0 count=1"),
                            ([other] * 299 + [exact, other], "exact 7 at=299 count=300"),
                            ([far, generic, exact, generic, far], "exact 7 at=2 count=3"),
                            ([generic] * 4 + [exact] * 2, "exact 7 at=4 count=5"),
                            ([generic, rejected], "exact 2 at=0 count=2"), ([other, generic, other], "exact 2 at=1 count=3"),
                            ([far, other], f"fuzzy 3 at=0 {reason} count=2"), ([other, far], f"fuzzy 3 at=1 {reason} count=2"),
                            ([far] + [rejected] * 299, f"fuzzy 3 at=0 {reason} count=300"), ([rejected], "none count=1"),
                            ([other, rejected], "none count=2"), ([rejected, other], "none count=2")):
        yield f"{SEEN} | {siglist(records).hex()}", answer
    # The most records that a list can have. Their one entry lies over the first: the last byte of its quirks and the next.
    for records, answer in (([other] * 65534 + [exact], "exact 7 at=65534 count=65535"), ([other] * 65535, "none count=65535"),
                            ([generic] + [other] * 65534, "exact 2 at=0 count=65535")):
        yield f"{SEEN} | {(be16(65535, 8, 1, 25) + b''.join(records)).hex()}", answer


def kinds():
    """The number of the record that is found, where it is generic or stands behind generic ones."""
    specific, generic = record(label=1), record(label=2, generic=1)
    far, generic_far = (record(ttl=(0, 128, 0), label=n, generic=n > 3) for n in (3, 4))
    reason = "hop=64 added=0x00000000 missing=0x00000000"
    for records, answer in (([generic], "exact 2 at=0 count=1"), ([generic] * 3, "exact 2 at=0 count=3"),
                            ([generic, specific], "exact 1 at=1 count=2"), ([specific, generic], "exact 1 at=0 count=1"),
                            ([generic, generic, specific, specific], "exact 1 at=2 count=3"),
                            ([far, generic, generic], "exact 2 at=1 count=3"), ([generic, far], "exact 2 at=0 count=2"),
                            ([generic_far, far, generic, far], "exact 2 at=2 count=4"),
                            ([generic_far, generic, far, specific], "exact 1 at=3 count=4"),
                            ([generic_far], f"fuzzy 4 at=0 {reason} count=1"), ([generic_far, far], f"fuzzy 4 at=0 {reason} count=2"),
                            ([far, generic_far], f"fuzzy 3 at=0 {reason} count=2"),
                            ([record(olen=1), generic_far], f"fuzzy 4 at=1 {reason} count=2"),
                            ([record(olen=1, generic=1)], "none count=1"),
                            ([generic] * 2599 + [specific], "exact 1 at=2599 count=2600")):
        yield f"{SEEN} | {siglist(records).hex()}", answer
    for kind in (2, 3, 128, 255):
        for at in (0, 1, 299):
            yield f"{SEEN} | {siglist([generic] * at + [record(generic=kind), record()]).hex()}", f"refused 10 {at}"


def refused_searches():
    forty_one = seen(layout=",".join(["1/0"] * 41))
    for lists in (LIST.hex(), "-", ""):
        yield f"{forty_one} | {lists}", "refused 11"
    yield f"{seen(layout=','.join(['255/255'] * 1000))} | {LIST.hex()}", "refused 11"
    for lists in ("| -", "|", "| ", "| ~00*7", f"| {LIST[:-1].hex()}"):
        yield f"{SEEN} {lists}", "refused 9"
    yield f"{SEEN} | ~00*8", "none count=0"
    yield f"{SEEN} | {EMPTY_LIST.hex()}", "none count=0"
    for at in (0, 1, 299):
        records = [record()] * at + [record(version=5)]
        yield f"{SEEN} | {siglist(records).hex()}", f"refused 10 {at}"
    # 2,730 records of zeros, but for the header's bytes: the first lies over the header, 2,730 being no version.
    yield f"{SEEN} | {be16(2730, 0, 0, 0).hex()}~00*65520", "refused 10 0"


def search_lines():
    yield from found()
    yield from ttl_forms()
    yield from counts()
    yield from kinds()
    yield from refused_searches()
    text = LIST.hex()
    for fields in (dict(v=5), dict(v=""), dict(ttl="64"), dict(ttl="value"), dict(ttl="value:256"), dict(ttl="distance:64"),
                   dict(ttl="value:64:0"), dict(ttl="Value:64"), dict(olen=256), dict(olen="-"), dict(mss=65536), dict(mss=""),
                   dict(mss="none"), dict(wsize="-"), dict(wsize=65536), dict(wscale=256), dict(layout=""), dict(layout="2"),
                   dict(layout="2/"), dict(layout="2/0,"), dict(layout="256/0"), dict(layout="0/256"), dict(layout="2/0;1/0"),
                   dict(quirks=2), dict(quirks="0x2"), dict(quirks="0x000000002"), dict(quirks="0x0000000g"), dict(pclass=1),
                   dict(pclass="-"), dict(peer=65536), dict(tot_hdr="-"), dict(tot_hdr=65536), dict(tos=256), dict(win="mss: 4")):
        yield f"{seen(**fields)} | {text}", BAD
    for name in range(len(FIELDS) - 1):  # each field but the multiplier missing, or in another place
        rest = FIELDS[:name] + FIELDS[name + 1:]
        yield f"{' '.join(rest)} | {text}", BAD
        yield f"{' '.join([*rest[:-1], FIELDS[name], rest[-1]])} | {text}", FOUND if name == len(FIELDS) - 2 else BAD
    for bad in ("", "|", f"| {text}", SEEN, f"{SEEN} {text}", f"{SEEN}| {text}", f"{SEEN} |{text}", f"{SEEN}  | {text}",
                f"{SEEN} |  {text}", f"{SEEN} | {text} ", f"{SEEN} | {text}0", f"{SEEN} | {text}\r", f" {SEEN} | {text}",
                f"syn {SEEN} | {text}", f"{SEEN} | {text} | {text}", SEEN.replace(" ", "  ") + f" | {text}"):
        yield bad, BAD


def batch():
    yield WHOLE.hex(), "packets 3;syn exact 7;syn fuzzy 7;refused 2"
    for none in ("", "-", "00", "~00*7", "~ff*65535"):
        yield none, "refused 12"
    yield "~00*65535", "refused 9"
    yield "~00*65536", "refused 12"
    yield "~00*16777216", "refused 12"
    yield f"{WHOLE.hex()}~78*1", "packets 3;syn exact 7;syn fuzzy 7;refused 2"
    yield f"{be16(0, 8, 8, 8).hex()}~00*8", "packets 0"
    for bad in ("0", " ", "packets 3", f"{WHOLE.hex()} ", f"{WHOLE.hex()}\r", f"{WHOLE.hex()};", "~00*1073741825"):
        yield bad, BAD


def read(layout="0200", **fields):
    """What is said of a line that is read: the record of the whole example, but for what is given, with label 0."""
    entries = bytes.fromhex(layout)
    return f"ok {record(label=0, count=len(entries) // 2, **fields).hex()} {layout or '-'}"


def ttl_texts():
    for text, ttl in (("0", (0, 0, 0)), ("255", (0, 255, 0)), ("054+010", (1, 54, 10)), ("64+0", (1, 64, 0)), ("200+100", (1, 200, 100)),
                      ("64+?", (2, 64, 0)), ("64-", (3, 64, 0)), ("0-", (3, 0, 0))):
        yield f"*:{text}:0:*:mss*4,*:mss:df:0", read(ttl=ttl)
    for text, place in (("256", 2), ("2550", 3), ("0256", 3), ("", 0), ("-", 0), ("+", 0), ("64+", 3), ("64+256", 5), ("64++", 3),
                        ("64+?1", 4), ("64-1", 3), ("64 ", 2), ("*", 0)):
        yield f"*:{text}:0:*:mss*4,*:mss:df:0", f"refused 13 {2 + place}"


def field_texts():
    for text, number in (("0", 0), ("255", 255), ("000255", 255)):
        yield f"*:64:{text}:*:mss*4,*:mss:df:0", read(olen=number)
        yield f"*:64:0:*:mss*4,{text}:mss:df:0", read(scale=(1, number))
        yield f"*:64:0:*:mss*{text},*:mss:df:0", read(window=(3, number))
        yield f"*:64:0:*:mtu*{text},*:mss:df:0", read(window=(4, number))
        yield f"*:64:0:*:mss*4,*:eol+{text}:df:0", read(layout=f"00{number:02x}")
    for text, number in (("0", 0), ("256", 256), ("65535", 65535), ("0065535", 65535)):
        yield f"*:64:0:{text}:mss*4,*:mss:df:0", read(mss=(1, number))
        yield f"*:64:0:*:{text},*:mss:df:0", read(window=(1, number))
        yield f"*:64:0:*:%{text},*:mss:df:0", read(window=(2, number))
    yield "*:64:0:*:*,*:mss:df:0", read(window=(0, 0))
    for version in (4, 6):
        yield f"{version}:64:0:*:mss*4,*:mss:df:0", read(version=version)
    for payload, code in (("0", 0), ("+", 1), ("*", 2)):
        yield f"*:64:0:*:mss*4,*:mss:df:{payload}", read(payload=code)


def list_texts():
    """Layouts and quirks."""
    bits = {"ecn": 0, "df": 1, "id+": 2, "id-": 3, "0+": 4, "flow": 5, "seq-": 12, "ack+": 13, "ack-": 14, "uptr+": 15, "urgf+": 16,
            "pushf+": 17, "ts1-": 24, "ts2+": 25, "opt+": 26, "exws": 27, "bad": 28}
    for name, bit in bits.items():
        yield f"*:64:0:*:mss*4,*:mss:{name}:0", read(quirks=1 << bit)
    yield f"*:64:0:*:mss*4,*:mss:{','.join(bits)}:0", read(quirks=0x1F03F03F)
    yield f"6:64:0:*:mss*4,*:mss:{','.join([*bits][::-1] * 2)}:0", read(version=6, quirks=0x1F03F03F)
    yield "*:64:0:*:mss*4,*:mss::0", read(quirks=0)
    yield "*:64:0:*:mss*4,*::df:0", read(layout="")
    yield "*:64:0:*:mss*4,*:nop,mss,ws,sok,sack,ts,?6,?007,?9,?255,eol+0,nop:df:0", read(layout="01000200030004000500080006000700"
                                                                                     "0900ff0000000100")
    yield f"*:64:0:*:mss*4,*:{','.join(['ts'] * 40)}:df:0", read(layout="0800" * 40)
    yield f"*:64:0:*:mss*4,*:{','.join(['ts'] * 41)}:df:0", f"refused 13 {17 + 3 * 40 - 1}"
    for kind in (0, 1, 2, 3, 4, 5, 8):
        yield f"*:64:0:*:mss*4,*:?{kind}:df:0", "refused 13 19"
        yield f"*:64:0:*:mss*4,*:?{kind},mss:df:0", "refused 13 19"
        yield f"*:64:0:*:mss*4,*:?00{kind}:df:0", "refused 13 21"
    for text, place in (("?256", 3), ("?", 1), ("eol", 3), ("eol+", 4), ("eol+256", 6), ("mss,", 4), (",mss", 0), ("MSS", 0), ("mssx", 3),
                        ("so", 2), ("sox", 2), (" mss", 0), ("?-1", 1)):
        yield f"*:64:0:*:mss*4,*:{text}:df:0", f"refused 13 {17 + place}"
    for text, place in (("df,", 3), (",df", 0), ("dfx", 2), ("d", 1), ("id", 2), ("ts1+", 3), ("ack", 3), ("DF", 0), ("df df", 2),
                        ("0", 1)):
        yield f"*:64:0:*:mss*4,*:mss:{text}:0", f"refused 13 {21 + place}"


def line():
    whole = "*:64:0:*:mss*4,*:mss:df:0"
    yield whole, read()
    yield "".join(f"\\x{ord(c):02X}" for c in whole), read()
    # The line that docs/FORMATS.md takes apart.
    yield "*:64:0:1460:mss*20,7:mss,sok,ts,nop,ws:df,id+:0", "ok 00004000000105b403001401070000000006000005000000 02000400080001000300"
    yield from ttl_texts()
    yield from field_texts()
    yield from list_texts()
    for at in range(len(whole)):
        yield whole[:at], f"refused 13 {at}"
    for end in ("\\x0a", "\\x0d", "\\x00", "\\xff", "\\x5c", " ", "0", ":", "*"):
        yield whole + end, f"refused 13 {len(whole)}"
        yield whole[:5] + end + whole[5:], "refused 13 5" if end != "0" else read()
    zeros = "0" * (512 - len(whole))
    yield whole.replace("64", zeros + "64"), read()
    yield whole.replace("64", zeros + "064"), "refused 13 512"
    yield whole.replace("64", zeros[1:] + "64") + ":", "refused 13 511"
    yield "x" * 512, "refused 13 0"
    yield "x" * 513, "refused 13 512"
    yield "\\xff" * 513, "refused 13 512"
    yield "*:" + "0" * 510, "refused 13 512"
    for bad in ("\\", "\\x", "\\x0", "\\x0g", "\\n", "\\X0a", "*:64\t", "*:64\r", "*:64\0", "\u00e9", "\x7f", whole + "\\"):
        yield bad, BAD


def ttl():
    """Both sides of each start and of 30 hops, and byte 0."""
    for byte, entry in ((0, "3 32"), (1, "0 31"), (2, "1 30"), (31, "1 1"), (32, "1 0"), (33, "0 31"), (34, "1 30"), (64, "1 0"),
                        (65, "0 63"), (97, "0 31"), (98, "1 30"), (128, "1 0"), (129, "0 126"), (224, "0 31"), (225, "1 30"),
                        (254, "1 1"), (255, "1 0")):
        yield str(byte), entry
    yield "052", "1 12"
    for bad in ("", "-", "256", "1000", "99999999999999999999", "+1", "-1", " 1", "1 ", "1 1", "0x10", "1.", "a", "1\r", "1\0"):
        yield bad, BAD


LINES = {"observe": observe, "options": options, "search": search_lines, "batch": batch, "line": line, "ttl": ttl,
         "places": places.lines}
