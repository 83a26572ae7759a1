"""Databases and lines for tests/tolist and tests/mklist: where p0f.fp is, a small p0f database and what is made of it, lines that are none
here, what is no database."""
import os

# p0f.fp: by the environment, or where tools/p0f/run unpacks it.
CACHE = os.environ.get("P0F_CACHE") or os.path.join(os.environ.get("XDG_CACHE_HOME") or os.path.expanduser("~/.cache"), "p0f-witness")
DATABASE = os.environ.get("P0F_DATABASE") or os.path.join(CACHE, "tree", "etc", "p0f", "p0f.fp")

SMALL = """; a database
classes = win,unix,other
[mtu]
label = DSL
sig   = 1492

[tcp:request]
; Fun
label = s:unix:Own:1.x
sig   = *:64:0:*:5840,*:mss:df:0
sig = *:64:0:*:5840,0:mss:df:0

  label=g:unix:Own:any (not 1.x)\r
\tsig   = 4:64:0:0:*,0:::0\r
label = s:!:Tool:
sys = @unix
sig   = *:64:0:1460:mss*4,7:mss,ws,nop:id+,df:0

[tcp:response]
label = s:unix:Own:1.x
sig   = *:64:0:*:5840,*:mss:df:0
[http:request]
label = s:!:Browser:
sys = Windows
sig   = *:Host,User-Agent::
"""
REQUEST = b"""; s:unix:Own:1.x
1 *:64:0:*:5840,*:mss:df:0
1 *:64:0:*:5840,0:mss:df:0
; g:unix:Own:any (not 1.x)
2 g 4:64:0:0:*,0:::0
; s:!:Tool:
3 *:64:0:1460:mss*4,7:mss,ws,nop:id+,df:0
"""
SAID = b"""standard input line 11: never fits: scale 0, and no ws in the layout
standard input line 14: never fits: scale 0, and no ws in the layout; MSS 0, and no mss in the layout
standard input: [tcp:request] 3 labels, 4 signatures written, 2 of them never fit, 0 left out
"""
REPAIRED = REQUEST.replace(b"5840,0:", b"5840,*:").replace(b"0:0:*,0:", b"0:*:*,*:")
RESPONSE = b"; s:unix:Own:1.x\n4 *:64:0:*:5840,*:mss:df:0\n"
LABELS = b"1\ts:unix:Own:1.x\t9\n2\tg:unix:Own:any (not 1.x)\t13\n3\ts:!:Tool:\t15\n4\ts:unix:Own:1.x\t20\n"


def counts(section="request", labels=1, written=0, never=0, left_out=0):
    return (f"standard input: [tcp:{section}] {labels} labels, {written} signatures written, {never} of them never fit,"
            f" {left_out} left out\n").encode()


# Lines that are none here, and what is said of them.
NO_LINES = (
    ("*:64:0:*:mss*256,*:mss:df:0", "multiple: over 255"),
    ("*:64:0:*:mtu*1000,*:mss:df:0", "multiple: over 255"),
    ("*:64:0:*:mss*,*:mss:df:0", "multiple: a number without digits"),
    ("*:64:0:*:%,*:mss:df:0", "modulus: a number without digits"),
    ("*:64:0:*:*,*:?2:df:0", "layout: ?2 is a kind that has a name, mss"),
    ("*:64:0:*:*,*:?0:df:0", "layout: ?0 is a kind that has a name, eol+n"),
    ("*:64:0:*:*,*:?:df:0", "kind of an option: a number without digits"),
    ("*:64:0:*:*,*:?256:df:0", "kind of an option: over 255"),
    ("*:64:0:*:*,*:eol+:df:0", "eol+: a number without digits"),
    ("*:64:0:*:*,*:mss,:df:0", "layout: a comma at the end"),
    ("*:64:0:*:*,*:mss,,ws:df:0", "layout: '' is none of nop mss ws sok sack ts eol+n ?n"),
    ("*:64:0:*:*,*:mss:df,:0", "quirks: a comma at the end"),
    ("*:64:0:*:*,*:" + ",".join(["nop"] * 41) + "::0", "layout: over 40 entries"),
    ("*:64::*:*,*:mss:df:0", "option length: a number without digits"),
    ("*:64:256:*:*,*:mss:df:0", "option length: over 255"),
    ("*:64+:0:*:*,*:mss:df:0", "hops: a number without digits"),
    ("*:+9:0:*:*,*:mss:df:0", "TTL: a number without digits"),
    ("*:256:0:*:*,*:mss:df:0", "TTL: over 255"),
    ("*:6x:0:*:*,*:mss:df:0", "TTL: '6x' is no number"),
    ("*:64:0:65536:*,*:mss:df:0", "MSS: over 65535"),
    ("*:64:0::*,*:mss:df:0", "MSS: a number without digits"),
    ("*:64:0:*:65536,*:mss:df:0", "window: over 65535"),
    ("*:64:0:*:*,256:mss:df:0", "scale: over 255"),
    ("*:64:0:*:*,:mss:df:0", "scale: a number without digits"),
    ("*:64:0:*:*:mss:df:0", "window: no comma and scale behind it"),
    ("*:64:0:*:*,*:mss:df", "7 fields with colons between, not 8"),
    ("*:64-0:*:*,*:mss:df:0", "7 fields with colons between, not 8"),
    ("46:64:0:*:*,*:mss:df:0", "version: '46' is none of 4 6 *"),
    (":64:0:*:*,*:mss:df:0", "version: '' is none of 4 6 *"),
    ("*:64:0:*:*,*:mss:df:0+", "payload: '0+' is none of 0 + *"),
    ("*:64:0:*:*,*:mss:df:", "payload: '' is none of 0 + *"),
    ("*:" + "0" * 600 + ":0:*:*,*:mss:df:0", "over 512 bytes"),
    ("*:64:0:*:*,*:MSS:df:0", "layout: 'MSS' is none of nop mss ws sok sack ts eol+n ?n"),
)
LINES = (
    "*:64:0:*:*,*:mss:df:0", "4:64+12:0:*:%8192,*:mss::+", "6:64+?:0:1460:mtu*4,14:mss,ws,nop:flow:*", "4:64-:8:*:*,*:::0",
    "*:0064:0:*:mss*255,*:mss:bad,exws,opt+,ts2+,ts1-,pushf+,urgf+,uptr+,ack-,ack+,seq-,flow,0+,ecn,id-,id+,df,df:0",
    "*:64:0:*:*,*:" + ",".join(["?6"] * 36 + ["sok", "sack", "ts", "eol+255"]) + "::0", "*:" + "0" * 490 + ":0:*:*,*:mss:df:0",
)
# What is no database, and why.
NO_DATABASES = (
    (b"", "it has no section [tcp:request]"),
    (b"[tcp:response]\nlabel = s:unix:A:\n", "it has no section [tcp:request]"),
    (b"[tcp:request]\nsig = *:64:0:*:*,*:mss:df:0\n", "line 2: a sig before any label of its section"),
    (b"[tcp:request]\nsys = @unix\n", "line 2: a sys before any label of its section"),
    (b"[tcp:request]\nlabel = s:unix:A:\n[tcp:response]\nsig = 0\n", "line 4: a sig before any label of its section"),
    (b"label = s:unix:A:\n", "line 1: a label before any section"),
    (b"\nsig = 0\n", "line 2: a sig before any section"),
    (b"[tcp:request]\nlabel = Linux\n", "line 2: 'Linux' is no label: s or g, class, name and flavor, with colons between"),
    (b"[tcp:request]\nlabel = x:unix:A:\n", "line 2: 'x:unix:A:' is no label: s or g, class, name and flavor, with colons between"),
    (b"[tcp:request]\nname = s\n", "line 2: 'name' is neither label, sys nor sig"),
    (b"[tcp:request\n", "line 1: '[tcp:request' is no section"),
    (b"root:x:0:0\n", "line 1: neither a section nor 'name = value'"),
    (b"\x7fELF\xff\x00\n", "line 1: neither a section nor 'name = value'"),
    (b"[tcp:request]\n" + b"label = s:unix:A:\n" * 65536, "line 65537: more than 65535 labels"),
)
