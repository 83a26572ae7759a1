"""Lines that p0f loads and the port's reader refuses, or the other way round, and lines at the bounds of both."""

import os
import subprocess
from collections import namedtuple

import loading
from lines import line_of
from make import cases_for
from packets import with_openings, write_capture
from parsed import asked
from witnesses import p0f_says

# loads: whether p0f loads the line, else a part of what it says; same: a line that p0f answers alike; here: none if the line is read,
# else the offset of refusal 13.
Question = namedtuple("Question", "rule text loads same here")


def line(version="*", ttl="64", olen="0", mss="*", window="*", scale="*", layout="mss", quirks="df", payload="0"):
    return f"{version}:{ttl}:{olen}:{mss}:{window},{scale}:{layout}:{quirks}:{payload}"


def question(rule, loads, here, same=None, **fields):
    return Question(rule, line(**fields), loads, line(**same) if same is not None else None, here)


# The smallest line of each rule, as docs/DIFFERENCES.md has them.
SMALLEST = (
    Question("guessed ttl", "*:1+?:0:*:*,*:::0", "Malformed signature", None, None),
    Question("ttl of 0", "*:0:0:*:*,*:::0", "Bogus initial TTL", None, None),
    Question("ttl over 255", "*:1+255:0:*:*,*:::0", "Bogus initial TTL", None, None),
    Question("small modulus", "*:1:0:*:%0,*:::0", "Bogus '%' value", None, None),
    Question("multiple of 0", "*:1:0:*:mss*0,*:::0", "Bogus MSS/MTU multiplier", None, None),
    Question("end not last", "*:1:0:*:*,*:eol+0,ts::0", "EOL must be the last option", None, None),
    Question("over 24 options", f"*:1:0:*:*,*:{','.join(['ts'] * 25)}::0", "Too many TCP options", None, None),
    Question("quirk of the other version", "6:1:0:*:*,*::df:0", "'df' is not valid for IPv6", None, None),
    Question("named kind", "*:1:0:*:*,*:?2::0", True, None, 14),
    Question("multiple over 255", "*:1:0:*:mss*256,*:::0", True, None, 14),
    Question("comma at the end", "*:1:0:*:*,*:ts,::0", True, None, 15),
    Question("no digits", "*:1::*:*,*:::0", True, None, 4),
    Question("byte behind a bad ttl", "*:1-:1:*:*,*:::0", True, "*:1-:0:*:*,*:::0", None),
    Question("byte behind a bad ttl", "*:1-:x:*:*,*:::0", True, None, 5),
    Question("minus for a colon", "*:1-0:*:*,*:::0", True, None, 4),
    Question("over 512 bytes", f"*:1:{'0' * 499}:*:*,*:::0", True, None, 512),
)

QUESTIONS = SMALLEST + (
    question("the same", True, None),
    # p0f refuses, here read
    question("guessed ttl", "Malformed signature", None, ttl="64+?"),
    question("ttl of 0", "Bogus initial TTL", None, ttl="0"),
    question("ttl of 0", "Bogus initial TTL", None, ttl="0-"),
    question("ttl of 0", "Bogus initial TTL", None, ttl="0+64"),
    question("ttl over 255", "Bogus initial TTL", None, ttl="200+100"),
    question("ttl over 255", True, None, ttl="200+55"),
    question("small modulus", "Bogus '%' value", None, window="%0"),
    question("small modulus", "Bogus '%' value", None, window="%1"),
    question("small modulus", True, None, window="%2"),
    question("multiple of 0", "Bogus MSS/MTU multiplier", None, window="mss*0"),
    question("multiple of 0", "Bogus MSS/MTU multiplier", None, window="mtu*0"),
    question("end not last", "EOL must be the last option", None, layout="eol+1,mss"),
    question("over 24 options", "Too many TCP options", None, layout=",".join(["nop"] * 25)),
    question("over 24 options", True, None, layout=",".join(["nop"] * 24)),
    *(question("quirk of the other version", f"'{quirk}' is not valid for IPv6", None, version="6", quirks=quirk)
      for quirk in ("df", "id+", "id-", "0+")),
    question("quirk of the other version", "'flow' is not valid for IPv4", None, version="4", quirks="flow"),
    # p0f loads, here refused
    *(question("named kind", True, 15, dict(layout=f"{name}{rest}"), layout=f"?{kind}{rest}")
      for kind, name, rest in ((1, "nop", ",nop,nop,nop"), (2, "mss", ""), (3, "ws", ",nop"), (4, "sok", ",nop,nop"),
                               (5, "sack", ",nop,nop"), (8, "ts", ",nop,nop"))),
    question("named kind", True, 15, layout="?0"),
    question("multiple over 255", True, 15, window="mss*256"),
    question("multiple over 255", True, 16, window="mss*1000"),
    question("multiple over 255", "Bogus MSS/MTU multiplier", 16, window="mss*1001"),
    question("comma at the end", True, 17, dict(layout="mss"), layout="mss,"),
    question("comma at the end", True, 20, dict(quirks="df"), quirks="df,"),
    question("comma at the end", "EOL must be the last option", 19, layout="eol+0,"),
    question("no digits", True, 5, dict(ttl="64"), ttl="64+"),
    question("no digits", True, 2, dict(ttl="64+64"), ttl="+64"),
    question("no digits", True, 5, dict(olen="0"), olen=""),
    question("no digits", True, 7, dict(mss="0"), mss=""),
    question("no digits", True, 9, dict(window="0"), window=""),
    question("no digits", True, 11, dict(scale="0", layout="ws,nop"), scale="", layout="ws,nop"),
    question("no digits", True, 29, dict(layout="nop,nop,nop,eol+0"), layout="nop,nop,nop,eol+"),
    question("no digits", True, 14, layout="?"),
    question("over 512 bytes", True, 512, dict(olen="0"), olen="0" * 500),
    question("byte behind a bad ttl", True, 6, dict(ttl="64-"), ttl="64-", olen="x"),
    question("byte behind a bad ttl", "Malformed signature", 6, ttl="64-", olen=""),
    Question("minus for a colon", "4:64-8:*:*,*:mss:df:0", True, "4:64:8:*:*,*:mss:df:0", 5),
    # both read, p0f otherwise
    question("byte behind a bad ttl", True, None, dict(version="4", ttl="64-"), version="4", ttl="64-", olen="8"),
    question("byte behind a bad ttl", True, None, dict(version="4", ttl="64-", olen="08"), version="4", ttl="64-", olen="18"),
    # both read
    question("bad ttl", True, None, ttl="64-"),
    question("distance of 0", True, None, dict(ttl="64"), ttl="64+0"),
    question("empty layout", True, None, layout=""),
    question("no padding", True, None, layout="mss,eol+0"),
    question("quirk twice", True, None, dict(quirks="df"), quirks="df,df"),
    question("order of quirks", True, None, dict(quirks="df,id+"), quirks="id+,df"),
    question("leading zeros", True, None, dict(mss="1460", window="8192", scale="7", layout="mss,ws,?77,nop"), ttl="064", olen="000",
             mss="01460", window="08192", scale="007", layout="mss,ws,?077,nop"),
    question("any quirk of any version", True, None, quirks="df,flow"),
    # both refuse
    question("41 entries", "Too many TCP options", 172, layout=",".join(["nop"] * 41)),
    question("upper case", "Unrecognized TCP option", 13, layout="MSS"),
    question("upper case", "Unrecognized quirk", 17, quirks="DF"),
    question("blank at the end", "Malformed payload class", 21, payload="0 "),
    question("end without number", "Malformed EOL option", 20, layout="mss,eol"),
    question("kind over 255", "Bogus '?' option", 16, layout="?256"),
    question("number over its field", "Bogus initial TTL", 4, ttl="256"),
    question("number over its field", "Bogus IP option length", 7, olen="256"),
    question("number over its field", "Bogus MSS", 11, mss="65536"),
    question("number over its field", "Bogus window size", 13, window="65536"),
    question("number over its field", "Bogus window scale", 13, scale="256"),
    question("number over its field", "Bogus EOL padding", 19, layout="eol+256"),
)


def write_list(folder, name, text):
    path = os.path.join(folder, name)
    with open(path, "w", encoding="utf-8") as file:
        file.write(f"classes = win,unix,other\n[tcp:request]\nlabel = s:unix:Q:1\nsig = {text}\n")
    return path


def loaded(p0f, folder, text):
    """Whether p0f loads a list of this line alone; what it says, if it does not."""
    capture = os.path.join(folder, "none.pcap")
    write_capture(capture, [])
    done = subprocess.run([p0f, "-f", write_list(folder, "question.fp", text), "-r", capture], capture_output=True, text=True, check=False)
    said = done.stdout + done.stderr
    if "Loaded 1 signature" in said:
        return True
    return said.split("PROGRAM ABORT : ")[1].split(" in line")[0] if "PROGRAM ABORT : " in said else "nothing known"


def answered_alike(p0f, folder, text, other):
    """Whether p0f answers packets made for the other line by the one as by the other, and some of them exactly."""
    cases = with_openings([case for case in cases_for(line_of(1, True, "s:unix:Q:1", other)) if case.syn])
    one, two = (p0f_says(p0f, write_list(folder, "alike.fp", each), folder, "alike", cases) for each in (text, other))
    exact = any(said.answer and said.answer[0] == "exact" for said in one)
    return exact and [(said.text, said.answer) for said in one] == [(said.text, said.answer) for said in two]


def shown(text):
    return text if len(text) <= 60 else f"{text[:40]}.. ({len(text)} bytes)"


def print_loads(p0f, reader, folder):
    """True if p0f or the port answers a line otherwise than is said here."""
    wrong = 0
    print("\n== lines that p0f may load or not: the rule, the line, p0f, here")
    for asking, row in zip(QUESTIONS, asked(reader, [each.text for each in QUESTIONS]), strict=True):
        said = loaded(p0f, folder, asking.text)
        here = None if row.startswith("0 ") else int(row.split()[1])
        same = asking.same is None or answered_alike(p0f, folder, asking.text, asking.same)
        right = said == asking.loads and here == asking.here and same
        wrong += not right
        words = "loads" if said is True else said
        words += f", as {shown(asking.same)}" if asking.same and same else ""
        print(f"  {asking.rule}: {shown(asking.text)}: {words}; {'read' if here is None else f'refused at {here}'}"
              f"{'' if right else f', not as expected: {asking}'}")
    print(f"{len(QUESTIONS)} lines, {wrong} not as expected")
    unlike = loading.print_loading(lambda text: loaded(p0f, folder, text), reader)
    return bool(wrong or unlike)
