"""Keeper's files for tests: some with their lists and refusals worked out by hand from docs/FORMATS.md, and random ones from a seed."""
import os
import random
import re

from bundles import be16, record
from keeper import KINDS, QUIRKS

ROOT = os.path.dirname(os.path.dirname(os.path.abspath(__file__)))
LINE = b"*:64:0:*:*,*:::0"
GOOD = b"7 " + LINE
SHORT = b"1 *:0:0:*:*,*:::0\n"  # as short as a signature can be, with its end
EMPTY = bytes.fromhex("0000000800000008")
TOO_SOON = "the line ends too soon"
TOO_LONG = "the signature is longer than 512 bytes"


def long_line(size):
    """A signature line of so many bytes."""
    return LINE.replace(b"64", b"0" * (size - len(LINE)) + b"64")


def layout(*entries):
    return b"*:64:0:*:*,*:" + b",".join(entries) + b"::0"


# A file, the line and the offset of refusal 13, and what mklist says of it.
REFUSED = (
    # The table of the page.
    (b"65536 " + LINE, 1, 4, "no label goes on with '6'"),
    (b"7", 1, 1, TOO_SOON),
    (b"7  " + LINE, 1, 2, "no signature goes on with a blank"),
    (b"7 g" + LINE, 1, 3, "no signature goes on with '*'"),
    (b"7 G " + LINE, 1, 2, "no signature goes on with 'G'"),
    (b"7 *:256:0:*:*,*:::0", 1, 6, "no signature goes on with '6'"),
    (b" ; a comment", 1, 0, "no label goes on with a blank"),
    # Labels.
    (b"x", 1, 0, "no label goes on with 'x'"),
    (b"7x " + LINE, 1, 1, "no label goes on with 'x'"),
    (b"-1 " + LINE, 1, 0, "no label goes on with '-'"),
    (b"70000 " + LINE, 1, 4, "no label goes on with '0'"),
    (b"0" * 600 + b"65536 " + LINE, 1, 604, "no label goes on with '6'"),
    (b"99999999999999999999 " + LINE, 1, 4, "no label goes on with '9'"),
    (b"7\t" + LINE, 1, 1, "no label goes on with the byte 0x09"),
    (b"\t", 1, 0, "no label goes on with the byte 0x09"),
    (b" ", 1, 0, "no label goes on with a blank"),
    (LINE, 1, 0, "no label goes on with '*'"),
    (b"g " + GOOD, 1, 0, "no label goes on with 'g'"),
    (b"\xef\xbb\xbf" + GOOD, 1, 0, "no label goes on with the byte 0xef"),
    (b"\x00", 1, 0, "no label goes on with the byte 0x00"),
    (b"\xff", 1, 0, "no label goes on with the byte 0xff"),
    (b"7\x7f", 1, 1, "no label goes on with the byte 0x7f"),
    (b"7~", 1, 1, "no label goes on with '~'"),
    (b"7!", 1, 1, "no label goes on with '!'"),
    (b"7'", 1, 1, "no label goes on with '''"),
    (b"7\x1f", 1, 1, "no label goes on with the byte 0x1f"),
    (b"0" * 700, 1, 700, TOO_SOON),
    # Blanks, `g` and the signature.
    (b"7 ", 1, 2, TOO_SOON),
    (b"7 g", 1, 3, TOO_SOON),
    (b"7 g ", 1, 4, TOO_SOON),
    (b"7 g  " + LINE, 1, 4, "no signature goes on with a blank"),
    (b"7 g g " + LINE, 1, 4, "no signature goes on with 'g'"),
    (b"7 g\t" + LINE, 1, 3, "no signature goes on with the byte 0x09"),
    (b"7 \t" + LINE, 1, 2, "no signature goes on with the byte 0x09"),
    (GOOD + b" ", 1, 18, "no signature goes on with a blank"),
    (GOOD + b"; a comment", 1, 18, "no signature goes on with ';'"),
    (GOOD[:-1], 1, 17, TOO_SOON),
    (b"7 *:64:0:*:mss*256,*:::0", 1, 17, "no signature goes on with '6'"),
    (b"7 *:64:0:65536:*,*:::0", 1, 13, "no signature goes on with '6'"),
    (b"7 " + layout(b"?2"), 1, 17, "no signature goes on with ':'"),
    (b"7 " + layout(b"?002", b"mss"), 1, 19, "no signature goes on with ','"),
    (b"7 *:64:0:*:*,*:?2", 1, 17, TOO_SOON),
    (b"7 " + layout(b"?256"), 1, 18, "no signature goes on with '6'"),
    (b"7 " + layout(*[b"ts"] * 41), 1, 15 + 3 * 40 - 1, "no signature goes on with ','"),
    (b"7 g " + layout(*[b"ts"] * 41), 1, 17 + 3 * 40 - 1, "no signature goes on with ','"),
    (b"7 *:64:0:*:*,*::DF:0", 1, 16, "no signature goes on with 'D'"),
    # Over 512 bytes behind label and `g`; and where these are not whole.
    (b"7 " + long_line(513), 1, 514, TOO_LONG),
    (b"7 g " + long_line(513), 1, 516, TOO_LONG),
    (b"7 " + b"x" * 513, 1, 514, TOO_LONG),
    (b"00007 g " + b" " * 600 + b"\r\n", 1, 520, TOO_LONG),
    (b"7 " + b"x" * 512, 1, 2, "no signature goes on with 'x'"),
    (b"7 *:" + b"0" * 510, 1, 514, TOO_SOON),
    (b"7 *:" + b"0" * 510 + b"\r\n", 1, 514, TOO_SOON),
    (b"7 *:" + b"0" * 510 + b"\r", 1, 514, TOO_LONG),
    (b"7 g" + b"x" * 600, 1, 3, "no signature goes on with 'x'"),
    (b"7" + b"x" * 600, 1, 1, "no label goes on with 'x'"),
    (b"65536 " + b"x" * 600, 1, 4, "no label goes on with '6'"),
    # The ends of lines.
    (GOOD + b"\r", 1, 18, "no signature goes on with the byte 0x0d"),
    (GOOD + b"\r\r\n", 1, 18, "no signature goes on with the byte 0x0d"),
    (GOOD + b"\r" + GOOD + b"\n", 1, 18, "no signature goes on with the byte 0x0d"),
    (b"7\r" + LINE + b"\n", 1, 1, "no label goes on with the byte 0x0d"),
    (b"\r", 1, 0, "no label goes on with the byte 0x0d"),
    (b"\r\r\n", 1, 0, "no label goes on with the byte 0x0d"),
    (b"\n\r\n\n\r", 4, 0, "no label goes on with the byte 0x0d"),
    (b"7\n", 1, 1, TOO_SOON),
    (b"7\r\n", 1, 1, TOO_SOON),
    (b"7\r\n" + GOOD, 1, 1, TOO_SOON),
    (GOOD[:-1] + b"\n" + GOOD, 1, 17, TOO_SOON),
    # Which line.
    (b"\n" * 11 + b"7 *:64x0:*:*,*:::0\n", 12, 6, "no signature goes on with 'x'"),
    (b";\r\n; 1\r\n\r\n" * 3 + GOOD + b"\r\n" + b"8\r\n", 11, 1, TOO_SOON),
    (GOOD + b"\n;\n\n8 x\n9\n", 4, 2, "no signature goes on with 'x'"),
    (SHORT * 3000 + b"1 *\n" + b"x", 3001, 3, TOO_SOON),
)


def record_of(label, first=0, count=0, generic=0):
    """The record of LINE, but for its layout."""
    return record(window=(0, 0), quirks=0, first=first, count=count, generic=generic, label=label)


def of_records(*records, entries=""):
    data = bytes.fromhex(entries)
    return be16(len(records), 8 + len(data), len(data) // 2, 8) + data + b"".join(records)


ONE = of_records(record_of(7))
TWO = of_records(record_of(7), record_of(65535, generic=1))
# A file and its list.
MADE = (
    *((file, EMPTY) for file in (b"", b"\n", b"\r\n", b"\n\r\n\n", b";", b"; x", b";\n", b";\r\n\r\n", b"; 65536 x\r;\n;\xff\x00\r",
                                 b";" * 65535, b"\n" * 65535)),
    *((file, ONE) for file in (GOOD, GOOD + b"\n", GOOD + b"\r\n", b";\n" + GOOD, b"; 1\r\n\r\n" + GOOD + b"\n\n", b"00" + GOOD,
                               b"0" * 65000 + GOOD, b"7 " + long_line(512), GOOD + b"\n; \r", b"7 *:064:00:*:*,*:::0")),
    *((file, TWO) for file in (GOOD + b"\n65535 g " + LINE, GOOD + b"\r\n065535 g " + LINE + b"\n",
                               GOOD + b"\n\n;\n65535 g " + long_line(512))),
    (b"0 g " + layout(b"mss", b"eol+9") + b"\n65535 " + LINE + b"\n1 " + layout(b"?255", b"mss"),
     of_records(record_of(0, 0, 2, 1), record_of(65535, 2), record_of(1, 2, 2), entries="0200 0009 ff00 0200")),
    (GOOD + b"\n" + GOOD + b"\n", of_records(record_of(7), record_of(7))),
)


def page_example():
    """Of docs/FORMATS.md: the file of its example, the bytes of its list, and the file that is written of that."""
    with open(os.path.join(ROOT, "docs", "FORMATS.md"), encoding="utf-8") as file:
        page = file.read().split("### The list that is made")[1].split("## Bundle")[0]
    first, listed, again = ("".join(f"{row[4:]}\n" for row in block.split("\n"))
                            for block in re.findall(r"\n\n((?:    .*\n|\n(?=    ))+)", page))
    data = bytes.fromhex("".join(re.findall(r"^[0-9a-f]{4}  ((?:[0-9a-f]{2} )+)", listed, re.M)))
    return first.rstrip("\n").encode() + b"\n", data, again.rstrip("\n").encode() + b"\n"


def page_refusals():
    """The lines that the page's table refuses, each with its offset."""
    with open(os.path.join(ROOT, "docs", "FORMATS.md"), encoding="utf-8") as file:
        page = file.read().split("## Keeper's file")[1].split("### The list that is made")[0]
    return [(text.encode(), int(offset)) for text, offset in re.findall(r"^\| `([^`]+)` \| (\d+) \|", page, re.M)]


# ---- random files

def number(rng, most):
    """Mostly one of few digits, or at the bound; some with leading zeros."""
    value = rng.choice((rng.randint(0, 9), rng.randint(0, most), most, most // 2))
    return "0" * rng.choice((0, 0, 0, 0, 1, 3)) + str(value)


def entry(rng):
    unnamed = [kind for kind in range(6, 256) if kind not in KINDS.values()]
    return rng.choice((*KINDS, *KINDS, f"eol+{number(rng, 255)}", f"?{rng.choice(('', '', '00'))}{rng.choice(unnamed)}"))


def line(rng):
    """A signature line; far most have under 512 bytes."""
    ttl = number(rng, 255) + rng.choice(("", "", "-", "+?", "+" + number(rng, 255)))
    window = rng.choice(("*", number(rng, 65535), "%" + number(rng, 65535), "mss*" + number(rng, 255), "mtu*" + number(rng, 255)))
    options = [entry(rng) for _ in range(rng.choice((0, 1, 2, 5, 9, rng.randint(0, 40), 40)))]
    quirks = [rng.choice([*QUIRKS]) for _ in range(rng.choice((0, 1, 2, 3, 17)))]
    fields = (rng.choice("46*"), ttl, number(rng, 255), rng.choice(("*", number(rng, 65535))),
              window + "," + rng.choice(("*", number(rng, 255))), ",".join(options), ",".join(quirks), rng.choice("0+*"))
    return ":".join(fields)


def row(rng):
    comment = "".join(map(chr, rng.choices(range(256), k=rng.randint(0, 20)))).replace("\n", "")
    signature = f"{number(rng, 65535)} {rng.choice(('', '', 'g '))}{line(rng)}"
    return rng.choice((signature, signature, signature, "", f";{comment}")).encode("latin-1")


def random_file(rng):
    """Signatures, comments and empty lines; of either end, or of both."""
    ends = rng.choice(((b"\n",), (b"\r\n",), (b"\n", b"\r\n")))
    data = b"".join(row(rng) + rng.choice(ends) for _ in range(rng.choice((1, 2, 3, 8, 20))))
    return data if rng.randint(0, 2) else data.rstrip(b"\r\n")


ODD = b"0123456789:,*+-?%; gmsxndfGT\t\r\n\r\n\x00\x7f\x80\xff"


def mutated(rng, data):
    """A file with a few bytes changed, taken out or put in, a part that stands twice, or an end that is missing."""
    for _ in range(rng.choice((1, 1, 1, 2, 4))):
        at = rng.randint(0, len(data))
        byte = bytes([rng.choice(ODD)])
        other = at + rng.randint(0, 30)
        zeros = b"0" * rng.choice((1, 300, 520))
        data = rng.choice((data[:at] + byte + data[at + 1:], data[:at] + byte + data[at:], data[:at] + data[at + 1:], data[:at],
                           data[:other] + data[at:], data[:at] + byte + data[at:], data[:at] + zeros + data[at:]))
    return data


def random_files(seed, count):
    """So many files as they come, and as many mutated ones."""
    rng = random.Random(seed)
    for _ in range(count):
        data = random_file(rng)
        yield data
        yield mutated(rng, data)
