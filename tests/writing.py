"""Laws of the lines that are written, asked of tools/ask: what is written is what a second reading writes (rawlines.py), and what is read
of a written line is written again."""
from bundles import be16, record, siglist
from forms import seen
from rawlines import LONGEST, into, is_written, list_of_one, number, of_answer, of_observation, of_record

EDGES = (0, 1, 9, 10, 99, 100, 255)
WIDE = (*EDGES, 256, 999, 1000, 9999, 10000, 32768, 65535)
PASTS = (2 ** 16, 2 ** 32, 2 ** 64 - 1)
ENTRIES = ((1, 0), (2, 0), (3, 0), (4, 0), (5, 0), (8, 0), (0, 0), (0, 255), (6, 0), (99, 0), (255, 0))


def around(length):
    """The rooms to try for a line of this length."""
    return sorted({max(length, 1) - 1, length, length + 1, 0, LONGEST})


def layout(entries):
    return ",".join(f"{kind}/{byte}" for kind, byte in entries) or "-"


def observations():
    """Each field of an observation in turn over its values, and layouts of every length and kind."""
    for version in (4, 6):
        for ttl in range(256):
            yield from (seen(v=version, ttl=f"{form}:{ttl}") for form in ("value", "guess", "bad"))
            yield from (seen(v=version, ttl=f"distance:{ttl}:{hops}") for hops in (*EDGES, 255 - ttl))
        yield from (seen(v=version, pclass=payload, layout=layout(ENTRIES)) for payload in "0+")
    for byte in range(256):
        yield from (seen(olen=byte), seen(wscale=byte), seen(layout=f"{byte}/0"), seen(layout=f"0/{byte}"), seen(layout=f"1/0,{byte}/255"))
    for value in ("-", *WIDE):
        yield from (seen(mss=value), seen(wsize=0 if value == "-" else value), seen(peer=value))
    for size in range(42):
        yield from (seen(layout=layout([each] * size)) for each in ((0, 255), (8, 0), (200, 7)))
        yield seen(layout=layout((ENTRIES * 4)[:size]))
    for bit in range(32):
        yield from (seen(quirks=f"0x{quirks:08X}") for quirks in (1 << bit, 2 ** 32 - 1 - (1 << bit), 2 ** (bit + 1) - 1))


def lists():
    """Each field of a record in turn, good and bad; layouts of every length and kind, and such as lie outside."""
    one = [dict(version=n) for n in range(8)] + [dict(ttl=(form, ttl, d)) for form in range(5) for ttl in EDGES for d in (0, 1, 255)]
    one += [dict(olen=n) for n in range(256)] + [dict(mss=(p, n)) for p in range(3) for n in WIDE]
    one += [dict(window=(form, n)) for form in range(6) for n in WIDE] + [dict(scale=(p, n)) for p in range(3) for n in range(256)]
    one += [dict(payload=n) for n in range(4)] + [dict(quirks=1 << bit) for bit in range(32)]
    one += [dict(quirks=0x1F03F03F ^ 1 << bit) for bit in range(32)] + [dict(generic=n, label=n) for n in (0, 1, 2, 255)]
    yield from (siglist([record(**fields)]) for fields in one)
    yield siglist([record(**fields) for fields in one if fields.get("olen")])
    for kind in range(256):
        yield from (siglist([record(first=1, count=2)], [(2, 0), (kind, byte), (0, 7)]) for byte in (0, 1, 255))
    for size in range(43):
        yield from (siglist([record(first=first, count=size)], (ENTRIES * 4)[:42]) for first in range(3))
    # Areas over each other and behind what no area holds, and one byte too short.
    yield from (be16(1, 9, 2, at) + bytes(1) + record(count=2, quirks=0) + bytes(end) for at in range(40) for end in range(5))
    yield from (be16(0, at, 0, at) for at in (0, 8, 9))


def written_packets(asked, stored):
    """Every stored packet, by what the original observes of it; in the strict mode, by what `observe` does."""
    lines = stored("observe.in")
    asked.expect("raw lines of stored packets", ["rawpacket"], lines, list(map(of_answer, stored("observe.out"))))
    asked.expect("raw lines, strict", ["rawpacket", "strict"], lines, list(map(of_answer, asked.ask(["observe", "strict"], lines))))


def written_observations(asked, stored):
    """Those that are stored, and those above, into buffers around their line's length; the lines."""
    packets = [answer.split(" ", 1)[1] for answer in stored("observe.out") if answer.startswith("syn")]
    texts = dict.fromkeys([*packets, *(line.split(" | ")[0] for line in stored("search.in")), *observations()])
    lines = {text: of_observation(text) for text in texts}
    pairs = [(f"{room} {text}", into(room, line)) for text, line in lines.items() for room in around(len(line))]
    asked.expect("raw lines", ["raw"], *map(list, zip(*pairs)))
    return [line for line in lines.values() if not line.startswith("refused")]


def written_records(asked, stored):
    """The records of the stored lists and of those above, and indexes past them; the lines."""
    pairs, lines = [], []
    for data in dict.fromkeys([*(bytes.fromhex(line.split(" | ")[1].strip("-")) for line in stored("search.in")), *lists()]):
        past = number(data, 0)
        for index in (*range(past + 1 if len(data) >= 8 + 24 * past else 1), past + 1, *PASTS):
            line = of_record(data, index)
            written = not line.startswith("refused")
            pairs += [(f"{data.hex() or '-'} {index} {room}", into(room, line)) for room in around(len(line) if written else 0)]
            lines += [line] if written else []
    asked.expect("lines of records", ["record"], *map(list, zip(*pairs)))
    return lines


def read_again(asked, lines):
    """A line that is read, written from a list of the one record that was read, and read again: the same record; the same line exactly if
    it was in written form. How many lines were."""
    read = asked.ask(["line"], lines)
    bad = [line for line, answer in zip(lines, read) if not answer.startswith("ok")]
    if bad:
        asked.fault(f"{len(bad)} lines are not read, the first of them {bad[0][:200]!r}")
        return 0
    texts = asked.ask(["record"], [f"{list_of_one(*answer.split(' ')[1:]).hex()} 0 {LONGEST}" for answer in read])
    again = [text.split(" ", 2)[2] if text.startswith("ok") else "" for text in texts]
    asked.expect("read again", ["line"], again, read)
    asked.lines += len(lines) + len(texts)
    for line, text in zip(lines, again):
        if not text or (line == text) != is_written(line) or not is_written(text):
            asked.fault(f"line {line[:200]!r} is written as {text[:200]!r}")
    return sum(map(is_written, lines))


def law(asked, stored):
    written_packets(asked, stored)
    good = [line for line, answer in zip(stored("line.in"), stored("line.out")) if answer.startswith("ok")]
    if read_again(asked, good) in (0, len(good)):
        asked.fault("all stored lines are in written form, or none is")
    made = sorted({*written_observations(asked, stored), *written_records(asked, stored)})
    if read_again(asked, made) != len(made):
        asked.fault("a line that was written is not in written form")
