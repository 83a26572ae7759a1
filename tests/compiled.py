"""Lines of tools/ask compile: a keeper's file and its list, or its refusal, worked out by hand from docs/FORMATS.md; then random files
against a second reading (keeper.py)."""
import keeper
import keptfiles
from forms import BAD
from keptfiles import GOOD, SHORT, layout

SEED, FILES = 33, 600
FORTY = b"1 " + layout(*[b"ts"] * 40) + b"\n"
# As many signatures as there may be, and as many entries.
MOST = SHORT * 65535
MOST_ENTRIES = FORTY * 819 + b"1 " + layout(*[b"ts"] * 3) + b"\n"


def told(answer):
    return f"refused {' '.join(map(str, answer))}" if isinstance(answer, tuple) else f"ok {answer.hex()}"


def too_many():
    """24 and 25, each with the line with which there are too many; 13 comes before both, and 24 before 25 on the same line."""
    yield MOST + b"\n; none\r\n\n" + GOOD + b"\n" + SHORT, (24, 65539, 0)
    yield MOST + SHORT + b"\r\n" + b"7 *:256", (13, 65538, 6)
    yield FORTY * 820, (25, 820, 0)
    yield FORTY * 819 + b";\n\n" + b"1 " + layout(*[b"ts"] * 4), (25, 822, 0)
    yield MOST_ENTRIES + SHORT + b"1 g " + layout(b"nop") + b"\r\n" + FORTY, (25, 822, 0)
    yield FORTY * 820 + b"7 g*:64\n1", (13, 821, 3)
    yield SHORT * 64715 + MOST_ENTRIES + FORTY, (24, 65536, 0)
    yield SHORT * 64714 + MOST_ENTRIES + FORTY, (25, 65535, 0)


def full():
    """As many as there may be, of signatures, of entries, and of both: the longest list."""
    yield MOST, 8 + 24 * 65535
    yield MOST_ENTRIES, 8 + 2 * 32763 + 24 * 820
    yield SHORT * 64715 + MOST_ENTRIES, 1638374


def compile_lines():
    for file, line, offset, _ in keptfiles.REFUSED:
        yield file.hex(), f"refused 13 {line} {offset}"
    for file, made in keptfiles.MADE:
        yield file.hex(), f"ok {made.hex()}"
    for file, refusal in too_many():
        yield file.hex(), told(refusal)
    file, data, again = keptfiles.page_example()
    for text in (file, again):
        yield text.hex(), f"ok {data.hex()}"
    for empty in ("", "-", "~0a*1000000", "3b~ff*1000000"):
        yield empty, "ok 0000000800000008"
    yield GOOD.hex().upper(), f"ok {keptfiles.ONE.hex()}"
    yield f"{GOOD[:-1].hex()}~30*1", f"ok {keptfiles.ONE.hex()}"
    yield "~30*1000000", "refused 13 1 1000000"
    yield "~0a*1000000~37*1", BAD
    for bad in (" ", "0", "7 *", f" {GOOD.hex()}", f"{GOOD.hex()} ", f"{GOOD.hex()}\r", "3b 0a", "434 3b", "~0a*1073741825"):
        yield bad, BAD


def law(asked):
    """The second reading says the same, of the greatest lists and of random files; it is itself held to what is worked out by hand."""
    for file, size in full():
        made = keeper.compile(file)
        if len(made) != size:
            asked.fault(f"keeper.py: a list of {len(made)} bytes, expected {size}")
        asked.expect("the greatest lists", ["compile"], [file.hex()], [told(made)])
    for file, refusal in too_many():
        if keeper.compile(file) != refusal:
            asked.fault(f"keeper.py: {keeper.compile(file)}, expected {refusal}")
    for file, line, offset, _ in keptfiles.REFUSED:
        if keeper.compile(file) != (keeper.BAD_LINE, line, offset):
            asked.fault(f"keeper.py is not as by hand: {file[:60]!r}")
    files = list(keptfiles.random_files(SEED, FILES))
    answers = [told(keeper.compile(file)) for file in files]
    asked.expect("random keeper's files", ["compile"], [file.hex() for file in files], answers)
    good = sum(answer.startswith("ok") for answer in answers)
    if not FILES // 2 < good < 2 * FILES - FILES // 2:
        asked.fault(f"of {2 * FILES} random keeper's files {good} have a list")


LINES = {"compile": compile_lines}
