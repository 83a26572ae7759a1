"""Lines of tools/ask places, worked out by hand from the text of documents 01 and 02."""

SOUND = "0x00000000"
BAD_OPTION = "0x10000000"


def walk(layout, mss="-", wscale="-", syn=SOUND, synack=None):
    return f"layout={layout} mss={mss} wscale={wscale} syn={syn} synack={synack or syn}"


def string(layout, mss="-", wscale="-", malformed=0):
    return f"layout={layout} mss={mss} wscale={wscale} malformed={malformed}"


def answer(past, short, packet, read, strict):
    return f"past={past} short={short} | packet {packet} | string {read} | strict {strict}"


def sound(layout, mss="-", wscale="-", **quirks):
    """No option is damaged: the three readers say the same."""
    said = walk(layout, mss, wscale, **quirks)
    return answer("-", "-", said, string(layout, mss, wscale), said)


STOPPED = walk("-", syn=BAD_OPTION)


def sound_lines():
    yield "", sound("-")
    yield "-", sound("-")
    yield "0101020405b4", sound("1/0,1/0,2/0", 1460)
    yield "020405B4", sound("2/0", 1460)
    yield "0100", sound("1/0,0/0")
    yield "ff02", sound("255/0")
    yield "0203ff", sound("2/0")  # data of one byte, which is no MSS
    yield "030300", sound("3/0", wscale=0)
    yield "03030f", sound("3/0", wscale=15, syn="0x08000000")
    yield "080a00000000000000ff", sound("8/0", syn="0x03000000", synack="0x01000000")
    yield "~01*40", sound(",".join(["1/0"] * 40))
    # Behind an end-of-options nothing is damaged, whatever stands there.
    yield "00000100", sound("0/3", syn="0x04000000")
    yield "00000200", sound("0/3", syn="0x04000000")
    yield "0002", sound("0/1", syn="0x04000000")
    yield "0402000200", sound("4/0,0/2", syn="0x04000000")
    yield "020405b400080a01", sound("2/0,0/3", 1460, syn="0x04000000")
    yield "~00*40", sound("0/39")


def past_lines():
    """The option past the end is the last: the packet reader clips it, the others stop before it."""
    for alone in ("02", "020405", "0203", "02ff"):
        yield alone, answer(0, "-", walk("2/0"), string("-", malformed=1), STOPPED)
    yield "ff", answer(0, "-", walk("255/0"), string("-", malformed=1), STOPPED)
    yield "020a05b4", answer(0, "-", walk("2/0", 1460), string("-", malformed=1), STOPPED)
    yield "020405b4020a0102", answer(4, "-", walk("2/0,2/0", 258), string("2/0", 1460, malformed=1), walk("2/0", 1460, syn=BAD_OPTION))
    yield "0204ffff020a0102", answer(4, "-", walk("2/0,2/0", 258), string("2/0", 65535, malformed=1), walk("2/0", 65535, syn=BAD_OPTION))
    yield "0303ff02", answer(3, "-", walk("3/0,2/0", wscale=255, syn="0x08000000"), string("3/0", wscale=255, malformed=1),
                             walk("3/0", wscale=255, syn="0x18000000"))
    yield "0101030f0f", answer(2, "-", walk("1/0,1/0,3/0", wscale=15, syn="0x08000000"), string("1/0,1/0", malformed=1),
                               walk("1/0,1/0", syn=BAD_OPTION))
    noops = ",".join(["1/0"] * 39)
    yield "01" * 39 + "02", answer(39, "-", walk(noops + ",2/0"), string(noops, malformed=1), walk(noops, syn=BAD_OPTION))


def short_lines():
    """A short length counts as 2: the packet reader and the string reader go on behind it, the strict walk does not."""
    for alone in ("0200", "0201"):
        yield alone, answer("-", 0, walk("2/0"), string("2/0"), STOPPED)
    yield "ff01", answer("-", 0, walk("255/0"), string("255/0"), STOPPED)
    # The first of two; a place is counted in bytes.
    yield "0303010300040103030f", answer("-", 3, walk("3/0,3/0,4/0,3/0", wscale=15, syn="0x08000000"),
                                         string("3/0,3/0,4/0,3/0", wscale=15), walk("3/0", wscale=1, syn=BAD_OPTION))
    yield "080a00000000000000010401", answer("-", 10, walk("8/0,4/0", syn="0x03000000", synack="0x01000000"), string("8/0,4/0"),
                                             walk("8/0", syn="0x13000000", synack="0x11000000"))
    yield "04000000ff", answer("-", 0, walk("4/0,0/2", syn="0x04000000"), string("4/0,0/2"), STOPPED)
    noops = ",".join(["1/0"] * 38)
    yield "0200~01*38", answer("-", 0, walk("2/0," + noops), string("2/0," + noops), STOPPED)


def both_lines():
    """One of a short length before one past the end; behind one past the end there is nothing, since all that is left is its own."""
    yield "0800020405", answer(2, 0, walk("8/0,2/0"), string("8/0", malformed=1), STOPPED)
    yield "0204000102000303", answer(6, 4, walk("2/0,2/0,3/0", 1), string("2/0,2/0", 1, malformed=1), walk("2/0", 1, syn=BAD_OPTION))
    yield "020a0300", answer(0, "-", walk("2/0", 768), string("-", malformed=1), STOPPED)


def lines():
    yield from (*sound_lines(), *past_lines(), *short_lines(), *both_lines())
    for long in ("~01*41", "0200~00*39", "01" * 40 + "02", "~00*16777216"):
        yield long, "refused 8"
    for bad in (" ", "0", "0x01", "01 ", " 01", "01,01", "- ", "\r", "01\r", "02 04"):
        yield bad, "bad line"
