"""Why a line can never fit by the port's rules, from its text alone."""

from lines import MODULUS, MSS, MTU, QUIRKS


def header_reasons(line, has):
    """Quirks and lengths of the IP and TCP headers that no packet shows."""
    return {
        "an option length that is no multiple of 4 up to 40": line.olen % 4 or line.olen > 40,
        "an option length with IPv6": line.version == 6 and line.olen,
        "flow with IPv4": line.version == 4 and has("flow"),
        "id- or 0+ with IPv6": line.version == 6 and (has("id-") or has("0+")),
        "uptr+ with urgf+": has("uptr+") and has("urgf+"),
        "ack- in a request": line.request and has("ack-"),
        "ack+ in a response": not line.request and has("ack+"),
        "ts2+ in a response": not line.request and has("ts2+"),
        "bad, which the plain mode never shows": has("bad"),
    }


def least_divisor(line):
    """The smallest number whose multiple a SYN's window may be called; a SYN+ACK's may be called one of any peer's MSS."""
    mss = 100 if line.mss is None else line.mss
    if line.window_form == MTU:
        return min(mss + 40, 1500)
    return min(mss - 12 * ((8, 0) in line.layout), 1448 if line.version == 4 else 1428)


def option_reasons(line, has):
    """Options and windows; a declared MSS or scale of a layout with two of them is the last one's."""
    kinds = [kind for kind, _ in line.layout]
    left = max([left for kind, left in line.layout if kind == 0], default=0)
    multiple = line.window_form in (MSS, MTU)
    return {
        f"scale {line.scale}, and no ws in the layout": line.scale is not None and 3 not in kinds,
        f"MSS {line.mss}, and no mss in the layout": line.mss is not None and 2 not in kinds,
        "a scale over 14 without exws": (line.scale or 0) > 14 and not has("exws"),
        "exws with a scale of at most 14": has("exws") and line.scale is not None and line.scale <= 14 and kinds.count(3) == 1,
        "exws without ws in the layout": has("exws") and 3 not in kinds,
        "ts1- or ts2+ without ts in the layout": (has("ts1-") or has("ts2+")) and 8 not in kinds,
        "opt+ with nothing after an end of options": has("opt+") and not left,
        "an end of options that is not last": 0 in kinds[:-1],
        "a multiple without an MSS of at least 100": multiple and (2 not in kinds or (line.mss is not None and line.mss < 100)),
        "a multiple whose windows all exceed 65,535": multiple and line.request and line.window * least_divisor(line) > 65535,
        "a multiple or modulus of 0": (multiple or line.window_form == MODULUS) and line.window == 0,
    }


def reasons(line):
    """Why no packet can fit the line, from its text alone."""
    def has(name):
        return bool(line.quirks & QUIRKS[name])

    return [why for why, holds in {**header_reasons(line, has), **option_reasons(line, has)}.items() if holds]
