"""A packet's raw signature: by document 01's rules, and by p0f's where a rule of rules.py is named."""

from dataclasses import dataclass

from lines import NAMES, QUIRKS
from packets import ACK, CWR, ECE, FIN, PSH, RST, SYN, URG

PROPER = {2: 4, 3: 3, 4: 2, 8: 10}


@dataclass
class Observation:
    version: int
    ttl: int
    olen: int
    mss: int | None
    window: int
    scale: int | None
    layout: tuple
    quirks: int
    payload: int
    multiple: tuple | None


class Walk:
    """The options of a packet, read so far."""

    def __init__(self, options, syn, rules):
        self.options, self.syn, self.rules = options, syn, rules
        self.layout, self.quirks, self.mss, self.scale = [], 0, None, None
        self.last_stamp, self.stopped = None, False
        at = 0
        while at < len(options) and not self.stopped:
            if len(self.layout) == 24 and "many options" in rules:
                self.show("bad")
                return
            at = self.step(at)

    def show(self, name, condition=True):
        self.quirks |= QUIRKS[name] if condition else 0

    def step(self, at):
        kind = self.options[at]
        if kind == 0:
            rest = self.options[at + 1:]
            seen = rest[:-1] if "last byte" in self.rules else rest
            self.show("opt+", any(seen))
            self.layout.append((0, len(rest)))
            return len(self.options)
        self.layout.append((kind, 0))
        if kind == 1:
            return at + 1
        size = self.size(kind, at)
        if not self.stopped:
            self.data(kind, self.options[at + 2:at + size])
        return at + size

    def size(self, kind, at):
        left = len(self.options) - at
        stated = self.options[at + 1] if left > 1 else 0
        size = max(stated, 2)
        if kind in PROPER and "proper size" in self.rules:
            size = PROPER[kind]
            self.show("bad", left > 1 and stated != size)
        low, high = (10, 34) if kind == 5 else (2, 40)
        if "damage" in self.rules and (size > left or (kind not in PROPER and not low <= stated <= high)):
            self.stopped = True
            self.show("bad")
        return min(size, left)

    def data(self, kind, data):
        if kind == 2 and len(data) >= 2:
            self.mss = int.from_bytes(data[:2], "big")
        if kind == 3 and data:
            self.scale = data[0]
            self.show("exws", data[0] > 14)
        if kind == 8 and len(data) >= 4:
            self.last_stamp = int.from_bytes(data[:4], "big")
            self.show("ts1-", self.last_stamp == 0)
        if kind == 8 and len(data) >= 8:
            self.show("ts2+", self.syn and any(data[4:8]))

    def stamped(self):
        if "last stamp" in self.rules:
            return bool(self.last_stamp)
        return (8, 0) in self.layout and not self.quirks & QUIRKS["ts1-"]


def signed(n):
    return (n + 0x8000) % 0x10000 - 0x8000


def quotient(window, divisor):
    """C's: towards zero."""
    return window // divisor if divisor > 0 else -(window // -divisor)


def multiple_of(window, mss, head, stamped, version, peer, rules):
    if window == 0 or mss is None or mss < 100:
        return None
    fit = (lambda n: n) if "no saturation" in rules else (lambda n: min(65535, max(0, n)))
    six = version == 6
    tests = [(mss, 0), (fit(mss - 12) * stamped, 0), (1460, 0), (1448, 0), (1440 * six, 0), (1428 * six, 0), (fit(mss + 40), 1),
             (fit(mss + head), 1), (fit(mss + 60) * six, 1), (1500, 1), (peer, 0), (fit(peer - 12) if peer else 0, 0)]
    for divisor, of_mtu in tests:
        if divisor and window % divisor == 0:
            multiple = quotient(window, divisor)
            if "signed multiple" in rules or "no saturation" in rules:
                multiple = signed(multiple)
            return (of_mtu, multiple) if multiple > 0 else None
    return None


def ip_part(packet, rules):
    """Version, TTL, option length, quirks, IP header bytes, the TCP part; none if there is no answer."""
    quirks = 0
    if packet[0] >> 4 == 6:
        start, end, ttl = 40, 40 + int.from_bytes(packet[4:6], "big"), packet[7]
        quirks |= QUIRKS["flow"] if int.from_bytes(packet[1:4], "big") & 0xFFFFF else 0
        quirks |= QUIRKS["ecn"] if packet[1] >> 4 & 3 else 0
    else:
        start, end, ttl = (packet[0] & 15) * 4, int.from_bytes(packet[2:4], "big"), packet[8]
        if start < 20 or packet[6] & 0x3F or packet[7]:
            return None
        quirks |= QUIRKS["ecn"] if packet[1] & 3 else 0
        quirks |= QUIRKS["0+"] if packet[6] & 0x80 else 0
        ident = any(packet[4:6])
        if packet[6] & 0x40:
            quirks |= QUIRKS["df"] | (QUIRKS["id+"] if ident else 0)
        elif not ident:
            quirks |= QUIRKS["id-"]
    if "not read" in rules and end > len(packet):
        return None
    part = packet[start:max(start, end)]
    return packet[0] >> 4, ttl, start - 20 if packet[0] >> 4 == 4 else 0, quirks, start, part


def header_quirks(part, flags, rules):
    shown = {
        "ecn": flags & (ECE | CWR) or ("reserved bit" in rules and part[12] & 1), "seq-": not any(part[4:8]),
        "ack-": flags & ACK and not any(part[8:12]), "urgf+": flags & URG, "uptr+": not flags & URG and any(part[18:20]),
        "pushf+": flags & PSH,
        "ack+": not flags & ACK and (part[8] & 1 if "ack bit" in rules else any(part[8:12])),
    }
    return sum(QUIRKS[name] for name, yes in shown.items() if yes)


def observe(packet, peer, rules):
    """The observation of a packet whose flags are those of a SYN or SYN+ACK, or none."""
    read = ip_part(packet, rules)
    if read is None or len(read[5]) < 20:
        return None
    version, ttl, olen, quirks, start, part = read
    flags, size = part[13], 4 * (part[12] >> 4)
    if flags & (FIN | RST) or not flags & SYN:
        return None
    if "not read" in rules and (size < 20 or size > len(part)):
        return None
    walk = Walk(part[20:size], not flags & ACK, rules)
    quirks |= walk.quirks | header_quirks(part, flags, rules)
    window = int.from_bytes(part[14:16], "big")
    multiple = multiple_of(window, walk.mss, start + size, walk.stamped(), version, peer if flags & ACK else 0, rules)
    mss = 0 if walk.mss is None and "mss absent" in rules else walk.mss
    scale = 0 if walk.scale is None and "scale absent" in rules else walk.scale
    payload = int(len(part) > max(20, size))
    return Observation(version, ttl, olen, mss, window, scale, tuple(walk.layout), quirks, payload, multiple)


# ---- the text

def guess(ttl):
    return next(top for top in (32, 64, 128, 255) if ttl <= top) - ttl


def ttl_text(ttl, rules):
    hops = guess(ttl)
    if "ttl text" in rules:
        return f"{ttl}+{hops}" if hops <= 35 else f"{ttl}+?"
    if ttl == 0:
        return "0-"
    return f"{ttl}+{hops}" if hops <= 30 else f"{ttl}"


def option_text(kind, left):
    return f"eol+{left}" if kind == 0 else NAMES.get(kind, f"?{kind}")


def joined(text):
    """The nine fields as one line."""
    return ":".join((*text[:4], ",".join(text[4:6]), *text[6:]))


def raw_of(o, syn, rules):
    """The raw line, as it is written: the window as a number, or as a multiple by p0f's rule."""
    text = text_of(o, syn, rules)
    return joined(text if "window text" in rules else (*text[:4], str(o.window), *text[5:]))


def text_of(o, syn, rules):
    """The nine fields of a raw signature."""
    mss = "*" if o.mss is None or (o.mss == 1331 and not syn and "echoed mss" in rules) else str(o.mss)
    window = f"{('mss', 'mtu')[o.multiple[0]]}*{o.multiple[1]}" if o.multiple else str(o.window)
    return (
        str(o.version), ttl_text(o.ttl, rules), str(o.olen), mss, window, "*" if o.scale is None else str(o.scale),
        ",".join(option_text(*entry) for entry in o.layout), ",".join(n for n, bit in QUIRKS.items() if o.quirks & bit),
        "0+"[o.payload])
