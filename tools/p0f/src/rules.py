"""The rules by which p0f 3.09b reads and searches otherwise than the port. docs/DIFFERENCES.md explains each under its name."""

TEXT = {
    "ttl text": "a guess of up to 35 hops is printed, a longer one as ?",
    "echoed mss": "an MSS of 1331 in a SYN+ACK is printed as *",
    "window text": "a window that is a multiple is printed as one: mss*N, mtu*N",
}
READING = {
    "mss absent": "an absent MSS is 0",
    "scale absent": "an absent scale is 0",
    "proper size": "MSS, scale, SACK permitted and timestamps have their proper size whatever their length byte says; another shows bad",
    "damage": "an option past the end, a SACK outside 10 to 34 bytes, another kind outside 2 to 40: the walk ends and shows bad",
    "many options": "the walk ends after 24 options and shows bad",
    "ack bit": "ack+ needs an odd first byte of the acknowledgment",
    "last byte": "opt+ does not see the last byte",
    "reserved bit": "the lowest of the four bits below the data offset shows ecn",
    "last stamp": "the last timestamp counts, not any zero one",
    "no saturation": "sums and differences do not stop at 65,535 and 0",
    "signed multiple": "a multiple over 32,767 is none",
    "not read": "a data offset under 5 or past the end, an IP length past the end: no answer",
}
SEARCH = {
    "tool": "a line of class ! never fits fuzzily, and hides a later fuzzy line",
    "any version": "the version of a line is not compared",
}
ALL = frozenset(TEXT) | frozenset(READING) | frozenset(SEARCH)
NONE = frozenset()
