"""The smallest inputs of docs/DIFFERENCES.md: document 01's packet A, changed in one thing for each rule of rules.py. Packets that both
must answer alike."""

from dataclasses import replace

from packets import ACK, SYN, Case, Fields

A = Fields(ident=0, seq=1, options=bytes.fromhex("020405b4"))
ANSWER = replace(A, flags=SYN | ACK, ack=1)


def optioned(text, fields=A, **others):
    return replace(fields, options=bytes.fromhex(text), **others)


def example(rule, fields, peer=0):
    return Case("example", fields, peer=peer, rule=rule)


def examples():
    return [
        example("ttl text", replace(A, ttl=33)),
        example("ttl text", replace(A, ttl=65)),
        example("ttl text", replace(A, ttl=0)),
        example("echoed mss", optioned("02040533", ANSWER), 1460),
        example("window text", A),
        example("window text", replace(A, window=1500)),
        example("mss absent", optioned("")),
        example("scale absent", A),
        example("scale absent", optioned("020405b401010101")),
        example("mss absent", optioned("04020101")),
        example("proper size", optioned("020305b4")),
        example("proper size", optioned("03040701")),
        example("proper size", optioned("02000000")),
        example("damage", optioned("01020405")),
        example("damage", optioned("05020101")),
        example("damage", optioned("1e050000")),
        example("many options", optioned("01" * 25 + "000000")),
        example("ack bit", replace(A, ack=1)),
        example("last byte", optioned("00000001")),
        example("reserved bit", replace(A, reserved=1)),
        example("last stamp", optioned("020403e8080a00000000000000000101080a0000000100000000", window=988)),
        example("no saturation", optioned("0204ffdc", window=65535)),
        example("no saturation", replace(ANSWER, window=40001), 11),
        example("signed multiple", replace(ANSWER, window=40001), 1),
        example("not read", replace(A, offset=4)),
        example("not read", replace(A, offset=7)),
        example("not read", replace(A, total=45)),
        example("tool", optioned("020405b40101080a000000010000000063040000", window=4321)),
        example("any version", optioned("020405b401010101", version=6)),
    ]


def agreed(lines):
    """Packets that show in which order specific, generic and fuzzy lines of own.fp answer, each with what both must say."""
    number = {line.text: line.number for line in lines if line.request}
    plain, other = replace(A, ident=1), optioned("020403e842040000", ident=1, window=4000)
    return [Case("agreed", fields, agreed=(fit, number[text])) for fit, text, fields in (
        ("exact", "*:64:0:*:5840,*:mss:df,id+:0", plain),
        ("exact", "*:64:0:*:*,*:mss:df,id+:0", replace(plain, window=5841)),
        ("fuzzy", "*:64:0:*:*,*:mss:df,id+:0", replace(plain, ttl=65)),
        ("exact", "*:64:0:*:*,*:mss,?66:df,id+:0", other),
        ("exact", "*:64:0:*:5840,*:mss,?66:df,id+:0", replace(other, window=5840)),
    )]
