"""What p0f remembers of a flow: packets that the port reads, each by itself, and p0f does not."""

import os
from collections import Counter
from dataclasses import replace

from packets import ACK, SYN, Case, Fields, write_capture
from witnesses import flow_of, run_p0f

OPENING = Case("flow", Fields(options=bytes.fromhex("020405b4")))
ANSWER = Case("flow", Fields(flags=SYN | ACK, ack=0x01020305, options=bytes.fromhex("020405b4")))
OTHER = replace(ANSWER, fields=replace(ANSWER.fields, seq=9, window=1024))
SCAN = Case("flow", Fields(df=False, window=1024, options=bytes.fromhex("020405b4")))
LATER = replace(OPENING, fields=replace(OPENING.fields, seq=9))

FLOWS = (
    ("a SYN and its SYN+ACK", (OPENING, ANSWER), (1, 1)),
    ("a SYN+ACK whose SYN was not seen", (ANSWER,), (0, 0)),
    ("a SYN+ACK twice", (OPENING, ANSWER, ANSWER), (1, 1)),
    ("a second SYN+ACK that is not the first", (OPENING, ANSWER, OTHER), (1, 1)),
    ("a SYN twice", (OPENING, OPENING), (1, 0)),
    ("a SYN, and another of its flow", (OPENING, LATER), (2, 0)),
    ("a SYN that fits a line of class !, and its SYN+ACK", (SCAN, ANSWER), (1, 0)),
)


def print_flows(p0f, folder):
    """True if p0f reads other packets of a flow than is said here."""
    capture = os.path.join(folder, "flows.pcap")
    write_capture(capture, [(index, case) for index, (_, cases, _) in enumerate(FLOWS) for case in cases])
    read = Counter()
    for row in run_p0f(p0f, os.path.join(folder, "p0f.fp"), capture, os.path.join(folder, "flows.log")):
        entry = dict(part.split("=", 1) for part in row.split("] ", 1)[1].split("|"))
        if entry["mod"] in ("syn", "syn+ack"):
            read[flow_of(entry), entry["mod"]] += 1
    print("\n== flow memory: packets, and the SYNs and SYN+ACKs that p0f reads of them")
    wrong = False
    for index, (name, cases, expected) in enumerate(FLOWS):
        found = read[index, "syn"], read[index, "syn+ack"]
        wrong = wrong or found != expected
        print(f"  {name}: {len(cases)}, of which {found[0]} and {found[1]}{'' if found == expected else ', not as expected'}")
    return wrong
