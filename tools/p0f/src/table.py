"""The tables that a run prints."""

import hashlib
import re
import subprocess

from reading import joined
from rules import READING, SEARCH, TEXT

FIELDS = ("version", "TTL", "option length", "MSS", "window", "scale", "layout", "quirks", "payload")


def print_versions(p0f, database):
    said = subprocess.run([p0f, "-L", "-h"], capture_output=True, text=True, check=False).stdout
    with open(database, "rb") as file:
        digest = hashlib.sha256(file.read()).hexdigest()
    print(f"{re.search(r'p0f [0-9][^ ]*', said)[0]}, list with sha256 {digest}")


def print_run(run):
    counts = run.counts
    print(f"\n== {run.name}: {len(run.lines)} lines, {len(run.numbered)} packets")
    print("families: " + ", ".join(f"{key[1]} {n}" for key, n in sorted(counts.items(), key=str) if key[0] == "family"))
    print(f"raw signatures: {counts['text', True]} equal, {counts['text', False]} not; as raw lines {counts['raw', True]} equal, "
          f"{counts['raw', False]} not; where both have one, field by field, then as it is written in the raw line:")
    for name in FIELDS:
        print(f"  {name:16} {counts[name, 'same']:7} equal {counts[name, 'other']:7} not"
              f" {counts[name, 'written', 'same']:7} equal {counts[name, 'written', 'other']:7} not")
    print(f"hop distance, where the line is the same: {counts['hops', True]} equal, {counts['hops', False]} not")
    print(f"tos, where both have a reading: {counts['tos', True]} equal, {counts['tos', False]} not")
    print_answers(counts)
    print("rules that explain the differences (packets whose raw signature needs it, whose answer does, whose raw line does):")
    for rule, words in {**TEXT, **READING, **SEARCH}.items():
        print(f"  {rule:16} {run.texts[rule]:7} {run.answers[rule]:7} {run.raws[rule]:7}   {words}")
    for case, packet, ours, theirs in run.examples:
        print(f"example of {case.rule}: {packet.hex()} peer {case.peer}")
        print(f"  here {show(ours)}   p0f {show(theirs)}   the raw line here {ours.raw}")
    print(f"unexplained: {len(run.unexplained)}")
    for row in run.unexplained[:8]:
        print("  ", *row)


def print_answers(counts):
    rows = sorted((key[1:], n) for key, n in counts.items() if key[0] == "answer")
    print(f"answers: {sum(n for key, n in rows if key[2])} equal, {sum(n for key, n in rows if not key[2])} not")
    for (ours, theirs, equal), n in rows:
        print(f"  here {ours:10} p0f {theirs:10} {'same' if equal else 'not the same':12} {n:7}")
    pairs = sorted(((n, *key[1:]) for key, n in counts.items() if key[0] == "pair"), reverse=True)
    print("  lines, where both are exact: " + ", ".join(f"here {ours} p0f {theirs} {n}" for n, ours, theirs in pairs[:12]))


def show(said):
    if not said.text:
        return "no reading"
    return joined(said.text) + " " + " ".join(map(str, said.answer))
