"""p0f beside the port: compare.py P0F LIST PORT READER AGAIN PARSER OWN NEVER FOLDER. Ends with 1 if a difference has no explanation."""

import functools
import os
import sys
from collections import Counter

import examples
import flows
import loads
import never
import parsed
import probes
import table
from lines import list_of, read_lines, relabelled, repaired
from make import cases_for
from packets import packet_of, with_openings
from reading import observe, raw_of, text_of
from rules import ALL, NONE
from search import by_layout, search
from witnesses import p0f_says, port_says, text_fields


def modelled(index, packet, case, rules):
    """The signature in its fields with the window's multiple, the answer, the raw line; nothing if there is no reading."""
    o = observe(packet, case.peer, rules)
    if o is None:
        return None, None, None
    return text_of(o, case.syn, rules), search(index, case.syn, o, rules), raw_of(o, case.syn, rules)


def least(wanted, say):
    """Rules that are all needed for what p0f says: of all rules those whose loss, one after the other, would change it; again of what is
    left, until none can be lost: one rule may hide that another is not needed."""
    kept, before = set(ALL), set()
    while kept != before:
        before = set(kept)
        for rule in sorted(before):
            if say(frozenset(kept - {rule})) == wanted:
                kept.remove(rule)
    return kept


class Run:
    """One list, its cases, and what is counted."""

    def __init__(self, name, lines, cases):
        self.name, self.lines, self.index = name, lines, by_layout(lines)
        self.numbered = with_openings(cases)
        self.counts, self.texts, self.answers, self.raws = Counter(), Counter(), Counter(), Counter()
        self.unexplained, self.examples = [], []

    def lists(self):
        return [list_of([line for line in self.lines if line.request == request]) for request in (True, False)]

    def explain(self, case, packet, ours, theirs):
        @functools.cache
        def say(rules):
            return modelled(self.index, packet, case, rules)

        needed = [least(theirs[i], lambda rules, i=i: say(rules)[i]) if ours[i] != theirs[i] else set() for i in (0, 1, 2)]
        for counted, rules in zip((self.texts, self.answers, self.raws), needed):
            counted.update(rules)
        if case.rule:
            self.examples.append((case, packet, ours, theirs))
            if case.rule not in set().union(*needed):
                self.unexplained.append(("example", case.rule, packet.hex(), needed))
        if case.agreed and not ours.answer == theirs.answer == case.agreed:
            self.unexplained.append(("agreed", case.agreed, packet.hex(), ours, theirs))

    def check(self, case, packet, ours, theirs):
        """Without a rule of p0f's the model must say what the port says, with all of them what p0f says."""
        for who, said, rules in (("port", ours, NONE), ("p0f", theirs, ALL)):
            model = modelled(self.index, packet, case, rules)
            if model != said[:3]:
                self.unexplained.append((who, case.family, case.line, packet.hex(), case.peer, said, model))
                return False
        return True

    def count(self, case, ours, theirs):
        self.counts["family", case.family] += 1
        self.counts["text", ours.text == theirs.text] += 1
        self.counts["raw", ours.raw == theirs.raw] += 1
        one, other = (said.answer[0] if said.answer else "no reading" for said in (ours, theirs))
        self.counts["answer", one, other, ours.answer == theirs.answer] += 1
        if one == other == "exact" and ours.answer != theirs.answer:
            self.counts["pair", ours.answer[1], theirs.answer[1]] += 1
        if ours.text and theirs.text:
            self.counts["tos", ours.tos == theirs.tos] += 1
            for name, mine, their, written in zip(table.FIELDS, ours.text, theirs.text, text_fields(ours.raw)):
                self.counts[name, "same" if mine == their else "other"] += 1
                self.counts[name, "written", "same" if written == their else "other"] += 1
            if ours.answer == theirs.answer and ours.answer[1]:
                self.counts["hops", ours.hops == theirs.hops] += 1

    def compare(self, port, p0f):
        for (index, case), ours, theirs in zip(self.numbered, port, p0f, strict=True):
            packet = packet_of(case.fields, index, not case.syn)
            self.count(case, ours, theirs)
            if self.check(case, packet, ours, theirs):
                self.explain(case, packet, ours, theirs)
        table.print_run(self)
        return bool(self.unexplained or self.counts["hops", False] or self.counts["tos", False])


def ask_port(port, run, folder):
    return port_says(port, run.lists(), folder, [(int(not case.syn), index, case) for index, case in run.numbered])


def ask_p0f(p0f, run, folder):
    path = os.path.join(folder, run.name)
    with open(path, "w", encoding="utf-8") as file:
        file.write(relabelled(run.lines))
    said = p0f_says(p0f, path, folder, run.name, run.numbered)
    return [one._replace(answer=one.answer and numbered_answer(one.answer)) for one in said]


def numbered_answer(answer):
    """p0f names a line by its label, which relabelled() made its number."""
    return answer[0], 0 if answer[0] == "none" else int(answer[1].split()[-1])


def same_names(run, p0f, named):
    """With the labels of the list as it comes, p0f must name the label of the same line."""
    labels = {line.number: " ".join(line.label.split(":")[2:]).strip() for line in run.lines}
    for one, other in zip(p0f, named, strict=True):
        if one.answer and one.answer[1] and labels[one.answer[1]] != other.answer[1].strip():
            raise SystemExit(f"p0f names {other.answer} where the line is {one.answer}")


def main():
    p0f, database, port, reader, again, parser, own, unfit, folder = sys.argv[1:]
    lines, owned = read_lines(database), read_lines(own)
    table.print_versions(p0f, database)
    shipped = Run("p0f.fp", lines, [c for line in lines for c in cases_for(line)] + probes.random_cases(lines, 20000))
    made = [c for line in owned for c in cases_for(line)]
    ours = Run("own.fp", owned, examples.examples() + examples.agreed(owned) + made + probes.probes() + probes.random_cases(owned, 10000))
    said = ask_p0f(p0f, shipped, folder)
    same_names(shipped, said, p0f_says(p0f, database, folder, "named", shipped.numbered))
    wrong = [shipped.compare(ask_port(port, shipped, folder), said)]
    wrong.append(ours.compare(ask_port(port, ours, folder), ask_p0f(p0f, ours, folder)))
    idle = [rule for rule in ALL if not any(run.texts[rule] + run.answers[rule] + run.raws[rule] for run in (shipped, ours))]
    print(f"rules that explain nothing: {len(idle)}", *idle)

    mended = Run("p0f.fp, repaired", [repaired(line) for line in lines], [])
    mended.numbered = shipped.numbered
    wrong.append(mended.compare(ask_port(port, mended, folder), said))
    wrong.append(never.print_never(port, folder, "p0f.fp", lines, shipped.numbered))
    wrong.append(never.print_never(port, folder, "own.fp", owned, ours.numbered))
    wrong.append(never.print_never(port, folder, "p0f.fp, repaired", mended.lines, shipped.numbered))
    wrong.append(never.print_unfit(port, folder, read_lines(unfit)))
    wrong.append(flows.print_flows(p0f, folder))
    for who, program in (("the port", reader), ("the original", parser)):
        for name, each in (("p0f.fp", lines), ("own.fp and never.fp", owned + read_lines(unfit))):
            wrong.append(parsed.print_parsed(who, program, name, each))
    for name, each in (("p0f.fp", lines), ("own.fp and never.fp", owned + read_lines(unfit))):
        wrong.append(parsed.print_again(again, reader, name, each))
    wrong.append(loads.print_loads(p0f, reader, folder))
    print("\ndifferences without an explanation:", "yes" if any(wrong) or idle else "none")
    sys.exit(1 if any(wrong) or idle else 0)


main()
