"""Which lines of a list never fit, as reasons.py says and as they are run; which fit alone but are never the answer of the whole list."""

from collections import defaultdict

from lines import list_of
from make import cases_for
from packets import with_openings
from probes import random_cases
from reasons import reasons
from witnesses import port_says


def own_cases(lines, numbered):
    request = {line.number: line.request for line in lines}
    return [(index, case) for index, case in numbered if case.line and request[case.line] == case.syn]


def alone(port, folder, lines, cases):
    """The answers of lists of one line, for the packets made for it."""
    place = {line.number: i for i, line in enumerate(lines)}
    return port_says(port, [list_of([line]) for line in lines], folder, [(place[case.line], index, case) for index, case in cases])


def fits_of(cases, said):
    fits = defaultdict(set)
    for (_, case), one in zip(cases, said, strict=True):
        if one.answer and one.answer[0] != "none":
            fits[case.line].add(one.answer[0])
    return fits


def print_never(port, folder, name, lines, numbered):
    """True if a line with a reason fits, or one without never does."""
    cases = own_cases(lines, numbered)
    said = alone(port, folder, lines, cases)
    fits = fits_of(cases, said)
    wrong = [line for line in lines if bool(reasons(line)) == bool(fits[line.number])]
    rows = defaultdict(list)
    for line in lines:
        for why in reasons(line):
            rows[why, line.request].append(line.number)
    exact = sum("exact" in fits[line.number] for line in lines)
    print(f"\n== {name}, each line alone: {exact} of {len(lines)} fit exactly, {sum(bool(reasons(line)) for line in lines)} never")
    for (why, request), numbers in rows.items():
        print(f"  {why}, {'request' if request else 'response'}: {len(numbers)}: {' '.join(map(str, numbers))}")
    for line in wrong:
        print(f"  not as reasoned: {line.number} {line.text} {sorted(fits[line.number])}")
    print_hidden(port, folder, lines, cases, said)
    return bool(wrong)


def print_hidden(port, folder, lines, cases, said):
    """Lines whose exact packets are all answered by another line."""
    lists = [list_of([line for line in lines if line.request == request]) for request in (True, False)]
    whole = port_says(port, lists, folder, [(int(not case.syn), index, case) for index, case in cases])
    answers = defaultdict(set)
    for (_, case), one, other in zip(cases, said, whole, strict=True):
        if one.answer and one.answer[0] == "exact":
            answers[case.line].add(other.answer[1])
    hidden = {number: found for number, found in sorted(answers.items()) if number not in found}
    print(f"  fit exactly alone, never the answer of the whole list: {len(hidden)}")
    for number, found in hidden.items():
        print(f"    {number}, answered by {' '.join(map(str, sorted(found)))}")


def print_unfit(port, folder, lines):
    """True if a line of never.fp has no reason, or fits a packet made for it or drawn at random from it."""
    cases = own_cases(lines, with_openings([c for line in lines for c in cases_for(line)] + random_cases(lines, 20000)))
    fits = fits_of(cases, alone(port, folder, lines, cases))
    wrong = [line for line in lines if fits[line.number] or not reasons(line)]
    print(f"\n== never.fp: {len(lines)} lines, {len(cases)} packets made for them, {sum(map(bool, fits.values()))} lines fit one")
    for line in wrong:
        print(f"  {line.text}: reasons {reasons(line)}, fits {sorted(fits[line.number])}")
    return bool(wrong)
