"""The search of a list for an observation: by document 01's rules and document 02's Wish 3, and by p0f's where a rule of rules.py is
named."""

from collections import defaultdict

from lines import ANY, MODULUS, MTU, QUIRKS, TTL_BAD, VALUE

DELETABLE = QUIRKS["df"] | QUIRKS["id+"]
ADDABLE = QUIRKS["id-"] | QUIRKS["ecn"]
ONLY_V6 = QUIRKS["flow"]
ONLY_V4 = QUIRKS["df"] | QUIRKS["id+"] | QUIRKS["id-"]
EXACT, FUZZY = "exact", "fuzzy"


def by_layout(lines):
    index = defaultdict(list)
    for line in lines:
        index[line.request, line.layout].append(line)
    return index


def window_fits(line, o):
    if line.window_form == ANY:
        return True
    if line.window_form == VALUE:
        return o.window == line.window
    if line.window_form == MODULUS:
        return line.window != 0 and o.window % line.window == 0
    return o.multiple == (int(line.window_form == MTU), line.window)


def gates(line, o, rules):
    return (
        (line.version in (0, o.version) or "any version" in rules) and line.olen == o.olen
        and line.mss in (None, o.mss) and line.scale in (None, o.scale) and line.payload in (2, o.payload)
        and window_fits(line, o))


def fit(line, o, rules):
    """Exact, fuzzy or none."""
    if not gates(line, o, rules):
        return None
    declared = line.quirks
    if line.version == 0:
        declared &= ~(ONLY_V6 if o.version == 4 else ONLY_V4)
    if declared & ~o.quirks & ~DELETABLE or o.quirks & ~declared & ~ADDABLE:
        return None
    out = not 0 <= line.initial - o.ttl <= 35
    if line.ttl_form == TTL_BAD:
        if o.ttl > line.initial:
            return None
        out = False
    return FUZZY if out or declared != o.quirks else EXACT


def search(index, syn, o, rules):
    """The answer and the number of its line: the first specific exact one, else the first generic exact one, else the first fuzzy one."""
    fuzzy = generic = None
    for line in index.get((syn, o.layout), ()):
        found = fit(line, o, rules)
        if found == EXACT and not line.generic:
            return EXACT, line.number
        if found == EXACT:
            generic = generic or line
        elif found == FUZZY:
            fuzzy = fuzzy or line
    if generic:
        return EXACT, generic.number
    if fuzzy and not (fuzzy.tool and "tool" in rules):
        return FUZZY, fuzzy.number
    return "none", 0
