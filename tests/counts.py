"""How many records a search examined, by document 02's Wish 6 alone: a second reading, for tests to compare with."""


def bare(answer):
    """What `search` answers, without the count."""
    return answer.split(" count=")[0]


def printed(answer):
    """What the program `termread` prints of it."""
    return " ".join(bare(answer).split(" ")[:2])


def examined(data, exact=None):
    """How many records of a list's bytes: up to the exact one that was found, by its number, if it is specific; else all."""
    count, at = (int.from_bytes(data[k:k + 2], "big") for k in (0, 2))
    return exact + 1 if exact is not None and data[at + 24 * exact + 21] == 0 else count


def counted(line, answer):
    """What is found, with the count that the record and the list of the line give."""
    found, data = bare(answer), bytes.fromhex(line.split(" | ")[1])
    exact = int(found.split(" at=")[1]) if found.startswith("exact") else None
    return f"{found} count={examined(data, exact)}"
