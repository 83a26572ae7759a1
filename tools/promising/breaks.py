"""The breaks of tools/compare/breaks.txt: a name, what stands in one place of the sources, and what is put there."""
import glob
import os
import re

from promising.source import ROOT, read

LIST = os.path.join("tools", "compare", "breaks.txt")


def breaks():
    """Each break as its three fields; `\\|` and `\\n` are a bar and a line's end."""
    for line in read(LIST).split("\n"):
        if line.strip() and not line.startswith("#"):
            yield [field.strip().replace("\\|", "|").replace("\\n", "\n") for field in re.split(r"(?<!\\) \| ", line)]


def places(old, root=ROOT):
    """The files where a text stands, each as often as it does."""
    found = glob.glob(os.path.join(root, "crates", "**", "*.rt"), recursive=True)
    return [path for path in found for _ in range(open(path, encoding="utf-8").read().count(old))]


def faults():
    for fields in breaks():
        if len(fields) != 3:
            yield f"{LIST}: {fields[0]} is not a name, an old and a new text"
        elif len(places(fields[1])) != 1:
            yield f"{LIST}: what {fields[0]} changes stands in {len(places(fields[1]))} places"
