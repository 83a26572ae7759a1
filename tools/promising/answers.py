"""The rows of docs/ANSWERS.md: between a crate's two marks stand its functions, their promises and the wrong answers tried."""
import re
import textwrap

from promising.contract import WORD
from promising.edits import edits
from promising.lines import theorem

BLOCK = re.compile(r"(<!-- promises: (\w+) -->\n)(.*?)(<!-- end -->\n)", re.S)
HEAD = "| Function | Promise | Uniqueness | Wrong answers tried |\n|---|---|---|---|\n"


def shown(promise):
    """What a contract says, each definition with its module's name before it."""
    file, given = promise.function.file, [name for name, _ in promise.function.parameters]
    text = promise.said if promise.form in ("equation", "part") else f"{promise.form} {promise.said}"
    text = re.sub(r"(?<![\w.])(\w+)\.(?:now|old)(?!\w)", r"\1", text)

    def named(match):
        word, alias = match.group(), match.group().split(".")[0]
        module = file.names.get(word, "")
        if word not in given and module.startswith("Rattle.") and not module.startswith("Rattle.std."):
            return f"{module.rpartition('.')[2]}.{word}"
        if "." in word[1:] and alias in file.aliases:
            return file.aliases[alias].rpartition(".")[2] + word[len(alias):]
        return word.strip("«»")

    said = f"`{WORD.sub(named, text)}`".replace("|", "\\|")
    if promise.buffer:
        return f"{said}, of the result and `{promise.buffer}`"
    return said + (", the bytes of a part" if promise.form == "part" else "")


def beside(tried, public):
    """The wrong answers that are tried of laws, of definitions and of private functions."""
    rows = {}
    for edit in tried:
        kind, name = edit.kind()
        if name and (kind != "function" or name not in public):
            rows.setdefault((kind, name), []).append(edit.name)
    said = []
    for kind in ("law", "definition", "function"):
        of = [f"`{name}` ({', '.join(names)})" for (one, name), names in sorted(rows.items()) if one == kind]
        if of:
            said.append(f"of {kind}s " + ", ".join(of))
    if not said:
        return ""
    return textwrap.fill(f"Tried{' besides:' if public else ''} {'; '.join(said)}.", 140, break_on_hyphens=False)


def block(crate, promises):
    """What stands between a crate's marks."""
    tried = edits(crate)
    rows = ""
    for promise in promises:
        f = promise.function
        wrong = ", ".join(edit.name for edit in tried if edit.of == [f.path()]) or "-"
        rows += f"| `{crate}::{f.path()}` | {shown(promise)} | `{theorem(promise, promises)}` | {wrong} |\n"
    table = HEAD + rows if rows else ""
    other = beside(tried, {promise.function.path() for promise in promises})
    return "\n".join(part for part in (table, other + "\n" if other else "") if part)


def page(text, promises):
    """docs/ANSWERS.md, made anew between the marks; and the crates whose marks are missing."""
    marked = [crate for _, crate, _, _ in BLOCK.findall(text)]
    missing = [crate for crate, own in promises.items() if (own or edits(crate)) and marked.count(crate) != 1]
    missing += [crate for crate in marked if crate not in promises]
    return BLOCK.sub(lambda m: m.group(1) + block(m.group(2), promises.get(m.group(2), [])) + m.group(4), text), missing
