"""The lines as the port's reader and the original's own text parser read them, beside lines.py."""

import subprocess
from dataclasses import replace

from lines import ANY, QUIRKS, record_of
from reading import option_text


def asked(program, texts):
    """What a program says of lines, a row for each."""
    text = "".join(line + "\n" for line in texts)
    return [row.strip() for row in subprocess.run([program], input=text, capture_output=True, text=True, check=True).stdout.splitlines()]


def said(line):
    """What a reader of the text alone gives: a line has neither number nor kind."""
    entries = "".join(f"{kind:02x}{left:02x}" for kind, left in line.layout)
    return f"0 {record_of(replace(line, number=0, generic=False), 0).hex()} {entries}".strip()


def print_parsed(who, program, name, lines):
    """True if a line is read otherwise. Without the original (tools/original) nothing of it is compared."""
    if program == "-":
        print(f"\n== text of {name}, {who}: not compared, it is not built")
        return False
    wrong = 0
    for line, row in zip(lines, asked(program, [line.text for line in lines]), strict=True):
        if row != said(line):
            wrong += 1
            print(f"line {line.number}: {who} reads {row}, lines.py {said(line)}")
    print(f"\n== text of {name}, {who}: {len(lines)} lines, {len(lines) - wrong} read as lines.py reads them, {wrong} otherwise")
    return bool(wrong)


def written_form(line):
    """The line as it is written of its record: no zero before a number, each quirk once, in the order of QUIRKS."""
    ttl = (f"{line.ttl}", f"{line.ttl}+{line.hops}", f"{line.ttl}+?", f"{line.ttl}-")[line.ttl_form]
    window = "*" if line.window_form == ANY else ("", "%", "mss*", "mtu*")[line.window_form - 1] + str(line.window)
    mss, scale = ("*" if number is None else str(number) for number in (line.mss, line.scale))
    layout = ",".join(option_text(*entry) for entry in line.layout)
    quirks = ",".join(name for name, bit in QUIRKS.items() if line.quirks & bit)
    return f"{line.version or '*'}:{ttl}:{line.olen}:{mss}:{window},{scale}:{layout}:{quirks}:{'0+*'[line.payload]}"


def print_again(program, reader, name, lines):
    """Lines read and written again: True if one is not as written_form has it, or is then read otherwise."""
    written = asked(program, [line.text for line in lines])
    read = asked(reader, written)
    wrong = kept = 0
    for line, text, row in zip(lines, written, read, strict=True):
        kept += text == line.text
        if text != written_form(line) or row != said(line):
            wrong += 1
            print(f"line {line.number}: {line.text} is written as {text}, read again as {row}")
        elif text != line.text:
            print(f"line {line.number}: {line.text} is written as {text}")
    print(f"\n== text of {name}, read and written again: {len(lines)} lines, {kept} as they were, {len(lines) - kept - wrong} in written "
          f"form, {wrong} otherwise")
    return bool(wrong)
