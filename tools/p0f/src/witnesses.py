"""What p0f and the port answer."""

import os
import re
import struct
import subprocess
from collections import namedtuple

from lines import QUIRKS
from packets import packet_of, write_capture
from reading import option_text

Said = namedtuple("Said", "text answer raw hops tos")
SILENT = Said(None, None, None, None, None)


# ---- p0f

def run_p0f(program, database, capture, log):
    if os.path.exists(log):
        os.remove(log)
    done = subprocess.run([program, "-f", database, "-r", capture, "-o", log], capture_output=True, text=True, check=False)
    if done.returncode or not os.path.exists(log):
        raise SystemExit(f"p0f failed: {done.stdout[-400:]} {done.stderr[-400:]}")
    with open(log, encoding="utf-8") as file:
        return file.read().splitlines()


def flow_of(entry):
    """The index of a flow, from the client's address: its last three bytes."""
    client = entry["cli"].rsplit("/", 1)[0]
    if ":" not in client:
        return int.from_bytes(bytes(int(b) for b in client.split(".")[1:]), "big")
    high, low = (client.split(":") + ["0"])[-3:-1] if client.endswith("::") else client.split(":")[-2:]
    return (int(high or "0", 16) << 16 | int(low or "0", 16)) & 0xFFFFFF


def answer_of(entry):
    found = entry.get("os", entry.get("app", "???"))
    params = entry["params"]
    if found == "???":
        return "none", found
    return ("fuzzy" if "fuzzy" in params else "exact"), found


def text_fields(raw):
    """Nine fields: the window and the scale apart."""
    version, ttl, olen, mss, window, layout, quirks, payload = raw.split(":")
    size, scale = window.split(",")
    return version, ttl, olen, mss, size, scale, layout, quirks, payload


def read_log(rows):
    """From flow and direction to what p0f said of it."""
    said = {}
    for row in rows:
        entry = dict(part.split("=", 1) for part in re.sub(r"^\[[^]]*\] ", "", row).split("|"))
        if "raw_sig" in entry and entry["mod"] in ("syn", "syn+ack", "sendsyn probe", "sendsyn response"):
            key = flow_of(entry), entry["mod"] in ("syn", "sendsyn probe")
            if key in said:
                raise SystemExit(f"p0f said two things of {key}")
            tos = re.search(r"tos:0x([0-9a-f]+)", entry["params"])
            raw, hops = entry["raw_sig"], int(entry["dist"].split()[-1])
            said[key] = Said(text_fields(raw), answer_of(entry), raw, hops, int(tos[1], 16) if tos else 0)
    return said


def p0f_says(program, database, folder, name, numbered):
    capture = os.path.join(folder, name + ".pcap")
    write_capture(capture, numbered)
    said = read_log(run_p0f(program, database, capture, os.path.join(folder, name + ".log")))
    return [said.get((index, case.syn), SILENT) for index, case in numbered]


# ---- the port

def ttl_of(form, ttl, hops):
    return (f"{ttl}", f"{ttl}+{hops}", f"{ttl}+?", f"{ttl}-")[form]


def present(number):
    return str(number - 65536) if number >> 16 else "*"


def layout_text(entries):
    return ",".join(option_text(entries[i], entries[i + 1]) for i in range(0, len(entries), 2))


def window_text(window, multiple):
    return f"{('mss', 'mtu')[(multiple >> 16) - 1]}*{multiple & 65535}" if multiple else str(window)


def found(outcome, label):
    if outcome not in (1, 2, 3):
        raise SystemExit(f"the port refuses a list: {outcome}")
    return ("exact", "fuzzy", "none")[outcome - 1], label


def said_by_port(row):
    """The numbers of a row, as port.c has them."""
    *numbers, raw = row.split()
    answer, version, form, ttl, hops, olen, tos, quirks, mss, window, scale, payload, multiple, outcome, label, reported, *entries = (
        int(n) for n in numbers)
    if answer not in (1, 2):
        return SILENT
    text = (
        str(version), ttl_of(form, ttl, hops), str(olen), present(mss), window_text(window, multiple), present(scale), layout_text(entries),
        ",".join(name for name, bit in QUIRKS.items() if quirks & bit), "0+"[payload])
    return Said(text, found(outcome, label), raw, reported, tos)


def port_says(program, lists, folder, asked):
    """asked: number of the list, flow index, case."""
    path = os.path.join(folder, "lists")
    with open(path, "wb") as file:
        for data in lists:
            file.write(struct.pack(">I", len(data)) + data)
    cases = []
    for number, index, case in asked:
        packet = packet_of(case.fields, index, not case.syn)
        cases.append(struct.pack(">HHH", number, case.peer, len(packet)) + packet)
    done = subprocess.run([program, path], input=b"".join(cases), capture_output=True, check=True)
    return [said_by_port(row) for row in done.stdout.decode().splitlines()]
