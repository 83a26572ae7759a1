"""Damaged options in the strict mode, by the text of documents 01 and 02 alone: a second reading, for tests to compare with.

The strict walk stops before the first option that runs past the end or whose length byte is 0 or 1, shows OptBad and goes on with what it
has. So its answer is the plain one to the same packet with no-ops from that option on, without their entries and with OptBad: lengths,
payload and `tot_hdr` are those of the packet, and what stands before the damage is the same.
"""
from contradictions import area, contradicts, parts, strictly
from counts import printed

OPT_BAD = 0x10000000


def first_damage(options, at=0):
    """The offset of the first damaged option, or None. Behind an end-of-options there is none."""
    if at >= len(options) or options[at] == 0:
        return None
    if options[at] == 1:
        return first_damage(options, at + 1)
    if at + 1 == len(options) or options[at + 1] < 2 or at + options[at + 1] > len(options):
        return at
    return first_damage(options, at + options[at + 1])


def made_sound(packet):
    """The packet with no-ops from its first damaged option on, and how many; None if it has no such option, or no options to be read."""
    if area(packet) is None or contradicts(packet) or len(packet) < area(packet)[0] + 20:
        return None
    start = area(packet)[0] + 20
    end = start - 20 + 4 * (packet[start - 8] >> 4)
    place = first_damage(packet[start:end])
    if place is None:
        return None
    filling = end - start - place
    return packet[:start + place] + b"\1" * filling + packet[end:], filling


def without(answer, filling):
    """A plain answer without its last entries, and with OptBad."""
    words = answer.split(" ")
    for at, (name, _, value) in enumerate(word.partition("=") for word in words):
        if name == "layout":
            words[at] = f"layout={','.join(value.split(',')[:-filling]) or '-'}"
        if name == "quirks":
            words[at] = f"quirks=0x{int(value, 16) | OPT_BAD:08X}"
    return " ".join(words)


def strict_answers(ask, packets, plain):
    """The strict answers to packets, each its peer and its bytes, whose plain ones are given; `ask` asks tools/ask."""
    sound = {at: made_sound(packet) for at, ((_, packet), answer) in enumerate(zip(packets, plain)) if answer.startswith("syn")}
    sound = {at: made for at, made in sound.items() if made}
    asked = ask(["observe", "plain"], [f"{packets[at][0]} {packet.hex()}" for at, (packet, _) in sound.items()])
    stopped = {at: without(answer, filling) for (at, (_, filling)), answer in zip(sound.items(), asked, strict=True)}
    return [stopped.get(at) or strictly(packet, answer) for at, ((_, packet), answer) in enumerate(zip(packets, plain, strict=True))]


def strict_lines(ask, bundles):
    """Of each damaged packet of bundles, by its peer, its bytes and the bundle's list: its line in the strict output."""
    asked = sorted({(peer, packet, signatures) for packets, signatures in map(parts, bundles)
                    for peer, packet in packets if made_sound(packet)})
    packets = [(peer, packet) for peer, packet, _ in asked]
    answers = strict_answers(ask, packets, ask(["observe", "plain"], [f"{peer} {packet.hex()}" for peer, packet in packets]))
    seen = [(key, *answer.split(" ", 1)) for key, answer in zip(asked, answers) if answer.startswith("syn")]
    found = ask(["search"], [f"{observation} | {key[2].hex()}" for key, _, observation in seen])
    return {key: f"{kind} {printed(answer)}" for (key, kind, _), answer in zip(seen, found, strict=True)}


def strict_output(bundle, plain, damaged):
    """The strict output of a bundle whose plain one is given, with the lines of damaged packets: one that is refused stays so."""
    first, *lines = plain.split("\n")[:-1]
    if lines:
        packets, signatures = parts(bundle)
        lines = [damaged.get((peer, packet, signatures)) or strictly(packet, line)
                 for (peer, packet), line in zip(packets, lines, strict=True)]
    return "\n".join([first, *lines, ""])
