"""What the picture is drawn of, as lines of SVG; places are pixels from the upper left corner."""

SANS = "Helvetica, Arial, 'Liberation Sans', sans-serif"
MONO = "'DejaVu Sans Mono', 'Liberation Mono', Consolas, monospace"
GREY = "#b8b8b8"
# Stripes: what counts only as zero or not zero. Dots: what is tolerated.
PATTERNS = f"""<defs>
<pattern id="stripes" width="6" height="6" patternUnits="userSpaceOnUse" patternTransform="rotate(45)">
<rect width="6" height="6" fill="white"/><rect width="2.4" height="6" fill="{GREY}"/>
</pattern>
<pattern id="dots" width="7" height="7" patternUnits="userSpaceOnUse">
<rect width="7" height="7" fill="white"/><circle cx="2" cy="2" r="0.9" fill="#9a9a9a"/>
</pattern>
</defs>"""


def number(value):
    return f"{value:.1f}".rstrip("0").rstrip(".")


def words(text):
    return text.replace("&", "&amp;").replace("<", "&lt;").replace(">", "&gt;")


def box(x, y, width, height, fill="white", stroke="black", strength=1.0, dash="", round_=0):
    place = f'x="{number(x)}" y="{number(y)}" width="{number(width)}" height="{number(height)}"'
    more = f' rx="{round_}"' if round_ else ""
    more += f' stroke-dasharray="{dash}"' if dash else ""
    return f'<rect {place} fill="{fill}" stroke="{stroke}" stroke-width="{number(strength)}"{more}/>'


def text(x, y, size, said, bold=False, fill="black", middle=False, mono=False):
    more = ' font-weight="bold"' if bold else ""
    more += f' fill="{fill}"' if fill != "black" else ""
    more += ' text-anchor="middle"' if middle else ""
    more += ' class="m"' if mono else ""
    return f'<text x="{number(x)}" y="{number(y)}" font-size="{number(size)}"{more}>{words(said)}</text>'


def way(places, colour="black", strength=1.3, dash=""):
    """A line through these places."""
    points = " ".join(f"{number(x)},{number(y)}" for x, y in places)
    more = f' stroke-dasharray="{dash}"' if dash else ""
    return f'<polyline points="{points}" fill="none" stroke="{colour}" stroke-width="{number(strength)}"{more}/>'


def head(x, y, colour="black", down=False):
    """The head of an arrow whose point is here."""
    places = [(x, y), (x - 4, y - 8), (x + 4, y - 8)] if down else [(x, y), (x - 8, y - 4), (x - 8, y + 4)]
    points = " ".join(f"{number(a)},{number(b)}" for a, b in places)
    return f'<polygon points="{points}" fill="{colour}"/>'


def dot(x, y, colour):
    return f'<circle cx="{number(x)}" cy="{number(y)}" r="2.6" fill="{colour}"/>'


def disc(x, y, said, colour):
    """A number in a disc, by which ends that belong together are told in black and white."""
    circle = f'<circle cx="{number(x)}" cy="{number(y)}" r="8.5" fill="{colour}"/>'
    return circle + "\n" + text(x, y + 4, 11.5, said, bold=True, fill="white", middle=True)


def page(width, height, title, shapes):
    opened = f'<svg xmlns="http://www.w3.org/2000/svg" width="{width}" height="{number(height)}" viewBox="0 0 {width} {number(height)}"\n'
    opened += f'    font-family="{SANS}">\n<title>{words(title)}</title>\n<style>.m {{ font-family: {MONO}; }}</style>\n{PATTERNS}\n'
    opened += f'<rect width="{width}" height="{number(height)}" fill="white"/>\n'
    return (opened + "\n".join(shapes) + "\n</svg>\n").encode("ascii")
