"""A page as SVG."""
from pinup.shapes import HEIGHT, WIDTH, Box, Group, number

FONT = "Helvetica, Arial, 'Liberation Sans', sans-serif"


def words(text):
    return text.replace("&", "&amp;").replace("<", "&lt;").replace(">", "&gt;")


def box(shape):
    place = f'x="{number(shape.x)}" y="{number(shape.y)}" width="{number(shape.width)}" height="{number(shape.height)}"'
    fill = "black" if shape.filled else "white"
    frame = f' stroke="black" stroke-width="{number(shape.frame)}"' if shape.frame else ""
    return f'<rect {place} fill="{fill}"{frame}/>'


def text(shape):
    more = ' font-weight="bold"' if shape.bold else ""
    more += ' fill="white"' if shape.white else ""
    more += ' text-anchor="middle"' if shape.middle else ""
    return f'<text x="{number(shape.x)}" y="{number(shape.y)}" font-size="{number(shape.size)}"{more}>{words(shape.text)}</text>'


def drawn(shape, indent=""):
    if isinstance(shape, Group):
        inner = "".join(drawn(each, indent + "  ") for each in shape.shapes)
        return f"{indent}<g>\n{indent}  <title>{words(shape.said)}</title>\n{inner}{indent}</g>\n"
    return indent + (box(shape) if isinstance(shape, Box) else text(shape)) + "\n"


def page(title, shapes):
    head = f'<svg xmlns="http://www.w3.org/2000/svg" width="{WIDTH}mm" height="{HEIGHT}mm" viewBox="0 0 {WIDTH} {HEIGHT}"\n'
    head += f'    font-family="{FONT}">\n<title>{words(title)}</title>\n<rect width="{WIDTH}" height="{HEIGHT}" fill="white"/>\n'
    return (head + "".join(drawn(shape) for shape in shapes) + "</svg>\n").encode("ascii")
