"""A page as PDF, with the fonts that every reader of PDF has. Nothing is packed and no date stands in it: one table, one file."""
from pinup.shapes import HEIGHT, WIDTH, Box, Group, number

POINTS = 72 / 25.4  # in a millimetre


def points(*values):
    return " ".join(number(value * POINTS) for value in values)


def box(shape):
    place = points(shape.x, HEIGHT - shape.y - shape.height, shape.width, shape.height)
    painted = {(False, False): "n", (False, True): "f", (True, False): "S", (True, True): "B"}[(shape.frame > 0, shape.filled)]
    return f"{points(shape.frame)} w {place} re {painted}\n"


def string(text):
    return "(" + text.replace("\\", "\\\\").replace("(", "\\(").replace(")", "\\)") + ")"


def text(shape):
    font = "/Bold" if shape.bold else "/Plain"
    place = points(shape.left(), HEIGHT - shape.y)
    return f"{1 if shape.white else 0} g BT {font} {points(shape.size)} Tf {place} Td {string(shape.text)} Tj ET 0 g\n"


def drawn(shape):
    if isinstance(shape, Group):
        return "".join(drawn(each) for each in shape.shapes)
    return box(shape) if isinstance(shape, Box) else text(shape)


def font(name):
    return f"<< /Type /Font /Subtype /Type1 /BaseFont /{name} /Encoding /WinAnsiEncoding >>"


def page(title, shapes):
    content = "".join(drawn(shape) for shape in shapes)
    objects = [
        "<< /Type /Catalog /Pages 2 0 R /Lang (en) /ViewerPreferences << /DisplayDocTitle true >> >>",
        "<< /Type /Pages /Kids [3 0 R] /Count 1 >>",
        f"<< /Type /Page /Parent 2 0 R /MediaBox [0 0 {points(WIDTH, HEIGHT)}] /Contents 4 0 R\n"
        "   /Resources << /Font << /Plain 5 0 R /Bold 6 0 R >> >> >>",
        f"<< /Length {len(content)} >>\nstream\n{content}endstream",
        font("Helvetica"),
        font("Helvetica-Bold"),
        f"<< /Title {string(title)} >>",
    ]
    file, places = "%PDF-1.4\n", []
    for index, each in enumerate(objects, 1):
        places.append(len(file))
        file += f"{index} 0 obj\n{each}\nendobj\n"
    count = len(objects) + 1
    rows = "0000000000 65535 f \n" + "".join(f"{place:010d} 00000 n \n" for place in places)
    trailer = f"trailer\n<< /Size {count} /Root 1 0 R /Info {count - 1} 0 R >>\nstartxref\n{len(file)}\n%%EOF\n"
    return (file + f"xref\n0 {count}\n{rows}" + trailer).encode("ascii")
