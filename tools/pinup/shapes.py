"""What a page is drawn of, in millimetres from its upper left corner. svg.py and pdf.py draw the same shapes."""

WIDTH, HEIGHT = 210, 297  # A4
# Of a letter's size: the height of a digit, and the widths of digits and signs, which are those of Helvetica in both weights.
DIGIT_HEIGHT = 0.71
WIDTHS = {**dict.fromkeys("0123456789", 0.556), "+": 0.584}


def number(value):
    """A number as both forms write it."""
    return f"{value:.2f}".rstrip("0").rstrip(".")


class Box:
    """A rectangle: its frame's strength (0: none), and whether it is filled with black."""

    def __init__(self, x, y, width, height, frame=0.0, filled=False):
        self.x, self.y, self.width, self.height, self.frame, self.filled = x, y, width, height, frame, filled


class Text:
    """A line of text: where its base line begins, or around which place it stands."""

    def __init__(self, x, y, size, text, bold=False, white=False, middle=False):
        self.x, self.y, self.size, self.text = x, y, size, text
        self.bold, self.white, self.middle = bold, white, middle

    def left(self):
        """Where the line begins; a text that stands around a place is of digits and signs, whose widths are known."""
        return self.x - (sum(WIDTHS[c] for c in self.text) * self.size / 2 if self.middle else 0)


class Group:
    """Shapes that belong together, with what they say in words."""

    def __init__(self, said, shapes):
        self.said, self.shapes = said, shapes
