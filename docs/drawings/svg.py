"""A drawing as SVG text: boxes, lines, and labels that are held to their room and kept apart.

Numbers within a label are set in the monospaced font. Widths are those of DejaVu Sans rounded up, the widest of the fonts that
the stacks name, so a label that fits here fits elsewhere.
"""

import re
from html import escape
from itertools import combinations

WIDTH = 960
LEFT, RIGHT = 40, 920  # the margins' inner edges
MARK = 12  # how far the number of a border may stand out over them
APART = 4  # the least distance between two labels in a line

INK, MUTED, RULE, FAINT = "#1f2328", "#57606a", "#c4cbd3", "#f2f4f6"

SANS = "system-ui, -apple-system, 'Segoe UI', Roboto, 'Helvetica Neue', Arial, 'DejaVu Sans', sans-serif"
MONO = "ui-monospace, SFMono-Regular, Menlo, Consolas, 'DejaVu Sans Mono', monospace"

# Fill and text colour. Those that stand side by side differ in lightness, so they are told apart in greyscale too.
KINDS = {
    "superblock": ("#566070", "#ffffff"),
    "metadata": ("#edbd62", INK),
    "journal": ("#fbeccb", INK),
    "tag": ("#6ea6cc", INK),
    "data": ("#cbdfee", INK),
    "id": ("#9c4221", "#ffffff"),
    "plain": ("#ffffff", INK),
    "zero": ("url(#zero)", INK),
    "quiet": (FAINT, INK),
    "old": ("#e3e6ea", INK),
    "new": ("#2c5f49", "#ffffff"),
}

# Size and weight.
STYLES = {
    "title": (20, 600),
    "heading": (14, 600),
    "strong": (12, 600),
    "label": (12, 400),
    "note": (12, 400),
    "small": (11, 400),
    "cell": (11, 400),
    "code": (11, 400),
}
MUTED_STYLES = ("small", "note")
PROPORTIONAL = ("title", "heading")  # numbers as the other words

NUMBER = re.compile(r"((?<!\w)\d+(?:,\d{3})*\b)")


# Widths of characters, in the font's size.
WIDTHS = {"ijl ,.;:'|": 0.34, "frt()": 0.42, "ABCDEFGHKLNOPQRSTUVXYZ": 0.79, "w+×=−": 0.84, "mMW…": 1}
OTHER_WIDTH = 0.645
MONO_WIDTH = 0.603


def coordinate(value):
    return f"{round(value, 2):g}"


def corners(points):
    return " ".join(f"{coordinate(x)},{coordinate(y)}" for x, y in points)


def character_width(character):
    return next((width for characters, width in WIDTHS.items() if character in characters), OTHER_WIDTH)


def text_width(words, style):
    """An upper bound, in the drawing's units."""
    size, weight = STYLES[style]
    parts = ["", words] if style == "code" else NUMBER.split(words)
    others, numbers = "".join(parts[::2]), "".join(parts[1::2])
    return size * (sum(map(character_width, others)) + MONO_WIDTH * len(numbers)) * (1.12 if weight > 400 else 1)


def spans(words, style):
    """The words for SVG, with their numbers in the monospaced font."""
    if style in PROPORTIONAL:
        return escape(words)
    return NUMBER.sub(r'<tspan class="n">\1</tspan>', escape(words, quote=False))


def style_sheet():
    rules = [f"text{{font-family:{SANS};fill:{INK}}}", f".n,.code{{font-family:{MONO}}}"]
    rules += [f".{name}{{font-size:{size}px;font-weight:{weight}}}" for name, (size, weight) in STYLES.items()]
    rules += [f".{name}{{fill:{MUTED}}}" for name in MUTED_STYLES]
    return "".join(rules)


def definitions():
    """The hatching of zeros, and the arrow's head."""
    hatch = f'<path d="M0 0h6v6h-6z" fill="#ffffff"/><path d="M0 0v6" stroke="{RULE}" stroke-width="2"/>'
    pattern = '<pattern id="zero" width="6" height="6" patternUnits="userSpaceOnUse" patternTransform="rotate(45)">'
    marker = '<marker id="arrow" viewBox="0 0 8 8" refX="7" refY="4" markerWidth="8" markerHeight="8" orient="auto">'
    head = f'<path d="M0 0.5L8 4L0 7.5z" fill="{INK}"/>'
    return f"<defs>{pattern}{hatch}</pattern>{marker}{head}</marker></defs>"


class Drawing:
    def __init__(self, title, description, height):
        self.title, self.description, self.height = title, description, height
        self.parts = []
        self.labels = []  # each label's words and the box that it takes

    def rectangle(self, x, y, width, height, fill, weight):
        place = f'x="{coordinate(x)}" y="{coordinate(y)}" width="{coordinate(width)}" height="{coordinate(height)}"'
        self.parts.append(f'<rect {place} fill="{fill}" stroke="{INK}" stroke-width="{weight}"/>')

    def box(self, x, y, width, height, kind):
        self.rectangle(x, y, width, height, KINDS[kind][0], 1)

    def outline(self, x, y, width, height):
        """Marks what the drawing follows as its example."""
        self.rectangle(x, y, width, height, "none", 3)

    def line(self, points, colour=INK, weight=1, dashed=False, arrow=False):
        extra = (' stroke-dasharray="4 3"' if dashed else "") + (' marker-end="url(#arrow)"' if arrow else "")
        self.parts.append(f'<polyline points="{corners(points)}" fill="none" stroke="{colour}" stroke-width="{weight}"{extra}/>')

    def zoom(self, above, below, words=""):
        """A faint shape from a part (x, x, y) to its larger picture (x, x, y), with the part's name at its right end."""
        (left, right, top), (wide_left, wide_right, bottom) = above, below
        points = corners([(left, top), (right, top), (wide_right, bottom), (wide_left, bottom)])
        self.parts.append(f'<polygon points="{points}" fill="{FAINT}" stroke="{RULE}"/>')
        self.text(wide_right - 10, (top + bottom) / 2 + 4, words, "note", "end")

    def text(self, x, y, words, style="label", anchor="start", room=None, colour=None):
        if not words:
            return
        size = STYLES[style][0]
        width = text_width(words, style)
        assert room is None or width <= room, f"{words!r} takes {width:.0f} of {room:.0f}"
        left = x - {"start": 0, "middle": width / 2, "end": width}[anchor]
        self.take(words, left, y, width, size)
        extra = ("" if anchor == "start" else f' text-anchor="{anchor}"') + (f' style="fill:{colour}"' if colour else "")
        self.parts.append(f'<text x="{coordinate(x)}" y="{coordinate(y)}" class="{style}"{extra}>{spans(words, style)}</text>')

    def lead(self, x, y, words, rest):
        """A strong beginning, and what follows it on its line."""
        width = text_width(words, "strong") + text_width(" " + rest, "note")
        self.take((words, rest), x, y, width, STYLES["note"][0])
        parts = f'<tspan class="strong">{spans(words, "strong")}</tspan> <tspan class="note">{spans(rest, "note")}</tspan>'
        self.parts.append(f'<text x="{coordinate(x)}" y="{coordinate(y)}">{parts}</text>')

    def take(self, words, left, y, width, size):
        """Notes the box that a label takes."""
        assert LEFT - MARK <= left and left + width <= RIGHT + MARK, f"{words!r} runs out of the drawing"
        self.labels.append((words, (left, y - 0.78 * size, left + width, y + 0.24 * size)))

    def field(self, x, y, width, height, kind, *lines, style="label"):
        """A box with lines of text in its middle."""
        self.box(x, y, width, height, kind)
        size = STYLES[style][0]
        first = y + height / 2 + 0.36 * size - (len(lines) - 1) * (size + 2) / 2
        for place, words in enumerate(lines):
            self.text(x + width / 2, first + place * (size + 2), words, style, "middle", width - 4, KINDS[kind][1])

    def grid(self, x, y, width, height, count):
        """The borders between so many equal cells of a box."""
        steps = (x + width * place / count for place in range(1, count))
        path = "".join(f"M{coordinate(at)} {coordinate(y)}v{coordinate(height)}" for at in steps)
        self.parts.append(f'<path d="{path}" stroke="{INK}" stroke-width="0.5" stroke-opacity="0.55"/>')

    def letter(self, x, y, words):
        """A letter in a circle."""
        place = f'cx="{coordinate(x)}" cy="{coordinate(y)}" r="10"'
        self.parts.append(f'<circle {place} fill="#ffffff" stroke="{INK}" stroke-width="1.5"/>')
        self.text(x, y + 4, words, "strong", "middle", 20)

    def mark(self, x, y, words, anchor="middle"):
        """A border's address, below it."""
        self.line([(x, y), (x, y + 5)])
        self.text(x, y + 17, words, "small", anchor)

    def head(self, words):
        """The title, and a line below it."""
        self.text(LEFT, 44, self.title, "title")
        self.text(LEFT, 66, words, "note")

    def check(self):
        """No two labels meet."""
        for (words, a), (others, b) in combinations(self.labels, 2):
            apart = a[2] + APART <= b[0] or b[2] + APART <= a[0] or a[3] <= b[1] or b[3] <= a[1]
            assert apart, f"{self.title}: {words!r} meets {others!r}"

    def render(self):
        self.check()
        size = f'viewBox="0 0 {WIDTH} {self.height}" width="{WIDTH}" height="{self.height}"'
        lines = [
            f'<svg xmlns="http://www.w3.org/2000/svg" {size} role="img" aria-labelledby="title desc">',
            f'<title id="title">{escape(self.title)}</title>',
            f'<desc id="desc">{escape(self.description, quote=False)}</desc>',
            f"<style>{style_sheet()}</style>",
            definitions(),
            f'<rect x="0.5" y="0.5" width="{WIDTH - 1}" height="{self.height - 1}" rx="8" fill="#ffffff" stroke="{RULE}"/>',
            *self.parts,
            "</svg>",
        ]
        return "\n".join(lines) + "\n"
