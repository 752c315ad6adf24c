"""Drawing: a picture as an SVG file, with its own background, and colours for light and dark."""
import xml.etree.ElementTree as ElementTree
from xml.sax.saxutils import escape

# class: what it is set to in light, and what of it changes in dark
STYLE = {
    "ground": ("fill: #ffffff", "fill: #10151c"),
    "entry": ("fill: #f0f3f7; stroke: #d3dae2", "fill: #1a212b; stroke: #333e4b"),
    "read": ("fill: #fdf0d9; stroke: #dcae5a; stroke-width: 1.5", "fill: #33270f; stroke: #a67c2d"),
    "text": ("fill: #1b1f24", "fill: #e8edf3"),
    "muted": ("fill: #515a65", "fill: #a9b4c0"),
    "node": ("fill: #d6e6fa; stroke: #2b66ad; stroke-width: 1.5", "fill: #17395f; stroke: #78b4f8"),
    "root": ("fill: #2b66ad; stroke: #2b66ad; stroke-width: 1.5", "fill: #78b4f8; stroke: #78b4f8"),
    "on-root": ("fill: #ffffff; font-weight: bold", "fill: #0b1219"),
    "other": ("fill: #ffffff; stroke: #6d7783; stroke-dasharray: 4 3", "fill: #10151c; stroke: #8794a2"),
    "right": ("fill: none; stroke: #2b66ad; stroke-width: 2", "stroke: #78b4f8"),
    "left": ("fill: none; stroke: #b8470b; stroke-width: 2", "stroke: #ff9d5c"),
    "head": ("fill: #b8470b", "fill: #ff9d5c"),
    "faint": ("fill: none; stroke: #7d8894", "stroke: #7b8896"),
    "faint-head": ("fill: #7d8894", "fill: #7b8896"),
    "bring": ("fill: none; stroke: #6f42b8; stroke-width: 3", "stroke: #c09bff"),
    "bring-head": ("fill: #6f42b8", "fill: #c09bff"),
    "down": ("fill: none; stroke: #b8470b; stroke-width: 3", "stroke: #ff9d5c"),
    "down-head": ("fill: #b8470b", "fill: #ff9d5c"),
    "badge": ("fill: #1b1f24", "fill: #e8edf3"),
    "on-badge": ("fill: #ffffff; font-weight: bold", "fill: #10151c"),
    "differ": ("fill: #b3161f; font-weight: bold", "fill: #ff8a8a"),
    "agree": ("fill: #1a6b34; font-weight: bold", "fill: #6fd693"),
    "field": ("fill: #d6e6fa; stroke: #2b66ad", "fill: #17395f; stroke: #78b4f8"),
    "kind": ("fill: #fbe3d2; stroke: #b8470b", "fill: #4d2a12; stroke: #ff9d5c"),
}


class Picture:
    def __init__(self, name, title, desc):
        self.name, self.title, self.desc, self.parts, self.classes = name, title, desc, [], set()

    def add(self, tag, kind, **attributes):
        self.classes.add(kind)
        text = "".join(' %s="%s"' % pair for pair in attributes.items())
        self.parts.append('<%s class="%s"%s/>' % (tag, kind, text))

    def text(self, x, y, text, kind="text", size=13, anchor="middle", bold=False):
        self.classes.add(kind)
        self.parts.append(
            '<text class="%s" x="%g" y="%g" font-size="%g" text-anchor="%s"%s>%s</text>'
            % (kind, x, y, size, anchor, ' font-weight="bold"' if bold else "", escape(text))
        )

    def box(self, x, y, width, height, kind, r=5):
        self.add("rect", kind, x="%g" % x, y="%g" % y, width="%g" % width, height="%g" % height, rx=r)

    def line(self, points, kind, r=7):
        """A line with rounded corners."""
        points = [a for k, a in enumerate(points) if k in (0, len(points) - 1) or not straight(*points[k - 1 : k + 2])]
        d = "M%g %g" % points[0]
        for before, at, after in zip(points, points[1:], points[2:]):
            d += " L%g %g Q%g %g %g %g" % (toward(at, before, r) + at + toward(at, after, r))
        self.add("path", kind, d=d + " L%g %g" % points[-1])

    def head(self, x, y, kind, s=5):
        """The head of an arrow that goes left, its tip at (x, y)."""
        self.add("path", kind, d="M%g %g L%g %g L%g %g Z" % (x, y, x + 1.8 * s, y - s, x + 1.8 * s, y + s))

    def badge(self, x, y, number):
        self.add("circle", "badge", cx="%g" % x, cy="%g" % y, r=10)
        self.text(x, y + 4.5, str(number), "on-badge")

    def write(self, folder, width, height):
        style = "text { font-family: Helvetica, Arial, sans-serif }\n"
        style += "".join(".%s { %s }\n" % (k, v[0]) for k, v in STYLE.items() if k in self.classes | {"ground"})
        style += "@media (prefers-color-scheme: dark) {\n"
        style += "".join(".%s { %s }\n" % (k, v[1]) for k, v in STYLE.items() if k in self.classes | {"ground"}) + "}\n"
        svg = '<svg xmlns="http://www.w3.org/2000/svg" role="img" aria-labelledby="title desc" '
        svg += 'width="%g" height="%g" viewBox="0 0 %g %g">\n' % (width, height, width, height)
        svg += '<title id="title">%s</title>\n<desc id="desc">%s</desc>\n' % (escape(self.title), escape(self.desc))
        svg += "<style>\n%s</style>\n" % style
        svg += '<rect class="ground" width="%g" height="%g" rx="8"/>\n' % (width, height)
        svg += "\n".join(self.parts) + "\n</svg>\n"
        ElementTree.fromstring(svg)  # it is well-formed XML
        (folder / (self.name + ".svg")).write_text(svg, encoding="utf-8")


def straight(a, b, c):
    return a[0] == b[0] == c[0] or a[1] == b[1] == c[1]


def toward(a, b, r):
    """The point at r from a, at most half way, on a level or upright line to b."""
    part = min(0.5, r / max(abs(b[0] - a[0]), abs(b[1] - a[1])))
    return (a[0] + (b[0] - a[0]) * part, a[1] + (b[1] - a[1]) * part)


def legend(picture, x, y, marks):
    """Marks side by side, each at its distance from x: a sample of the mark, and what it means."""
    for at, kind, meaning in marks:
        at += x
        if kind in ("left", "bring", "down"):
            picture.line([(at + 30, y), (at + 5, y)], kind)
            picture.head(at, y, "head" if kind == "left" else kind + "-head")
        elif kind == "right":
            picture.line([(at + 15, y - 11), (at + 15, y + 11)], kind)
        elif kind in STYLE:
            picture.box(at, y - 9, 30, 18, kind)
        else:
            picture.text(at + 15, y + 5.5, kind, "muted", 16)
        picture.text(at + 38, y + 4.5, meaning, "text", 13, "start")
