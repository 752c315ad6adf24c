"""A log drawn in columns, one for each entry."""
from pictures.rules import begin, left, right, top


class Columns:
    """A log of n taps, an entry a column, a height a row: node (i,h) stands in column i at row h."""

    def __init__(self, picture, n, x, y, pitch, row, width, height, size):
        self.picture, self.n, self.at = picture, n, (x, y)
        self.pitch, self.row, self.width, self.height, self.size = pitch, row, width, height, size
        self.rows = top(n)[1] + 1
        self.floor = y + self.rows * row  # below the leaves
        self.end = self.floor + 54

    def place(self, i, h):
        return (self.at[0] + (i - 0.5) * self.pitch, self.at[1] + (self.rows - h - 0.5) * self.row)

    def entries(self, read=()):
        for h in range(self.rows):
            label = "height %d" % h if h else "leaf, height 0"
            self.picture.text(self.at[0] - 8, self.place(1, h)[1] + 4, label, "muted", 12, "end")
        self.picture.text(self.at[0] - 8, self.floor + 17, "entry", "muted", 12, "end")
        self.picture.text(self.at[0] - 8, self.floor + 35, "taps begin at", "muted", 12, "end")
        for i in range(1, self.n + 1):
            x = self.place(i, 0)[0]
            high, wide = self.place(*top(i))[1] - self.height / 2 - 9, self.width + 10
            self.picture.box(x - wide / 2, high, wide, self.floor + 44 - high, "read" if i in read else "entry", 6)
            self.picture.text(x, self.floor + 17, str(i), bold=True)
            self.picture.text(x, self.floor + 35, "{:,}".format(begin(i)), "muted", 12)

    def down(self, i, h, kind):
        """The line from a node to its right child, in the same column."""
        (x, y), (_, to) = self.place(i, h), self.place(*right(i, h))
        self.picture.line([(x, y + self.height / 2), (x, to - self.height / 2)], kind)

    def across(self, i, h, kind, head):
        """The arrow from a node to its left child: between the columns, and half way between two rows."""
        (x, y), (to, low) = self.place(i, h), self.place(*left(i, h))
        half, gap, tip = (y + low) / 2, self.pitch / 2, to + self.width / 2 + 1
        turn = [(x - gap, half), (to + gap, half)] if x - gap != to + gap else []
        self.picture.line([(x - self.width / 2, y), (x - gap, y)] + turn + [(to + gap, low), (tip + 5, low)], kind)
        self.picture.head(tip, low, head)

    def node(self, i, h, kind, mark=None):
        """A node with its address, and beside that the mark = or ≠."""
        x, y = self.place(i, h)
        self.picture.box(x - self.width / 2, y - self.height / 2, self.width, self.height, kind)
        ink = {"root": "on-root", "other": "muted"}.get(kind, "text")
        self.picture.text(x - (8 if mark else 0), y + self.size * 0.36, "(%d,%d)" % (i, h), ink, self.size)
        if mark:
            self.picture.text(x + 22, y + 5.5, mark, "agree" if mark == "=" else "differ", 17)
