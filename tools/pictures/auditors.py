"""The picture of the auditors' proofs: which digests of RFC 6962's tree are sent, and which are worked out of them."""
from pictures.drawing import Picture, legend

PITCH, ROW, WIDTH, HEIGHT = 60, 58, 50, 26


def split(first, last):
    """The two parts of the values from first to last: the largest power of two smaller than their number, and the rest."""
    k = 1
    while 2 * k < last - first + 1:
        k *= 2
    return (first, first + k - 1), (first + k, last)


def nodes(first, last):
    """The nodes of the tree over these values, each as its first and last value."""
    if first == last:
        return [(first, last)]
    left, right = split(first, last)
    return nodes(*left) + nodes(*right) + [(first, last)]


def path(i, first, last):
    """The nodes in the path of value i, in order."""
    if first == last:
        return []
    left, right = split(first, last)
    return path(i, *left) + [right] if i <= left[1] else path(i, *right) + [left]


def consistency(m, first, last, known=True):
    """The nodes in the consistency proof from m values, in order."""
    if m == last:
        return [] if known else [(first, last)]
    left, right = split(first, last)
    return consistency(m, *left, known) + [right] if m <= left[1] else consistency(m, *right, False) + [left]


def within(part, whole):
    return whole[0] <= part[0] and part[1] <= whole[1]


def label(node):
    return "{%d}" % node[0] if node[0] == node[1] else "{%d..%d}" % node


class Tree:
    """The tree over the values 1 to n, drawn with its corner at (x, y), of so many rows."""

    def __init__(self, picture, n, x, y, rows):
        self.picture, self.n, self.at, self.rows = picture, n, (x, y), rows

    def place(self, node):
        height = (node[1] - node[0]).bit_length()
        return (self.at[0] + (node[0] + node[1] - 1) / 2 * PITCH, self.at[1] + (self.rows - height - 0.5) * ROW)

    def lines(self, made):
        """Lines from each node to its two parts; those by which a digest was made stand out."""
        for node in nodes(1, self.n):
            for part in split(*node) if node[0] < node[1] else []:
                (x, y), (to, low) = self.place(node), self.place(part)
                bend = y + HEIGHT / 2 + 10
                points = [(x, y + HEIGHT / 2), (x, bend), (to, bend), (to, low - HEIGHT / 2)]
                self.picture.line(points, "right" if node in made else "faint")

    def draw(self, sent, made, given=None):
        """The nodes: those that are sent with their number, those that were made of them, and the others."""
        self.lines(made)
        for node in nodes(1, self.n):
            x, y = self.place(node)
            kind = "kind" if node in sent else "node" if node in made else "other"
            if node == (1, self.n):
                kind = "root"
            self.picture.box(x - WIDTH / 2, y - HEIGHT / 2, WIDTH, HEIGHT, kind)
            ink = {"root": "on-root", "other": "muted"}.get(kind, "text")
            self.picture.text(x, y + 4.5, label(node), ink)
            if node in sent:
                self.picture.badge(x - WIDTH / 2, y - HEIGHT / 2, sent.index(node) + 1)
        for i in range(1, self.n + 1):
            x = self.place((i, i))[0]
            self.picture.text(x, self.at[1] + self.rows * ROW + 8, "value %d" % i, "text" if i == given else "muted", 12,
                              bold=i == given)


def auditors_picture(folder):
    n, i, m, rows = 7, 5, 3, 4
    shown, proof = path(i, 1, n), consistency(m, 1, n)
    names = [", ".join(map(label, sent)) for sent in (shown, proof)]
    picture = Picture(
        "rfc6962-%d" % n,
        "The auditors' proofs in the tree of %d values: a path and a consistency proof" % n,
        "The path of value %d is %s, in this order: with the value they give the root. The consistency proof from %d to %d"
        " values is %s, in this order: all of them give the new root, and those of the first %d values the old one."
        % (i, names[0], m, n, names[1], m),
    )
    on_path = [node for node in nodes(1, n) if within((i, i), node)]
    above = [node for node in nodes(1, n) if any(within(part, node) and part != node for part in proof)]
    old = [part if part[1] <= m else None for part in proof]  # each has the number that it has in the proof
    x, y, gap = 24, 46, 40
    for size, name, sent, made, given in [
        (n, "Path of value %d" % i, shown, on_path, i),
        (n, "Consistency proof from %d to %d: the new root," % (m, n), proof, above, None),
        (m, "and the old one", old, [(1, m)], None),
    ]:
        picture.text(x, 28, name, size=15, anchor="start", bold=True)
        Tree(picture, size, x, y, rows).draw(sent, made, given)
        x += size * PITCH + gap
    end = y + rows * ROW + 40
    marks = [(0, "kind", "sent, in the order of the numbers"), (300, "node", "worked out"),
             (470, "root", "root: worked out, and compared"), (740, "other", "not needed")]
    legend(picture, 24, end, marks)
    picture.write(folder, x - gap + 24, end + 26)
