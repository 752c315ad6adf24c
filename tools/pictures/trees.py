"""The picture of a tree, in the entries that store its nodes."""
from pictures.columns import Columns
from pictures.drawing import Picture, legend
from pictures.rules import heights, left, nodes, top, tree


def tree_picture(folder, n, **sizes):
    reached = tree(top(n))
    listed = "; ".join("entry %d: %s" % (i, " ".join("(%d,%d)" % (i, h) for h in [0] + heights(i))) for i in range(1, n + 1))
    links = ", ".join("(%d,%d) to (%d,%d)" % (node + left(*node)) for node in sorted(reached) if node[1])
    picture = Picture(
        "tree-%d" % n,
        "The tree of %d values, in the entries that store its nodes" % n,
        "One column an entry, one row a height. Nodes by entry: %s. Left links of the tree: %s. The root is (%d,%d)."
        % (listed, links, *top(n)),
    )
    columns = Columns(picture, n, 112, 34, **sizes)
    columns.entries()
    others = [node for node in nodes(n) if node not in reached]
    for node in others:
        columns.across(*node, "faint", "faint-head")
        columns.down(*node, "faint")
    for node in sorted(reached):
        if node[1]:
            columns.down(*node, "right")
            columns.across(*node, "left", "head")
    for node in nodes(n):
        columns.node(*node, "root" if node == top(n) else "node" if node in reached else "other")
    x, y = columns.place(*top(n))
    picture.text(x, y - columns.height / 2 - 14, "root", bold=True)
    width = 112 + n * columns.pitch + 24
    links = [(0, "left", "left child: left offset and left digest"), (300, "right", "right child, in the same entry")]
    kinds = [(0, "node", "in the tree of these %d values" % n), (300, "other", "only in trees of fewer values")]
    legend(picture, 112, columns.end + 22, links)
    one_row = width > 1200
    legend(picture, 712 if one_row else 112, columns.end + (22 if one_row else 54), kinds)
    picture.write(folder, width, columns.end + (46 if one_row else 78))
