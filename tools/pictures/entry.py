"""The picture of an entry: one to scale, and the items with their fields."""
from pictures.drawing import Picture
from pictures.rules import TAP, heights, length

# An item has a name, and fields with their lengths. The first field is the kind. The value is a tap.
INDEX = ("index", [("0x01", 1), ("index i", 4)])
VALUE = ("value", [("0x10 to 0x12", 1), ("body", TAP - 1)])
LEAF = ("leaf digest", [("0x20", 1), ("leaf digest", 32)])
NODE = [("0x21", 1), ("height", 1), ("left offset", 4), ("left digest", 32), ("own digest", 32)]
END = ("length", [("0x30", 1), ("entry length", 4)])

X = 24  # the left edge
SCALE = 5.2  # how wide a byte is
WIDTHS = {1: 90, 4: 110, 8: 150, 32: 200}  # how wide a field is that is not to scale, by its length


def draw_to_scale(picture, i, y):
    """Entry i of a log of taps, to scale. Gives back where each item is, in words."""
    said, at = [], 0
    for name, fields in [INDEX, VALUE, LEAF] + [("node of height %d" % h, NODE) for h in heights(i)] + [END]:
        size = sum(count for _, count in fields)
        said.append("%s item at %d, %d bytes" % (name, at, size))
        picture.text(X + at * SCALE, y - 7, str(at), "muted", 12)
        picture.text(X + (at + size / 2) * SCALE, y + 58, name, size=12)
        picture.text(X + (at + size / 2) * SCALE, y + 74, str(size) if size < 33 else "%d bytes" % size, "muted", 12)
        for k, (field, count) in enumerate(fields):
            picture.box(X + at * SCALE, y, count * SCALE, 40, "field" if k else "kind", 0)
            if count >= 8:
                picture.text(X + (at + count / 2) * SCALE, y + 24.5, field)
            at += count
    assert at == length(i)
    picture.text(X + at * SCALE, y - 7, str(at), "muted", 12)
    return said


def draw_fields(picture, fields, x, y):
    """The fields of an item side by side, each with its length and where it begins in the item."""
    at = 0
    for k, (field, count) in enumerate(fields):
        width = WIDTHS[count]
        picture.box(x, y, width, 42, "field" if k else "kind", 0)
        size = "8, 16 or 48 bytes" if field == "body" else "1 byte" if count == 1 else "%d bytes" % count
        picture.text(x + width / 2, y + 19, field)
        picture.text(x + width / 2, y + 35, size, "muted", 12)
        picture.text(x + 3, y + 55, "+%d" % at, "muted", 12, "start")
        x, at = x + width, at + count


def draw_items(picture, y):
    """The items with their fields, a row each. Gives back the rows in words, and where they end."""
    said = []
    picture.text(X, y - 10, "item", "muted", 12, "start")
    picture.text(X + 92, y - 10, "begins at", "muted", 12, "start")
    rows = [(INDEX, "0"), (VALUE, "5"), (LEAF, "5 + v"), (("node k", NODE), "38 + v + 70k"), (END, "38 + v + 70c")]
    for (name, fields), begins in rows:
        picture.text(X, y + 26, name, anchor="start", bold=True)
        picture.text(X + 92, y + 26, begins, anchor="start")
        draw_fields(picture, fields, X + 200, y)
        said.append("%s item at %s: %s" % (name, begins, ", ".join(field for field, _ in fields)))
        y += 72
    return said, y


def entry_picture(folder):
    i = 7
    picture = Picture("entry", "The layout of an entry", "")
    heading = "Entry %d of a log of taps, %d bytes, to scale" % (i, length(i))
    picture.text(X, 30, heading, size=15, anchor="start", bold=True)
    said = draw_to_scale(picture, i, 62)
    picture.text(X, 178, "The items and their fields", size=15, anchor="start", bold=True)
    terms = "v is the length of the value item: 9, 17 or 49. c is how many nodes the entry has; k counts them from 0."
    picture.text(X, 200, terms, "muted", 13, "start")
    said_of_items, y = draw_items(picture, 238)
    picture.text(X, y + 12, "The entry ends at 43 + v + 70c, the number in its length item.", anchor="start")
    said = "; ".join(said + said_of_items)
    picture.desc = "Entry %d of a log of taps, and then the fields of each item. %s." % (i, said)
    picture.write(folder, 2 * X + length(i) * SCALE, y + 34)
