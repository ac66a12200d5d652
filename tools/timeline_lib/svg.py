"""Elements of a picture in SVG."""
import functools
import re
from xml.sax.saxutils import escape, quoteattr

# How wide a letter of a text is at most, on the whole.
LETTER = 6.2
# A text that stands in quotes as it is.
PLAIN = re.compile(r"[\w .,:@()#-]*")


def element(name, title="", inside="", **attributes):
    """An element with its attributes, of which `_` stands for `-`, and with a title where it has one."""
    told = "".join([f" {attribute_of(key)}={quoted(short(value))}" for key, value in attributes.items()])
    inside = (f"<title>{escape(title)}</title>" if title else "") + inside
    return f"<{name}{told}>{inside}</{name}>" if inside else f"<{name}{told}/>"


@functools.lru_cache(maxsize=None)
def attribute_of(key):
    """The attribute that a word stands for."""
    return key.rstrip("_").replace("_", "-")


def quoted(text):
    """A text in quotes. Most texts have nothing to be escaped, which is seen at once."""
    return f'"{text}"' if PLAIN.fullmatch(text) else quoteattr(text)


def short(value):
    """A number without needless digits, or a text."""
    if not isinstance(value, float):
        return str(value)
    digits = f"{value:.1f}"
    return digits[:-2] if digits.endswith(".0") else digits


def line(x1, y1, x2, y2, kind, title="", **attributes):
    return element("line", title, x1=x1, y1=y1, x2=x2, y2=y2, class_=kind, **attributes)


def bent(x1, y1, x2, y2, bend, kind, title="", **attributes):
    """A line whose middle stands so far to the right of its ends' middle."""
    if bend == 0:
        return line(x1, y1, x2, y2, kind, title, **attributes)
    middle = f"{short((x1 + x2) / 2 + 2 * bend)},{short((y1 + y2) / 2)}"
    strokes = f"M{short(x1)},{short(y1)}Q{middle} {short(x2)},{short(y2)}"
    return element("path", title, d=strokes, class_=kind, **attributes)


def box(x, y, width, height, kind, title=""):
    return element("rect", title, x=x, y=y, width=width, height=height, class_=kind)


def disc(x, y, radius, kind, title=""):
    return element("circle", title, cx=x, cy=y, r=radius, class_=kind)


def shape(points, kind, title=""):
    return element("polygon", title, points=" ".join(f"{short(x)},{short(y)}" for x, y in points), class_=kind)


def diamond(x, y, kind, title=""):
    return shape([(x - 5, y), (x, y - 5), (x + 5, y), (x, y + 5)], kind, title)


def cross(x, y, size, kind, title=""):
    across = short(2 * size)
    strokes = f"M{short(x - size)},{short(y - size)}l{across},{across}m-{across},0l{across},-{across}"
    return element("path", title, d=strokes, class_=kind)


def group(inside, x, y):
    return element("g", inside=inside, transform=f"translate({short(x)} {short(y)})")


def group_of(inside, title):
    """Elements that have one title."""
    return element("g", title, inside)


def words(x, y, text, kind="", **attributes):
    classes = {"class_": kind} if kind else {}
    return element("text", inside=escape(text), x=x, y=y, **classes, **attributes)
