"""The little of SVG that pictures need: shapes as text, one a line, with short numbers."""
from xml.sax.saxutils import escape, quoteattr

CHARACTER = 5.8             # the width of a character at 10 px, on the whole


def width_of(text):
    return CHARACTER * len(text)


def number(x):
    return ("%.1f" % x).rstrip("0").rstrip(".")


def shape(name, style, title=None, **places):
    """A shape of a class of the style sheet; its title is shown under the pointer."""
    words = "".join(" %s=%s" % (key.replace("_", "-"), quoteattr(number(x) if isinstance(x, (int, float)) else x))
                    for key, x in places.items())
    head = "<%s class=%s%s" % (name, quoteattr(style), words)
    return head + "/>" if title is None else "%s><title>%s</title></%s>" % (head, escape(title), name)


def label(x, y, text, style="t", **places):
    words = "".join(" %s=%s" % (key.replace("_", "-"), quoteattr(str(v))) for key, v in places.items())
    return '<text class="%s" x="%s" y="%s"%s>%s</text>' % (style, number(x), number(y), words, escape(text))


def whole(width, height, style, shapes):
    size = 'width="%s" height="%s" viewBox="0 0 %s %s"' % ((number(width), number(height)) * 2)
    head = '<svg xmlns="http://www.w3.org/2000/svg" %s>' % size
    ground = '<rect width="100%" height="100%" fill="#fff"/>'
    return "\n".join([head, "<style>%s</style>" % style.strip(), ground] + shapes + ["</svg>"]) + "\n"
