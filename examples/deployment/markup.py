"""HTML and SVG, put together so that no value can end up in it unescaped: what isn't Markup is escaped."""
import html
import unicodedata


class Markup(str):
    """Text that is HTML already."""


def escaped(what):
    """Anything as Markup."""
    return what if isinstance(what, Markup) else Markup(html.escape(str(what)))


def joined(parts):
    return Markup("".join(map(escaped, parts)))


def element(name, *inner, **attributes):
    """An element. An attribute's name may end with _ (class_), and _ in it is a hyphen; one that is None or False is left out."""
    words = "".join(
        ' %s="%s"' % (key.rstrip("_").replace("_", "-"), html.escape("" if value is True else str(value)))
        for key, value in attributes.items()
        if value is not None and value is not False
    )
    return Markup("<%s%s>%s</%s>" % (name, words, joined(inner), name))


def spelled(value):
    """A value as text, and whether it is shown as it is: bytes that aren't text and characters that can't be seen are spelled."""
    try:
        text = value.decode()
    except UnicodeDecodeError:
        return "".join(chr(byte) if 32 < byte < 127 and byte != 92 else "\\x%02x" % byte for byte in value), False
    if text.isprintable() and text == text.strip() and "  " not in text:
        return text, True
    return "".join(c if c.isprintable() and c not in " \\" else "\\x%02x" % ord(c) if ord(c) < 256 else "\\u{%x}" % ord(c) for c in text), False


def shown(value):
    """A value as HTML. It can't change the direction of what is around it, and is marked if it is spelled."""
    text, plain = spelled(value)
    return (
        element("bdi", text)
        if plain
        else element("bdi", text, class_="raw", title="not plain text: bytes are written as \\x.., characters as \\u{..}")
    )


def number(n):
    """A whole number with narrow spaces between thousands."""
    return f"{n:,}".replace(",", "\u202f")


def counted(n, one, many=None):
    """A number with its noun."""
    return "%s %s" % (number(n), one if n == 1 else many or one + "s")


def percent(part, whole):
    """A share of a whole that isn't 0."""
    digits = 0 if part >= 0.0995 * whole or not part else 1 if part >= 0.001 * whole else 3
    return "%.*f\u202f%%" % (digits, 100 * part / whole)


def fitted(text, width, size):
    """As much of a text as fits into a width at a font size, by an estimate; nothing if that would be less than three letters."""
    room, kept = width / (size * 0.62), ""
    for c in text:
        room -= 2 if unicodedata.east_asian_width(c) in "WF" else 0 if unicodedata.combining(c) else 1
        if room < 0:
            return kept[:-1] + "\u2026" if len(kept) > 3 else ""
        kept += c
    return kept
