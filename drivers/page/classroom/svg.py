"""Texts of SVG. Bytes become characters that keep to themselves: each that can't be seen is written in digits, and what
is markup is escaped."""
import unicodedata
from xml.sax.saxutils import escape, quoteattr

CUT = "…"


def element(tag, attributes, *inside):
    """An element: its attributes, underscores for hyphens, and what stands in it, which is markup already."""
    named = "".join(f" {name.rstrip('_').replace('_', '-')}={quoteattr(number(value))}"
                    for name, value in attributes.items() if value is not None)
    return f"<{tag}{named}>{''.join(inside)}</{tag}>" if inside else f"<{tag}{named}/>"


def number(value):
    return f"{value:.1f}".rstrip("0").rstrip(".") if isinstance(value, float) else str(value)


def pieces(text):
    """Bytes as pieces in order, each with whether it can be seen; one that can't is a backslash and two digits."""
    for char in text.decode("utf-8", "surrogateescape"):
        if "\udc80" <= char <= "\udcff":
            yield f"\\{ord(char) - 0xdc00:02x}", False
        elif is_seen(char):
            yield char, True
        else:
            for byte in char.encode():
                yield f"\\{byte:02x}", False


def is_seen(char):
    kind = unicodedata.category(char)
    return char == " " or not (kind[0] == "C" or kind in ("Zl", "Zp", "Zs"))


def width_of(piece):
    """How many columns a piece takes in letters of one width."""
    return sum(2 if unicodedata.east_asian_width(char) in "WF" else 0 if unicodedata.combining(char) else 1
               for char in piece)


def columns(text):
    return sum(width_of(piece) for piece, _ in pieces(text))


def shown(text, most):
    """Bytes as the inside of a text element, in so many columns at most."""
    found, left, whole = [], most, columns(text) <= most
    for piece, seen in pieces(text):
        if width_of(piece) > left - (0 if whole else 1):
            break
        left -= width_of(piece)
        found.append(escape(piece) if seen else element("tspan", {"class_": "byte"}, escape(piece)))
    return "".join(found) + ("" if whole else CUT)


def plain(text):
    return "".join(piece for piece, _ in pieces(text))
