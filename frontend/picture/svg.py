"""A small writer of SVG: elements with attributes and texts, escaped as XML wants it, and how wide a text is."""
from __future__ import annotations

import re

NAMESPACE = "http://www.w3.org/2000/svg"
_FORBIDDEN = re.compile("[^\t\n\r\x20-\ud7ff\ue000-\ufffd\U00010000-\U0010ffff]")  # what no XML may hold, escaped or not
_ESCAPES = str.maketrans({"&": "&amp;", "<": "&lt;", ">": "&gt;", '"': "&quot;"})
_WIDTHS = {  # of characters in a wide sans-serif, in hundredths of the font's size
    **dict.fromkeys("ijl'|", 29),
    **dict.fromkeys(" .,:;!", 34),
    **dict.fromkeys("frt/\\()[]-", 42),
    **dict.fromkeys("scz", 56),
    **dict.fromkeys("ABCDEFGHIJKLNOPQRSTUVXYZ&", 78),
    **dict.fromkeys("wMW@%<>=+m", 98),
}
_WIDTH, _WIDEST = 64, 100  # of the other characters of ASCII, and of all others
_BOLD = 1.12  # as wide as plain


def element(tag: str, *inside: str, **attributes: object) -> str:
    """Write an element around what is already written. `stroke_width` is the attribute `stroke-width`, `class_` is `class`.

    An attribute that is None is left out."""
    written = "".join(f' {_name(name)}="{_value(value)}"' for name, value in attributes.items() if value is not None)
    return f"<{tag}{written}>{''.join(inside)}</{tag}>" if inside else f"<{tag}{written}/>"


def text(content: str, x: float, y: float, **attributes: object) -> str:
    """Write a text whose baseline begins at a point, or ends or has its middle there if `text_anchor` says so."""
    return element("text", escaped(content), x=x, y=y, **attributes)


def title(content: str) -> str:
    """Write what an element is called, which browsers show while one points at it."""
    return element("title", escaped(content))


def escaped(content: str) -> str:
    """Write a text so that XML reads it as that text; what no XML may hold becomes the sign for an unknown character."""
    return _FORBIDDEN.sub("\ufffd", content).translate(_ESCAPES)


def number(value: float) -> str:
    """Write a number with no more than two decimals."""
    return f"{value:.2f}".rstrip("0").rstrip(".") if isinstance(value, float) else str(value)


def width(content: str, size: float, bold: bool = False) -> float:
    """Estimate how wide a text is, on the wide side: which font a viewer takes is not known."""
    hundredths = sum(_WIDTHS.get(sign, _WIDTH if sign.isascii() else _WIDEST) for sign in content)
    return hundredths * size / 100 * (_BOLD if bold else 1)


def shortened(content: str, size: float, room: float, bold: bool = False) -> str:
    """Give a text as it is, or without its middle if it is wider than there is room."""
    if width(content, size, bold) <= room:
        return content
    half = len(content) // 2
    while half and width(f"{content[:half]}\u2026{content[-half:]}", size, bold) > room:
        half -= 1
    return f"{content[:half]}\u2026{content[len(content) - half:]}"


def _name(name: str) -> str:
    """Give the attribute that a name of Python's stands for."""
    return name.rstrip("_").replace("_", "-")


def _value(value: object) -> str:
    """Write the value of an attribute."""
    return number(value) if isinstance(value, (int, float)) else escaped(str(value))
