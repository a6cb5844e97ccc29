"""Texts, colours and small shapes that the drawings share. A colour is the name of a variable of page.css, which has one value for light and one
for dark pages. `text` escapes every text."""
from collections.abc import Iterable
from html import escape
from typing import Optional, Union
from unicodedata import east_asian_width

from goodlock.agent.sites import shortened

# Colours that most eyes can distinguish. In grey print the number beside each lock identifies it.
PALETTE = [f"lock{number}" for number in range(8)]
STUCK, APART, INK, FAINT, OTHER = "confirmed", "potential", "ink", "faint", "other"
HEADS = [STUCK, APART, FAINT, INK, OTHER, *PALETTE]
GLYPH, SMALLEST = 0.6, 11.0  # the width of most glyphs as a part of the font size; a smaller size is hard to read
ISOLATE, END = "\u2068", "\u2069"  # a name between them does not change the direction of the text around it
Value = Union[str, int, float]


def columns_of(label: str) -> int:
    """Returns how many glyphs of the usual width a label takes: a wide one, as in Chinese, counts as two."""
    return sum(2 if east_asian_width(glyph) in "WF" else 1 for glyph in label)


def cut(label: str, columns: int) -> str:
    """Returns a label of at most this number of columns: without its middle if it is too long, since its end says most."""
    most = max(columns, 4)
    while columns_of(label) > columns and most > 3:
        label, most = shortened(label, most), most - 1
    return label


def fitting(label: str, width: float, largest: float = 12.0) -> float:
    """Returns a font size at which a label fits the width, but none that is hard to read."""
    return max(SMALLEST, min(largest, width / (GLYPH * max(1, columns_of(label)))))


def isolated(name: str) -> str:
    return f"{ISOLATE}{name.replace(END, '')}{END}"


def titled(kind: str, number: int, name: Optional[str], width: float, before: str = "") -> str:
    """Returns `alice (2)`, with the middle of the name cut to fit the width, or `lock 2` if it has no name; after the words before it."""
    if not name:
        return f"{before}{kind} {number}"
    left = int(width / (GLYPH * SMALLEST)) - len(f"{before} ({number})")
    return f"{before}{isolated(cut(name, left))} ({number})"


def text(x: float, y: float, label: object, **attributes: Value) -> str:
    options: dict[str, Value] = {"font_size": 12, "fill": INK, "text_anchor": "middle", **attributes}
    return f'<text x="{x:.1f}" y="{y:.1f}"{attributes_of(options)}>{escape(str(label))}</text>'


def two_lines(x: float, y: float, width: float, kind: str, number: int, name: Optional[str], fill: str = INK, weight: Value = "normal") -> str:
    """Returns the label of a thread or a lock around the height y: its name, and under it its number, or only the number."""
    label = f"{kind} {number}"
    if not name:
        return text(x, y + 4.5, label, font_size=fitting(label, width, 13.0), fill=fill, font_weight=weight)
    above = cut(name, int(width / (GLYPH * SMALLEST)))
    return (text(x, y - 2, isolated(above), font_size=fitting(above, width), fill=fill, font_weight=weight)
            + text(x, y + 11, label, font_size=fitting(label, width), fill=fill))


def shape(name: str, within: str = "", /, **attributes: Value) -> str:
    return f"<{name}{attributes_of(attributes)}>{within}</{name}>"


def attributes_of(options: dict[str, Value]) -> str:
    return "".join(f' {name.replace("_", "-")}="{escape(value_of(name, value))}"' for name, value in options.items())


def value_of(name: str, value: Value) -> str:
    if name in ("fill", "stroke") and value != "none":
        return f"var(--{value})"
    return f"{value:.1f}" if isinstance(value, float) else str(value)


def arrow_heads(name: str, drawn: str) -> str:
    """Returns the arrow heads that a drawing needs, one for each colour. `name` is unique for each drawing of a page."""
    heads = []
    for colour in HEADS:
        if f"url(#{name}{colour})" in drawn:
            point = shape("path", d="M0 0 L8 4 L0 8 Z", fill=colour)
            heads.append(shape("marker", point, id=f"{name}{colour}", viewBox="0 0 8 8", refX=7, refY=4, markerWidth=7, markerHeight=7,
                               orient="auto-start-reverse", markerUnits="userSpaceOnUse"))
    return shape("defs", "".join(heads))


def drawing(name: str, width: float, height: float, parts: Iterable[str], title: str, attributes: str = ' role="img"') -> str:
    label, drawn = shape("title", escape(title)), "".join(parts)
    head = f'<svg xmlns="http://www.w3.org/2000/svg" viewBox="0 0 {width:.0f} {height:.0f}" width="{width:.0f}"{attributes}>'
    return f"{head}{label if title else ''}{arrow_heads(name, drawn)}{drawn}</svg>"


def colours_of(locks: Iterable[int]) -> dict[int, str]:
    """Returns a colour for each of these locks; every other lock is grey."""
    return {lock: PALETTE[at % len(PALETTE)] for at, lock in enumerate(dict.fromkeys(locks))}
