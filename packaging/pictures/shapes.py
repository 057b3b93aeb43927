"""Boxes, arrows and texts of the pictures in docs/, as parts of an SVG.

A picture has a white ground of its own, so it looks the same on a dark page and on a light one.
"""

from __future__ import annotations

import os
from collections.abc import Iterable, Iterator
from html import escape

TOP = os.path.dirname(os.path.dirname(os.path.dirname(os.path.abspath(__file__))))

# A fill and the line around it.
Colours = tuple[str, str]
BLUE: Colours = ("#dcebf7", "#1b6ca8")
GREEN: Colours = ("#dff2e1", "#2e7d32")
YELLOW: Colours = ("#fdf1d3", "#b7791f")
RED: Colours = ("#fbe0e2", "#d1495b")
GREY: Colours = ("#eeeeee", "#777777")
BLANK: Colours = ("#ffffff", "#777777")


def text(x: float, y: float, words: str, anchor: str = "middle", size: float = 12, font: str = "") -> str:
    """A line of text; `font` is attributes of SVG, as `BOLD`."""
    return f'<text x="{x:.1f}" y="{y:.1f}" text-anchor="{anchor}" font-size="{size:g}"{font}>{escape(words)}</text>'


BOLD = ' font-weight="bold"'
CODE = ' font-family="monospace"'


def box(x: float, y: float, width: float, height: float, colours: Colours, dashed: bool = False) -> str:
    fill, line = colours
    dashes = ' stroke-dasharray="4 3"' if dashed else ""
    return (f'<rect x="{x:.1f}" y="{y:.1f}" width="{width:.1f}" height="{height:.1f}" rx="4" fill="{fill}" '
            f'stroke="{line}"{dashes}/>')  # fmt: skip


def arrow(x: float, y: float, to_x: float, to_y: float) -> str:
    return (f'<line x1="{x:.1f}" y1="{y:.1f}" x2="{to_x:.1f}" y2="{to_y:.1f}" stroke="#444444" '
            'marker-end="url(#head)"/>')  # fmt: skip


def lines(x: float, y: float, of: Iterable[str], anchor: str = "middle", size: float = 11) -> Iterator[str]:
    """Lines of text, one below the other."""
    for number, words in enumerate(of):
        yield text(x, y + number * (size + 3), words, anchor, size)


def legend(x: float, y: float, step: float, of: Iterable[tuple[Colours, str]]) -> Iterator[str]:
    """What colours mean, side by side."""
    for number, (colours, words) in enumerate(of):
        yield box(x + number * step, y, 16, 14, colours)
        yield text(x + number * step + 23, y + 11, words, "start", 11)


def picture(name: str, width: float, height: float, parts: Iterable[str]) -> tuple[str, str]:
    """The name of a picture's file, and its content."""
    head = (f'<svg xmlns="http://www.w3.org/2000/svg" viewBox="0 0 {width:g} {height:g}" width="{width:g}" '
            f'height="{height:g}" font-family="sans-serif" fill="#222222">')  # fmt: skip
    marker = ('<defs><marker id="head" markerWidth="8" markerHeight="8" refX="7" refY="3" orient="auto">'
              '<path d="M0,0 L7,3 L0,6 z" fill="#444444"/></marker></defs>')  # fmt: skip
    ground = f'<rect width="{width:g}" height="{height:g}" rx="6" fill="#ffffff"/>'
    return os.path.join("docs", f"{name}.svg"), "\n".join([head, marker, ground, *parts, "</svg>"]) + "\n"
