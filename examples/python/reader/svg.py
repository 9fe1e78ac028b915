"""Parts of a picture in SVG."""
from __future__ import annotations

from html import escape
from math import cos, radians, sin

STYLE = """
text { font-family: "DejaVu Sans", Verdana, sans-serif; font-size: 11px; fill: #222 }
.title { font-size: 16px; font-weight: bold }
.name { font-weight: bold; font-size: 10px }
.small { font-size: 9.5px; fill: #444 }
.arrow { fill: none; stroke: #222; stroke-width: 1.6; marker-end: url(#head) }
.later { stroke: #999; stroke-dasharray: 4 3 }
"""
ARROW_HEAD = (
    '<marker id="head" viewBox="0 0 8 8" refX="7" refY="4" markerWidth="7" markerHeight="7" orient="auto">'
    '<path d="M0 0L8 4L0 8z" fill="context-stroke"/></marker>'
)


def number(value: float) -> str:
    return f"{round(value, 1):g}"


def element(tag: str, content: str = "", /, **attributes: str | float) -> str:
    """An element; of an attribute's name a line below becomes a hyphen, and goes at its end."""
    written = (
        f' {name.rstrip("_").replace("_", "-")}="{value if isinstance(value, str) else number(value)}"'
        for name, value in attributes.items()
    )
    return f"<{tag}{''.join(written)}>{content}</{tag}>"


def text(x: float, y: float, words: str, /, **attributes: str | float) -> str:
    return element("text", escape(words, quote=False), x=x, y=y, **attributes)


def box(x: float, y: float, width: float, height: float, /, **attributes: str | float) -> str:
    return element("rect", x=x, y=y, width=width, height=height, rx=3, **attributes)


def arrow(path: str, is_later: bool = False) -> str:
    return element("path", d=path, class_="arrow later" if is_later else "arrow")


def arch(x: float, to_x: float, y: float) -> str:
    """The path from the top of one box over others to the top of another."""
    top = y - 14 - abs(to_x - x) / 16
    points = ((x, y), (x, top), (to_x, top), (to_x, y - 2))
    start, *bends = (f"{number(point_x)} {number(point_y)}" for point_x, point_y in points)
    return f"M{start}C{' '.join(bends)}"


def on_circle(x: float, y: float, radius: float, degrees: float) -> tuple[float, float]:
    """A point of a circle, whose degrees go from the top to the right."""
    return x + radius * sin(radians(degrees)), y - radius * cos(radians(degrees))


def band(
    x: float, y: float, inner: float, outer: float, since: float, until: float, /, **attributes: str | float
) -> str:
    """The part of a ring between two angles, at most all of it."""
    until = min(until, since + 359.9)
    is_large = int(until - since > 180)

    def point(radius: float, degrees: float) -> str:
        return " ".join(map(number, on_circle(x, y, radius, degrees)))

    path = (
        f"M{point(outer, since)}A{outer} {outer} 0 {is_large} 1 {point(outer, until)}"
        f"L{point(inner, until)}A{inner} {inner} 0 {is_large} 0 {point(inner, since)}Z"
    )
    return element("path", d=path, **attributes)


def picture(width: float, height: float, words: str, parts: list[str]) -> str:
    """A whole picture with these parts, on white."""
    lines = [
        f'<svg xmlns="http://www.w3.org/2000/svg" viewBox="0 0 {number(width)} {number(height)}" role="img">',
        element("title", escape(words, quote=False)),
        element("style", STYLE),
        element("defs", ARROW_HEAD),
        element("rect", width=width, height=height, fill="#fff"),
        *parts,
        "</svg>",
    ]
    return "\n".join(lines)
