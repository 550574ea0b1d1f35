"""The few shapes of SVG that a picture needs."""
from __future__ import annotations

from typing import Sequence
from xml.etree import ElementTree

FONT = "system-ui, 'Segoe UI', 'Helvetica Neue', Arial, 'DejaVu Sans', sans-serif"
CHARACTER = 0.62  # width of a character, in font sizes, on the safe side


def figure(number: float) -> str:
    """A coordinate with two decimals at most."""
    return f"{number:.2f}".rstrip("0").rstrip(".")


def text_width(text: str, size: float) -> float:
    return len(text) * size * CHARACTER


class Drawing:
    """An SVG under construction."""

    def __init__(self, width: float, height: float, title: str):
        self.root = ElementTree.Element("svg", {
            "xmlns": "http://www.w3.org/2000/svg", "width": figure(width), "height": figure(height),
            "viewBox": f"0 0 {figure(width)} {figure(height)}", "font-family": FONT, "role": "img",
        })
        self.add("title").text = title
        self.rectangle(0, 0, width, height, fill="#ffffff")

    def add(self, tag: str, **attributes: object) -> ElementTree.Element:
        """An element; of attribute names, _ stands for a hyphen."""
        plain = {
            name.replace("_", "-"): figure(value) if isinstance(value, (int, float)) else str(value)
            for name, value in attributes.items()
        }
        return ElementTree.SubElement(self.root, tag, plain)

    def line(self, x1: float, y1: float, x2: float, y2: float, **style: object) -> None:
        self.add("line", x1=x1, y1=y1, x2=x2, y2=y2, **style)

    def rectangle(self, x: float, y: float, width: float, height: float, **style: object) -> None:
        self.add("rect", x=x, y=y, width=max(width, 0), height=max(height, 0), **style)

    def polygon(self, points: Sequence[tuple[float, float]], **style: object) -> None:
        self.add("polygon", points=" ".join(f"{figure(x)},{figure(y)}" for x, y in points), **style)

    def text(self, x: float, y: float, content: str, size: float = 12, **style: object) -> None:
        self.add("text", x=x, y=y, font_size=size, **{"fill": "#222222", **style}).text = content

    def hatch(self, name: str, angle: float, colour: str) -> None:
        """A fill of slanted lines, used as url(#name); made once for each name."""
        if any(pattern.get("id") == name for pattern in self.root.iter("pattern")):
            return
        pattern = self.add("pattern", id=name, width=7, height=7, patternUnits="userSpaceOnUse",
                           patternTransform=f"rotate({figure(angle)})")
        ElementTree.SubElement(pattern, "line", {
            "x1": "0", "y1": "0", "x2": "0", "y2": "7", "stroke": colour, "stroke-width": "3"})

    def source(self) -> str:
        ElementTree.indent(self.root)
        return '<?xml version="1.0" encoding="UTF-8"?>\n' + ElementTree.tostring(self.root, "unicode") + "\n"
