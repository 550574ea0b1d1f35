"""Durations as a strip: grey below the plan's, hatched where blocked."""
from __future__ import annotations

import math
from typing import Sequence

from .axes import TOO_LARGE, Scale, Tick, spread, ticks, widened
from .numerals import short, short_ends
from .plans import Plan, Stretch
from .svg import Drawing, text_width

LEFT, RIGHT = 92, 742  # the edges of strips and panels
STRIP_HEIGHT = 24
SHORTER = "none found"  # of durations below the plan's


def fitting_ticks(scale: Scale, low: float, high: float) -> list[Tick]:
    """As many marks of a level axis as have room for their labels."""
    for count in (10, 7, 5, 3, 2, 1):
        marks = ticks(low, high, count)
        if len(marks) < 2:
            return marks
        widest = max(text_width(mark.label, 11.5) for mark in marks)
        if widest + 10 <= scale.pixel(marks[1].value) - scale.pixel(marks[0].value):
            return marks
    return []


def draw_level_axis(drawing: Drawing, scale: Scale, zero: float, marks: list[Tick], y: float, title: str) -> None:
    """Marks under a level axis whose labels count from zero."""
    for mark in marks:
        x = scale.pixel(mark.value + zero)
        drawing.line(x, y, x, y + 5, stroke="#222222")
        drawing.text(x, y + 18, mark.label, 11.5, text_anchor="middle")
    drawing.text((LEFT + RIGHT) / 2, y + 36, title, 12, text_anchor="middle")


def draw_durations_axis(drawing: Drawing, scale: Scale, y: float) -> None:
    marks = fitting_ticks(scale, scale.low, scale.high)
    draw_level_axis(drawing, scale, 0.0, marks, y, "duration of the whole move, s")


def strip_scale(plans: Sequence[Plan]) -> Scale:
    """The durations worth showing: a little before the first to a little after the last end."""
    ends = [end for plan in plans for stretch in plan.blocked() for end in (stretch.left, stretch.right)]
    shown = [plan.duration for plan in plans] + [end for end in ends if math.isfinite(end)]
    low, high = min(shown), max(shown)
    if high > TOO_LARGE:
        raise OverflowError("too large to draw")
    if low == high:
        high += low / 2 or 1.0
    span = high - low
    return Scale(*widened(max(low - span * 0.15, 0.0), high + span * 0.15), LEFT, RIGHT)


def stretch_words(stretch: Stretch) -> str:
    if stretch.kind == "from":
        return f"from {short(stretch.left)} s on"
    empty = " (empty, ends are free)" if stretch.left == stretch.right else ""
    return "{} s to {} s".format(*short_ends(stretch.left, stretch.right)) + empty


def blocked_words(plan: Plan) -> str:
    """The stretches in words; two get letters."""
    words = [stretch_words(stretch) for stretch in plan.blocked()]
    if len(words) > 1:
        words = [f"{place}: {each}" for place, each in zip("AB", words)]
    return "; ".join(words)


def stretch_edges(stretch: Stretch, scale: Scale) -> tuple[float, float]:
    """A stretch's left and right on the strip, at least a line apart."""
    left = scale.pixel(stretch.left)
    return left, max(scale.pixel(stretch.right), left + 1.5) if math.isfinite(stretch.right) else RIGHT


def draw_stretch(drawing: Drawing, stretch: Stretch, scale: Scale, top: float, fill: str) -> None:
    """One hatched stretch; an endless one reaches into the arrow."""
    bottom = top + STRIP_HEIGHT
    left, right = stretch_edges(stretch, scale)
    points = [(left, top), (right, top), (right, bottom), (left, bottom)]
    if not math.isfinite(stretch.right):
        points.insert(2, (right + 16, (top + bottom) / 2))
    drawing.polygon(points, fill=fill, stroke="#222222")


def draw_stretch_names(drawing: Drawing, blocked: list[Stretch], scale: Scale, top: float) -> None:
    """Two stretches get the letters of the title, where there is room."""
    edges = [stretch_edges(stretch, scale) for stretch in blocked]
    centres = spread([(left + right) / 2 for left, right in edges], 20, LEFT, RIGHT)
    for (left, right), x, name in zip(edges, centres, "AB"):
        if right - left > 24:
            drawing.rectangle(x - 8, top + 3, 16, STRIP_HEIGHT - 6, fill="#ffffff")
            drawing.text(x, top + STRIP_HEIGHT - 7, name, 12, text_anchor="middle", font_weight="bold")


def draw_strip(drawing: Drawing, plan: Plan, scale: Scale, top: float) -> None:
    """A plan's durations: grey below its own, from there on hatched where blocked."""
    bottom = top + STRIP_HEIGHT
    edge = scale.pixel(plan.duration)
    arrow = [(LEFT, top), (RIGHT, top), (RIGHT + 16, (top + bottom) / 2), (RIGHT, bottom), (LEFT, bottom)]
    drawing.polygon(arrow, fill="#ffffff", stroke="#222222")
    drawing.rectangle(LEFT, top, edge - LEFT, STRIP_HEIGHT, fill="#d0d0d0", stroke="#222222")
    if edge - LEFT > text_width(SHORTER, 11):
        drawing.text((LEFT + edge) / 2, bottom - 8, SHORTER, 11, text_anchor="middle")
    blocked = plan.blocked()
    for stretch, name, angle in zip(blocked, ("blocked-a", "blocked-b"), (45, -45)):
        drawing.hatch(name, angle, "#555555")
        draw_stretch(drawing, stretch, scale, top, f"url(#{name})")
    if len(blocked) > 1:
        draw_stretch_names(drawing, blocked, scale, top)
