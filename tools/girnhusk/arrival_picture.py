"""The durations of several axes as an SVG, a strip for each, and the time at which all arrive."""
from __future__ import annotations

from typing import Sequence, Union

from .arrival import Arrival, cause
from .axes import Scale
from .numerals import short
from .plans import MEANINGS, Plan
from .strip import LEFT, RIGHT, STRIP_HEIGHT, blocked_words, draw_durations_axis, draw_strip, strip_scale
from .svg import Drawing, text_width

WIDTH = 900
STRIPS_TOP, STRIPS_STEP = 124, 64
TIME_TOP = 84  # where the common time is named
TIME_COLOUR = "#8a1c1c"
NOTES = ("Grey: below the axis's duration the planner found none. Hatched: blocked, the ends are free.",
         "A script worked this out, and nothing about it is proved. The proved one is the archive's girnhusk_arrival.")
NOTES_STEP = 17


def names(plans: Sequence[Plan]) -> str:
    """The records in words."""
    numbers = [str(plan.number) for plan in plans]
    if len(numbers) == 1:
        return f"Record {numbers[0]}"
    return f"Records {', '.join(numbers[:-1])} and {numbers[-1]}"


def verdict(plans: Sequence[Plan], answer: Union[Arrival, int]) -> tuple[str, str]:
    """The heading, and the line below it."""
    if isinstance(answer, Arrival):
        return f"{names(plans)}: all arrive at {short(answer.time)} s", cause(plans, answer)
    return f"{names(plans)}: refused {answer}", MEANINGS[answer]


def strip_name(axis: int, plan: Plan) -> str:
    blocked = blocked_words(plan)
    words = f"blocked {blocked}" if blocked else "no longer one is blocked"
    return f"record {plan.number} (axis {axis}): duration {short(plan.duration)} s, {words}"


def draw_time(drawing: Drawing, time: float, scale: Scale, bottom: float) -> None:
    """A line across all strips, named at its top."""
    x, label = scale.pixel(time), f"{short(time)} s"
    half = text_width(label, 13) / 2
    drawing.line(x, TIME_TOP + 5, x, bottom, stroke=TIME_COLOUR, stroke_width=2.2)
    drawing.text(min(max(x, LEFT + half), RIGHT - half), TIME_TOP, label, 13, text_anchor="middle", font_weight="bold",
                 fill=TIME_COLOUR)


def arrival_picture(plans: Sequence[Plan], answer: Union[Arrival, int]) -> str:
    """The SVG's text; OverflowError if numbers are too large to draw."""
    scale = strip_scale(plans)
    bottom = STRIPS_TOP + (len(plans) - 1) * STRIPS_STEP + STRIP_HEIGHT
    notes_top = bottom + 66
    heading, reason = verdict(plans, answer)
    drawing = Drawing(WIDTH, notes_top + NOTES_STEP + 14, heading)
    drawing.text(20, 28, heading, 17, font_weight="bold")
    drawing.text(20, 48, reason, 12)
    for axis, plan in enumerate(plans):
        draw_strip(drawing, plan, scale, STRIPS_TOP + axis * STRIPS_STEP)
    if isinstance(answer, Arrival):
        draw_time(drawing, answer.time, scale, bottom + 5)
    for axis, plan in enumerate(plans):
        drawing.text(LEFT, STRIPS_TOP + axis * STRIPS_STEP - 9, strip_name(axis, plan), 12, font_weight="bold",
                     stroke="#ffffff", stroke_width=5, paint_order="stroke")
    draw_durations_axis(drawing, scale, bottom)
    for place, note in enumerate(NOTES):
        drawing.text(LEFT, notes_top + place * NOTES_STEP, note, 11.5)
    return drawing.source()
