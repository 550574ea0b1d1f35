"""One arrival time for all axes of a move, found by trying every duration and right end.

Nothing is proved about this one. The proved one is girnhusk_arrival of the archive.
"""
from __future__ import annotations

import math
import struct
from typing import NamedTuple, Sequence, Union

from .numerals import plain, short
from .plans import MEANINGS, Plan, Stretch
from .table import aligned, blocked_intervals

MOST_AXES = 8
MALFORMED, NEVER = 9, 10  # document 02's numbers
HEADINGS = ("axis", "record", "duration, s", "blocked durations, s (ends free)")


class Arrival(NamedTuple):
    """The earliest time that is free for all axes, and the lowest axis that has it as duration or right end."""

    time: float
    axis: int


def present(plan: Plan) -> list[Stretch]:
    """The stretches there are: one that is missing is 0 and 0."""
    return [stretch for stretch in plan.stretches if (stretch.left, stretch.right) != (0, 0)]


def is_wrong(plan: Plan) -> bool:
    """Whether number 9 turns it back."""
    return not 0 <= plan.duration < math.inf or any(
        not plan.duration <= stretch.left < math.inf or not stretch.left <= stretch.right for stretch in present(plan))


def is_free(plan: Plan, time: float) -> bool:
    return time >= plan.duration and not any(stretch.left < time < stretch.right for stretch in present(plan))


def ends_at(plan: Plan, time: float) -> list[Stretch]:
    """The stretches whose right end it is."""
    return [stretch for stretch in present(plan) if stretch.right == time]


def arrival(plans: Sequence[Plan]) -> Union[Arrival, int]:
    """The arrival, or the number of the refusal."""
    if not 1 <= len(plans) <= MOST_AXES or any(map(is_wrong, plans)):
        return MALFORMED
    tried = [time for plan in plans for time in (plan.duration, *(stretch.right for stretch in present(plan)))]
    free = [time for time in tried if math.isfinite(time) and all(is_free(plan, time) for plan in plans)]
    if not free:
        return NEVER
    time = min(free) + 0.0  # no -0
    return Arrival(time, [plan.duration == time or bool(ends_at(plan, time)) for plan in plans].index(True))


def cause(plans: Sequence[Plan], answer: Arrival) -> str:
    """What sets the time."""
    plan = plans[answer.axis]
    what = "its duration" if plan.duration == answer.time else "the right end of a blocked stretch"
    return f"set by record {plan.number} (axis {answer.axis}): {what}"


def arrival_words(plans: Sequence[Plan], answer: Union[Arrival, int]) -> str:
    """The axes as a table, and below it when all arrive, or why they don't."""
    rows = [[str(axis), str(plan.number), short(plan.duration), blocked_intervals(plan)]
            for axis, plan in enumerate(plans)]
    text = aligned([list(HEADINGS), *rows], (0, 1, 2))
    if not isinstance(answer, Arrival):
        return text + f"refused {answer}: {MEANINGS[answer]}\n"
    bits = struct.pack(">d", answer.time).hex().upper()
    return text + f"all arrive at {plain(answer.time)} s, bits {bits}\n{cause(plans, answer)}\n"
