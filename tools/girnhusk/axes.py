"""Ranges, tick marks and labels that keep clear of one another."""
from __future__ import annotations

import math
from decimal import Decimal
from typing import NamedTuple, Sequence

TOO_LARGE = 1e290  # beyond this a range cannot be drawn
LEAST_SPAN = 1e-280  # nor a range narrower than this
RESOLUTION = 1e-9  # a range is at least this part of its largest number


class Tick(NamedTuple):
    value: float
    label: str


class Scale(NamedTuple):
    """A range of numbers laid over pixels."""

    low: float
    high: float
    first: float
    last: float

    def pixel(self, value: float) -> float:
        return self.first + (value - self.low) / (self.high - self.low) * (self.last - self.first)


def widened(low: float, high: float) -> tuple[float, float]:
    """The range, or a wider one around it where it is too narrow for marks."""
    largest = max(abs(low), abs(high))
    least = max(largest * RESOLUTION, LEAST_SPAN)
    if low == high:
        least = largest or 1.0
    missing = max(least - (high - low), 0.0)
    return low - missing / 2, high + missing / 2


def with_margin(low: float, high: float, share: float) -> tuple[float, float]:
    margin = (high - low) * share
    return low - margin, high + margin


def step(span: float, count: int) -> tuple[int, int]:
    """The least step 1, 2 or 5 times a power of ten that makes at most count steps: factor and power."""
    power = math.floor(math.log10(span / count))
    for factor in (1, 2, 5):
        if span / (factor * 10.0**power) <= count:
            return factor, power
    return 1, power + 1


def decimal_label(number: Decimal, largest: float) -> str:
    """A tick's number in full where the axis has ordinary numbers, else with an exponent."""
    if number == 0:
        return "0"
    if 1e-3 <= largest < 1e6:
        return f"{number:f}"
    digits, exponent = f"{number.normalize():E}".split("E")
    return f"{digits}e{int(exponent)}"


def ticks(low: float, high: float, count: int, origin: Decimal = Decimal(0)) -> list[Tick]:
    """Marks at round numbers within the range; labels are relative to the origin."""
    if high - low < LEAST_SPAN:
        return []
    factor, power = step(high - low, count)
    width = factor * 10.0**power
    numbers = range(math.ceil(low / width - 1e-6), math.floor(high / width + 1e-6) + 1)
    exact = [Decimal(factor * number).scaleb(power) for number in numbers]
    largest = max((abs(float(number - origin)) for number in exact), default=0.0)
    return [Tick(float(number), decimal_label(number - origin, largest)) for number in exact]


def shortened_ticks(low: float, high: float, count: int, longest: int) -> tuple[list[Tick], str]:
    """Marks whose labels have at most so many characters, and the number they count from, if any."""
    marks = ticks(low, high, count)
    if not marks or max(len(mark.label) for mark in marks) <= longest:
        return marks, ""
    factor, power = step(high - low, count)
    first = round(marks[0].value / (factor * 10.0**power))
    origin = Decimal(factor * first).scaleb(power)
    return ticks(low, high, count, origin), decimal_label(origin, abs(float(origin)))


def spread(wanted: Sequence[float], gap: float, low: float, high: float) -> list[float]:
    """Places at least gap apart, in the order wanted and as near as can be, between low and high if they fit."""
    order = sorted(range(len(wanted)), key=lambda place: wanted[place])
    groups: list[list[float]] = []  # sum and count of places that touch
    for rank, place in enumerate(order):
        groups.append([wanted[place] - rank * gap, 1])
        while len(groups) > 1 and groups[-2][0] / groups[-2][1] >= groups[-1][0] / groups[-1][1]:
            total, count = groups.pop()
            groups[-1][0] += total
            groups[-1][1] += count
    top = max(high - (len(wanted) - 1) * gap, low)
    shared = [min(max(total / count, low), top) for total, count in groups for _ in range(int(count))]
    result = [0.0] * len(wanted)
    for rank, place in enumerate(order):
        result[place] = shared[rank] + rank * gap
    return result
