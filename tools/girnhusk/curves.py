"""The motion of a profile as polynomials over its phases, and as Bezier curves, exactly."""
from __future__ import annotations

import math
from typing import NamedTuple, Sequence

from .plans import Profile

QUANTITIES = ("position", "velocity", "acceleration", "jerk")


class Piece(NamedTuple):
    """A polynomial over one phase: coefficients of 1, t, t², ... with t from the phase's start."""

    start: float
    duration: float
    coefficients: tuple[float, ...]

    def at(self, t: float) -> float:
        value = 0.0
        for coefficient in reversed(self.coefficients):
            value = value * t + coefficient
        return value


def coefficients_of(quantity: str, p: float, v: float, a: float, j: float) -> tuple[float, ...]:
    """The quantity's polynomial where the jerk is constant."""
    return {
        "position": (p, v, a / 2, j / 6),
        "velocity": (v, a, j / 2),
        "acceleration": (a, j),
        "jerk": (j,),
    }[quantity]


def pieces(profile: Profile, quantity: str) -> list[Piece]:
    """One piece for each phase, from the row before it and its jerk; times count from the profile's start."""
    result, start = [], 0.0
    for phase, duration in enumerate(profile.t):
        row = profile.p[phase], profile.v[phase], profile.a[phase], profile.j[phase]
        result.append(Piece(start, duration, coefficients_of(quantity, *row)))
        start = profile.t_sum[phase]
    return result


def bezier(piece: Piece) -> list[tuple[float, float]]:
    """The control points (time, value) of the piece's own degree; a constant gives its two ends."""
    degree = max(len(piece.coefficients) - 1, 1)
    points = []
    for place in range(degree + 1):
        value = sum(
            coefficient * piece.duration**power * math.comb(place, power) / math.comb(degree, power)
            for power, coefficient in enumerate(piece.coefficients)
        )
        points.append((piece.start + piece.duration * place / degree, value))
    return points


def turning_times(piece: Piece) -> list[float]:
    """Where the derivative of a polynomial of degree 3 or less is zero inside the piece."""
    slope = [power * coefficient for power, coefficient in enumerate(piece.coefficients)][1:]
    while slope and slope[-1] == 0:
        slope.pop()
    roots: list[float] = []
    if len(slope) == 2:
        roots = [-slope[0] / slope[1]]
    elif len(slope) == 3:
        c, b, a = slope
        square = b * b - 4 * a * c
        if square >= 0:
            q = -(b + math.copysign(math.sqrt(square), b)) / 2
            roots = [q / a] + ([c / q] if q else [])
    return [root for root in roots if 0 < root < piece.duration]


def extent(curve: Sequence[Piece]) -> tuple[float, float]:
    """The least and the greatest value of a curve."""
    values = [piece.at(t) for piece in curve for t in (0.0, piece.duration, *turning_times(piece))]
    return min(values), max(values)
