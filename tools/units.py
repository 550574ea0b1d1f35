#!/usr/bin/env python3
"""How many plain moves are refused in each unit of length.

  (cd crates/plan_moves && rt run </dev/null)
  python3 tools/units.py

A carriage goes from rest to rest. The same moves are written in metres, millimetres and so on, and planned. The
tolerances are absolute, 1e-12 at the limits of velocity and acceleration and 1e-8, 1e-8 and 1e-10 at the target, so the
unit matters.
Python 3.9 or later, nothing else.
"""
from __future__ import annotations

import argparse
import random
import subprocess
import sys
from fractions import Fraction
from pathlib import Path
from typing import NamedTuple

from girnhusk.movefile import Move, to_record

PLANNER = Path(__file__).resolve().parent.parent / "crates" / "plan_moves" / "out" / "plan_moves"
UNITS = (("m", 1), ("mm", 10**3), ("0.1 mm", 10**4), ("µm", 10**6), ("nm", 10**9))  # how many are a metre
TRAVEL, LEAST_DISTANCE = 3000, 100  # mm
BOUNDS = (0, 8e3, 16e3, 1e5, 1e6, 1e11)  # of a_max, in whichever unit


class Axis(NamedTuple):
    """The limits that moves of a kind are drawn from, least and greatest: mm/s, mm/s², mm/s³."""

    name: str
    v: tuple[int, int]
    a: tuple[int, int]
    j: tuple[int, int]


AXES = (Axis("calm", (200, 2000), (500, 5000), (5000, 50000)),
        Axis("brisk", (500, 3000), (5000, 20000), (50000, 500000)))


def between(source: random.Random, least: int, greatest: int) -> int:
    return least + int(source.random() * (greatest - least + 1))


def carriage_move(source: random.Random, axis: Axis) -> tuple[int, ...]:
    """A move from rest to rest in mm and s, all of its numbers whole."""
    start, target = between(source, 0, TRAVEL), between(source, 0, TRAVEL)
    while abs(target - start) < LEAST_DISTANCE:
        target = between(source, 0, TRAVEL)
    v, a, j = (between(source, *limits) for limits in (axis.v, axis.a, axis.j))
    return start, 0, 0, target, 0, 0, v, -v, a, -a, j, 0, 0


def in_unit(move: tuple[int, ...], metre: int) -> Move:
    """The move in another unit of length, each number the nearest double."""
    return Move(*(float(Fraction(number * metre, 1000)) for number in move))


def refused(planner: str, moves: list[Move]) -> list[Move]:
    """The moves that plan_moves refuses."""
    records = b"".join(map(to_record, moves))
    answers = subprocess.run([planner], input=records, stdout=subprocess.PIPE, check=True).stdout.split(b"\n")[1:-1]
    if len(answers) != len(moves):
        raise SystemExit(f"{planner}: {len(answers)} answers to {len(moves)} moves")
    return [move for move, answer in zip(moves, answers) if answer.split()[1] == b"refused"]


def below(moves: list[Move], bound: float) -> int:
    return sum(move.a_max < bound for move in moves)


def axis_words(axis: Axis) -> str:
    v, a, j = (f"{least / 1000:g} to {greatest / 1000:g}" for least, greatest in (axis.v, axis.a, axis.j))
    return f"{axis.name}: v {v} m/s, a {a} m/s², j {j} m/s³"


def by_unit(planner: str, drawn: list[list[tuple[int, ...]]]) -> tuple[list[Move], list[Move]]:
    """Prints how many are refused in each unit; gives all moves of all units, and those refused."""
    every: list[Move] = []
    wrong: list[Move] = []
    print("unit    " + "".join(axis.name.rjust(8) for axis in AXES))
    for unit, metre in UNITS:
        scaled = [[in_unit(move, metre) for move in moves] for moves in drawn]
        found = [refused(planner, moves) for moves in scaled]
        print(unit.ljust(8) + "".join(str(len(moves)).rjust(8) for moves in found))
        every += sum(scaled, [])
        wrong += sum(found, [])
    return every, wrong


def by_acceleration(every: list[Move], wrong: list[Move]) -> None:
    """Prints how many are refused by the number that a_max is, over all units."""
    print("\na_max from    moves refused")
    for least, bound in zip(BOUNDS, BOUNDS[1:]):
        counts = (below(moves, bound) - below(moves, least) for moves in (every, wrong))
        print(f"{least:,.0f}".ljust(11) + "".join(str(number).rjust(8) for number in counts))


def main() -> int:
    parser = argparse.ArgumentParser(
        prog="units.py", description=__doc__, formatter_class=argparse.RawDescriptionHelpFormatter)
    parser.add_argument("--count", metavar="N", type=int, default=2000, help="moves of each kind (default: 2000)")
    parser.add_argument("--seed", metavar="N", type=int, default=1, help="what the moves are drawn from (default: 1)")
    parser.add_argument("--accelerations", action="store_true", help="count also by the number that a_max is")
    parser.add_argument("--planner", metavar="FILE", default=str(PLANNER), help="default: crates/plan_moves/out/plan_moves")
    arguments = parser.parse_args()
    if not Path(arguments.planner).is_file():
        print(f"{arguments.planner}: not there; `rt run` in crates/plan_moves makes it", file=sys.stderr)
        return 1
    print(f"refused of {arguments.count} moves each, seed {arguments.seed}: rest to rest, 0.1 to 3 m")
    print("\n".join(map(axis_words, AXES)) + "\n")
    source = random.Random(arguments.seed)
    drawn = [[carriage_move(source, axis) for _ in range(arguments.count)] for axis in AXES]
    every, wrong = by_unit(arguments.planner, drawn)
    if arguments.accelerations:
        by_acceleration(every, wrong)
    return 0


if __name__ == "__main__":
    sys.exit(main())
