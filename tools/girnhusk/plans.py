"""What plan_full prints: a plan or a refusal for each record."""
from __future__ import annotations

import re
import struct
from typing import NamedTuple, Sequence, Union

from .faults import BadInput, Fault

DIRECTIONS = ("UP", "DOWN")
LIMITS = ("Acc0Acc1Vel", "Vel", "Acc0", "Acc1", "Acc0Acc1", "Acc0Vel", "Acc1Vel", "None")
CONTROL_SIGNS = ("UDDU", "UDUD")
KINDS = ("nothing", "between", "from")
# The arrays of a profile and the numbers after them, in the order of a line.
ARRAYS = (("t", 7), ("t_sum", 7), ("j", 7), ("a", 8), ("v", 8), ("p", 8))
SCALARS = ("pf", "vf", "af", "brake", "accel")
PROFILE_FIELDS = 3 + sum(size for _, size in ARRAYS) + len(SCALARS)
STRETCH_FIELDS = 3 + PROFILE_FIELDS
PLAN_FIELDS = 3 + PROFILE_FIELDS + 2 * STRETCH_FIELDS

MEANINGS = {
    1: "one of the 13 numbers is NaN or infinite",
    2: "a limit has the wrong sign: v_max, a_max or j_max below 0, or v_min or a_min above 0",
    3: "the brake or accel duration is below 0 or above 1e12",
    4: "no profile was accepted",
    5: "four profiles were accepted, and no removal rule applies",
    6: "a time put to is_blocked isn't finite",
    7: "selection was called with a count above 5",
    8: "the input ends inside this record, or its length or version is wrong",
    9: "there are no axes or more than 8, or a duration or a stretch is one that no plan has",
    10: "no finite time is free for all axes",
}


class Profile(NamedTuple):
    """Seven phases of constant jerk and the eight rows between them.

    Direction and limits name the try that was accepted, not what the motion does: it may fall throughout and say UP.
    """

    direction: str
    limits: str
    control_signs: str
    t: tuple[float, ...]
    t_sum: tuple[float, ...]
    j: tuple[float, ...]
    a: tuple[float, ...]
    v: tuple[float, ...]
    p: tuple[float, ...]
    pf: float
    vf: float
    af: float
    brake: float
    accel: float


class Stretch(NamedTuple):
    """A blocked stretch of durations, its ends free, and the profile beside it."""

    kind: str
    left: float
    right: float
    profile: Profile


class Plan(NamedTuple):
    """An accepted move. The duration is the least of the accepted profiles', not of all motions."""

    number: int
    duration: float
    profile: Profile
    stretches: tuple[Stretch, ...]

    def blocked(self) -> list[Stretch]:
        """The stretches there are, the earlier first."""
        there = [stretch for stretch in self.stretches if stretch.kind != "nothing"]
        return sorted(there, key=lambda stretch: (stretch.left, stretch.right))


class Refusal(NamedTuple):
    number: int
    reason: int

    def meaning(self) -> str:
        return MEANINGS[self.reason]


Answer = Union[Plan, Refusal]


def double(field: str) -> float:
    """The double whose bits are the 16 hexadecimal digits."""
    if not re.fullmatch("[0-9A-F]{16}", field):
        raise ValueError(f"{field!r} is not 16 hexadecimal digits")
    return struct.unpack(">d", bytes.fromhex(field))[0]


def word(field: str, known: Sequence[str]) -> str:
    if field not in known:
        raise ValueError(f"{field!r} is none of {', '.join(known)}")
    return field


def read_profile(fields: Sequence[str]) -> Profile:
    numbers = [double(field) for field in fields[3:]]
    arrays, start = [], 0
    for _, size in ARRAYS:
        arrays.append(tuple(numbers[start:start + size]))
        start += size
    names = word(fields[0], DIRECTIONS), word(fields[1], LIMITS), word(fields[2], CONTROL_SIGNS)
    return Profile(*names, *arrays, *numbers[start:])


def read_stretch(fields: Sequence[str]) -> Stretch:
    return Stretch(word(fields[0], KINDS), double(fields[1]), double(fields[2]), read_profile(fields[3:]))


def read_refusal(number: int, fields: Sequence[str]) -> Refusal:
    if len(fields) != 3 or not re.fullmatch("[1-8]", fields[2]):
        raise ValueError("a refusal has one number from 1 to 8")
    return Refusal(number, int(fields[2]))


def read_plan(number: int, fields: Sequence[str]) -> Plan:
    if len(fields) != PLAN_FIELDS:
        raise ValueError(f"a line of plan_full has {PLAN_FIELDS} fields, this one {len(fields)}")
    first = 3 + PROFILE_FIELDS
    second = first + STRETCH_FIELDS
    stretches = read_stretch(fields[first:second]), read_stretch(fields[second:])
    return Plan(number, double(fields[2]), read_profile(fields[3:first]), stretches)


def read_answer(line: str) -> Answer:
    """The answer on a line; ValueError says what is wrong."""
    fields = line.split()
    if len(fields) < 3 or not re.fullmatch("[0-9]+", fields[0]) or fields[1] not in ("ok", "refused"):
        raise ValueError("not a line of plan_full")
    read = read_plan if fields[1] == "ok" else read_refusal
    return read(int(fields[0]), fields)


def read_answers(name: str, data: bytes) -> list[Answer]:
    """Every answer of plan_full's output."""
    answers, faults = [], []
    for line, content in enumerate(data.decode("ascii", errors="replace").split("\n"), 1):
        if not content.strip():
            continue
        try:
            answers.append(read_answer(content))
        except ValueError as error:
            faults.append(Fault(line, str(error)))
    if faults:
        raise BadInput(name, faults)
    return answers
