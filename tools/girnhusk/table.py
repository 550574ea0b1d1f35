"""Plans as a table for reading, and as CSV with every number."""
from __future__ import annotations

import csv
import io
from typing import Sequence

from .numerals import short, short_ends
from .plans import ARRAYS, SCALARS, Answer, Plan, Profile, Stretch

HEADINGS = ("no", "verdict", "duration, s", "found as", "blocked durations, s (ends free)")
RIGHT_ALIGNED = (0, 2)
FOUND_AS = "found as: direction and limits of the try that was accepted, not what the motion does or reaches\n"


def interval(stretch: Stretch) -> str:
    """A stretch as an open interval."""
    return "({}, {})".format(*short_ends(stretch.left, stretch.right))


def blocked_intervals(plan: Plan) -> str:
    return " and ".join(interval(stretch) for stretch in plan.blocked()) or "none"


def table_row(answer: Answer) -> list[str]:
    """A plan's cells; of a refusal the number alone, its words follow in one piece."""
    if not isinstance(answer, Plan):
        return [str(answer.number), f"refused {answer.reason}: {answer.meaning()}"]
    profile = answer.profile
    found_as = f"{profile.direction} {profile.limits}"
    return [str(answer.number), "ok", short(answer.duration), found_as, blocked_intervals(answer)]


def aligned(rows: Sequence[list[str]], right_aligned: Sequence[int]) -> str:
    """Rows under a heading, cells under one another; the second cell of a shorter row runs to its end."""
    whole = [row for row in rows if len(row) == len(rows[0])]
    widths = [max(len(row[column]) for row in whole) for column in range(len(rows[0]))]
    widths[0] = max(len(row[0]) for row in rows)
    lines = []
    for row in rows:
        cells = [
            cell.rjust(width) if column in right_aligned else cell.ljust(width)
            for column, (cell, width) in enumerate(zip(row, widths))
        ]
        lines.append("  ".join(cells).rstrip() + "\n")
    return "".join(lines)


def table(answers: Sequence[Answer]) -> str:
    """The aligned table, and below it what one of its headings means."""
    text = aligned([list(HEADINGS)] + [table_row(answer) for answer in answers], RIGHT_ALIGNED)
    return text + (FOUND_AS if any(isinstance(answer, Plan) for answer in answers) else "")


def profile_columns(prefix: str) -> list[str]:
    names = ["direction", "limits", "control_signs"]
    names += [f"{name}_{place}" for name, size in ARRAYS for place in range(size)]
    return [prefix + name for name in (*names, *SCALARS)]


def csv_columns() -> list[str]:
    columns = ["number", "verdict", "refusal", "meaning", "duration", *profile_columns("")]
    for prefix in ("stretch1_", "stretch2_"):
        columns += [prefix + name for name in ("kind", "left", "right")] + profile_columns(prefix)
    return columns


def profile_cells(profile: Profile) -> list[str]:
    cells = [profile.direction, profile.limits, profile.control_signs]
    cells += [repr(number) for name, _ in ARRAYS for number in getattr(profile, name)]
    return cells + [repr(getattr(profile, name)) for name in SCALARS]


def csv_row(answer: Answer) -> list[str]:
    """Every number, as a decimal that reads back to the same double."""
    if not isinstance(answer, Plan):
        row = [str(answer.number), "refused", str(answer.reason), answer.meaning()]
        return row + [""] * (len(csv_columns()) - len(row))
    row = [str(answer.number), "ok", "", "", repr(answer.duration), *profile_cells(answer.profile)]
    for stretch in answer.stretches:
        row += [stretch.kind, repr(stretch.left), repr(stretch.right), *profile_cells(stretch.profile)]
    return row


def csv_text(answers: Sequence[Answer]) -> str:
    text = io.StringIO()
    writer = csv.writer(text, lineterminator="\n")
    writer.writerow(csv_columns())
    writer.writerows(csv_row(answer) for answer in answers)
    return text.getvalue()
