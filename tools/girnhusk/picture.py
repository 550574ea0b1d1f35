"""One plan as an SVG: four panels under a common time axis, and a strip of blocked durations."""
from __future__ import annotations

from typing import NamedTuple

from .axes import LEAST_SPAN, TOO_LARGE, Scale, shortened_ticks, spread, widened, with_margin
from .curves import QUANTITIES, Piece, bezier, extent, pieces
from .movefile import Move
from .numerals import short
from .plans import Plan, Profile
from .strip import (LEFT, RIGHT, STRIP_HEIGHT, blocked_words, draw_durations_axis, draw_level_axis, draw_strip,
                    fitting_ticks, strip_scale)
from .svg import Drawing, text_width

PHASES_TOP, PANELS_TOP, PANEL_HEIGHT, PANEL_STEP = 84, 134, 112, 141
PANELS_BOTTOM = PANELS_TOP + 3 * PANEL_STEP + PANEL_HEIGHT
STRIP_TOP = PANELS_BOTTOM + 85
NOTES_TOP, NOTES_STEP = STRIP_TOP + STRIP_HEIGHT + 66, 17
WIDTH, HEIGHT = 900, NOTES_TOP + NOTES_STEP + 14

COLOURS = {"position": "#0b3d91", "velocity": "#00623b", "acceleration": "#8a1c1c", "jerk": "#4b2a7b"}
POWERS = {"position": "", "velocity": "/s", "acceleration": "/s²", "jerk": "/s³"}
WAITING = "#e8e8e8"  # the ground of brake and accel times
FAR = 2.0  # a limit further off than this many times the curve's extent is named, not drawn
CUT = 2.0  # a brake or accel time longer than this many times the motion is cut
SHOWN = 0.2  # what is shown of a cut time, in times of the motion


class Mark(NamedTuple):
    """A value marked across a panel."""

    name: str
    value: float
    dashes: str


class TimeAxis(NamedTuple):
    """Times count from the profile's start; zero is what the labels call 0."""

    scale: Scale
    zero: float
    motion: float
    cut_left: bool
    cut_right: bool

    def pixel(self, time: float) -> float:
        return self.scale.pixel(time)

    def labelled(self) -> tuple[float, float]:
        """The part of the axis with marks, as its labels count: no part that is cut."""
        low = 0.0 if self.cut_left else self.scale.low
        return low - self.zero, (self.motion if self.cut_right else self.scale.high) - self.zero


def time_axis(plan: Plan) -> TimeAxis:
    """The common axis: brake time, motion and accel time, an overlong brake or accel time cut."""
    motion, brake, accel = plan.profile.t_sum[6], plan.profile.brake, plan.profile.accel
    cut_left, cut_right = (0 < CUT * motion < extra for extra in (brake, accel))
    low = -SHOWN * motion if cut_left else -brake
    high = motion + (SHOWN * motion if cut_right else accel)
    if high - low < LEAST_SPAN:
        high = low + 1.0
    return TimeAxis(Scale(low, high, LEFT, RIGHT), 0.0 if cut_left else -brake, motion, cut_left, cut_right)


def marks_of(quantity: str, move: Move) -> list[Mark]:
    """The limits of a panel; in the position's, start and target."""
    if quantity == "position":
        return [Mark("target", move.pf, "1 4"), Mark("start", move.p0, "1 4")]
    if quantity == "jerk":
        return [Mark("j_max", move.j_max, "8 4"), Mark("-j_max", -move.j_max, "3 3")]
    high, low = f"{quantity[0]}_max", f"{quantity[0]}_min"
    return [Mark(high, getattr(move, high), "8 4"), Mark(low, getattr(move, low), "3 3")]


def value_range(curve: list[Piece], marks: list[Mark], with_zero: bool) -> tuple[float, float]:
    """The curve's extent, with zero and the limits that are not too far off."""
    low, high = extent(curve)
    wanted = [mark.value for mark in marks] + ([0.0] if with_zero else [])
    if not all(abs(value) < TOO_LARGE for value in (low, high, *wanted)):
        raise OverflowError("too large to draw")
    reach = FAR * (high - low or max(abs(low), abs(high)) or max(map(abs, wanted)) or 1.0)
    near = [value for value in wanted if low - reach <= value <= high + reach]
    return with_margin(*widened(min([low, *near]), max([high, *near])), 0.06)


def found_as(plan: Plan) -> str:
    """The try that was accepted."""
    return f"{plan.profile.direction} {plan.profile.limits}"


def draw_heading(drawing: Drawing, plan: Plan, move: Move, unit: str) -> None:
    """The verdict, and what was planned."""
    verdict = f"Move {plan.number}: ok, duration {short(plan.duration)} s"
    drawing.text(20, 28, f"{verdict}, found as {found_as(plan)}", 17, font_weight="bold")
    for y, name, state in ((48, "start", move[:3]), (65, "target", move[3:6])):
        words = [f"{what} {short(value)} {unit}{POWERS[what]}" for what, value in zip(QUANTITIES, state)]
        drawing.text(20, y, name, 12)
        drawing.text(66, y, ", ".join(words), 12)


def draw_phases(drawing: Drawing, profile: Profile, axis: TimeAxis) -> None:
    """The phases' numbers over a line of their own, and thin lines in the panels where one phase ends."""
    ends = [0.0, *profile.t_sum]
    level = PHASES_TOP + 24
    drawing.text(LEFT - 8, PHASES_TOP + 12, "phase", 11.5, text_anchor="end")
    drawing.line(axis.pixel(0.0), level, axis.pixel(axis.motion), level, stroke="#555555")
    for x in dict.fromkeys(axis.pixel(end) for end in ends):
        drawing.line(x, level - 4, x, level + 4, stroke="#555555")
        for panel in range(4):
            top = PANELS_TOP + panel * PANEL_STEP
            drawing.line(x, top, x, top + PANEL_HEIGHT, stroke="#777777", stroke_width=0.7)
    lasting = [phase for phase in range(7) if profile.t[phase] > 0]
    wanted = [axis.pixel((ends[phase] + ends[phase + 1]) / 2) for phase in lasting]
    for phase, centre, x in zip(lasting, wanted, spread(wanted, 15, LEFT + 6, RIGHT - 6)):
        drawing.text(x, PHASES_TOP + 12, str(phase), 12, text_anchor="middle", font_weight="bold")
        if abs(x - centre) > 1:
            drawing.line(x, PHASES_TOP + 15, centre, level, stroke="#555555", stroke_width=0.7)
    empty = [str(phase) for phase in range(7) if phase not in lasting]
    if empty:
        which = " ".join(empty) if lasting else "all"
        drawing.text(RIGHT + 10, PHASES_TOP + 12, f"0 s long: {which}", 11.5)


class Wait(NamedTuple):
    """A brake or accel time between two edges of the panels."""

    name: str
    duration: float
    left: float
    right: float
    cut: bool


def waits(profile: Profile, axis: TimeAxis) -> list[Wait]:
    """The brake time before the motion and the accel time after it, which the plan only adds."""
    both = (Wait("brake", profile.brake, LEFT, axis.pixel(0), axis.cut_left),
            Wait("accel", profile.accel, axis.pixel(axis.motion), RIGHT, axis.cut_right))
    return [wait for wait in both if wait.duration]


def draw_wait_ground(drawing: Drawing, wait: Wait) -> None:
    for panel in range(4):
        top = PANELS_TOP + panel * PANEL_STEP
        drawing.rectangle(wait.left, top, wait.right - wait.left, PANEL_HEIGHT, fill=WAITING)


def draw_wait_label(drawing: Drawing, wait: Wait) -> None:
    """The name in the first panel: level, upright where that is too wide, or left out."""
    cut = ", cut" if wait.cut else ""
    label = f"{wait.name} {short(wait.duration)} s{cut}"
    if text_width(label, 11) > PANEL_HEIGHT:
        label = wait.name + cut
    x, y = (wait.left + wait.right) / 2, PANELS_TOP + PANEL_HEIGHT / 2
    clear = {"text_anchor": "middle", "stroke": WAITING, "stroke_width": 5, "paint_order": "stroke"}
    if text_width(label, 11) < wait.right - wait.left:
        drawing.text(x, y + 4, label, 11, **clear)
    elif wait.right - wait.left > 14:
        drawing.text(x + 4, y, label, 11, transform=f"rotate(-90 {x + 4:.2f} {y:.2f})", **clear)


def draw_cuts(drawing: Drawing, axis: TimeAxis) -> None:
    """Two slanted strokes on the time axis where time is cut."""
    for x, cut in ((LEFT + 10, axis.cut_left), (RIGHT - 10, axis.cut_right)):
        if cut:
            for shift in (-3, 3):
                drawing.line(x + shift - 3, PANELS_BOTTOM + 7, x + shift + 3, PANELS_BOTTOM - 7,
                             stroke="#222222", stroke_width=1.4)


def path_of(curve: list[Piece], axis: TimeAxis, scale: Scale) -> str:
    """A curve as SVG path commands of its own degree."""
    words: list[str] = []
    for piece in curve:
        points = [f"{axis.pixel(time):.3f} {scale.pixel(value):.3f}" for time, value in bezier(piece)]
        words.append(("L" if words else "M") + points[0])
        words.append({1: "L", 2: "Q", 3: "C"}[len(points) - 1] + " ".join(points[1:]))
    return " ".join(words)


def draw_marks(drawing: Drawing, marks: list[Mark], scale: Scale, top: float, colour: str) -> None:
    """Dashed lines at limits, named at the right; a limit out of range is named with an arrow."""
    bottom = top + PANEL_HEIGHT
    wanted, labels = [], []
    for mark in marks:
        outside = "↑" if mark.value > scale.high else "↓" if mark.value < scale.low else ""
        y = min(max(scale.pixel(mark.value), top), bottom)
        if not outside:
            drawing.line(LEFT, y, RIGHT, y, stroke=colour, stroke_width=1.1, stroke_dasharray=mark.dashes)
        wanted.append(y)
        labels.append(f"{mark.name} {short(mark.value + 0.0)} {outside}".rstrip())  # + 0.0: no -0
    for y, label, place in zip(wanted, labels, spread(wanted, 14, top + 2, bottom - 2)):
        drawing.line(RIGHT, y, RIGHT + 7, place, stroke=colour, stroke_width=0.8)
        drawing.text(RIGHT + 10, place + 4, label, 11.5)


def draw_value_axis(drawing: Drawing, title: str, scale: Scale, top: float) -> None:
    """The panel's frame, its title, and marks at round numbers."""
    marks, origin = shortened_ticks(scale.low, scale.high, 5, 11)
    for mark in marks:
        y = scale.pixel(mark.value)
        drawing.line(LEFT, y, RIGHT, y, stroke="#dddddd" if mark.value else "#999999", stroke_width=0.8)
        drawing.line(LEFT - 5, y, LEFT, y, stroke="#222222")
        drawing.text(LEFT - 8, y + 4, mark.label, 11.5, text_anchor="end")
    drawing.text(LEFT, top - 7, title + (f", counted from {origin}" if origin else ""), 13, font_weight="bold")


def draw_panel(drawing: Drawing, quantity: str, plan: Plan, move: Move, unit: str, axis: TimeAxis) -> None:
    """One quantity over time."""
    top = PANELS_TOP + QUANTITIES.index(quantity) * PANEL_STEP
    phases = pieces(plan.profile, quantity)
    curve = [piece for piece in phases if piece.duration > 0] or phases[:1]
    marks = marks_of(quantity, move)
    low, high = value_range(curve, marks, quantity != "position")
    scale = Scale(low, high, top + PANEL_HEIGHT, top)
    colour = COLOURS[quantity]
    draw_value_axis(drawing, f"{quantity}, {unit}{POWERS[quantity]}", scale, top)
    draw_marks(drawing, marks, scale, top, colour)
    drawing.rectangle(LEFT, top, RIGHT - LEFT, PANEL_HEIGHT, fill="none", stroke="#222222")
    drawing.add("path", d=path_of(curve, axis, scale), fill="none", stroke=colour, stroke_width=2.2,
                stroke_linejoin="round", **{"class": quantity})
    for piece, time in ((curve[0], 0.0), (curve[-1], curve[-1].duration)):
        drawing.add("circle", cx=axis.pixel(piece.start + time), cy=scale.pixel(piece.at(time)), r=3, fill=colour)


def durations_title(plan: Plan) -> str:
    """The stretches in words."""
    if not plan.blocked():
        return f"blocked durations: none, every one from {short(plan.duration)} s on is free"
    return f"blocked durations (hatched): {blocked_words(plan)}"


def draw_durations(drawing: Drawing, plan: Plan) -> None:
    """The durations: grey below the plan's, from there on hatched where blocked."""
    scale = strip_scale([plan])
    drawing.text(LEFT, STRIP_TOP - 9, durations_title(plan), 13, font_weight="bold")
    draw_strip(drawing, plan, scale, STRIP_TOP)
    draw_durations_axis(drawing, scale, STRIP_TOP + STRIP_HEIGHT)


def draw_notes(drawing: Drawing, plan: Plan) -> None:
    """What the heading and the strip don't say."""
    notes = (f"{found_as(plan)} names the try that was accepted, not what the motion does or reaches.",
             f"{short(plan.duration)} s is the least duration of the profiles accepted. "
             "Below it the planner found none; a motion may exist.")
    for place, note in enumerate(notes):
        drawing.text(LEFT, NOTES_TOP + place * NOTES_STEP, note, 11.5)


def time_title(plan: Plan, axis: TimeAxis) -> str:
    """The time axis in words, with what the duration is made of."""
    profile = plan.profile
    title = "time since the brake time ended, s" if axis.cut_left else "time, s"
    if not axis.motion:
        title += ", nothing moves"
    if profile.brake or profile.accel:
        title += f" (brake {short(profile.brake)} + motion {short(axis.motion)} + accel {short(profile.accel)}"
        title += f" = {short(plan.duration)})"
    return title


def picture(plan: Plan, move: Move, unit: str = "u") -> str:
    """The SVG's text; OverflowError if numbers are too large to draw."""
    axis = time_axis(plan)
    waiting = waits(plan.profile, axis)
    drawing = Drawing(WIDTH, HEIGHT, f"Plan of move {plan.number}: duration {short(plan.duration)} s")
    draw_heading(drawing, plan, move, unit)
    for wait in waiting:
        draw_wait_ground(drawing, wait)
    draw_phases(drawing, plan.profile, axis)
    for quantity in QUANTITIES:
        draw_panel(drawing, quantity, plan, move, unit, axis)
    marks = fitting_ticks(axis.scale, *axis.labelled())
    draw_level_axis(drawing, axis.scale, axis.zero, marks, PANELS_BOTTOM, time_title(plan, axis))
    for wait in waiting:
        draw_wait_label(drawing, wait)
    draw_cuts(drawing, axis)
    draw_durations(drawing, plan)
    draw_notes(drawing, plan)
    return drawing.source()
