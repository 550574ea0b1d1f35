"""Tests of tools/moves.py: python3 -m unittest discover -s tools -p 'test_*.py'"""
from __future__ import annotations

import contextlib
import csv
import io
import math
import os
import random
import struct
import sys
import tempfile
import unittest
from pathlib import Path
from typing import Iterator
from unittest import mock
from xml.etree import ElementTree

sys.path.insert(0, os.path.dirname(os.path.abspath(__file__)))

import moves
from girnhusk.arrival import MALFORMED, NEVER, Arrival, arrival, is_free
from girnhusk.arrival_picture import arrival_picture
from girnhusk.axes import spread, ticks
from girnhusk.curves import QUANTITIES, bezier, extent, pieces
from girnhusk.movefile import COLUMNS, MIXED, SEMICOLON, Move, read_moves, to_record
from girnhusk.numerals import short_ends
from girnhusk.picture import picture
from girnhusk.plans import MEANINGS, Plan, Profile, Stretch, read_answers
from girnhusk.table import csv_text, interval

PROJECT = Path(__file__).resolve().parent.parent
CRATES, DOCS = PROJECT / "crates", PROJECT / "docs"
MOVE_2 = Move(0, 0, 0, 4, 0, 0, 1, -1, 1, -1, 1, 0, 0)
MOVE_3 = Move(0, 1, 0, 3, 1, 0, 1, -1, 1, -1, 0, 0, 0)
EMPTY = Profile("UP", "None", "UDDU", *[(0.0,) * 7] * 3, *[(0.0,) * 8] * 3, 0.0, 0.0, 0.0, 0.0, 0.0)
NOTHING = Stretch("nothing", 0.0, 0.0, EMPTY)
SVG = "{http://www.w3.org/2000/svg}"


def profile_of(move: Move, limits: str, times: list[float], jerks: list[float]) -> Profile:
    """The profile that these phases make of the move's start."""
    p, v, a = [float(move.p0)], [float(move.v0)], [float(move.a0)]
    for t, j in zip(times, jerks):
        p.append(p[-1] + t * (v[-1] + t * (a[-1] / 2 + t * j / 6)))
        v.append(v[-1] + t * (a[-1] + t * j / 2))
        a.append(a[-1] + t * j)
    sums = [math.fsum(times[:phase + 1]) for phase in range(7)]
    rows = (tuple(map(float, row)) for row in (times, sums, jerks, a, v, p))
    return Profile("UP", limits, "UDDU", *rows, *map(float, (move.pf, move.vf, move.af, move.brake, move.accel)))


def plan_of(number: int, move: Move, profile: Profile, stretches: tuple = (NOTHING, NOTHING)) -> Plan:
    return Plan(number, profile.t_sum[6] + move.brake + move.accel, profile, stretches)


def plan_2(number: int = 2, move: Move = MOVE_2, stretches: tuple = (NOTHING, NOTHING)) -> Plan:
    return plan_of(number, move, profile_of(move, "Vel", [1, 0, 1, 2, 1, 0, 1], [1, 0, -1, 0, -1, 0, 1]), stretches)


def plan_3() -> Plan:
    profile = profile_of(MOVE_3, "None", [0, 0, 0, 3, 0, 0, 0], [0] * 7)
    return plan_of(3, MOVE_3, profile, (Stretch("from", 3.0, math.inf, EMPTY), NOTHING))


def double_words(*numbers: float) -> list[str]:
    return [struct.pack(">d", number).hex().upper() for number in numbers]


def profile_words(profile: Profile) -> list[str]:
    numbers = [number for array in profile[3:9] for number in array]
    return [*profile[:3], *double_words(*numbers, *profile[9:])]


def line_of(plan: Plan) -> str:
    """A line as plan_full prints it."""
    words = [str(plan.number), "ok", *double_words(plan.duration), *profile_words(plan.profile)]
    for stretch in plan.stretches:
        words += [stretch.kind, *double_words(stretch.left, stretch.right), *profile_words(stretch.profile)]
    return " ".join(words) + "\n"


class Terminal(io.BytesIO):
    def isatty(self) -> bool:
        return True


class Case(unittest.TestCase):
    """A folder to write in, and the command run in this process."""

    def setUp(self) -> None:
        folder = tempfile.TemporaryDirectory()
        self.addCleanup(folder.cleanup)
        self.folder = Path(folder.name)

    def file(self, name: str, content: str | bytes) -> str:
        path = self.folder / name
        path.write_bytes(content if isinstance(content, bytes) else content.encode())
        return str(path)

    def run_command(self, *words: str, given: bytes = b"", screen: io.BytesIO | None = None) -> tuple[int, bytes, str]:
        """The status, and what went to standard output and standard error."""
        output, errors = io.TextIOWrapper(screen or io.BytesIO()), io.StringIO()
        with mock.patch("sys.stdin", io.TextIOWrapper(io.BytesIO(given))), mock.patch("sys.stdout", output):
            with contextlib.redirect_stderr(errors):
                status = moves.main(list(words))
        return status, output.buffer.getvalue(), errors.getvalue()


class Records(Case):
    def records(self, text: str | bytes) -> bytes:
        status, output, errors = self.run_command("records", self.file("m.txt", text))
        self.assertEqual((status, errors), (0, ""))
        return output

    def faults(self, text: str | bytes) -> list[str]:
        """The reports on a bad text, without the file's name; nothing may be written."""
        name, out = self.file("m.txt", text), str(self.folder / "out")
        status, output, errors = self.run_command("records", name, "-o", out)
        self.assertEqual((status, output), (1, b""))
        self.assertFalse(os.path.exists(out))
        self.assertTrue(all(line.startswith(name + ":") for line in errors.splitlines()), errors)
        return [line[len(name) + 1:] for line in errors.splitlines()]

    def test_a_record_is_document_01s(self) -> None:
        numbers = [0, 0, 0, 4, 0, 0, 1, -1, 1, -1, 1, 0, 0]
        self.assertEqual(self.records("0 0 0 4 0 0 1 -1 1 -1 1 0 0\n"), b"\x00\x69\x01" + struct.pack(">13d", *numbers))

    def test_blanks_comments_and_empty_lines(self) -> None:
        text = "# a comment\n\n0 0 0 4\t0 0  1 -1 1 -1 1 0 0 # and, behind, one\r\n   \n0 0 0 4 0 0 1 -1 1 -1 1 0 0"
        self.assertEqual(self.records(text), to_record(MOVE_2) * 2)

    def test_numbers_stand_apart_by_blanks_or_by_commas(self) -> None:
        words = [repr(value) for value in MOVE_2]
        for separator in (" ", "\t", "   ", ",", ", ", " ,", " , ", ",\t"):
            text = f"  {separator.join(words)}  # 4,5 m"
            with self.subTest(text):
                self.assertEqual(self.records(text), to_record(MOVE_2))

    def test_a_decimal_comma_never_shifts_numbers(self) -> None:
        blanks = "0 0 0 100,5 0 0 500 -500 2000 -2000 10000 0"
        commas = "0, 0, 0, 100,5, 0, 0, 500, -500, 2000, -2000, 10000, 0"
        for text in (blanks, blanks + " 0", blanks.replace(" ", "\t"), blanks.replace("100,5", "100 ,5"),
                     blanks.replace("100,5", "100, 5"), blanks.replace("100,5", '"100,5"'), blanks + ",",
                     commas, commas + ", 0", commas.replace(", ", " ,"), commas.replace(", ", " , "),
                     commas.replace("100,5", "100, 5").replace("0, 0, 0", "0 0, 0")):
            with self.subTest(text):
                self.assertEqual(self.faults("0 0 0 4 0 0 1 -1 1 -1 1 0 0\n" + text), ["2: " + MIXED])

    def test_in_a_line_of_commas_alone_each_separates(self) -> None:
        text = "0,0,0,100,5,0,0,500,-500,2000,-2000,10000,0,0"
        self.assertEqual(self.faults(text), ["1: too many numbers: 14 instead of 13"])
        quoted = text.replace("100,5", '"100,5"')
        self.assertEqual(self.faults(quoted)[0][:41], "1: too many numbers: 14 instead of 13; nu")

    def test_a_semicolon_separates_nothing(self) -> None:
        text = "0;0;0;100,5;0;0;500;-500;2000;-2000;10000;0;0"
        self.assertEqual(self.faults(";".join(COLUMNS) + "\n" + text), ["1: " + SEMICOLON, "2: " + SEMICOLON])

    def test_a_mixed_header(self) -> None:
        text = " ".join(COLUMNS).replace(" ", ",", 1) + "\n0 0 0 4 0 0 1 -1 1 -1 1 0 0"
        self.assertEqual(self.faults(text), ["1: " + MIXED])

    def test_every_form_of_a_number(self) -> None:
        text = "1e-3 -2.5E2 0x1.8p3 -0x1p-1074 +.5 -0 inf -Infinity nan 1e400 0.1 1e308 5e-324"
        read = struct.unpack(">13d", self.records(text)[3:])
        wanted = (1e-3, -250.0, 12.0, -5e-324, 0.5, -0.0, math.inf, -math.inf, math.nan, math.inf, 0.1, 1e308, 5e-324)
        self.assertEqual(list(map(repr, read)), list(map(repr, wanted)))

    def test_a_header_in_any_order(self) -> None:
        names, values = COLUMNS[::-1], [repr(float(value)) for value in MOVE_2[::-1]]
        for separator in (",", " ", ", "):
            text = f"{separator.join(names)}\n{separator.join(values)}\n"
            self.assertEqual(self.records("# first\n" + text), to_record(MOVE_2))

    def test_a_spreadsheets_marks(self) -> None:
        quoted = ",".join(f'"{name}"' for name in COLUMNS)
        text = "\ufeff" + quoted + "\r\n" + ",".join(f'"{value}"' for value in MOVE_2) + "\r\n"
        self.assertEqual(self.records(text), to_record(MOVE_2))

    def test_standard_input_and_output_file(self) -> None:
        out = self.folder / "out"
        row = b"0 0 0 4 0 0 1 -1 1 -1 1 0 0"
        self.assertEqual(self.run_command("records", "-", "-o", str(out), given=row), (0, b"", ""))
        self.assertEqual(out.read_bytes(), to_record(MOVE_2))

    def test_records_are_not_shown_on_a_terminal(self) -> None:
        row = b"0 0 0 4 0 0 1 -1 1 -1 1 0 0"
        status, output, errors = self.run_command("records", "-", given=row, screen=Terminal())
        self.assertEqual((status, output), (1, b""))
        self.assertIn("-o", errors)

    def test_no_moves_is_said(self) -> None:
        status, output, errors = self.run_command("records", "-", given=b"# nothing\n")
        self.assertEqual((status, output, errors), (0, b"", "-: no moves in it\n"))

    def test_every_bad_line_is_reported(self) -> None:
        text = "\n".join((
            "0 0 0 4 0 0 1 -1 1 -1 1 0", "0 0 0 4 0 0 1 -1 1 -1 1 0 0", "0 0 0 4 0 0 1 -1 1 -1 1 0 0 0",
            "0 0 0 x 0 0 1 -1 1 -1 1 0 1O", "0,,0,4,0,0,1,-1,1,-1,1,0,0", "0x1p9999 0 0 4 0 0 1 -1 1 -1 1 0 0",
            "0 a", "0,0,0,4,0,0,1,-1,1,-1,1,0,0,"))
        self.assertEqual(self.faults(text), [
            "1: too few numbers: 12 instead of 13",
            "3: too many numbers: 14 instead of 13",
            "4: pf: 'x' is not a number; accel: '1O' is not a number",
            "5: v0 is empty",
            "6: p0: '0x1p9999' is too large for a double",
            "7: too few numbers: 2 instead of 13; number 2: 'a' is not a number",
            "8: too many numbers: 14 instead of 13; number 14 is empty",
        ])

    def test_every_bad_header(self) -> None:
        row = "\n" + "0," * 12 + "0\n"
        names = list(COLUMNS)
        self.assertEqual(self.faults(",".join(names[:-1]) + row),
                         ["1: missing column 'accel'", "2: too many numbers: 13 instead of 12"])
        self.assertEqual(self.faults(",".join([*names[:-1], "acel"]) + row),
                         ["1: unknown column 'acel'; missing column 'accel'"])
        self.assertEqual(self.faults(",".join([*names[:-1], "p0"]) + row),
                         ["1: column 'p0' stands there 2 times; missing column 'accel'"])
        self.assertEqual(self.faults(",".join([*names, "remark"]) + "\n" + "0," * 13 + "0\n"),
                         ["1: unknown column 'remark'"])
        self.assertEqual(len(self.faults("position velocity\n1 2\n")), 1)

    def test_a_header_may_only_come_first(self) -> None:
        text = "0 0 0 4 0 0 1 -1 1 -1 1 0 0\n" + " ".join(COLUMNS)
        self.assertTrue(self.faults(text)[0].startswith("2: p0: 'p0' is not a number; v0: 'v0'"))

    def test_binary_is_no_text(self) -> None:
        self.assertEqual(self.faults(to_record(MOVE_2)), [" holds binary data, not text (UTF-8 is wanted)"])

    def test_an_old_output_stays_on_error(self) -> None:
        out = self.file("old", "as before")
        self.assertEqual(self.run_command("records", self.file("m.txt", "1 2"), "-o", out)[0], 1)
        self.assertEqual(Path(out).read_text(), "as before")

    def test_a_missing_file(self) -> None:
        name = str(self.folder / "none")
        self.assertEqual(self.run_command("records", name), (1, b"", f"{name}: No such file or directory\n"))


class Tables(Case):
    def table(self, plans: str, *options: str) -> str:
        status, output, errors = self.run_command("table", *options, given=plans.encode())
        self.assertEqual((status, errors), (0, ""))
        return output.decode()

    def test_the_columns_stand_under_one_another(self) -> None:
        far = Stretch("between", 8.0, 9.5, EMPTY), Stretch("between", 6.25, 7.0, EMPTY)
        text = line_of(plan_2()) + line_of(plan_3()) + "4 refused 4\n" + line_of(plan_2(10, stretches=far))
        self.assertEqual(self.table(text).splitlines(), [
            "no  verdict  duration, s  found as  blocked durations, s (ends free)",
            " 2  ok                 6  UP Vel    none",
            " 3  ok                 3  UP None   (3, inf)",
            " 4  refused 4: no profile was accepted",
            "10  ok                 6  UP Vel    (6.25, 7) and (8, 9.5)",
            "found as: direction and limits of the try that was accepted, not what the motion does or reaches",
        ])

    def test_every_refusal_has_its_words(self) -> None:
        lines = self.table("".join(f"{number} refused {number}\n" for number in range(1, 9))).splitlines()
        self.assertEqual(lines[1:], [f" {number}  refused {number}: {MEANINGS[number]}" for number in range(1, 9)])
        for number, words in ((1, "NaN or infinite"), (2, "wrong sign"), (3, "brake or accel"), (8, "ends inside")):
            self.assertIn(words, lines[number])

    def test_ends_that_differ_look_different(self) -> None:
        self.assertEqual(short_ends(3.0, 3.0), ("3", "3"))
        ends = 1 / 3, math.nextafter(1 / 3, 1)
        self.assertEqual(interval(Stretch("between", *ends, EMPTY)), f"({ends[0]!r}, {ends[1]!r})")

    def test_csv_reads_back_to_the_same_doubles(self) -> None:
        odd = plan_2()._replace(duration=0.1 + 0.2, stretches=plan_3().stretches)
        text = self.table(line_of(odd) + "3 refused 2\n", "--csv")
        plan, refusal = csv.DictReader(io.StringIO(text))
        self.assertEqual(float(plan["duration"]), 0.1 + 0.2)
        for name in ("t", "t_sum", "j", "a", "v", "p"):
            values = getattr(odd.profile, name)
            self.assertEqual(tuple(float(plan[f"{name}_{place}"]) for place in range(len(values))), values)
        self.assertEqual([plan["stretch1_kind"], plan["stretch1_left"], plan["stretch1_right"]], ["from", "3.0", "inf"])
        self.assertEqual([refusal["verdict"], refusal["refusal"], refusal["duration"]], ["refused", "2", ""])
        self.assertEqual({len(row) for row in csv.reader(io.StringIO(text))}, {2 + 168})

    def test_a_line_reads_back(self) -> None:
        plans = [plan_2(), plan_3()]
        self.assertEqual(read_answers("-", "".join(map(line_of, plans)).encode()), plans)

    def test_csv_of_nothing_is_its_header(self) -> None:
        self.assertEqual(csv_text([]).count("\n"), 1)

    def test_bad_lines_are_reported(self) -> None:
        good = line_of(plan_2())
        bad = ["plan 1\n", "2 ok 4018000000000000 UP Vel 0\n", "3 refused 9\n", good.replace("UDDU", "UDDD", 1),
               good.replace("4018000000000000", "4018", 1), good.replace("nothing", "something", 1)]
        status, output, errors = self.run_command("table", given=("".join(bad) + good).encode())
        self.assertEqual((status, output), (1, b""))
        self.assertEqual(errors.splitlines(), [
            "-:1: not a line of plan_full",
            "-:2: a line of plan_full has 168 fields, this one 6",
            "-:3: a refusal has one number from 1 to 8",
            "-:4: 'UDDD' is none of UDDU, UDUD",
            "-:5: '4018' is not 16 hexadecimal digits",
            "-:6: 'something' is none of nothing, between, from",
        ])


class Curves(unittest.TestCase):
    def test_bezier_curves_meet_the_rows(self) -> None:
        for profile in (plan_2().profile, plan_3().profile):
            rows = {"position": profile.p, "velocity": profile.v, "acceleration": profile.a}
            for quantity, row in rows.items():
                for phase, piece in enumerate(pieces(profile, quantity)):
                    points = bezier(piece)
                    self.assertEqual(points[0][1], row[phase])
                    self.assertAlmostEqual(points[-1][1], row[phase + 1], delta=1e-12)
                    self.assertAlmostEqual(points[-1][0], profile.t_sum[phase], delta=1e-12)

    def test_a_bezier_curve_is_its_polynomial(self) -> None:
        for quantity in QUANTITIES:
            for piece in pieces(plan_2().profile, quantity):
                points = bezier(piece)
                for share in (0.0, 0.25, 0.7, 1.0):
                    degree = len(points) - 1
                    weights = [math.comb(degree, k) * share**k * (1 - share)**(degree - k) for k in range(degree + 1)]
                    time, value = (sum(w * point[axis] for w, point in zip(weights, points)) for axis in (0, 1))
                    self.assertAlmostEqual(time, piece.start + share * piece.duration, delta=1e-12)
                    self.assertAlmostEqual(value, piece.at(share * piece.duration), delta=1e-12)

    def test_the_extent_has_what_lies_between_rows(self) -> None:
        back = Move(0, 1, 0, 0, -1, 0, 2, -2, 2, -2, 2, 0, 0)
        profile = profile_of(back, "None", [0, 0, 1, 0, 0, 0, 1], [0, 0, -2, 0, 0, 0, 2])
        self.assertAlmostEqual(extent(pieces(profile, "position"))[1], 2 / 3)


class Axes(unittest.TestCase):
    def test_marks_are_round(self) -> None:
        self.assertEqual([mark.label for mark in ticks(-0.1, 1.05, 5)], ["0", "0.5", "1.0"])
        self.assertEqual([mark.label for mark in ticks(0, 6, 10)], list("0123456"))
        self.assertEqual([mark.label for mark in ticks(0, 5e6, 5)], ["0", "1e6", "2e6", "3e6", "4e6", "5e6"])
        self.assertEqual([mark.label for mark in ticks(0, 4e-7, 2)], ["0", "2e-7", "4e-7"])

    def test_places_keep_apart_and_within(self) -> None:
        self.assertEqual(spread([1, 50], 10, 0, 100), [1, 50])
        self.assertEqual(spread([50, 50], 10, 0, 100), [45, 55])
        self.assertEqual(spread([99, 98, 0], 10, 0, 100), [100, 90, 0])


class Pictures(Case):
    def texts(self, plan: Plan, move: Move, unit: str = "u") -> list[str]:
        root = ElementTree.fromstring(picture(plan, move, unit).encode())
        return [element.text for element in root.iter(SVG + "text")]

    def test_the_labels_of_move_2(self) -> None:
        texts = self.texts(plan_2(), MOVE_2, "mm")
        wanted = ["Move 2: ok, duration 6 s, found as UP Vel", "position, mm", "velocity, mm/s",
                  "acceleration, mm/s²", "jerk, mm/s³", "v_max 1", "v_min -1", "a_max 1", "a_min -1", "j_max 1",
                  "-j_max -1", "target 4", "start 0", "time, s", "phase", "0", "2", "3", "4", "6", "0 s long: 1 5",
                  "blocked durations: none, every one from 6 s on is free",
                  "UP Vel names the try that was accepted, not what the motion does or reaches.",
                  "6 s is the least duration of the profiles accepted. Below it the planner found none; a motion may exist."]
        self.assertEqual([text for text in wanted if text not in texts], [])

    def test_curves_have_their_degree(self) -> None:
        root = ElementTree.fromstring(picture(plan_2(), MOVE_2).encode())
        commands = {path.get("class"): path.get("d") for path in root.iter(SVG + "path") if path.get("class")}
        self.assertEqual([commands["position"].count("C"), commands["velocity"].count("Q")], [5, 5])
        self.assertEqual(commands["acceleration"].count("L"), 9)

    def test_blocked_stretches(self) -> None:
        self.assertIn("blocked durations (hatched): from 3 s on", self.texts(plan_3(), MOVE_3))
        stretches = Stretch("between", 8.0, 9.5, EMPTY), Stretch("between", 6.25, 7.0, EMPTY)
        texts = self.texts(plan_2(stretches=stretches), MOVE_2)
        self.assertIn("blocked durations (hatched): A: 6.25 s to 7 s; B: 8 s to 9.5 s", texts)
        self.assertTrue({"A", "B", "none found"} <= set(texts))

    def test_brake_and_accel_times(self) -> None:
        move = MOVE_2._replace(brake=0.5, accel=0.25)
        self.assertIn("time, s (brake 0.5 + motion 6 + accel 0.25 = 6.75)", self.texts(plan_2(2, move), move))
        long = MOVE_2._replace(brake=100.0)
        texts = self.texts(plan_2(2, long), long)
        self.assertIn("brake 100 s, cut", texts)
        self.assertTrue(any(text.startswith("time since the brake time ended, s") for text in texts))

    def test_a_far_limit_is_named_with_an_arrow(self) -> None:
        move = MOVE_2._replace(v_max=100.0)
        self.assertIn("v_max 100 ↑", self.texts(plan_2(2, move), move))

    def test_a_move_that_lasts_0_s(self) -> None:
        rest = MOVE_2._replace(pf=0)
        texts = self.texts(plan_of(1, rest, profile_of(rest, "None", [0] * 7, [0] * 7)), rest)
        self.assertTrue({"time, s, nothing moves", "0 s long: all"} <= set(texts))

    def draw(self, record: str, plans: str, text: str | bytes) -> tuple[int, str, bool]:
        """The status, the report, and whether a picture was written."""
        out = self.folder / "out.svg"
        words = ("--record", record, "--moves", self.file("m", text), "-o", str(out))
        status, _, errors = self.run_command("picture", self.file("plans", plans), *words)
        return status, errors, out.exists()

    def test_moves_as_text_or_records(self) -> None:
        for text in ("0 0 0 4 0 0 1 -1 1 -1 1 0 0\n", to_record(MOVE_2)):
            self.assertEqual(self.draw("1", line_of(plan_2(1)), text), (0, "", True))

    def test_what_has_no_picture(self) -> None:
        plans = "1 refused 4\n" + line_of(plan_2(2))
        text = "0 0 0 4 0 0 1 -1 1 -1 1 0 0\n"
        for record, moves_text, words in (
                ("1", text, "record 1 was refused, so it has no picture: no profile was accepted"),
                ("3", text, "there is no record 3 among 2"),
                ("2", text, "there is no move 2 among 1"),
                ("2", text * 2 + "x", "3: "),
                ("2", text + text.replace("4", "5"), "move 2 is not the one that was planned"),
                ("2", to_record(MOVE_2)[:-1], "record 1 is cut short")):
            status, errors, written = self.draw(record, plans, moves_text)
            self.assertEqual((status, written), (1, False))
            self.assertIn(words, errors)

    def test_numbers_too_large_to_draw(self) -> None:
        row = "0 0 0 4 0 0 1e300 -1 1 -1 1 0 0\n"
        status, errors, written = self.draw("1", line_of(plan_2(1)), row)
        self.assertEqual((status, written), (1, False))
        self.assertIn("too large to draw", errors)


def axis_of(duration: float, *ends: tuple[float, float], number: int = 1) -> Plan:
    """A plan with that duration and stretches with those ends."""
    kinds = [("from" if right == math.inf else "between", left, right) for left, right in ends]
    stretches = [Stretch(*kind, EMPTY) for kind in kinds] + [NOTHING] * (2 - len(kinds))
    return plan_2(number)._replace(duration=duration, stretches=tuple(stretches))


def by_scan(plans: list[Plan]) -> float:
    """The common time found in another way: on from the longest duration, at each stretch to its right end."""
    time = max(plan.duration for plan in plans)
    stretches = [stretch for plan in plans for stretch in plan.stretches]
    while inside := [stretch for stretch in stretches if stretch.left < time < stretch.right]:
        time = inside[0].right
    return time


def stored_arrivals() -> Iterator[tuple[list[Plan], str]]:
    """The axes of the stored calls that have four ends for each, with the oracle's lines."""
    given = (CRATES / "arrival_test" / "stdin").read_bytes()
    at = 0
    for line in (CRATES / "arrival_test" / "stdout").read_text().splitlines():
        durations, ends = given[at], given[at + 1]
        numbers = struct.unpack_from(f">{durations + ends}d", given, at + 2)
        at += 2 + 8 * (durations + ends)
        if ends == 4 * durations:
            fours = zip(*[iter(numbers[durations:])] * 4)
            yield [axis_of(duration, (a, b), (c, d)) for duration, (a, b, c, d) in zip(numbers, fours)], line


def random_axis(source: random.Random) -> Plan:
    duration = float(source.randrange(8))
    lefts = [duration + source.randrange(8) for _ in range(source.randrange(3))]
    return axis_of(duration, *((left, left + source.choice([math.inf, *range(12)])) for left in lefts))


class Arrivals(Case):
    def test_the_time_and_the_lowest_axis(self) -> None:
        two, three = axis_of(1.0, (2.0, 4.0)), axis_of(3.0)
        for plans, time, axis in (
                ([three], 3.0, 0),
                ([axis_of(1.0), three, axis_of(2.0)], 3.0, 1),
                ([three, three], 3.0, 0),
                ([two, three], 4.0, 0),
                ([three, two, two], 4.0, 1),
                ([two, axis_of(4.0)], 4.0, 0),
                ([two, axis_of(2.0)], 2.0, 1),
                ([two, axis_of(math.nextafter(2.0, 3.0))], 4.0, 0),
                ([axis_of(1.0, (3.0, 6.0), (2.0, 4.0)), three], 6.0, 0),
                ([axis_of(1.0, (2.0, 4.0), (4.5, 6.0)), axis_of(3.0, (3.5, 5.0))], 6.0, 0),
                ([axis_of(1.0, (2.0, math.inf)), axis_of(2.0)], 2.0, 1),
                ([axis_of(1.0, (4.0, 4.0)), axis_of(4.0)], 4.0, 0)):
            with self.subTest(time=time, axis=axis):
                self.assertEqual(arrival(plans), Arrival(time, axis))

    def test_minus_zero_is_given_as_zero(self) -> None:
        for plan in (axis_of(-0.0), axis_of(-0.0, (-0.0, 3.0)), axis_of(-0.0, (-0.0, -0.0))):
            self.assertEqual(repr(arrival([plan])), "Arrival(time=0.0, axis=0)")

    def test_what_is_no_plans(self) -> None:
        wrong = [axis_of(duration) for duration in (-1.0, math.nan, math.inf, -math.inf)]
        for ends in ((0.5, 4.0), (0.0, 4.0), (math.nan, 4.0), (math.inf, math.inf), (-math.inf, 4.0), (2.0, math.nan),
                     (2.0, 1.5), (2.0, 0.0), (0.0, math.nan), (2.0, -math.inf)):
            wrong += [axis_of(1.0, ends), axis_of(1.0, (1.0, 2.0), ends)]
        for plans in ([], [axis_of(1.0)] * 9, *([axis_of(1.0), plan] for plan in wrong)):
            self.assertEqual(arrival(plans), MALFORMED)

    def test_no_finite_time(self) -> None:
        self.assertEqual(arrival([axis_of(1.0, (2.0, math.inf)), axis_of(3.0)]), NEVER)
        self.assertEqual(arrival([axis_of(1.0, (2.0, 4.0), (3.5, math.inf)), axis_of(3.0)]), NEVER)
        self.assertEqual(arrival([axis_of(1.0, (2.0, math.inf)), axis_of(3.0), axis_of(-1.0)]), MALFORMED)

    def test_no_smaller_double_is_free(self) -> None:
        source = random.Random(1)
        for _ in range(2000):
            plans = [random_axis(source) for _ in range(source.randrange(1, 9))]
            answer = arrival(plans)
            if not isinstance(answer, Arrival):
                self.assertEqual((answer, by_scan(plans)), (NEVER, math.inf))
                continue
            self.assertEqual(answer.time, by_scan(plans))
            below = math.nextafter(answer.time, -math.inf)
            free = [all(is_free(plan, time) for plan in plans) for time in (answer.time, below)]
            self.assertEqual(free, [True, False])

    def test_the_stored_answers(self) -> None:
        count = 0
        for plans, line in stored_arrivals():
            answer = arrival(plans)
            count += 1
            if isinstance(answer, Arrival):
                bits = struct.pack(">d", answer.time).hex().upper()
                self.assertEqual(f"ok {bits} {answer.axis}", line)
            else:
                self.assertEqual(f"refused {answer}", line)
        self.assertGreater(count, 2500)

    def command(self, records: str, plans: list[Plan], *options: str) -> tuple[int, str, str]:
        text = "".join(map(line_of, plans)) + "9 refused 4\n"
        status, output, errors = self.run_command("arrival", "--records", records, *options, given=text.encode())
        return status, output.decode(), errors

    def test_the_words(self) -> None:
        plans = [axis_of(1.0, (2.0, 4.1), number=3), axis_of(2.5, number=12), axis_of(0.5, (0.5, math.inf), number=4)]
        status, output, errors = self.command("12,3", plans)
        self.assertEqual((status, errors, output.splitlines()), (0, "", [
            "axis  record  duration, s  blocked durations, s (ends free)",
            "   0      12          2.5  none",
            "   1       3            1  (2, 4.1)",
            "all arrive at 4.1 s, bits 4010666666666666",
            "set by record 3 (axis 1): the right end of a blocked stretch",
        ]))
        self.assertEqual(self.command("12", plans)[1].splitlines()[-1], "set by record 12 (axis 0): its duration")
        for records, words in (("4,3", "refused 10: no finite time is free for all axes"),
                               (",".join("3" * 9), "refused 9: there are no axes or more than 8")):
            status, output, errors = self.command(records, plans)
            self.assertEqual((status, errors), (0, ""))
            self.assertTrue(output.splitlines()[-1].startswith(words), output)

    def test_records_that_have_no_plan(self) -> None:
        plans = [axis_of(1.0, number=3)]
        for records, words in (("3,9", "-: record 9 was refused, so it has no arrival time: no profile was accepted\n"),
                               ("3,5", "-: there is no record 5 among 2\n")):
            self.assertEqual(self.command(records, plans), (1, "", words))
        for records in ("", "3,", "3;5", "x"):
            with contextlib.redirect_stderr(io.StringIO()), self.assertRaises(SystemExit) as ended:
                moves.main(["arrival", "--records", records])
            self.assertEqual(ended.exception.code, 2)

    def drawn(self, plans: list[Plan]) -> ElementTree.Element:
        return ElementTree.fromstring(arrival_picture(plans, arrival(plans)).encode())

    def time_lines(self, root: ElementTree.Element) -> list[float]:
        return [float(line.get("x1")) for line in root.iter(SVG + "line") if line.get("stroke") == "#8a1c1c"]

    def test_the_picture(self) -> None:
        ends = (6.25, 7.0), (8.0, 9.5)
        root = self.drawn([axis_of(6.0, *ends, number=2), axis_of(9.0, number=15)])
        texts = [element.text for element in root.iter(SVG + "text")]
        wanted = ["Records 2 and 15: all arrive at 9.5 s", "9.5 s", "A", "B", "duration of the whole move, s",
                  "set by record 2 (axis 0): the right end of a blocked stretch",
                  "record 2 (axis 0): duration 6 s, blocked A: 6.25 s to 7 s; B: 8 s to 9.5 s",
                  "record 15 (axis 1): duration 9 s, no longer one is blocked"]
        self.assertEqual([text for text in wanted if text not in texts], [])
        edges = {point.split(",")[0] for shape in root.iter(SVG + "polygon") for point in shape.get("points").split()}
        self.assertEqual([f"{x:g}" in edges for x in self.time_lines(root)], [True])
        patterns = [pattern.get("id") for pattern in root.iter(SVG + "pattern")]
        self.assertEqual(patterns, ["blocked-a", "blocked-b"])

    def test_the_picture_of_no_common_time(self) -> None:
        root = self.drawn([axis_of(1.0, (1.0, math.inf)), axis_of(3.0, number=2), axis_of(0.0, number=3)])
        self.assertEqual(root.find(SVG + "title").text, "Records 1, 2 and 3: refused 10")
        self.assertEqual(self.time_lines(root), [])

    def test_where_the_picture_goes(self) -> None:
        out, plans = self.folder / "out.svg", [axis_of(1.0, number=3), axis_of(1e300, number=4)]
        status, output, errors = self.command("3", plans, "--picture", str(out))
        self.assertEqual((status, errors), (0, ""))
        self.assertTrue(output.endswith("its duration\n"))
        self.assertEqual(self.command("3", plans, "--picture", "-"), (0, out.read_text(), ""))
        out.unlink()
        for records, words in ((",".join("3" * 9), "refused 9, so there is no picture"), ("4", "too large to draw")):
            status, output, errors = self.command(records, plans, "--picture", str(out))
            self.assertEqual((status, output, out.exists()), (1, "", False))
            self.assertIn(words, errors)


class Samples(unittest.TestCase):
    def test_the_sample_starts_with_document_01s_moves(self) -> None:
        sample = read_moves("sample", (DOCS / "sample-moves.txt").read_bytes())
        rest = Move(0, 0, 0, 0, 0, 0, 1, -1, 1, -1, 1, 0, 0)
        self.assertEqual(sample[:4], [rest, MOVE_2, MOVE_3, MOVE_2._replace(pf=1, j_max=0)])

    def test_the_stored_pictures_are_whole(self) -> None:
        stored = sorted((DOCS / "pictures").glob("*.svg"))
        self.assertEqual(len(stored), 3)
        for path in stored:
            self.assertEqual(ElementTree.parse(path).getroot().tag, SVG + "svg")


if __name__ == "__main__":
    unittest.main()
