"""Tests of tools/units.py: python3 -m unittest discover -s tools -p 'test_*.py'"""
from __future__ import annotations

import os
import random
import sys
import tempfile
import unittest
from pathlib import Path

sys.path.insert(0, os.path.dirname(os.path.abspath(__file__)))

import units
from girnhusk.movefile import Move


class Units(unittest.TestCase):
    def planner(self, program: str) -> str:
        """A program in place of plan_moves."""
        folder = tempfile.TemporaryDirectory()
        self.addCleanup(folder.cleanup)
        path = Path(folder.name) / "planner"
        path.write_text("#!/bin/sh\ncat >/dev/null\n" + program)
        path.chmod(0o755)
        return str(path)

    def test_moves_are_plain(self) -> None:
        source = random.Random(5)
        for axis in units.AXES:
            for _ in range(200):
                move = Move(*units.carriage_move(source, axis))
                self.assertTrue(100 <= abs(move.pf - move.p0) <= 3000 and 0 <= min(move.p0, move.pf))
                self.assertEqual((move.v0, move.a0, move.vf, move.af, move.brake, move.accel), (0,) * 6)
                self.assertEqual((move.v_min, move.a_min), (-move.v_max, -move.a_max))
                for value, (least, greatest) in ((move.v_max, axis.v), (move.a_max, axis.a), (move.j_max, axis.j)):
                    self.assertTrue(least <= value <= greatest)

    def test_a_unit_scales_all_but_time(self) -> None:
        move = (100, 0, 0, 1300, 0, 0, 800, -800, 2000, -2000, 10000, 0, 0)
        self.assertEqual(units.in_unit(move, 1000), Move(*map(float, move)))
        self.assertEqual(units.in_unit(move, 1), Move(0.1, 0, 0, 1.3, 0, 0, 0.8, -0.8, 2, -2, 10, 0, 0))

    def test_refusals_are_counted(self) -> None:
        moves = [Move(*range(13))] * 3
        lines = r"printf 'plan 1\n1 ok 0000000000000000 UP None 0\n2 refused 4\n3 refused 5\n'"
        self.assertEqual(units.refused(self.planner(lines), moves), moves[1:])
        self.assertEqual([units.below(moves, bound) for bound in (8, 9)], [0, 3])
        with self.assertRaises(SystemExit):
            units.refused(self.planner(lines), moves * 2)


if __name__ == "__main__":
    unittest.main()
