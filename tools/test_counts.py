"""Tests of counts.py."""
import tempfile
import unittest
from pathlib import Path

import counts


class Counted(unittest.TestCase):
    def test_runs(self):
        text = "c.before.before\n    .before.before.before.1\n" + "d" + ".before" * 10 + ".well_formed.before\n"
        self.assertEqual([counts.runs(text, least) for least in (1, 5, 6, 10, 11)], [3, 2, 1, 1, 0])
        self.assertEqual(counts.runs(text.replace(".", " ."), 5), 2)

    def test_long_lines(self):
        self.assertEqual(counts.long_lines("≤" * 120 + "\n" + "≤" * 121 + "\n", 120), 1)

    def test_layout_numbers(self):
        code = "let b = [0u8; 166]; // 53 doubles\nlet c = x[54usize] + 1660 + 0.53 + 53.5 + a_110 + 914;\n"
        self.assertEqual(counts.layout_numbers(code, ".rt"), [(1, "166"), (2, "54usize"), (2, "914")])
        laws = "-- at 54\nat_most_54 : (at l 56) (at plan 110) (double_at b 56) (get_or b 54 0)\nx--y = 107 -- 53\n"
        self.assertEqual(counts.layout_numbers(laws, ".antt"), [(2, "56"), (2, "110"), (3, "107")])

    def test_where_numbers_are_bare(self):
        bare = {
            "crates/moves/src/lines.rt": True,
            "crates/moves/specs/Lines.antt": True,
            "crates/moves/proofs/Lines.antt": False,
            "crates/sqrt/src/lib.rt": False,
        }
        for path, expected in bare.items():
            self.assertEqual(counts.may_have_bare_numbers(Path(path)), expected, path)

    def test_the_project_has_no_bare_layout_numbers(self):
        self.assertEqual(counts.bare_numbers(counts.sources(counts.HERE)), [])

    def test_a_checkout(self):
        with tempfile.TemporaryDirectory() as folder:
            top = Path(folder)
            for path, text in {
                "crates.txt": "# NAME: DEP\nmoves:\nlines staticlib: moves\n",
                "crates/moves/src/lib.rt": "fn one() {}\nfn two() {\n    three(107)\n}\n",
                "crates/moves/proofs/Laws.antt": "law = c.before.before.before.before.before " + "x" * 80 + "\n",
                "crates/moves/must-fail/wrong.edit": "",
                "crates/moves/out/kept/Laws.antt": "law = 1\n",
            }.items():
                (top / path).parent.mkdir(parents=True, exist_ok=True)
                (top / path).write_text(text, encoding="utf-8")
            self.assertEqual([count for _, count in counts.counts(top)], [2, 2, 1, 4, 1, 0, 1, 1, 0, 1])


if __name__ == "__main__":
    unittest.main()
