"""Tests of beside.py."""

import contextlib
import io
import pathlib
import tempfile
import unittest

import beside

NONE = {"signatures changed": [], "contracts changed": [], "ghost items and constants": {}, "definitions": {}}


def printed(old, new, contracts=NONE):
    """What is printed of two checkouts, each given as files of crates."""
    out = io.StringIO()
    with tempfile.TemporaryDirectory() as folder:
        roots = [pathlib.Path(folder, name) for name in ("old", "new")]
        for root, files in zip(roots, (old, new)):
            for name, text in files.items():
                path = root / "crates" / name
                path.parent.mkdir(parents=True, exist_ok=True)
                path.write_text(text)
        with contextlib.redirect_stdout(out):
            beside.page(*roots, contracts)
    return out.getvalue()


class Beside(unittest.TestCase):
    def test_a_law_in_a_module_is_found_with_all_its_lines(self):
        old = {"a/proofs/Laws.antt": "module _ where\n  pub more : (n : N)\n      → n < 2\n  more n = refl\n"}
        new = {"a/proofs/Laws.antt": "module _ where\n  pub more : (n : N)\n      → n < 3\n  more n = refl\n"}
        self.assertEqual(printed(old, new), "### a\n\n```diff\n@ law more\n- (n : N) → n < 2\n+ (n : N) → n < 3\n```\n\n")

    def test_what_is_the_same_is_not_listed(self):
        files = {"a/proofs/Laws.antt": "pub more : N\nmore = refl\n", "a/src/lib.rt": "pub struct P { x: u64 }\n"}
        self.assertEqual(printed(files, files), "")

    def test_types_that_came_changed_and_went(self):
        old = {"a/src/lib.rt": "pub struct P {\n    x: u64, // one\n}\nenum Q { R }\n"}
        new = {"a/src/lib.rt": "pub struct P {\n    x: u32,\n}\nstruct S<T> { t: T }\n"}
        self.assertIn("@ type P\n- pub struct P { x: u64, }\n+ pub struct P { x: u32, }\n", printed(old, new))
        self.assertIn("@ type Q\n- enum Q { R }\n", printed(old, new))
        self.assertIn("@ type S\n+ struct S<T> { t: T }\n", printed(old, new))

    def test_the_only_law_of_a_name_is_found_where_it_moved(self):
        old = {"a/proofs/Laws.antt": "pub more : N\n"}
        self.assertIn("- N\n+ M\n", printed(old, {"b/proofs/Laws.antt": "pub more : M\n"}))
        twice = {"b/proofs/Laws.antt": "pub more : M\n", "c/proofs/Laws.antt": "pub more : M\n"}
        self.assertEqual(printed(old, twice), "")

    def test_clauses_that_differ(self):
        change = ["a src/lib.rt f", [["", "x < 2"]], [["", "result ≡ x"]], [], [["", "result ≡ x"]]]
        self.assertIn("@ src/lib.rt f\n- requires { x < 2 }\n", printed({}, {}, NONE | {"contracts changed": [change]}))


if __name__ == "__main__":
    unittest.main()
