"""Tests of cited.py, and that every path, link and name that our documents cite exists."""
import tempfile
import unittest
from pathlib import Path

import cited

LAWS = """-- law_of : in a comment
use Rattle.std.specs.Prelude.{◌≡◌, Float}
use Rattle.std.specs.Float.Ieee.Scale.{finite as fin}
use Rattle.ends.specs.Ends.{end_of}
unfoldable pub sum_of : Float → Float
sum_of x = let y : Float = x in y

module _ (x : Float) where
  pub not_lt→atmost :
      Float
  pub record Sound : Type 0 where
    pub start_is t_min : Float
  pub data Kind : Type 0 where
    Long : Kind
"""
CODE = """// fn gone() {}
pub struct Profile {
    pub t: [f64; 7],
}

pub enum Way {
    UP,
}

impl Profile {
    pub const T_MAX: f64 = 1e12;

    pub fn set(x: f64) -> f64
        ensures value { result ≡ sum_of x }
    {
        x
    }
}

#[unsafe(no_mangle)]
pub extern "C" fn outer(x: f64) {}
"""
PROOFS = """# Proofs

## The check, once

See [the check](#the-check-once), `crates/sums/specs` and `./test`; `sum_of` of the kit's `finite`, `result ≡ sum_of x`.

| promise | definition | law | files |
|---|---|---|---|
| `outer` sums | `sum_of` | `Profile::set`, `T_MAX` | [crates/sums/specs/Sums.antt](../crates/sums/specs/Sums.antt) [crates/sums/src/lib.rt](../crates/sums/src/lib.rt#L2-L4) [laws](../crates/ends/proofs/Laws.antt) |
| no file | `sums` | `not_lt→atmost`: `sum_of x ≤ 128` | |

In the log `logic=proved functions=2` stands for each crate.

| edit |
|---|
| [crates/sums/must-fail/less.edit](../crates/sums/must-fail/less.edit) |
"""


MAP = """# Map

```mermaid
flowchart BT
  sums --> ends
  ends --> lines
```

| crate | what |
|---|---|
| `sums` | [`sum_of`](../crates/sums/specs/Sums.antt) |
| `ends`, `lines` | |
| `lines_test` | |

| Rust | lines |
|---|---|
| `is_blocked` | [2–3](src/block.rs#L2-L3) [5](src/block.rs#L5) |
"""
FILES = {
    "crates.txt": "# NAME: DEP\nsums:\nends: sums\nlines staticlib: sums ends io\nlines_test: lines\n",
    "test": "",
    "crates/sums/specs/Sums.antt": LAWS,
    "crates/sums/src/lib.rt": CODE,
    "crates/sums/must-fail/less.edit": "",
    "crates/ends/specs/Ends.antt": "pub end_of : Float\n",
    "crates/ends/proofs/Laws.antt": "pub end_law : Float\n",
    "docs/src/block.rs": "impl Block {\n    pub fn is_blocked(\n    ) {}\n}\nfn end() {}\n",
    "docs/PROOFS.md": PROOFS,
    "docs/ARCHITECTURE.md": MAP,
}


def faults(name, old="", new=""):
    """What is found in a document of a small project, with a part of the document replaced."""
    with tempfile.TemporaryDirectory() as folder:
        top = Path(folder).resolve()
        for path, text in FILES.items():
            (top / path).parent.mkdir(parents=True, exist_ok=True)
            (top / path).write_text(text.replace(old, new, 1) if path == name and old else text, encoding="utf-8")
        return cited.faults_of(top, top / name)


class Checked(unittest.TestCase):
    """Documents that are right, and what is found where they are changed."""

    def faults(self, old="", new=""):
        return faults(cited.PROOFS, old, new)

    def assert_fault(self, words, old, new):
        self.assertIn(old, PROOFS)
        found = self.faults(old, new)
        self.assertTrue(found)
        self.assertIn(words, found[0])

    def test_right(self):
        self.assertEqual(self.faults(), [])

    def test_wrong_name_in_a_row(self):
        self.assert_fault("line 9: sums_of isn't declared in the row's files", "| `sum_of` |", "| `sums_of` |")

    def test_name_of_another_file_in_a_row(self):
        self.assert_fault("end_of isn't declared in the row's files", "| `sum_of` |", "| `end_of` |")

    def test_definition_among_proofs(self):
        self.assert_fault("end_law isn't declared in the row's files in specs/ or src/", "| `sum_of` |", "| `end_law` |")
        self.assertEqual(self.faults("`Profile::set`, `T_MAX`", "`end_law`"), [])

    def test_three_names(self):
        self.assert_fault("line 9: more than two names in a cell", "`Profile::set`,", "`Profile::set`, `UP`,")

    def test_name_broken_over_lines(self):
        self.assert_fault("line 5: sum_up isn't", "`result ≡ sum_of x`", "`result ≡\nsum_up x`")

    def test_wrong_name_of_a_type(self):
        self.assert_fault("Profile::sets isn't", "Profile::set`", "Profile::sets`")

    def test_wrong_name_in_a_promise(self):
        self.assert_fault("inner isn't declared in crates/", "| `outer` sums", "| `inner` sums")

    def test_wrong_name_in_a_row_without_file(self):
        self.assert_fault("line 10: lt→atmost isn't declared in crates/", "`not_lt→atmost`", "`lt→atmost`")

    def test_wrong_name_in_an_expression(self):
        self.assert_fault("line 5: sum_up isn't declared in crates/", "`result ≡ sum_of x`", "`result ≡ sum_up x`")

    def test_wrong_name_in_prose(self):
        self.assert_fault("line 5: infinite isn't declared in crates/", "`finite`", "`infinite`")

    def test_wrong_path(self):
        self.assert_fault("there is no crates/sums/laws", "`crates/sums/specs`", "`crates/sums/laws`")
        self.assert_fault("there is no tests", "`./test`", "`./tests`")

    def test_wrong_link(self):
        self.assert_fault("leads nowhere", "(../crates/sums/specs/Sums.antt)", "(../crates/sums/specs/Sum.antt)")

    def test_link_to_another_path_than_shown(self):
        shown = "crates/sums/specs/Sums.antt"
        self.assert_fault(f"shows {shown} and leads to", f"(../{shown})", "(../crates/sums/src/lib.rt)")

    def test_wrong_heading_and_lines(self):
        self.assert_fault("no heading for #the-check", "(#the-check-once)", "(#the-check)")
        self.assert_fault("has no line 400", "#L2-L4", "#L2-L400")

    def test_edits_once(self):
        edit = "[crates/sums/must-fail/less.edit](../crates/sums/must-fail/less.edit)"
        self.assert_fault("crates/sums/must-fail/less.edit is linked 0 times", edit, "none")
        self.assert_fault("crates/sums/must-fail/less.edit is linked 2 times", edit, edit + edit)


class Map(unittest.TestCase):
    def assert_fault(self, words, old, new):
        self.assertIn(old, MAP)
        self.assertIn(words, " ".join(faults(cited.ARCHITECTURE, old, new)))

    def test_right(self):
        self.assertEqual(faults(cited.ARCHITECTURE), [])

    def test_arrows(self):
        self.assert_fault("crates.txt has no arrow lines --> ends", "sums --> ends", "lines --> ends")
        self.assert_fault("no arrows lead from sums to lines", "sums --> ends", "")
        self.assert_fault("lines isn't drawn", "ends --> lines", "")

    def test_list(self):
        self.assert_fault("ends isn't listed", "`ends`, ", "")

    def test_name_of_a_link(self):
        self.assert_fault("sums_of isn't declared in ../crates/sums/specs/Sums.antt", "`sum_of`", "`sums_of`")

    def test_lines_of_the_rust(self):
        both = "`is_blocked` | [2–3](src/block.rs#L2-L3) [5](src/block.rs#L5)"
        self.assert_fault("fn end is in line 5 of the Rust", both, "`end` | [1](src/block.rs#L1)")
        self.assert_fault("the link shows lines 2–3 and leads to src/block.rs#L2-L4", "#L2-L3", "#L2-L4")


class Declared(unittest.TestCase):
    def test_laws(self):
        names = cited.declared_in_laws(LAWS)
        self.assertEqual(names, {"sum_of", "not_lt→atmost", "Sound", "start_is", "t_min", "Kind", "Long"})
        self.assertEqual(cited.imported(LAWS, {"sums", "ends"}), {"◌≡◌", "Float", "finite"})

    def test_code(self):
        self.assertEqual(
            cited.declared_in_code(CODE),
            {"Profile", "t", "Way", "UP", "T_MAX", "Profile::T_MAX", "set", "Profile::set", "outer"},
        )


class Project(unittest.TestCase):
    def test_whatever_is_cited_exists(self):
        faults = [fault for document in cited.documents(cited.TOP) for fault in cited.faults_of(cited.TOP, document)]
        self.assertFalse(faults, "\n" + "\n".join(faults))


if __name__ == "__main__":
    unittest.main()
