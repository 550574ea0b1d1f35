"""Tests of layout.py, and that the layout is the same everywhere."""
import unittest

import layout


def exchanged(text, first, second):
    """The text with two words exchanged."""
    return text.replace(first, "\0").replace(second, first).replace("\0", second)


class Readers(unittest.TestCase):
    def test_computed(self):
        self.assertEqual(layout.computed({"b": "a * (a + 1)", "a": "c + 1"}, {"c": 2}), {"b": 12, "a": 3})
        with self.assertRaises(ValueError):
            layout.computed({"a": "1 - 1"})

    def test_offsets(self):
        places = layout.offsets("X", [("a", 1), ("b c", 7), ("d", 1)])
        self.assertEqual(places, {"X_A": 0, "X_B_C": 1, "X_D": 8, "X_LENGTH": 9})

    def test_enumerators(self):
        text = "enum { A, /* enum { Z } */ B = A + 2, C };\nenum kind { D = 5, E = C + D };"
        self.assertEqual(list(layout.enumerators(text)), [("", {"A": 0, "B": 2, "C": 3}), ("kind", {"D": 5, "E": 8})])

    def test_definitions(self):
        text = "abbrev pub one : ℕ\none = 1\n\nabbrev pub two : ℕ\ntwo = one + one\n\nof X = 1\nof (Y z) = 0\n"
        self.assertEqual(layout.computed(layout.whole_numbers(text)), {"one": 1, "two": 2})
        self.assertEqual(layout.numbered(text, "of"), ["Y", "X"])


class Project(unittest.TestCase):
    """The project's files agree, and a change in one of them is found."""

    def assert_differs(self, words, found):
        self.assertIn(words, " ".join(layout.differences(layout.defined(), found)))

    def test_the_same_everywhere(self):
        for place, faults in layout.compared():
            self.assertEqual(faults, [], place)

    def test_header(self):
        header = layout.read("bindings/c/girnhusk.h")
        self.assert_differs("PROFILE_VF is 48, not 49", layout.of_header(exchanged(header, "PROFILE_PF", "PROFILE_VF")))
        self.assert_differs("MOVE_V_MAX is 7, not 6", layout.of_header(exchanged(header, "MOVE_V_MAX", "MOVE_V_MIN")))
        self.assert_differs("LIMITS is", layout.of_header(exchanged(header, "GIRNHUSK_ACC0 ", "GIRNHUSK_ACC1 ")))
        self.assert_differs("WRONG_LENGTH is 9", layout.of_header(header.replace("255", "9")))
        self.assert_differs("ENDS_B_LEFT is 1, not 2", layout.of_header(exchanged(header, "_A_RIGHT", "_B_LEFT")))
        self.assert_differs("AXES_MOST is 4, not 8", layout.of_header(header.replace("MOST = 8", "MOST = 4")))

    def test_wrapper(self):
        raw, wrapper = layout.read("bindings/rust/src/raw.rs"), layout.read("bindings/rust/src/lib.rs")
        self.assert_differs("PROFILE_A is", layout.of_wrapper(exchanged(raw, "PROFILE_A:", "PROFILE_V:"), wrapper))
        longer = raw.replace("PROFILE_T: PHASES", "PROFILE_T: ROWS")
        self.assert_differs("PLAN_LENGTH is", layout.of_wrapper(longer, wrapper))
        self.assert_differs("ENDS_A_LEFT is", layout.of_wrapper(exchanged(raw, "ENDS_A_LEFT", "ENDS_B_LEFT"), wrapper))
        self.assert_differs("MOVE_A0 is", layout.of_wrapper(raw, exchanged(wrapper, "self.v0", "self.a0")))
        self.assert_differs("KINDS is", layout.of_wrapper(raw, exchanged(wrapper, "Stretch::From", "Stretch::Between")))

    def test_oracle(self):
        answers, buffers = layout.read("oracle/answers/src/lib.rs"), layout.read("oracle/programs/src/buffers.rs")
        self.assert_differs("PROFILE_BRAKE is", layout.of_oracle(exchanged(answers, '"brake"', '"accel"'), buffers))
        self.assert_differs("MOVE_BRAKE is", layout.of_oracle(exchanged(answers, "self.brake", "self.accel"), buffers))
        self.assert_differs("LIMITS is", layout.of_oracle(exchanged(answers, '"Acc0"', '"Acc1"'), buffers))
        further = buffers.replace("PLAN_PROFILE +", "1 + PLAN_PROFILE +")
        self.assert_differs("PLAN_STRETCH_A is", layout.of_oracle(answers, further))

    def test_samples(self):
        samples = layout.read("docs/sample-moves.txt")
        self.assert_differs("MOVE_VF is", layout.of_samples(exchanged(samples, " vf ", " af ")))

    def test_family_records(self):
        records = layout.read("crates/families_test/specs/Records.antt")
        self.assert_differs("MOVE_AF is", layout.of_family_records(exchanged(records, "vf =", "af =")))
        self.assertEqual(len(layout.of_family_records(records)), 11)

    def test_missing_part(self):
        found = layout.defined()
        del found["PROFILE_J"]
        self.assertEqual(layout.differences(layout.defined(), found), [])
        self.assertEqual(layout.differences(layout.defined(), found, whole=True), ["PROFILE_J is None, not 17"])


if __name__ == "__main__":
    unittest.main()
