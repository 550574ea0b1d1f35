"""Tests of unstated.py: which functions state their result."""
import unittest

import unstated


class Functions(unittest.TestCase):
    def test_with_and_without(self):
        text = """
// fn in_a_comment() {}
pub fn stated(x: f64) -> f64
    requires { 0 < x }
    ensures { result ≡ record { a = x }.a }
{
    x
}

pub fn by_names(x: u64, out: &mut [u8]) -> u64
    requires small { x < 8 }
    ensures value { result ≡ x }
    ensures out_after { out.new ≡ out.old }
{
    x
}

fn bare(b: [u8; 8], at: usize) -> [u8; 8]
    requires { at < 8 }
{
    b
}

fn lent<'a, R: Read>(r: &R, s: &'a [u8]) -> &'a [u8]
    ensures { result.now ≡ s.now }
{
    s
}

fn main(rt: HostRuntime) {}
"""
        self.assertEqual(
            list(unstated.functions(text)),
            [("stated", True), ("by_names", True), ("bare", False), ("lent", True), ("main", False)],
        )

    def test_traits_and_generics(self):
        text = """
pub trait Form<const LENGTH: usize> {
    ghost text: { ℕ → List ℕ };
    fn put(line: &mut ArrayVec<u8, LENGTH>, n: u64)
        ensures { line.new ≡ text n };
    fn bare(n: u64) -> [u8; 2];
}

impl<'a> Form<[u8; 8]> for Short<'a> {
    ghost text = { short };
    fn put(line: &mut ArrayVec<u8, 8>, n: u64) {}
}

fn nested<F: Form<L>, G: Fn(u8) -> u8, const L: usize>(n: u64) -> Option<[u8; L]>
    where F: Copy
    ensures { result ≡ None }
{
    None
}
"""
        self.assertEqual(
            list(unstated.functions(text)),
            [("put", True), ("bare", False), ("put", True), ("nested", True)],
        )

    def test_the_project_lists_only_programs(self):
        for source in unstated.CRATES.glob("*/src/lib.rt"):
            for name, stated in unstated.functions(source.read_text(encoding="utf-8")):
                # The loop of the test programs, which reads and writes.
                self.assertTrue(stated or name == "answer_records", f"{source}: {name}")


if __name__ == "__main__":
    unittest.main()
