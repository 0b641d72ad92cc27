"""What tools/names.py reads: lists of names, the table of docs/RULES.md, the public names of a crate."""
import os
import sys
import tempfile
import unittest

sys.path.insert(0, os.path.realpath(f"{os.path.dirname(os.path.realpath(__file__))}/.."))
import names

LIB = """//! A crate.
mod part;
pub use part::{Thing, make};
pub use rt_low::Low;
use rt_low::Hidden;
"""
PART = """/// A thing.
pub enum Thing {
    /// One.
    One,
    Two { at: u64 },
}

impl Thing {
    /// Is called.
    pub fn call(&self) -> u8 {
        1
    }
    fn hidden(&self) {}
}

pub fn make() {}
"""
LOW = """pub struct Low {
    at: u64,
}

impl Low {
    pub fn low(&self) {}
}
"""
RULES = """## Names

| Asked for | Stands as | Why |
|---|---|---|
| `rt_top::Elsewhere` | `rt_low::Low` | it is there |

## More
"""


class Names(unittest.TestCase):
    def missing(self, asked):
        with tempfile.TemporaryDirectory() as room:
            for file, text in {
                "crates/rt_top/src/lib.rt": LIB,
                "crates/rt_top/src/part.rt": PART,
                "crates/rt_low/src/lib.rt": LOW,
                "tools/names.txt": asked,
                "docs/RULES.md": RULES,
            }.items():
                os.makedirs(os.path.dirname(f"{room}/{file}"), exist_ok=True)
                with open(f"{room}/{file}", "w", encoding="utf-8") as it:
                    it.write(text)
            return list(names.missing(room))

    def test_what_is_there_is_found(self):
        self.assertEqual(self.missing("rt_top\n    fn: make\n    Thing: One Two call\n    Low: low\n"), [])

    def test_what_is_not_public_is_missing(self):
        self.assertEqual(self.missing("rt_top\n    Hidden:\n"), ["rt_top::Hidden"])

    def test_what_is_not_there_is_missing(self):
        self.assertEqual(self.missing("rt_top\n    fn: unmake\n    Thing: Three\n    Low: call\n"), ["rt_top::unmake", "rt_top::Thing::Three", "rt_top::Low::call"])

    def test_another_home_counts(self):
        self.assertEqual(self.missing("rt_top\n    Elsewhere: low\n"), [])
        self.assertEqual(self.missing("rt_top\n    Elsewhere: high\n"), ["rt_top::Elsewhere::high (as rt_low::Low::high)"])


if __name__ == "__main__":
    unittest.main()
