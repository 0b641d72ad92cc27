"""Tests that compare two ways: which there are, what is said of their run, and what they are made of."""
import os
import sys
import tempfile
import unittest

ROOT = os.path.realpath(f"{os.path.dirname(os.path.realpath(__file__))}/../..")
sys.path[:0] = [f"{ROOT}/tools/sessions", f"{ROOT}/tools"]
import two_ways
from bodies import read, write

SAID = """tests: 2
test covers::cover_two_ways ... ok
test writes::writes_two_ways ... FAILED
    checked: no-answer: the program did not end within the time limit
"""


class TwoWays(unittest.TestCase):
    def test_tests_are_found(self):
        with tempfile.TemporaryDirectory() as folder:
            write(f"{folder}/some.rt.txt", "fn no_test() {}\n\n#[test]\nfn alike(rt: HostRuntime) {}\n")
            write(f"{folder}/others.rt.txt", "#[test]\nfn same(rt: HostRuntime) {}\n\n#[test]\nfn other(rt: HostRuntime) {}\n")
            self.assertEqual(two_ways.tests_in(folder), ["same", "other", "alike"])

    def test_each_test_has_to_pass(self):
        self.assertEqual(two_ways.wrong_of(SAID, ["cover_two_ways"]), [])
        self.assertEqual(two_ways.wrong_of(SAID, ["writes_two_ways"]), ["writes_two_ways ended with FAILED"])
        self.assertEqual(two_ways.wrong_of(SAID, ["views_two_ways"]), ["views_two_ways has not ended"])

    def test_a_crate_is_made(self):
        with tempfile.TemporaryDirectory() as room:
            os.makedirs(f"{room}/copy/crates/low/out")
            write(f"{room}/copy/crates.txt", "low: std\n")
            write(f"{room}/copy/HANDLES", "Handles allowed: none.\n")
            os.mkdir(f"{room}/work")
            two_ways.make_workspace(f"{room}/copy", f"{room}/work")
            self.assertEqual(read(f"{room}/work/crates.txt"), f"low: std\n{two_ways.NAME}: {two_ways.BELOW}\n")
            self.assertEqual(os.listdir(f"{room}/work/crates/low"), [])
            made = {f"{it}.txt" for it in os.listdir(f"{room}/work/crates/{two_ways.NAME}/src")}
            self.assertEqual(made, set(os.listdir(two_ways.TEXTS)))


if __name__ == "__main__":
    unittest.main()
