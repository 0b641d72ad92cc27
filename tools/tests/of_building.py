"""How far a build is: what is read of the pages, what is left of a plan, and what is said."""
import contextlib
import io
import os
import sys
import unittest

ROOT = os.path.realpath(f"{os.path.dirname(os.path.realpath(__file__))}/../..")
sys.path.insert(0, f"{ROOT}/tools")
import building
from bodies import read

GATE = """<!-- budget -->

| Crate | Million nodes | Crate | Million nodes |
| --- | --- | --- | --- |
| tests of low | 34.54 | `low` | 11.00 |
| `mid` | 29.92 | `side` | 8.80 |

<!-- end of budget -->

| Part | Processor | By the clock |
| `low` | 99.00 | 9.0 |
"""
BELOW = {"low": [], "side": [], "mid": ["low", "std"], "top": ["mid", "side"]}
MINUTES = {"low": 5.0, "mid": 13.6, "side": 4.0}


class Pages(unittest.TestCase):
    def test_minutes_are_those_of_the_crates(self):
        self.assertEqual({it: round(minutes, 1) for it, minutes in building.minutes_in(GATE).items()}, MINUTES)

    def test_the_range_is_the_row_of_the_build(self):
        page = "| `./kaltewi build`, once | 153 | less than 89 minutes | over 76 minutes |\n"
        self.assertEqual(building.range_in(page), "less than 89 minutes on four cores, over 76 minutes on two")
        self.assertEqual(building.range_in("# nothing"), "an hour or more")

    def test_the_readme_of_this_checkout_has_it(self):
        self.assertIn("on four cores", building.range_in(read(f"{ROOT}/README.md")))


class Plans(unittest.TestCase):
    def plan(self):
        return building.Plan(BELOW, MINUTES)

    def test_the_longest_chain_is_left(self):
        self.assertAlmostEqual(self.plan().left({}, 4), 5.0 + 13.6 + building.UNKNOWN)
        self.assertAlmostEqual(self.plan().left({"low": 5.0, "mid": 10.0}, 4), 4.0 + building.UNKNOWN)

    def test_few_processors_take_longer_than_the_chain(self):
        self.assertAlmostEqual(self.plan().left({}, 1), 5.0 + 13.6 + 4.0 + building.UNKNOWN)

    def test_the_pace_is_that_of_the_run(self):
        worked = {"low": 5.0}
        self.assertAlmostEqual(self.plan().guess(worked, set(), 4, 10.0), 2 * (13.6 + building.UNKNOWN))
        self.assertIsNone(self.plan().guess({}, set(), 4, 10.0))

    def test_what_was_proved_before_makes_no_pace(self):
        worked = {"low": 5.0, "mid": 5.0}
        self.assertAlmostEqual(self.plan().guess(worked, {"low"}, 4, 5.0), 8.6 + building.UNKNOWN)


class NoWatch:
    taken = {}


class Sayings(unittest.TestCase):
    def said(self, *lines):
        progress, stream = building.Progress(building.Plan(BELOW, MINUTES), NoWatch(), 4), io.StringIO()
        with contextlib.redirect_stderr(stream):
            for line in lines:
                progress.take(f"{line}\n")
        return stream.getvalue().splitlines(), progress

    def test_each_crate_is_told_once(self):
        said, progress = self.said("rt: low is kept: an earlier run has it", "== mid", "rt: mid proved", "rt: mid: its tests are proved", "rt: other proved")
        self.assertEqual(said[0], "kaltewi: low was proved before: 1 of 4 crates are proved, after 0.0 minutes")
        self.assertTrue(said[1].startswith("kaltewi: mid is proved: 2 of 4 crates are proved, after 0.0 minutes; some "))
        self.assertEqual((len(said), progress.known), (2, {"low"}))

    def test_what_is_not_proved_is_told_whole(self):
        said, _ = self.said("== low", "fine", "rt: low proved", "== mid", "a goal", "rt: mid NOT PROVED")
        self.assertEqual(said[1:], ["== mid", "a goal", "rt: mid NOT PROVED"])


if __name__ == "__main__":
    unittest.main()
