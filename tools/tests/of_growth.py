"""The growth of the worst scripts: which counts are let through and which are not, and that docs/COSTS.md has each script."""
import os
import re
import sys
import unittest
from unittest import mock

ROOT = os.path.realpath(f"{os.path.dirname(os.path.realpath(__file__))}/../..")
sys.path[:0] = [f"{ROOT}/tools/sessions", f"{ROOT}/tools"]
import growth
from bodies import read

# What valgrind says behind a run.
LOG = "==7== Command: it\n==7== \n==7== I   refs:      1,234,567\n"


class Growth(unittest.TestCase):
    def wrong(self, name, low, high):
        """What is wrong with a script of which that many instructions are counted at its two sizes."""
        counts = dict(zip(growth.KINDS[name][2], (low, high)))
        with mock.patch.object(growth, "counts_of", return_value=counts):
            return growth.wrong_of("program", "room", name)

    def test_as_the_size(self):
        self.assertEqual(self.wrong("entries", 1_000_000, 8_000_000), "")
        self.assertEqual(self.wrong("entries", 1_000_000, 12_700_000), "")

    def test_a_planted_square(self):
        self.assertEqual(self.wrong("entries", 1_000_000, 64_000_000), "entries: from 200 to 1600 the instructions grow 64.0 times, more than 12.8")
        self.assertIn("grow 13.0 times", self.wrong("runs", 1_000_000, 13_000_000))

    def test_those_that_grow_by_more(self):
        self.assertEqual(self.wrong("ends", 1_000_000, 64_000_000), "")
        self.assertIn("more than 102.4", self.wrong("ends", 1_000_000, 512_000_000))
        self.assertEqual(self.wrong("ranges", 1_000_000, 64_000_000), "")

    def test_what_is_not_done_fails(self):
        with mock.patch.object(growth, "counts_of", side_effect=growth.Wrong("2 of 3 lines are done")):
            self.assertEqual(growth.wrong_of("program", "room", "entries"), "entries: 2 of 3 lines are done")

    def test_what_valgrind_says(self):
        self.assertEqual(growth.instructions_in(LOG), 1_234_567)

    def test_scripts_have_their_size(self):
        for name, (makes, _, _) in growth.KINDS.items():
            made = [len(str(makes(size)[0] if makes in growth.SESSIONS else list(makes(size)))) for size in (10, 80)]
            self.assertTrue(6 < made[1] / made[0] < 9, f"{name}: {made}")
        self.assertEqual(sorted(growth.by_chance(9)), list(range(1, 10)))

    def test_the_page_has_each(self):
        rows = re.findall(r"(?m)^\| `(\w+)` \| [^|]+ \| (\d) \| [\d,]+ \| [\d,]+ \| \d\.\d\d \|$", read(f"{ROOT}/docs/COSTS.md"))
        self.assertEqual([(name, int(power)) for name, power in rows], [(name, power) for name, (_, power, _) in growth.KINDS.items()])


if __name__ == "__main__":
    unittest.main()
