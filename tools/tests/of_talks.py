"""The lines of a talk, as tools/sessions/talking.py reads them."""
import os
import sys
import unittest

HERE = os.path.dirname(os.path.realpath(__file__))
sys.path[:0] = [f"{HERE}/..", f"{HERE}/../sessions"]
from cutting import Wrong
import workspaces
from talking import lines_of, talks


class Talks(unittest.TestCase):
    def test_a_line_has_a_name_a_kind_and_a_text(self):
        text = "# a talk\nemulate --deny /a\nann$ example_rooms PORT\nann< hi: you\nann>\nann! no\nann.\n"
        lines = [("ann", "$", "example_rooms PORT"), ("ann", "<", "hi: you"), ("ann", ">", ""), ("ann", "!", "no"), ("ann", ".", None)]
        self.assertEqual(lines_of(text), (["--deny", "/a"], lines))

    def test_no_line_is_passed_over(self):
        for text in ("", "ann< hi", "emulate\n", "emulate\nann hi", "emulate\n> hi", "emulate\nann.."):
            with self.subTest(text), self.assertRaises(Wrong):
                lines_of(text)

    def test_each_talk_starts_programs_of_the_repository_and_ends_them(self):
        for name, text in talks().items():
            with self.subTest(name):
                lines = lines_of(text)[1]
                self.assertLessEqual({it.split()[0] for _, kind, it in lines if kind == "$"}, set(workspaces.examples()))
                self.assertEqual(sorted(it for it, kind, _ in lines if kind == "$"), sorted(it for it, kind, _ in lines if kind == "."))


if __name__ == "__main__":
    unittest.main()
