"""Which calls tools/comments.py finds to be for the prover alone, and which of them it says lack their words."""
import os
import sys
import unittest

sys.path.insert(0, os.path.realpath(f"{os.path.dirname(os.path.realpath(__file__))}/.."))
import comments

SAID = """fn made() {
    // For the prover: what holds at first,
    // and after.
    some_law();
    rt_low::other_laws();
    let _ = path.keys();
    make();
}
"""


class Comments(unittest.TestCase):
    def test_what_is_for_the_prover(self):
        for line, due in (
            ("    some_law();", True),
            ("    rt_low::some_laws();", True),
            ("    some_law::<K>();", True),
            ("    let _ = path.keys();", True),
            ("    let _is_path = entry.0.keys();", True),
            ("    make();", False),
            ("    let keys = path.keys();", False),
            ("pub fn some_law()", False),
            ("    let _has_failed = self.state.is_none();", True),
            ("    let _ = socket.flush();", False),
        ):
            self.assertEqual(comments.is_for_prover(line), due, line)

    def test_one_comment_does_for_calls_that_follow(self):
        self.assertEqual(list(comments.unsaid(SAID)), [])
        self.assertEqual(list(comments.unsaid(SAID.replace("    rt_low", "    core.holds();\n    rt_low"))), [])

    def test_calls_without_the_words(self):
        self.assertEqual(list(comments.unsaid(SAID.replace("For the prover", "For us"))), [4, 5, 6])
        self.assertEqual(list(comments.unsaid(SAID.replace("    rt_low", "    let n = 1;\n    rt_low"))), [6, 7])

    def test_a_function_that_is_whole_for_the_prover(self):
        text = "    // For the prover: what holds.\n    fn holds(&self)\n    {\n        let _is_left = self.state.is_none();\n    }\n"
        self.assertEqual(list(comments.unsaid(text)), [])
        self.assertEqual(list(comments.unsaid(text.replace("For the prover", "For us"))), [4])


if __name__ == "__main__":
    unittest.main()
