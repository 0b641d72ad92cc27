"""The picture of the way of a step: which functions are there, which way an arrow goes, and when the picture is not current."""
import os
import sys
import tempfile
import unittest

ROOT = os.path.realpath(f"{os.path.dirname(os.path.realpath(__file__))}/../..")
sys.path.insert(0, f"{ROOT}/tools")
import way

SOURCE = """pub struct Core {
}

impl Core {
    pub fn apply(&mut self) {
    }
}

struct Guests<S> {
}

impl<S: Drop> Guests<S> {
    fn turn(&mut self) {
    }
}

// fn said
pub(crate) fn push_all() {
}
"""


class Way(unittest.TestCase):
    def room(self):
        room = tempfile.TemporaryDirectory()
        self.addCleanup(room.cleanup)
        os.makedirs(f"{room.name}/crates/rt_low/src")
        os.makedirs(f"{room.name}/docs")
        with open(f"{room.name}/crates/rt_low/src/lib.rt", "w", encoding="utf-8") as it:
            it.write(SOURCE)
        return room.name

    def test_functions(self):
        room = self.room()
        for it in ("rt_low::Core::apply", "rt_low::Guests::turn", "rt_low::push_all"):
            self.assertTrue(way.is_there(room, it), it)
        for it in ("rt_low::Core::turn", "rt_low::Lost::apply", "rt_low::apply", "rt_low::said", "rt_other::push_all"):
            self.assertFalse(way.is_there(room, it), it)

    def test_arrows(self):
        shape = lambda it: "".join(letter for letter in way.arrow(it) if letter in "MHV")
        self.assertEqual([shape(it) for it in ("call>request", "push>data", "request>views", "data>views", "views>ring")], ["MH", "MH", "MV", "MV", "MHV"])
        ways = " ".join(its for _, its in way.WAYS.values())
        self.assertEqual({it for one in ways.split() for it in one.split(">")}, set(way.BOXES))

    def test_current(self):
        room = self.room()
        wrong, count = way.wrong_of(room)
        self.assertEqual(count, len(way.functions()))
        self.assertEqual(len(wrong), count + 1)
        self.assertEqual(wrong[0], f"docs/way.svg names {way.functions()[0]}, which is in no source")
        self.assertEqual(wrong[-1], "docs/way.svg is not what tools/way.py --write writes")
        with open(f"{room}/docs/way.svg", "w", encoding="utf-8") as it:
            it.write(way.picture())
        self.assertEqual(len(way.wrong_of(room)[0]), count)


if __name__ == "__main__":
    unittest.main()
