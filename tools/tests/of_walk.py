"""The functions of a step: which count, in which file they stand, and the sums. What gdb does is seen by hand."""
import importlib.machinery
import importlib.util
import os
import sys
import tempfile
import unittest

ROOT = os.path.realpath(f"{os.path.dirname(os.path.realpath(__file__))}/../..")
sys.path.insert(0, f"{ROOT}/tools")
loader = importlib.machinery.SourceFileLoader("walk", f"{ROOT}/tools/walk")
walk = importlib.util.module_from_spec(importlib.util.spec_from_loader("walk", loader))
loader.exec_module(walk)

FOUND = [
    (0, "rt_low::Core::apply"),
    (1, "rt_low::map::Map::get::<17'rt_low::key::Key,#25edf74d7d91f0dc>"),
    (2, "rt_low::map::find::<#25edf74d7d91f0dc>"),
    (1, "rt_low::map::Map::get::<#3d5ca39304a10dab>"),
    (1, "rt_high::steps::writes::State::write"),
]


class Walk(unittest.TestCase):
    def room(self):
        room = tempfile.TemporaryDirectory()
        self.addCleanup(room.cleanup)
        for file in ("rt_low/src/lib.rt", "rt_low/src/map.rt", "rt_high/src/steps.rt", "rt_high/src/steps/writes.rt"):
            os.makedirs(os.path.dirname(f"{room.name}/crates/{file}"), exist_ok=True)
            with open(f"{room.name}/crates/{file}", "w", encoding="utf-8"):
                pass
        return room.name

    def test_a_function_of_several_types_counts_once(self):
        lines = walk.told(FOUND, self.room())
        self.assertEqual(lines[0], "crates/rt_low/src/lib.rt: Core::apply")
        self.assertEqual(lines[1:3], ["crates/rt_low/src/map.rt:   map::Map::get", "crates/rt_low/src/map.rt:     map::find"])
        self.assertEqual(lines[3], "crates/rt_high/src/steps/writes.rt:   steps::writes::State::write")
        self.assertEqual(lines[4:6], ["rt_low: 3 functions in 2 files", "rt_high: 1 functions in 1 files"])
        self.assertEqual(lines[6:], ["4 functions in 3 files of 2 crates"])

    def test_what_counts(self):
        for name, counts in (
            ("rt_low::map::find", True),
            ("rt_low::map::find::<19'std::heap::Global>", True),
            ("std::vec::Vec::push::<rt_low::key::Key>", False),
            ("rt_low::Destruct++tuple2::drop::<#0be029b66d2ccbac>", False),
            ("rt_low::laws::steady_law", False),
            ("rt_low::map::fn::find::partition_point", False),
            ("rt_low::map::fn::find::partition_point+FnMut::call_mut::<#0be029b66d2ccbac>", False),
        ):
            self.assertEqual(walk.is_counted(name, {"rt_low"}), counts, name)


if __name__ == "__main__":
    unittest.main()
