"""The figures of docs/GATE.md, as they are read from what ./check says, and those of docs/BENCHMARKS.md from what the benchmarks print."""
import importlib.machinery
import importlib.util
import os
import unittest

ROOT = os.path.realpath(f"{os.path.dirname(os.path.realpath(__file__))}/../..")


def loaded(path):
    """A script without an ending, as a module."""
    loader = importlib.machinery.SourceFileLoader(os.path.basename(path), f"{ROOT}/{path}")
    module = importlib.util.module_from_spec(importlib.util.spec_from_loader(loader.name, loader))
    loader.exec_module(module)
    return module


gate_table, benchmarks, workspace = loaded("tools/gate_table"), loaded("benchmarks/run"), loaded("tools/workspace")
beside, dear = loaded("benchmarks/beside"), loaded("tools/dear")
import proving

SAID = """ok      805 wrong bodies apply, 43 of them central
        rt_tree proved
ok      rt ci (69.6 processor minutes, 35.4 by the clock)
        of these: rt_calls 14.0, tests of rt_tests 1.9, the rest 0.4
        nodes: rt_calls 14000000, tests of rt_tests 1900000
FAILED  central wrong bodies refused: not judged: rt_tree/x (9.5 processor minutes, 5.5 by the clock)
in all 82.2 processor minutes, 45.5 by the clock
43 passed, 1 failed
"""


MODULES = """12.0 Rattle-rt_map-proofs.row.Row.get_mut.Lts.oantt 3.10 900
10.0 Rattle-rt_map-specs.contracts.row.oantt 1.00 50
15.5 Rattle-rt_map-proofs.row.Row.get_mut.Proof.oantt 5.00 100
16.0 Rattle-rt_map-proofs.tree.+put.Lts-Tree-put_at-2-0.oantt 5.60 70
16.2 Rattle-rt_map-proofs.tree.+put.Tie.oantt 5.70 30
"""


class Dear(unittest.TestCase):
    def test_what_a_module_took_is_its_functions(self):
        whole, found = dear.table(MODULES.splitlines(), 3)
        self.assertAlmostEqual(whole, 6.2)
        self.assertEqual([it for _, _, it, _ in found], ["row.Row.get_mut", "tree.+put:Tree-put_at", "tree.+put"])
        self.assertEqual(found[0][:2], (5.5, 1000))
        self.assertEqual(found[0][3], {"Lts": 2.0, "Proof": 3.5})

    def test_a_crate_has_its_line(self):
        whole, line = dear.row("rt_map", MODULES.splitlines())
        self.assertAlmostEqual(whole, 6.2)
        self.assertEqual(line, "| `rt_map` | 6 | 100 | `Row::get_mut` 6, `Tree::put_at` 0, `+put` 0 |\n")


class Figures(unittest.TestCase):
    def test_parts(self):
        found, crates = gate_table.parts(SAID)
        self.assertEqual([it[1:] for it in found], [("69.6", "35.4"), ("9.5", "5.5"), ("82.2", "45.5")])
        self.assertEqual([found[0][0], found[-1][0]], ["rt ci", "in all"])
        self.assertEqual(crates, [("rt_calls", "14.0"), ("tests of rt_tests", "1.9"), ("the rest", "0.4")])

    def test_page(self):
        page = f"# It\n\n{gate_table.BEGIN}old\n{gate_table.END}\nmore\n"
        text = gate_table.replaced(page, gate_table.figures(SAID, "Here, then"))
        self.assertNotIn("old", text)
        self.assertTrue(text.startswith("# It\n\n") and text.endswith("\nmore\n"))
        for it in ("Here, then", "| rt ci | 69.6 | 35.4 |"):
            self.assertIn(it, text)
        self.assertEqual(gate_table.replaced(text, gate_table.figures(SAID, "Here, then")), text)

    def test_what_the_commands_take(self):
        below = {"rt_low": [], "rt_other": [], "rt_mid": ["rt_low"], "rt_console": ["rt_mid"]}
        said = SAID.replace("rt_calls 14.0, tests of rt_tests 1.9", "rt_console 5.3, rt_other 9.0, rt_mid 20.0, tests of rt_low 1.9")
        rows = gate_table.rows_of(said, below)
        self.assertEqual(rows["./kaltewi build"], ["27", "less than 36 minutes", "over 13 minutes"])
        self.assertEqual(rows["./check"], ["82", "46 minutes", "over 41 minutes"])
        on_two = gate_table.rows_of(said, below, SAID.replace("35.4 by", "55.9 by").replace("45.5 by", "74.6 by"))
        self.assertEqual([it[2] for it in on_two.values()], ["less than 56 minutes", "75 minutes"])
        self.assertEqual([it[:2] for it in on_two.values()], [it[:2] for it in rows.values()])
        page = "| `./kaltewi build`, once | 49 | x | y |\n| `./check` | 1 | 2 | 3 |\n"
        due = "| `./kaltewi build`, once | 27 | less than 36 minutes | over 13 minutes |\n| `./check` | 82 | 46 minutes | over 41 minutes |\n"
        self.assertEqual(gate_table.with_rows(page, rows), due)
        with self.assertRaises(ValueError):
            gate_table.with_rows(page.replace("./check", "./other"), rows)

    def test_budget(self):
        taken = gate_table.nodes(SAID)
        self.assertEqual(taken, {"rt_calls": 14.0, "tests of rt_tests": 1.9})
        page = f"# It\n\n{proving.BEGIN}\n| Crate |  |\n| --- | --- |\n| `rt_tree` | 2.50 | `rt_gone` | 3.00 |\n\n{proving.END}\nmore\n"
        text = gate_table.budget(page, taken, ["rt_calls", "rt_tests", "rt_tree"])
        self.assertEqual(proving.budget_in(text), {"rt_calls": 14.0, "tests of rt_tests": 1.9, "rt_tree": 2.5})
        self.assertIn("| `rt_calls` | 14.00 | tests of rt_tests | 1.90 |\n| `rt_tree` | 2.50 |  |  |\n", text)
        self.assertEqual(gate_table.budget(text, {}, ["rt_calls", "rt_tests", "rt_tree"]), text)

    def test_what_says_nothing(self):
        with self.assertRaises(ValueError):
            gate_table.figures("43 passed, 0 failed\n", "Here")
        with self.assertRaises(ValueError):
            gate_table.replaced("# It\n", "text")


class Benchmarks(unittest.TestCase):
    PRINTED = "proving and building\nµs a touch   |   100 | last/first\nall by key   |  1.30 |       1.38\n"

    def test_table(self):
        due = "| µs a touch | 100 | last/first |\n| --- | --- | --- |\n| all by key | 1.30 | 1.38 |\n"
        self.assertEqual(benchmarks.table(self.PRINTED), due)
        for it in ("proving and building\n", self.PRINTED + "a | b\n", self.PRINTED + "all |  | 1.38\n", self.PRINTED + "all | 1.3 |\n"):
            with self.assertRaises(ValueError):
                benchmarks.table(it)

    def test_page_has_a_place_for_each_part(self):
        page = benchmarks.read(benchmarks.PAGE)
        for it in [*benchmarks.PARTS, "machine"]:
            text = benchmarks.replaced(page, it, "| figures |\n")
            self.assertIn(f"<!-- {it} -->\n\n| figures |\n\n<!-- end of {it} -->\n", text)
            self.assertTrue(it == "machine" or os.access(f"{ROOT}/benchmarks/{it}", os.X_OK))
        with self.assertRaises(ValueError):
            benchmarks.replaced(page, "nothing", "")


class Beside(unittest.TestCase):
    def test_tables_are_filled(self):
        page = benchmarks.read(benchmarks.PAGE)
        for part, name, costs in (("beside", "plain", [(4.95, 0.66), (6.11, 1.31)]), ("beside_texts", "read", [(520, 383)])):
            lines = [beside.line_of(beside.HEADS[part]), beside.line_of(beside.cells(name, 100, costs))]
            text = benchmarks.table("\n".join(lines))
            self.assertIn(f"| {name} | 100 |", text)
            self.assertIn(text, benchmarks.replaced(page, part, text))
        self.assertEqual(beside.cells("read", 100, [(520, 383)]), ["read", "100", "520", "383", "1.4"])


class Workspaces(unittest.TestCase):
    CRATES = {"low": ["serde_json"], "beside": [], "mid": ["low", "thiserror"], "high": ["mid"]}

    def test_below(self):
        self.assertEqual(workspace.below(["mid"], self.CRATES), ["low", "mid"])
        self.assertEqual(workspace.below(["high", "beside"], self.CRATES), ["low", "beside", "mid", "high"])

    def test_flags(self):
        found = workspace.flags(["mid"], self.CRATES, "/top")
        self.assertEqual(found[:4], ["-L", "dependency=/top/crates/low/out/rlib", "-L", "dependency=/top/crates/mid/out/rlib"])
        self.assertEqual(found[4:], ["--extern", "mid=/top/crates/mid/out/rlib/mid.rlib"])


if __name__ == "__main__":
    unittest.main()
