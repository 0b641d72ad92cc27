"""The gate's own parts: what they read of crates.txt, README.md, rt ci and planted bodies, and what they count."""
import importlib.machinery
import importlib.util
import io
import os
import shutil
import sys
import tempfile
import unittest

ROOT = os.path.realpath(f"{os.path.dirname(os.path.realpath(__file__))}/../..")
sys.path[:0] = [f"{ROOT}/tools/sessions", f"{ROOT}/tools"]
import beside
import bodies
import judging
import lacking
import parts
import planting
import proving
import record
import rows
import texts
import workspaces

LOADER = importlib.machinery.SourceFileLoader("judge", f"{ROOT}/tools/judge")
judge = importlib.util.module_from_spec(importlib.util.spec_from_loader("judge", LOADER))
LOADER.exec_module(judge)

CRATES = """# lowest first
low: serde_json
mid may_wait=2: low thiserror  # a comment
high: mid

"""
README = """# It

```
high: mid
```

```rust
fn main() {}
```

```rust
fn other() {}
```
"""


class Gate(unittest.TestCase):
    def test_crates(self):
        below = parts.crates_in(CRATES)
        self.assertEqual(below, {"low": ["serde_json"], "mid": ["low", "thiserror"], "high": ["mid"]})
        self.assertEqual(judging.wanted(["mid"], below), ["mid", "high"])
        self.assertEqual(judging.wanted([], below), ["low", "mid", "high"])

    def test_readme(self):
        sources = {"high": "// It.\nfn main() {}\n", "mid": "fn other() {}\n"}
        self.assertEqual(texts.wrong_of_readme(README, CRATES, sources), ["mid lacks its line of crates.txt"])
        sources = {"high": "fn main() {}\n"}
        self.assertEqual(texts.wrong_of_readme(README, CRATES, sources), ["fn other() {} is not so in a program"])
        sources = {"high": "fn main() {}\nfn other() {}\n", "low": ""}
        self.assertEqual(texts.wrong_of_readme(README, CRATES, sources), ["low is not shown", "low lacks its line of crates.txt"])

    def test_guide(self):
        guide = "```rust\nfn main() {}\n```\n```text\ndone\n```\n"
        self.assertEqual(texts.wrong_of_guide(guide, ["fn main() {}\n"], ["done\n"]), [])
        self.assertEqual(texts.wrong_of_guide(guide, ["fn low() {}\n"], ["done\n"]), ["fn main() {} is not so in a program"])
        self.assertEqual(texts.wrong_of_guide(guide, ["fn main() {}\n"], ["failed\n"]), ["done is not so in what is printed"])
        self.assertEqual(texts.wrong_of_guide("```\ndone\n```\n" + guide, ["fn main() {}\n"], ["done\n"]), ["a block of kind '' is compared with nothing"])
        self.assertEqual(texts.wrong_of_guide("", [], []), ["nothing is shown in a program", "nothing is shown in what is printed"])

    def test_refusals(self):
        source = 'pub enum Lost {\n    /// A doc.\n    #[error("late by {LATE} ms")]\n    Late,\n    #[error("code {}: {0}", .0.code)]\n    Closed(u8),\n}\n'
        refusals = texts.refusals_of("Lost", source, {"LATE": "9"})
        self.assertEqual(refusals, {"Lost::Late": "late by 9 ms", "Lost::Closed": "code ..: .."})
        guide = "| `Lost::Late` | late by 9 ms | where it is slow |\n| `Lost::Closed` | code ..: .. | at the end |\n"
        self.assertEqual(texts.wrong_of_refusals(guide, refusals), [])
        self.assertEqual(texts.wrong_of_refusals(guide.replace("9", "8"), refusals), ["Lost::Late says 'late by 9 ms'"])
        self.assertEqual(texts.wrong_of_refusals(guide.splitlines()[0], refusals), ["Lost::Closed is not shown"])
        self.assertEqual(texts.wrong_of_refusals(guide + guide.splitlines()[0], refusals), ["Lost::Late is shown twice"])
        self.assertEqual(texts.wrong_of_refusals(guide + "| `Lost::Gone` | it went | never |\n", refusals), ["Lost::Gone says ''"])

    def test_sdk(self):
        names = "# A comment.\nfunctions: get set\nfunctions: push\n"
        self.assertEqual(texts.wrong_of_sdk("`get`, `set(..)` and `push`", names), ([], ["get", "set", "push"]))
        self.assertEqual(texts.wrong_of_sdk("`get`, `settle` and push", names)[0], ["set is missing", "push is missing"])

    def test_last_line(self):
        self.assertEqual(parts.counts_in("27 passed, 0 failed\n"), (27, 0))
        self.assertEqual(parts.counts_in("rt: 27 passed, 0 failed\n"), None)
        self.assertEqual(parts.counts_in(""), None)

    def test_nodes(self):
        def mapping(begin, end, kind):
            return f"{begin:x}-{end:x} {kind} 00000000 00:00 0 \n"

        begin, opened, whole = 2**20, 2**26, proving.NODE * proving.ROOM
        arena = mapping(begin, begin + opened, "rw-p") + mapping(begin + opened, begin + whole, "---p")
        other = mapping(2**19, 2**19 + opened, "rw-p")
        pages = proving.arena_in(other + arena)
        self.assertEqual((pages[0], len(pages)), (begin // proving.A_PAGE, opened // proving.A_PAGE))
        self.assertEqual(len(proving.arena_in(other)), 0)
        self.assertEqual(len(proving.arena_in(arena.replace("---p", "r--p"))), 0)
        for written in (0, 1, 125, len(pages)):
            said = bytes(8) * pages[0] + (bytes(7) + b"\x80") * written + bytes(8) * (len(pages) - written)
            self.assertEqual(proving.nodes_in(pages, io.BytesIO(said)), written * proving.A_PAGE // proving.NODE)
        self.assertEqual(proving.nodes_in(pages, io.BytesIO()), 0)

    def test_budget(self):
        budget = {"low": 1.0, "tests of low": 2.0}
        self.assertEqual(list(proving.over_budget({"low": 1_100_000, "tests of low": 1_000_000}, budget)), [])
        self.assertEqual(list(proving.over_budget({"low": 1_120_000}, budget)), ["low takes 1.12 million nodes, 12 % more than its 1.00"])
        self.assertEqual(list(proving.over_budget({"mid": 500_000}, budget)), ["mid has no line, and takes 0.50 million nodes"])
        self.assertEqual(list(proving.over_budget({"mid": 400_000}, budget)), [])
        self.assertEqual([proving.lanes(4, it * proving.GB) for it in (3, 12, 64)], [1, 2, 4])

    def test_what_a_check_of_some_crates_proves(self):
        below = parts.crates_in(CRATES)
        self.assertEqual(parts.with_below(["mid"], below), ["low", "mid"])
        self.assertEqual(parts.libraries_of("high", below), ["mid", "low"])

    def test_what_runs_beside(self):
        with tempfile.TemporaryDirectory() as room:
            it = beside.Beside.__new__(beside.Beside)
            it.proved = f"{room}/repository.proved"
            open(it.proved, "w", encoding="utf-8").close()
            it.told("rt: low proved\n")
            it.told("rt: mid is kept: an earlier run on this machine proved the same files over the same libraries\n")
            it.told("rt: high NOT PROVED\n")
            it.tell(beside.ENDED)
            self.assertEqual(beside.until(f"{room}/repository", ["low", "mid", "high"]), ["high"])

    def test_programs_that_stand_as_texts(self):
        self.assertEqual(workspaces.place_of("main.rt.txt"), "src/main.rt")
        self.assertEqual(workspaces.place_of("trees.sorted.antt.txt"), "proofs/trees/sorted/Answers.antt")
        self.assertEqual(workspaces.place_of("stdout"), "stdout")
        for name in workspaces.examples():
            self.assertTrue(workspaces.line_of(name).startswith(name) and workspaces.texts_of(name), name)
        self.assertLessEqual(set(workspaces.IN_GATE), set(workspaces.examples()))

    def test_a_verdict_is_kept_by_what_it_stands_on(self):
        edit, table = judging.edits_of("rt_tree")[0], parts.crates()
        names = {record.name_of(ROOT, edit, table)}
        with tempfile.TemporaryDirectory() as room:
            for it in ("tools", "HANDLES", "crates/rt_map", "crates/rt_tree"):
                os.makedirs(os.path.dirname(f"{room}/{it}"), exist_ok=True)
                copy = shutil.copytree if os.path.isdir(f"{ROOT}/{it}") else shutil.copy
                copy(f"{ROOT}/{it}", f"{room}/{it}")
            names.add(record.name_of(room, edit, table))
            self.assertEqual(len(names), 1)
            bodies.write(f"{room}/crates/rt_map/src/more.rt", "// more\n")
            record.crate_sum.cache_clear()
            self.assertNotIn(record.name_of(room, edit, table), names)
            self.assertNotIn(record.name_of(ROOT, judging.edits_of("rt_tree")[1], table), names)

    def test_what_a_process_works_on(self):
        kind_of = proving.Watch.kind_of
        self.assertEqual(kind_of(["rattle", "check", "--crate-name", "low", "src/lib.rt"], "the rest"), "low")
        self.assertEqual(kind_of(["rattle", "--crate-name", "low", "-o", "out/low_tests.o"], "the rest"), "tests of low")
        self.assertEqual(kind_of(["clang", "--crate-name"], "low"), "low")

    def test_which_are_refused(self):
        self.assertEqual(list(lacking.numbers_of(3)), [1, 2, 3])
        self.assertEqual(len(lacking.numbers_of(lacking.MOST + 1)), lacking.SOME + 1)
        self.assertEqual(list(lacking.numbers_of(0)), [])

    def test_how_many_are_unsaid(self):
        self.assertEqual([lacking.is_as_many(it, 2, False) for it in (1, 2, 3)], [False, True, False])
        self.assertEqual([lacking.is_as_many(it, 2, True) for it in (1, 2, 3)], [True, True, False])

    def test_how_copies_ended(self):
        put = lacking.END.pack
        data = put(1, 2, 1, 1, 2) + b"cno" + put(2, lacking.SAME, 0, 0, 0) + put(3, lacking.WHOLE, 0, 0, 0)
        ended = (1, b"abc", b"no")
        self.assertEqual(list(lacking.ends_in(data, b"abxx")), [(1, ended), (2, ended), (3, None)])

    def test_a_row_of_calls_says_once_that_memory_lacks(self):
        row = rows.Row("tests/calls/low/tree_children")
        whole = row.out
        self.assertTrue(lacking.told_by_calls(row, (0, b"NoMemory\n" + whole, b"")))
        self.assertFalse(lacking.told_by_calls(row, (0, whole, b"")))
        self.assertFalse(lacking.told_by_calls(row, (0, b"NoMemory\n" + whole[:-2], b"")))
        self.assertTrue(lacking.told_by_calls(row, (lacking.STOPPED, whole[:20] + b"NoMemory\n", b"")))
        self.assertFalse(lacking.told_by_calls(row, (lacking.STOPPED, b"x" + b"NoMemory\n", b"")))
        self.assertFalse(lacking.told_by_calls(row, (lacking.STOPPED, whole[:20], b"")))

    def test_not_refused(self):
        class Named:
            name = "low/it"

        self.assertEqual(judging.not_refused({Named: bodies.REFUSED}), "")
        self.assertEqual(judging.not_refused({Named: bodies.OPEN}), "")
        self.assertEqual(judging.not_refused({Named: bodies.ANSWER}), "refused only by an answer: low/it")
        self.assertEqual(judging.not_refused({Named: bodies.UNTOLD}), "not judged: low/it")

    def test_listed(self):
        class Named:
            name = "low/it"

        open_one = bodies.Verdict(bodies.OPEN, {"returns": "x" * 500, "returns-then": ""})
        lines = list(judging.listed({Named: open_one}, bodies.OPEN, "said less"))
        self.assertEqual(lines, ["1 said less:", "  low/it", f"    returns: {'x' * judging.MOST_OF_A_GOAL}", "    returns-then"])
        self.assertEqual(list(judging.listed({Named: open_one}, bodies.ANSWER, "said less")), ["0 said less"])
        self.assertEqual(judging.not_refused({Named: open_one}), "")

    def test_which_are_judged(self):
        edits = judging.edits_of("rt_push")
        found, strange = judge.chosen(["rt_push", "rt_mail/no_such"], edits)
        self.assertEqual((found, strange), (edits, ["rt_mail/no_such"]))
        self.assertEqual([it.name for it in judge.chosen([edits[0].name], edits)[0]], [edits[0].name])
        with tempfile.TemporaryDirectory() as room:
            self.assertEqual(judge.why_not(edits, [], room), "")
            self.assertEqual(judge.why_not(judging.edits_of("rt_order")[:1], ["x"], room), "no wrong body: x\nnot built: rt_map, rt_tree")

    def test_how_they_are_told(self):
        edit = judging.edits_of("rt_push")[0]
        self.assertEqual(list(judge.lines_of(edit, bodies.Verdict(bodies.REFUSED, {"returns": ""}))), [f"REFUSED  {edit.name}"])
        self.assertEqual(list(judge.lines_of(edit, bodies.Verdict(bodies.OPEN, {"returns": "a ≡ b"}))), [f"OPEN     {edit.name}", "    returns: a ≡ b"])

    def test_not_built(self):
        below = parts.crates_in(CRATES)
        with tempfile.TemporaryDirectory() as room:
            self.assertEqual(judging.not_built(room, "high", below), ["mid", "low"])
            os.makedirs(f"{room}/crates/mid/out/rlib")
            self.assertEqual(judging.not_built(room, "high", below), ["low"])
            os.makedirs(f"{room}/crates/low/out/rlib")
            self.assertEqual(judging.not_built(room, "high", below), [])

    def test_plants(self):
        with tempfile.TemporaryDirectory() as room:
            os.makedirs(f"{room}/low")
            bodies.write(f"{room}/low/it.edit", "fails: tests/rows/a low/test\nfile: src/lib.rt\nold: a\nnew: b\n")
            [plant] = planting.plants_in(room)
        self.assertEqual((plant.name, plant.crate, plant.rows), ("low/it", "low", ["tests/rows/a", "low/test"]))
        self.assertEqual(plant.pairs, [("src/lib.rt", "a", "b")])

    def test_each_plant_applies(self):
        plants = planting.plants_in(planting.PLANTS)
        self.assertEqual([planting.why_not(it) for it in plants], [""] * len(plants))
        self.assertTrue(plants)

    def test_what_a_try_of_tests_says(self):
        said = "test seats::two_seats_meet ... ok\ntest threads::it ... FAILED\nrun=ended status=1 proved=no\n"
        self.assertEqual(planting.ended_of(said, "two_seats_meet"), "ok")
        self.assertEqual(planting.ended_of(said, "it"), "FAILED")
        self.assertEqual(planting.ended_of(said, "meet"), None)


if __name__ == "__main__":
    unittest.main()
