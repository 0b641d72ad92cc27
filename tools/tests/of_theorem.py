"""The page of the theorem: what its script reads of a file of definitions, put together, is that file, and so is what it prints but for proofs;
the page has of each file whole definitions alone; and a type of Rust loses no word."""
import glob
import os
import re
import sys
import tempfile
import unittest
import unittest.mock

ROOT = os.path.realpath(f"{os.path.dirname(os.path.realpath(__file__))}/../..")
sys.path.insert(0, f"{ROOT}/tools")
from bodies import read
from theorem.entries import BY_LAWS, laws_of
from theorem.files import CLOSE, OPEN, Module, RustFile, compact
from theorem.files import words_of as terms_of
from theorem.page import PAGE, together
from theorem.sources import Sources, Unplaced


def lines_of(text):
    """The lines of a text but for imports, comments, heads of modules and empty lines, each without the blanks at its ends."""
    text = re.sub(r"(?m)^ *((pub|unfoldable) )*(use|mod|open) .*(\n +.*)*", "", text)
    lines = (line.strip() for line in text.splitlines())
    return [it for it in lines if it and it[:2] != "--" and not re.match(r"module .* where$", it)]


def put_together(file):
    """The lines of the definitions that the script reads of a file, in their order."""
    found = dict.fromkeys(Module(file).definitions.values())
    return [line for it in found for line in lines_of(it.text)]


def printed_together(file):
    """The lines that the script prints of a file's definitions, in their order, with those of proofs that it leaves out behind each."""
    found = dict.fromkeys(Module(file).definitions.values())
    left_out = lambda it: it.text.removeprefix(it.signature) if it.is_proof() else ""
    return [line for it in found for line in lines_of(it.printed() + left_out(it))]


def shown_on(page):
    """The blocks of definitions on the page, each with its file."""
    for block in re.finditer(r"(?ms)^## (\w+)$|^### (specs/\S+\.antt)[^\n]*\n(?:Here [^\n]*\n)?```text\n(.*?)^```$", page):
        if block[1]:
            crate = block[1]
        else:
            yield f"{ROOT}/crates/{crate}/{block[2]}", block[3]


def of_text(text):
    """The definitions that the script reads of a text."""
    with tempfile.TemporaryDirectory() as room:
        with open(f"{room}/It.antt", "w", encoding="utf-8") as it:
            it.write(text)
        return Module(f"{room}/It.antt").definitions


RECORD = """-- what is kept
abbrev pub kept : World
kept = record {
  listens = [];
}

-- how many there are
abbrev pub count : World → ℕ
count w = length w.listens
"""


class Definitions(unittest.TestCase):
    def test_files_are_their_definitions(self):
        files = sorted(glob.glob(f"{ROOT}/crates/*/specs/**/*.antt", recursive=True))
        self.assertGreater(len(files), 100)
        for file in files:
            with self.subTest(os.path.relpath(file, ROOT)):
                with open(file, encoding="utf-8") as it:
                    self.assertEqual(put_together(file), lines_of(it.read()))

    def test_what_is_printed_of_files_is_their_definitions(self):
        for file in sorted(glob.glob(f"{ROOT}/crates/*/specs/**/*.antt", recursive=True)):
            with self.subTest(os.path.relpath(file, ROOT)):
                with open(file, encoding="utf-8") as it:
                    self.assertEqual(printed_together(file), lines_of(it.read()))

    def test_brackets_close(self):
        for file in glob.glob(f"{ROOT}/crates/*/specs/**/*.antt", recursive=True):
            for name, it in Module(file).definitions.items():
                with self.subTest(f"{os.path.relpath(file, ROOT)}, {name}"):
                    words = list(terms_of(re.sub(r'"(?:[^"\\]|\\.)*"', "", it.text)))
                    for opens, closes in zip(OPEN, CLOSE):
                        self.assertEqual(words.count(opens), words.count(closes))

    def test_a_bracket_at_the_left_edge_goes_on(self):
        found = of_text(RECORD)
        self.assertEqual(list(found), ["kept", "count"])
        self.assertTrue(found["kept"].text.endswith("  listens = [];\n}\n"))
        self.assertTrue(found["kept"].printed().endswith("  listens = [];\n}\n"))

    def test_text_behind_a_bracket_stays(self):
        found = of_text(RECORD.replace("\n}\n", "\n} with_none\n"))
        self.assertIn("} with_none", found["kept"].text)
        self.assertEqual(len(found["kept"].clauses), 1)


def words_of(text):
    """The words of a text of Rust, whatever lines they stand in."""
    without = re.sub(r"(?m)^\s*#\[.*\]\n", "", text)
    return sorted(re.findall(r"[^\s/,]+", without))


SHOWN = """#[derive(Drop)]
pub enum Change {
    /// The child was there.
    Removed {
        key: Key,
        old: Tree,
    },
    /// A child
    /// is there.
    Added,
    Whole,
}"""


class Types(unittest.TestCase):
    def test_they_lose_no_word(self):
        files = sorted(glob.glob(f"{ROOT}/crates/*/src/**/*.rt", recursive=True))
        count = 0
        for file in files:
            for name, (_, _, text) in RustFile(file).items.items():
                with self.subTest(f"{os.path.relpath(file, ROOT)}, {name}"):
                    self.assertEqual(words_of(compact(text)), words_of(text))
                    count += 1
        self.assertGreater(count, 100)

    def test_they_are_shown_in_few_lines(self):
        lines = compact(SHOWN).splitlines()
        self.assertEqual(lines[1], "    Removed { key: Key, old: Tree },  // The child was there.")
        self.assertEqual(lines[2:], ["    /// A child", "    /// is there.", "    Added,", "    Whole,", "}"])

    def test_long_ones_stay(self):
        long = SHOWN.replace("old: Tree", f"old: {'Tree' * 30}").replace("Whole,", f"/// {'so ' * 40}\n    Whole,")
        self.assertEqual(compact(long), long.partition("\n")[2])


class Laws(unittest.TestCase):
    def setUp(self):
        self.sources = Sources(ROOT, "/nowhere")

    def test_they_are_proved_where_they_stand(self):
        for crate, name in BY_LAWS:
            laws, file = laws_of(self.sources, crate, name)
            for it in laws:
                self.assertEqual(f"{it.signature}{''.join(it.clauses)}", it.text)
                self.assertTrue(it.clauses)
                self.assertIn(it.text, read(file))

    def test_tests_of_equality_tell(self):
        tests = [(crate, name) for crate, name in BY_LAWS if name.endswith("_eq")]
        self.assertEqual(len(tests), 3)
        for crate, name in tests:
            said = [it.signature.split(" : ")[1].split() for it in laws_of(self.sources, crate, name)[0]]
            self.assertEqual(said, [["Tells", name]])

    def test_what_says_nothing_of_it_is_no_law(self):
        file = "specs/laws/TreeEq.antt"
        for laws in (("tree_eq_tells",), ("no_such_law",), ("leaf_eq_tells", "no_such_law"), ("same_leaf",)):
            with unittest.mock.patch.dict(BY_LAWS, {("rt_tree", "entry_eq"): (file, laws)}):
                with self.assertRaises(Unplaced):
                    laws_of(self.sources, "rt_tree", "entry_eq")


class Pages(unittest.TestCase):
    def test_the_page_has_whole_definitions(self):
        by_laws = {name for _, name in BY_LAWS} | {law for _, laws in BY_LAWS.values() for law in laws}
        count = 0
        for file, block in shown_on(read(f"{ROOT}/{PAGE}")):
            whole = Module(file).definitions
            for name, it in of_text(block).items():
                if name not in by_laws and not whole[name].is_proof():
                    with self.subTest(f"{os.path.relpath(file, ROOT)}, {name}"):
                        self.assertEqual(lines_of(it.text), lines_of(whole[name].text))
                        count += 1
        self.assertGreater(count, 200)

    def test_an_empty_line_stands_before_a_comment(self):
        self.assertEqual(together(["-- a\na\n", "b\n", "-- c\nc\n", "/// d\nd\n"]), "-- a\na\nb\n\n-- c\nc\n\n/// d\nd\n")


if __name__ == "__main__":
    unittest.main()
