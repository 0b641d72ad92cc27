"""The examples of kaltewi's page: what is compared with the program, and what has to have one."""
import os
import sys
import tempfile
import unittest

ROOT = os.path.realpath(f"{os.path.dirname(os.path.realpath(__file__))}/../..")
sys.path.insert(0, f"{ROOT}/tools")
import examples

PROGRAM = """// Trees.
use kaltewi::{Key, Tree};

const TEXT: &str =
    "a";

// The name of a child.
fn key(alloc: Global) -> Result<Key, TreeError> {
    Key::parse(alloc, TEXT)
}

#[derive(Drop)]
struct Heard {
    any: bool,
}

impl Sink for Heard {
    fn take(&mut self, item: Item) {
        drop(item);
    }
}
"""

PAGE = """// Trees.

/// The name of a child.
///
/// ```rust
/// fn key(alloc: Global) -> Result<Key, TreeError> {
///     Key::parse(alloc, TEXT)
/// }
/// ```
pub use rt_tree::Key;

/// Who takes it.
///
/// ```rust
/// #[derive(Drop)]
/// struct Heard {
///     any: bool,
/// }
///
/// impl Sink for Heard {
///     fn take(&mut self, item: Item) {
///         drop(item);
///     }
/// }
/// ```
pub use rt_client::{Sink};
"""

LIBRARY = """pub struct Key {
    text: ArcStr,
}

impl Key {
    /// Reads a key.
    pub fn parse(alloc: Global, text: &str) -> Result<Key, TreeError>
    {
    }

    /// An equal key.
    #[tactic(auto)]
    pub fn copy(&self) -> Result<Key, AllocError> {
    }

    // For the crates above.
    pub fn share(&self) -> Key {
    }

    /// Its text.
    pub fn text(&self) -> &str {
    }
}
"""


def files(room, texts):
    for name, text in texts.items():
        os.makedirs(os.path.dirname(f"{room}/{name}"), exist_ok=True)
        with open(f"{room}/{name}", "w", encoding="utf-8") as it:
            it.write(text)


class Quotes(unittest.TestCase):
    made = examples.items(PROGRAM)

    def test_items(self):
        self.assertEqual(list(self.made), ["const TEXT", "fn key", "struct Heard", "impl Sink for Heard"])
        self.assertEqual(self.made["const TEXT"], 'const TEXT: &str =\n    "a";')
        self.assertTrue(self.made["fn key"].endswith("TEXT)\n}"))
        self.assertTrue(self.made["struct Heard"].startswith("#[derive(Drop)]\nstruct Heard"))
        self.assertEqual(examples.items("fn key\nimpl Sink for Heard"), {"fn key": "fn key", "impl Sink for Heard": "impl Sink for Heard"})

    def wrong(self, page):
        return list(examples.wrong_quotes("trees", page, self.made))

    def test_quotes(self):
        self.assertEqual(self.wrong(PAGE), [])
        self.assertEqual(self.wrong(PAGE.replace("TEXT)", '"b")')), ["trees: fn key is not so in the program"])
        self.assertEqual(self.wrong(PAGE.replace("/// #[derive(Drop)]\n", "")), ["trees: struct Heard is not so in the program"])
        self.assertEqual(self.wrong(PAGE.replace("/// fn key(", "/// use rt_tree::Key;\n///\n/// fn key(")), ["trees: not items alone: use rt_tree::Key;"])
        self.assertEqual(self.wrong(PAGE.replace("fn key(", "fn other(")), ["trees: fn other is not so in the program"])
        self.assertEqual(self.wrong(PAGE.replace("/// fn key(alloc", "/// let key = parse(alloc")), ["trees: not items alone: let key = parse(alloc: Global) -> Result<Key, TreeError> {"])
        self.assertEqual(self.wrong("/// ```rust\n/// ```\n"), [])

    def test_written(self):
        stub = "/// A key.\n///\n/// ```rust\n/// fn key\n/// impl Sink for Heard\n/// ```\npub use rt_tree::Key;\n"
        text = examples.written(stub, self.made)
        self.assertEqual(self.wrong(text), [])
        self.assertIn("///     Key::parse(alloc, TEXT)\n/// }\n///\n/// impl Sink for Heard {\n", text)
        self.assertEqual(examples.written(PAGE, self.made), PAGE)

    def test_programs(self):
        with tempfile.TemporaryDirectory() as room:
            first, second = examples.PROGRAMS
            files(room, {f"{first}/trees.rt.txt": PROGRAM, f"{second}/trees.rt.txt": "fn other() {}\n", f"{second}/link.rt.txt": "fn ring() {}\n"})
            self.assertEqual(examples.program(room, "trees"), self.made)
            self.assertEqual(examples.program(room, "link"), {"fn ring": "fn ring() {}"})
            self.assertEqual(examples.program(room, "told"), {})


class Crates(unittest.TestCase):
    def wrong(self, page):
        with tempfile.TemporaryDirectory() as room:
            files(room, {"crates.txt": "rt_low:\nrt_program: rt_low\nkaltewi: rt_low\n", "crates/rt_low/src/lib.rt": "pub fn low() {\n}\n", "crates/rt_low/README.md": page})
            files(room, {"crates/rt_program/src/main.rt": "fn main() {}\n", f"{examples.QUOTED[0]}/lows.rt.txt": "// It.\nfn calls() {\n    low();\n}\n\nfn other() {}\n"})
            return list(examples.wrong_crates(room))

    def test_crates(self):
        page = "# rt_low\n\n```rust\nfn calls() {\n    low();\n}\n```\n\n*For users.*\n"
        self.assertEqual(self.wrong(page), [])
        self.assertEqual(self.wrong(page.replace("low();", "low()")), ["rt_low: what its page begins with is not so in a program"])
        self.assertEqual(self.wrong(page.replace("fn calls() {\n    low();\n}", "fn other() {}")), ["rt_low: what its page begins with names nothing of it"])
        for other in ("# rt_low\n\n*For users.*\n", page.replace("fn calls", "let calls")):
            self.assertEqual(self.wrong(other), ["rt_low: its page begins with no items of a program"])

    def test_in_c(self):
        (crate, file), begin = next(iter(examples.IN_C.items())), "\n\n```c\n"
        with tempfile.TemporaryDirectory() as room:
            files(room, {f"crates/{crate}/README.md": f"# {crate}{begin}    open();\n    close();\n```\n\n*For users.*\n", file: "    open();\n    close();\n}\n"})
            self.assertEqual(list(examples.wrong_in_c(room)), [])
            files(room, {file: "    open();\n}\n"})
            self.assertEqual(list(examples.wrong_in_c(room)), [f"{crate}: its page doesn't begin with lines of {file}"])

    def test_quoted_anew(self):
        page = "# rt_low\n\n```rust\nfn calls() {\n    low();\n}\n\nfn other() {}\n```\n\n*For users.*\n"
        made = {"fn calls": {"fn calls() {\n    high();\n}"}, "fn other": {"fn other() {}", "fn other() {\n}"}}
        self.assertEqual(examples.quoted_anew(page, made), page.replace("low()", "high()"))
        self.assertEqual(examples.quoted_anew("# rt_low\n\n*For users.*\n", made), "# rt_low\n\n*For users.*\n")


class Names(unittest.TestCase):
    def test_names(self):
        self.assertEqual(list(examples.wrong_names("trees", PAGE)), [])
        self.assertEqual(list(examples.wrong_names("trees", PAGE.replace("::Key;", "::{Key, Tree};"))), ["trees: Tree has no example"])
        self.assertEqual(list(examples.wrong_names("trees", "pub use rt_tree::Key;\n")), ["trees: Key has no example"])
        self.assertEqual(list(examples.wrong_names("trees", "/// The name `Key`.\npub use rt_tree::Key;\n")), ["trees: Key has no example"])

    def test_root(self):
        page = {"lib": "pub use trees::{Key, Sink};\n", "trees": PAGE}
        self.assertEqual(list(examples.wrong_root(page)), [])
        page["lib"] = "pub use rt_tree::Tree;\npub use trees::{Key};\n"
        self.assertEqual(list(examples.wrong_root(page)), ["lib: rt_tree::Tree comes from no module of the page", "lib: Sink of trees is not handed on"])

    def test_calls(self):
        self.assertEqual(list(examples.calls_of([LIBRARY], "Key")), ["parse", "copy", "text"])
        with tempfile.TemporaryDirectory() as room:
            files(room, {"crates/rt_tree/src/lib.rt": "mod key;\npub use key::Key;\n", "crates/rt_tree/src/key.rt": LIBRARY})
            page = {"lib": "pub use trees::{Key};\n", "trees": PAGE.partition("/// Who")[0]}
            self.assertEqual(list(examples.wrong_calls(room, page)), ["trees: Key::text has no example"])
            page["trees"] = page["trees"].replace("TEXT)", "TEXT).text()")
            self.assertEqual(list(examples.wrong_calls(room, page)), [])


if __name__ == "__main__":
    unittest.main()
