"""The rules of pages: what they find, and what they let be."""
import os
import sys
import tempfile
import unittest

ROOT = os.path.realpath(f"{os.path.dirname(os.path.realpath(__file__))}/../..")
sys.path.insert(0, f"{ROOT}/tools")
import pages

PAGE = """# A heading of the page

One sentence. Another one,
on two lines.

- an item. With two sentences!
- another

| Crate | What |
|---|---|
| `rt_mail` | what is queued waits; as many as there is room for |

```text
no. sentence. here.
```
"""


def words(count, end="."):
    return " ".join(["word"] * count) + end


class Texts(unittest.TestCase):
    def test_kinds(self):
        found = [(number, kind, text) for number, kind, text in pages.texts(PAGE)]
        self.assertEqual(
            found,
            [
                (1, "heading", "A heading of the page"),
                (3, "paragraph", "One sentence. Another one, on two lines."),
                (6, "item", "an item. With two sentences!"),
                (7, "item", "another"),
                (9, "cell", "Crate"),
                (9, "cell", "What"),
                (11, "cell", "`rt_mail`"),
                (11, "cell", "what is queued waits; as many as there is room for"),
            ],
        )

    def test_sentences(self):
        count = lambda text, kind="paragraph": [len(it) for it in pages.sentences(text, kind)]
        self.assertEqual(count("One sentence. **Another one.** (A third.) And 1.5 of a fourth"), [2, 2, 2, 5])
        self.assertEqual(count("first part; second part", "cell"), [2, 2])
        self.assertEqual(count("first part; second part"), [4])
        self.assertEqual(count("it says: *a long quotation that is not counted, with a stop. And more.*"), [3])
        self.assertEqual(count("`a b c. d` is code"), [3])


class Rules(unittest.TestCase):
    def test_long_sentences(self):
        self.assertEqual(list(pages.wrong_texts("it.md", words(39))), [])
        self.assertEqual(len(list(pages.wrong_texts("it.md", words(40)))), 1)
        self.assertEqual(list(pages.wrong_texts("it.md", f"{words(30)} {words(30)}")), [])
        self.assertEqual(list(pages.wrong_texts("it.md", f"```\n{words(60)}\n```\n")), [])
        self.assertIn("it.md:3: a sentence of 45 words", list(pages.wrong_texts("it.md", f"| a |\n|---|\n| {words(45)} |\n"))[0])

    def test_long_paragraphs(self):
        line = "A short sentence stands here. " * 4
        self.assertEqual(list(pages.wrong_texts("it.md", "\n".join([line] * 4))), [])
        self.assertIn("a paragraph of 6 lines", list(pages.wrong_texts("it.md", "\n".join([line] * 5)))[0])

    def test_dates(self):
        for text in ("23 November 2026", "on November 23", "2026-11-23"):
            self.assertEqual(len(list(pages.wrong_dates("docs/PROOFS.md", text))), 1, text)
            self.assertEqual(list(pages.wrong_dates("docs/GATE.md", text)), [])
            self.assertEqual(len(list(pages.wrong_dates("docs/GATE.md", f"{text}\n{text}"))), 1)
        self.assertEqual(list(pages.wrong_dates("docs/RULES.md", "December 1993 to May 2109, 1,048,576 and 4-5")), [])

    def test_cells(self):
        table = "| part | proved | ratio |\n| --- | --- | --- |\n| put | 1.2 | 1.8 |\n"
        self.assertEqual(list(pages.wrong_cells("it.md", f"words\n\n{table}")), [])
        for row in ("| get | | 1.8 |", "| get | 1.2 |  |", "|  | 1.2 | 1.8 |", "| get | 1.2 ||"):
            self.assertEqual(list(pages.wrong_cells("it.md", f"{table}{row}\n")), [f"it.md:4: an empty cell: {row} .."])
        self.assertEqual(list(pages.wrong_cells("it.md", f"{table}| a \\| b | 1.2 | 1.8 |\n")), [])

    def test_proofs(self):
        self.assertEqual(list(pages.wrong_proofs("docs/PROOFS.md", "x" * 400)), [])
        self.assertEqual(len(list(pages.wrong_proofs("docs/PROOFS.md", "x" * 401))), 1)
        self.assertEqual(len(list(pages.wrong_proofs("docs/PROOFS.md", "x\n" * 241))), 1)
        self.assertEqual(len(list(pages.wrong_proofs("docs/PROOFS.md", "it took 12 minutes"))), 1)

    def test_language(self):
        for text in ("It says that it is so.", "What is so? That is so.", "`that what that` is code", "*that and what are quoted*", "that's and somewhat"):
            self.assertEqual(list(pages.wrong_language("it.md", text)), [], text)
        for text in ("These lists are in order.", "Each of these two is one.", "One of the lists, one by one.", "`those of these` is code"):
            self.assertEqual(list(pages.wrong_language("it.md", text)), [], text)
        for text in ("That it says is what it is.", "It is done, and noted is which it was.", "Taken out are the first of them."):
            self.assertEqual(len(list(pages.wrong_language("it.md", text))), 1, text)
        for text in ("The words are those of a page.", "It has a list, and looks at these.", "The new ones come last.", "A list, or one that is empty."):
            self.assertEqual(len(list(pages.wrong_language("it.md", text))), 1, text)

    def test_head(self):
        self.assertEqual(list(pages.wrong_head("it.md", "# It\n\n*For users: it.* More.\n")), [])
        for text in ("# It\n\nFor users.\n", "# It\n", "# It\n\nFirst.\n\n*For users.*\n"):
            self.assertEqual(len(list(pages.wrong_head("it.md", text))), 1, text)

    def test_promises(self):
        row = lambda count: f"| Crate | Promise | Contract |\n|---|---|---|\n| `rt_low` | {words(count)} | `low` |\n"
        self.assertEqual(list(pages.wrong_promises(row(25))), [])
        self.assertEqual(len(list(pages.wrong_promises(row(26)))), 1)
        self.assertEqual(list(pages.wrong_promises(f"| two | {words(30)} |\n")), [])

    def test_without_clause(self):
        text = "pub fn a() -> u8\n    ensures { result ≡ 1 }\n{\n    1\n}\n\npub fn b() {\n    ensures();\n}\n\nfn c() {\n}\n\nimpl Low {\n"
        text += "    // pub fn d() {}\n    pub fn e(\n        &self,\n    ) -> u8\n    {\n        2\n    }\n\n    pub const fn f() -> u8\n        ensures one { result ≡ 1 }\n    {\n        1\n    }\n}\n"
        self.assertEqual(list(pages.without_clause(text)), ["b", "Low::e"])

    def test_one_definition_a_line(self):
        for text in ("- `A`: what it is (`a; b`).", "| a | what it is. | `A` |", "A paragraph. It may go on; so it does."):
            self.assertEqual(list(pages.wrong_lines("docs/MODEL.md", text)), [], text)
        for text in ("- `A`: what it is. `B`: so.", "- `A`: what it is; and more.", "| a | what it is; b | `A` |"):
            self.assertEqual(len(list(pages.wrong_lines("docs/MODEL.md", text))), 1, text)

    def test_named_contracts(self):
        page = "| Crate | Promise | The contract |\n|---|---|---|\n| `rt_low` | it is so | `Low::new`, `put` (`ok`); `laws.rt` |\n| | and so | `low` |\n"
        self.assertEqual(
            list(pages.named_contracts(page)),
            [(3, "rt_low", ["Low", "new"]), (3, "rt_low", ["put"]), (3, "rt_low", ["ok"]), (3, "rt_low", ["laws"]), (4, "rt_low", ["low"])],
        )


class Costs(unittest.TestCase):
    def wrong(self, old, new):
        """What is wrong with docs/COSTS.md with a text in place of another."""
        page = pages.read(f"{ROOT}/{pages.COSTS}")
        self.assertEqual(page.count(old), 1, old)
        return list(pages.wrong_costs(ROOT, page.replace(old, new)))

    def test_rows(self):
        self.assertEqual(self.wrong("# What calls cost\n", "# What calls cost\n"), [])
        self.assertEqual(self.wrong("| `Core::view` |", "| a look |"), ["docs/COSTS.md: no row of rt_sync has Core::view"])
        self.assertEqual(self.wrong("| `Peer::connect` |", "| `Peer::join` |"), ["docs/COSTS.md: no row of rt_peer has Peer::connect", "docs/COSTS.md: rt_peer has no Peer::join"])
        self.assertEqual(self.wrong("| `turn`, `deliver` |", "| `turn` |"), ["docs/COSTS.md: no row of rt_client has deliver"])
        self.assertEqual(self.wrong("| `Revoked` |", "| an end |"), ["docs/COSTS.md: no row of Step has Revoked"])

    def test_types(self):
        table = "| Call | Cost |\n|---|---|\n| `run` | it |\n| `Low::a`, `b`, `Mid::c` | `d` |\n\n| Word | It |\n|---|---|\n| `e` | it |\n"
        self.assertEqual(list(pages.first_cells(table, "Call")), ["run", "Low::a", "Low::b", "Mid::c"])


class Arrows(unittest.TestCase):
    def made(self, block):
        room = tempfile.TemporaryDirectory()
        self.addCleanup(room.cleanup)
        files = {
            "crates.txt": "# lowest first\nrt_low: thiserror\nrt_mid: rt_low\nrt_top may_wait=2: rt_low rt_mid slab anyhow\n",
            "crates/rt_low/src/lib.rt": "pub fn low() {\n}\n",
            "crates/rt_mid/src/lib.rt": "use rt_low::low;\n",
            "crates/rt_top/src/lib.rt": "ghost use rt_low::{a,\n    b};\n// rt_low::low is not called\nuse rt_mid::mid;\n",
            "docs/ARCHITECTURE.md": f"# It\n\n```text\n{block}```\n",
        }
        for name, text in files.items():
            os.makedirs(os.path.dirname(f"{room.name}/{name}"), exist_ok=True)
            with open(f"{room.name}/{name}", "w", encoding="utf-8") as it:
                it.write(text)
        return room.name

    def test_arrows(self):
        due = "rt_low\nrt_mid --> rt_low\nrt_top --> rt_mid, slab ..> rt_low\n"
        root = self.made(due)
        self.assertEqual(pages.arrows(root), due)
        self.assertEqual(list(pages.wrong_arrows(root)), [])

    def test_names(self):
        root = self.made("rt_low\n")
        page = "| `rt_low` | it is so | `low` |\n| | and so | `low`, `high` |\n"
        self.assertEqual(list(pages.wrong_names(root, page)), ["docs/PROOFS.md:2: rt_low has no high"])

    def test_neither(self):
        root = self.made("rt_low\n")
        named = lambda text: list(pages.wrong_neither(root, f"# It\n\n## What is neither\n\n{text}\n\n## More\n\n`low`\n"))
        self.assertEqual(named("There is `low`."), [])
        self.assertEqual(named("There is none."), ["docs/PROOFS.md: rt_low has low without a clause, and 'What is neither' doesn't name it"])

    def test_definitions(self):
        root = self.made("rt_low\n")
        wrong = lambda row: list(pages.wrong_definitions(root, f"| Word | It | File |\n|---|---|---|\n{row}\n"))
        self.assertEqual(wrong("| `low`, `fn` | it | `rt_low/src/lib.rt` |"), [])
        self.assertEqual(wrong("| `low`, `high` | it | `rt_low/src/lib.rt` |"), ["docs/ARCHITECTURE.md: crates/rt_low/src/lib.rt has no high"])
        self.assertEqual(wrong("| `low` | it | `rt_low/src/low.rt` |"), ["docs/ARCHITECTURE.md: crates/rt_low/src/low.rt has no low"])

    def test_glossary(self):
        root = self.made("rt_low\n")
        self.assertEqual(list(pages.wrong_glossary(root, "| low | It. | `rt_low`, `src/lib.rt`; `rt_low`, `src/` |")), [])
        self.assertEqual(list(pages.wrong_glossary(root, "| low | It. | `rt_low`, `specs/Low.antt` |")), ["docs/GLOSSARY.md: there is no crates/rt_low/specs/Low.antt"])

    def test_rows(self):
        wrong = list(pages.wrong_rows(self.made("rt_low\n```\n\n| `rt_low` | it |\n| `rt_top` | it |\n```text\n")))
        self.assertEqual(wrong, ["docs/ARCHITECTURE.md: no row says what rt_mid holds"])

    def test_model(self):
        root = self.made("rt_low\n")
        os.makedirs(f"{root}/crates/rt_low/specs/laws")
        for name in ("Lib", "Errors", "Low", "Deep", "inside", "laws/Runs"):
            with open(f"{root}/crates/rt_low/specs/{name}.antt", "w", encoding="utf-8") as it:
                it.write("-- it\n")
        for text, wrong in (("`Low`, `Deep`", []), ("`Low`", ["docs/MODEL.md: crates/rt_low/specs has Deep besides"])):
            with open(f"{root}/docs/MODEL.md", "w", encoding="utf-8") as it:
                it.write(f"# It\n\n## Low (`crates/rt_low/specs`)\n\n{text}\n\n## Other\n\n`Deep`\n")
            self.assertEqual(list(pages.wrong_model(root)), wrong)

    def test_other_arrows(self):
        root = self.made("rt_low\nrt_mid --> rt_low\nrt_top --> rt_mid, slab, rt_low\n")
        wrong = list(pages.wrong_arrows(root))
        self.assertEqual(len(wrong), 2)
        self.assertIn("there is no line rt_top --> rt_mid, slab ..> rt_low", wrong[0])


if __name__ == "__main__":
    unittest.main()
