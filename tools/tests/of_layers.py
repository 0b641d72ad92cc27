"""The picture of the layers: which crate stands where, which arrows there are, and when the picture is not current."""
import os
import sys
import tempfile
import unittest

ROOT = os.path.realpath(f"{os.path.dirname(os.path.realpath(__file__))}/../..")
sys.path.insert(0, f"{ROOT}/tools")
import layers

BELOW = {"low": [], "other": [], "mid": ["low"], "high": ["mid", "low"], "top": ["high", "other"]}
ITS = {"first": ["low", "other"], "second": ["mid"], "third": ["high"], "fourth": ["top"]}


class Layers(unittest.TestCase):
    def test_layers(self):
        self.assertEqual(list(layers.wrong_layers(BELOW, ITS)), [])
        self.assertEqual(list(layers.wrong_layers(BELOW, {**ITS, "fourth": []})), ["top stands in no layer"])
        self.assertEqual(list(layers.wrong_layers(BELOW, {**ITS, "fourth": ["top", "mid"]}))[0], "mid stands in two layers")
        self.assertEqual(list(layers.wrong_layers(BELOW, {**ITS, "fourth": ["top", "lost"]})), ["lost of 'fourth' is no crate"])
        turned = {"first": ["low", "other", "mid", "high"], "second": ["top"]}
        self.assertEqual(list(layers.wrong_layers({**BELOW, "low": ["top"]}, turned)), ["low stands on top, which is of a layer above"])

    def test_arrows(self):
        self.assertEqual(layers.arrows(BELOW, ITS), {0: [], 1: [0], 2: [1], 3: [2]})
        self.assertEqual(layers.arrows({**BELOW, "high": ["low"]}, ITS), {0: [], 1: [0], 2: [0], 3: [2]})

    def test_picture(self):
        said = layers.picture(BELOW, ITS)
        self.assertTrue(all(f">{it}</text>" in said for it in [*BELOW, *ITS]))
        self.assertEqual(said.count("<path d=") - 1, 3)

    def test_current(self):
        with tempfile.TemporaryDirectory() as room:
            os.makedirs(f"{room}/docs")
            its = layers.layers()
            with open(f"{room}/crates.txt", "w", encoding="utf-8") as it:
                it.write("".join(f"{name}:\n" for members in its.values() for name in members))
            with open(f"{room}/docs/ARCHITECTURE.md", "w", encoding="utf-8") as it:
                it.write("".join(f"\n**{name.capitalize()}** are it.\n" for name in its if name != "core"))
            with open(f"{room}/docs/way.svg", "w", encoding="utf-8") as it:
                it.write("<text>rt_tree, rt_lost</text>")
            self.assertEqual(
                layers.wrong_of(room)[0],
                [
                    "docs/layers.svg is not what tools/layers.py --write writes",
                    "docs/way.svg names rt_lost, which is no crate",
                    "docs/ARCHITECTURE.md has no paragraph 'core'",
                ],
            )


if __name__ == "__main__":
    unittest.main()
