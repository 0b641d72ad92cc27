#!/usr/bin/env python3
"""The public names that the specification asks for (tools/names.txt): each stands in its crate, or where docs/RULES.md says that it stands.

Usage: tools/names.py     says which names are missing, and fails where one is

A type or a function is there where the crate's root makes it public, or hands it on from a crate below; a call, a variant or a constant of a
type where the type's own crate has it. `homes` names what stands in another crate, or has another name, and is a part of docs/RULES.md.
"""
import os
import re
import sys

ROOT = os.path.realpath(f"{os.path.dirname(os.path.realpath(__file__))}/..")
LIST, RULES = "tools/names.txt", "docs/RULES.md"
HEADING = "## Names"


def read(file):
    with open(file, encoding="utf-8") as it:
        return it.read()


def asked(text):
    """The names that are asked for: by crate a list of pairs of a type, or 'fn', and its names."""
    found, crate = {}, None
    for line in text.splitlines():
        if not line.strip() or line.startswith("#"):
            continue
        if not line.startswith(" "):
            crate = line.strip()
            found[crate] = []
        else:
            head, _, names = line.strip().partition(":")
            found[crate].append((head, names.split()))
    return found


def homes(text):
    """What the table under the heading of docs/RULES.md says: by the name that is asked for, as 'crate::Type' or 'crate::Type::name', what stands for it."""
    part = text.partition(f"{HEADING}\n")[2].partition("\n## ")[0]
    rows = re.findall(r"(?m)^\| `([\w:]+)` \| `([\w:]+)` \|", part)
    return dict(rows)


class Crate:
    """What the sources of a crate have that is public."""

    def __init__(self, folder):
        files = [f"{at}/{name}" for at, _, names in os.walk(f"{folder}/src") for name in names if name.endswith(".rt")]
        root = next((f"{folder}/src/{it}" for it in ("lib.rt", "main.rt") if os.path.isfile(f"{folder}/src/{it}")), None)
        self.text = "\n".join(re.sub(r"(?m)^\s*//.*$", "", read(it)) for it in files)
        self.root = re.sub(r"(?m)^\s*//.*$", "", read(root)) if root else ""

    def handed_on(self):
        """The names that the root hands on, each with the crate that it comes from, or nothing where that is the crate itself."""
        found = {}
        for path, many, one in re.findall(r"pub use (?:::)?((?:\w+::)+)(?:\{([^}]*)\}|(\w+));", self.root):
            first = path.split("::")[0]
            for name in re.findall(r"\w+", many or one):
                found[name] = first if first.startswith("rt_") else None
        return found

    def has(self, name):
        """Whether the root makes a type or a function of this name public."""
        return name in self.handed_on() or bool(re.search(rf"(?m)^pub (?:enum|struct|trait|fn|const|type) {name}\b", self.root))

    def has_in(self, type_, name):
        """Whether a public type has this call, variant or constant."""
        for it in re.finditer(rf"(?m)^(?:pub (?:enum|struct|trait) {type_}\b|impl(?:<[^>]*>)? {type_}\b(?:<[^>]*>)? \{{)", self.text):
            body = self.text[it.start() :].partition("\n}")[0]
            if re.search(rf"(?m)^    (?:pub )?(?:const )?fn {name}\b|^    {name}\b", body):
                return True
        return False


def missing(root):
    """The names that are missing, each as 'crate::Type::name'."""
    crates, of, stands = {}, asked(read(f"{root}/{LIST}")), homes(read(f"{root}/{RULES}"))

    def crate(name):
        if name not in crates:
            crates[name] = Crate(f"{root}/crates/{name}")
        return crates[name]

    def home_of(name, type_):
        """The crate whose sources have the type that this crate's root hands on."""
        given = crate(name).handed_on().get(type_)
        return home_of(given, type_) if given else name

    def is_there(path):
        parts = path.split("::")
        if len(parts) == 2:
            return crate(parts[0]).has(parts[1])
        return crate(parts[0]).has(parts[1]) and crate(home_of(*parts[:2])).has_in(parts[1], parts[2])

    for name, types in of.items():
        for head, names in types:
            paths = [f"{name}::{it}" for it in names] if head == "fn" else [f"{name}::{head}", *(f"{name}::{head}::{it}" for it in names)]
            for path in paths:
                whole = f"{name}::{head}"
                at = stands.get(path) or (path.replace(whole, stands[whole]) if head != "fn" and whole in stands else path)
                if not is_there(at):
                    yield path if at == path else f"{path} (as {at})"


def main():
    names = list(missing(ROOT))
    for it in names:
        print(f"{it} is missing")
    print(f"{len(names)} of the names that are asked for are missing")
    sys.exit(1 if names else 0)


if __name__ == "__main__":
    main()
