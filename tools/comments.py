#!/usr/bin/env python3
"""What comments of the code keep to: a call that is there for the prover alone, as that of a law, says so above it.

Usage: tools/comments.py     says which calls don't, and fails where one is

A law is a public function without code, named in `.._law` or `.._laws`. Calls that follow one another have one comment, which begins
with '// For the prover:'. So has a value that is asked for and dropped, `let _ = path.keys();` or `let _count = children.len();`,
but for the calls of ACTING, which change what they are asked of. A function that is whole for the prover says so above it.
"""
import os
import re
import sys

from bodies import read

ROOT = os.path.realpath(f"{os.path.dirname(os.path.realpath(__file__))}/..")
WORDS = "// For the prover:"
LAW = re.compile(r"\s*(?:\w+::)*\w+_laws?(?:::<.*>)?\(\);")
ACTING = "cross_ahead cross_back flush pass_over_writes say_left_out stop".split()
ASKED = re.compile(rf"\s*let _\w* = [\w.]+(?:\.\w+\(\))*\.(?!(?:{'|'.join(ACTING)})\()\w+\(\);")
HEAD = re.compile(r"\s*(?:pub(?:\(\w+\))? )?fn \w+")
ALONE = re.compile(r"\s*[\w.:]+(?:::<.*>)?\(\);")  # a call whose value nobody takes


def is_for_prover(line):
    return bool(LAW.fullmatch(line) or ASKED.fullmatch(line))


def is_said(lines, at):
    """Whether the comment above a line begins with the words."""
    first = at
    while first and lines[first - 1].lstrip().startswith("//"):
        first -= 1
    return first < at and lines[first].lstrip().startswith(WORDS)


def unsaid(text):
    """The lines, from 1 on, of calls for the prover that don't say so."""
    lines = text.splitlines()
    for at, line in enumerate(lines):
        if not is_for_prover(line):
            continue
        above = at
        while above and (is_for_prover(lines[above - 1]) or ALONE.fullmatch(lines[above - 1])):
            above -= 1
        head = next((n for n in range(above - 1, -1, -1) if HEAD.match(lines[n])), 0)
        if not is_said(lines, above) and not is_said(lines, head):
            yield at + 1


def wrong_of(root):
    """Where a call for the prover doesn't say so, and how many there are."""
    wrong, count = [], 0
    for at, _, files in sorted(os.walk(f"{root}/crates")):
        for file in sorted(files) if "/src" in at and "/out" not in at else []:
            text = read(f"{at}/{file}")
            count += sum(map(is_for_prover, text.splitlines()))
            wrong += [f"{os.path.relpath(at, root)}/{file}:{line} lacks '{WORDS} ..'" for line in unsaid(text)]
    return wrong, count


def main():
    wrong, count = wrong_of(ROOT)
    print("\n".join([*wrong, f"{count} calls for the prover, {len(wrong)} don't say so"]))
    sys.exit(1 if wrong else 0)


if __name__ == "__main__":
    main()
