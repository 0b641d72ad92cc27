"""Tests that compare two ways: the cover, the pending writes and a view beside plain bodies that do the same by looking at all.

What they compare has an exact contract, so nothing is proved here: tests/two_ways/NAME.rt.txt is src/NAME.rt of a crate that is made beside the crates
of a copy of the repository, and run by rt try --test."""
import os
import re
import shutil
import tempfile

import workspaces
from bodies import read, write
from parts import ROOT, Clock, part, some_of
from planting import ended_of, tried

TEXTS = f"{ROOT}/tests/two_ways"
NAME, BELOW = "two_ways", "rt_tree rt_order rt_query rt_writes rt_cover rt_view"
SECONDS = 1800  # how long they may take, once they are built


def tests_in(folder):
    """The names of the tests in the texts of a folder."""
    texts = [read(f"{folder}/{it}") for it in sorted(os.listdir(folder))]
    return [name for text in texts for name in re.findall(r"(?m)^#\[test\]\nfn (\w+)", text)]


def make_workspace(copy, room):
    """The crates of a copy, without what was built there, and that of the tests beside them."""
    shutil.copytree(f"{copy}/crates", f"{room}/crates", ignore=shutil.ignore_patterns("out", "must-fail"))
    shutil.copy(f"{copy}/HANDLES", room)
    write(f"{room}/crates.txt", f"{read(f'{copy}/crates.txt')}{NAME}: {BELOW}\n")
    workspaces.copy_program(TEXTS, f"{room}/crates/{NAME}")


def wrong_of(said, tests):
    """Which of these tests did not pass, by what is said of their run."""
    ended = {it: ended_of(said, it) for it in tests}
    return [f"{it} {'has not ended' if end is None else f'ended with {end}'}" for it, end in ended.items() if end != "ok"]


def two_ways_part(copy):
    """Runs the tests over the sources of a copy of the repository."""
    clock, tests = Clock(), tests_in(TEXTS)
    with tempfile.TemporaryDirectory(prefix="kaltewi-two-ways-") as room:
        make_workspace(copy, room)
        ran = tried(room, NAME, "--test", "--seconds", str(SECONDS))
    wrong = wrong_of((ran.stdout + ran.stderr).decode(errors="replace"), tests)
    part(f"{len(tests)} tests that compare two ways", some_of(wrong, tests), clock)
