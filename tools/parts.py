"""The parts of the gate: each is counted, passed or failed, and has a line with the processor and clock minutes that it took."""
import os
import re
import resource
import sys
import time

from bodies import read

ROOT = os.path.realpath(f"{os.path.dirname(os.path.realpath(__file__))}/..")
COUNTS = {"passed": 0, "failed": 0}


def minutes(processor, clock):
    """What a part took, of seconds."""
    return f"{processor / 60:.1f} processor minutes, {clock / 60:.1f} by the clock"


class Clock:
    """Processor seconds, those of children that have ended, and clock seconds, since it was made."""

    def __init__(self):
        self.began = self.now()

    @staticmethod
    def now():
        used = resource.getrusage(resource.RUSAGE_CHILDREN)
        return used.ru_utime + used.ru_stime, time.monotonic()

    def __str__(self):
        processor, clock = (b - a for a, b in zip(self.began, self.now()))
        return minutes(processor, clock)


def count(passed, failed):
    COUNTS["passed"] += passed
    COUNTS["failed"] += failed


def part(name, why="", clock=None):
    """Counts a part, passed where there is no reason why not, and prints its line."""
    count(not why, bool(why))
    print(f"{'FAILED ' if why else 'ok     '} {name}{': ' + why if why else ''}{f' ({clock})' if clock else ''}", flush=True)


def some_of(wrong, tried):
    """What a part says of what is wrong: the first few things, or that nothing was tried."""
    return "; ".join(wrong[:5]) or ("" if tried else "there is none")


def counts_in(line):
    """How many passed and failed by a last line, of rt ci or of ours, where it is one that says so."""
    said = re.fullmatch(r"(\d+) passed, (\d+) failed\n?", line)
    return (int(said[1]), int(said[2])) if said else None


def end(clock, of=""):
    print(f"{of}in all {clock}")
    print("{passed} passed, {failed} failed".format(**COUNTS))
    sys.exit(1 if COUNTS["failed"] or not COUNTS["passed"] else 0)


def crates_in(text):
    """The crates that a crates.txt has, lowest first, each with the libraries that it stands on."""
    lines = [line.partition("#")[0].partition(":") for line in text.splitlines()]
    return {name.split()[0]: below.split() for name, _, below in lines if name.strip()}


def crates():
    return crates_in(read(f"{ROOT}/crates.txt"))


def libraries_of(crate, below):
    """The crates of the repository that a crate stands on, by others too."""
    own = [it for it in below[crate] if it in below]
    return list(dict.fromkeys([*own, *(it for one in own for it in libraries_of(one, below))]))


def with_below(named, below):
    """These crates and those that they stand on, lowest first."""
    found = {one for it in named for one in [it, *libraries_of(it, below)]}
    return [it for it in below if it in found]
