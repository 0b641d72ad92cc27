#!/usr/bin/env python3
"""Proves and builds crates by rt ci in a copy that has no others, and says how far it is.

Usage: tools/building.py COPY
       tools/building.py --range   says how long a build takes, as README.md has it

A line comes whenever a crate is proved, and at least every half minute: how many crates are proved, which are being proved, and how long it may
take still. That is what is left of the longest chain of crates that stand on one another, or of all of them where these are more than the
processors do meanwhile, by the nodes that docs/GATE.md has of each, at the pace of this run. Of a crate that is not proved all is printed that
rt ci says. The status is that of rt ci.
"""
import os
import queue
import re
import subprocess
import sys
import threading
import time

sys.dont_write_bytecode = True
import proving
from bodies import read
from parts import ROOT, crates_in
from proving import Watch
from telling import end_if_asked, note_end, say

TELL = 25  # seconds without a line
UNKNOWN = 2.0  # minutes of a crate that docs/GATE.md has not
NODES = 2.2  # the millions of nodes that are made in a minute on a quiet host
SURE = 3.0  # minutes of work after which the pace is known
PROVED = re.compile(r"rt: (\w+) proved\n")


def minutes_in(page):
    """The processor minutes of each crate, by its nodes in docs/GATE.md; those of its tests are not among them, as nothing waits for them."""
    return {name: nodes / NODES for name, nodes in proving.budget_in(page).items() if not name.startswith("tests of ")}


def range_in(page):
    """How long a build takes, by the row of README.md: on four cores, and on two."""
    row = re.search(r"(?m)^\| `\./kaltewi build`[^|]*\|[^|]*\| ([^|]+?) \| ([^|]+?) \|$", page)
    return f"{row[1]} on four cores, {row[2]} on two" if row else "an hour or more"


class Plan:
    """What is left of the proofs of some crates: `below` has for each, lowest first, what it stands on, and `minutes` what it takes."""

    def __init__(self, below, minutes):
        self.below, self.minutes = below, {it: minutes.get(it, UNKNOWN) for it in below}

    def left(self, worked, processors):
        """The minutes that are left where of each crate these have been worked: of the longest chain, or of all, shared by the processors."""
        rest = {it: max(0.0, much - worked.get(it, 0.0)) for it, much in self.minutes.items()}
        chain = {}
        for it, on in self.below.items():
            chain[it] = rest[it] + max((chain[one] for one in on if one in chain), default=0.0)
        return max([*chain.values(), sum(rest.values()) / processors], default=0.0)

    def guess(self, worked, known, processors, minutes):
        """The minutes that it may take still, after these, where the crates of `known` were proved by an earlier run; none where no pace is known."""
        over = {it: self.minutes[it] for it in known}
        whole, left = self.left(over, processors), self.left({**worked, **over}, processors)
        return left * min(5.0, max(0.3, minutes / (whole - left))) if whole - left >= SURE else None


class Progress:
    """What rt ci has said, and what is said of it."""

    def __init__(self, plan, watch, processors):
        self.plan, self.watch, self.processors = plan, watch, processors
        self.began, self.told, self.proved, self.known, self.log = time.monotonic(), 0.0, [], set(), []

    def worked(self):
        """The minutes of work that each crate has had, as far as they count: one that is not proved is not done."""
        ticks = os.sysconf("SC_CLK_TCK") * 60
        had = {}
        for kind, much in list(self.watch.taken.values()):
            had[kind] = had.get(kind, 0.0) + much / ticks
        part = {it: min(much, 0.9 * self.plan.minutes[it]) for it, much in had.items() if it in self.plan.minutes}
        return {**part, **{it: self.plan.minutes[it] for it in self.proved}}

    def at(self):
        """The crates that are being proved."""
        alive = {kind for (process, _), (kind, _) in list(self.watch.taken.items()) if os.path.isdir(f"/proc/{process}")}
        return [it for it in self.plan.below if it in alive and it not in self.proved]

    def tell(self, what=""):
        self.told, minutes = time.monotonic(), (time.monotonic() - self.began) / 60
        left = self.plan.guess(self.worked(), self.known, self.processors, minutes)
        texts = [f"{len(self.proved)} of {len(self.plan.below)} crates are proved, after {minutes:.1f} minutes"]
        texts += [f"at {', '.join(self.at())}"] if self.at() else []
        texts += [f"some {max(1, round(left))} minutes are left"] if left is not None and len(self.proved) < len(self.plan.below) else []
        say(what + "; ".join(texts))

    def take(self, line):
        """Takes a line of rt ci."""
        if line.startswith("== "):
            self.log = []
        self.log.append(line)
        proved, kept = PROVED.fullmatch(line), re.match(r"rt: (\w+) is kept: ", line)
        found = proved or kept
        if found and found[1] in self.plan.below and found[1] not in self.proved:
            self.proved.append(found[1])
            self.known |= {kept[1]} if kept else set()
            self.tell(f"{found[1]} {'was proved before' if kept else 'is proved'}: ")
        elif line.startswith("rt: ") and " NOT PROVED" in line:
            self.print()

    def print(self):
        sys.stderr.write("".join(self.log))
        self.log = []


def lines_of(stream):
    """A queue of the lines of a stream as they come, and none at its end."""
    lines = queue.Queue()

    def read_all():
        for line in stream:
            lines.put(line)
        lines.put(None)

    threading.Thread(target=read_all, daemon=True).start()
    return lines


def prove(copy):
    """Runs rt ci in the copy, and answers its status."""
    below = crates_in(read(f"{copy}/crates.txt"))
    rt = subprocess.Popen(["rt", "ci"], cwd=copy, stdin=subprocess.DEVNULL, stdout=subprocess.PIPE, stderr=subprocess.STDOUT, text=True, errors="replace")
    watch = Watch(str(rt.pid))
    watch.start()
    processors = int(os.environ.get("RT_JOBS") or 0) or len(os.sched_getaffinity(0))
    progress, lines = Progress(Plan(below, minutes_in(read(f"{ROOT}/docs/GATE.md"))), watch, processors), lines_of(rt.stdout)
    progress.told = progress.began
    try:
        while True:
            end_if_asked()
            if time.monotonic() - progress.told >= TELL:
                progress.tell()
            try:
                line = lines.get(timeout=1.0)
            except queue.Empty:
                continue
            if line is None:
                break
            progress.take(line)
        status = rt.wait()
    finally:
        rt.terminate()
        rt.wait()
    if status:
        progress.print()
    return status


def main():
    if len(sys.argv) != 2:
        sys.exit(__doc__.strip())
    if sys.argv[1] == "--range":
        print(range_in(read(f"{ROOT}/README.md")))
        return
    note_end()
    sys.exit(prove(sys.argv[1]))


if __name__ == "__main__":
    main()
