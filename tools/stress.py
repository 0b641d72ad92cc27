"""Threads over one client, judged from outside. The program rt_calls makes calls by chance on six seats of one client, with rings of 1 to
1,024 items, beside a thread that is the server; each step has a number that was taken under the lock. The console makes the same steps, in the
order of these numbers, of a core that nothing shares. Each step has to be answered as there, and each seat has to be told what is printed
there for it: all of it, item by item, and nothing else. What a seat that was not closed shows in the end is what `view` prints there.

Usage: python3 tools/stress.py STEPS [FIRST]     makes and judges at least so many steps, of the seeds from the first one (1) on, by the programs that
                                         are built in this checkout
"""
import collections
import json
import os
import subprocess
import sys

HERE = os.path.dirname(os.path.realpath(__file__))
sys.path[:0] = [HERE, f"{HERE}/sessions"]
from parts import ROOT, Clock, part, some_of
from rows import builds_of

RUNS, CALLS = 8, 320  # the seeds of a run of the gate, and how often each thread calls in each
STEPS, CHANGES = 20_000, 1_000  # the least steps in it, and the least changes from one thread to another
SECONDS = 600  # the longest that a run may take
SERVER = 0  # the place of the thread that is the server
BETWEEN = '["view",0]'  # asks for the view of no listener, which is refused
KINDS = "set update remove listen unlisten onDisconnect close data merge parts ok no revoke connected disconnected".split()


class Thread:
    """What a thread of a run wrote down: how it ended; its steps, each with its number, its line and the answer; what its seat was told; and
    what its listeners show, by number."""

    def __init__(self, head, lines):
        self.seed, place, self.end = head.split()
        self.place, self.steps, self.heard, self.views, kind = int(place), [], [], {}, ""
        for line in lines:
            if line.startswith("-- "):
                kind = line[3:]
            elif kind == "steps":
                number, asked, answer = line.split("\t")
                self.steps.append((int(number), asked, answer))
            elif kind == "heard":
                self.heard.append(line)
            elif line.startswith("view "):
                shown = self.views.setdefault(line[5:], [])
            elif line:
                shown.append(line)


def runs_in(text):
    """The threads of each run that is printed, by its seed."""
    runs = collections.OrderedDict()
    for block in ("\n" + text).split("\n== ")[1:]:
        head, *lines = block.rstrip("\n").split("\n")
        thread = Thread(head, lines)
        runs.setdefault(thread.seed, []).append(thread)
    return runs


def steps_of(threads):
    """The steps of a run in the order of their numbers, each with the place of its thread; none where a number is missing or there twice."""
    steps = sorted((number, asked, answer, it.place) for it in threads for number, asked, answer in it.steps)
    return [it[1:] for it in steps] if [it[0] for it in steps] == list(range(len(steps))) else []


def printed_by(console, lines):
    """What the console prints for each of these lines."""
    ran = subprocess.run([console, "script"], input="\n".join(lines) + "\n", capture_output=True, text=True, timeout=SECONDS)
    cut = []
    for line in ran.stdout.splitlines():
        if line.startswith(("done", "stale", "refused", "bad")):
            cut.append([])
        cut[-1].append(line)
    return cut


class Judge:
    """What each seat has to be told by what the console prints for the steps, and what is wrong with the answers to them."""

    def __init__(self, threads):
        self.due = {it.place: [] for it in threads}
        self.owners, self.wrong, self.done = {}, [], collections.Counter()

    def step(self, asked, answer, place, printed):
        """Takes a step of that thread: what it was answered, and what the console prints."""
        first, *told = printed
        if first != answer:
            self.wrong.append(f"{asked} was answered {answer}, not {first}")
        kind, _, *rest = *json.loads(asked), None, None
        if first.startswith("done"):
            self.done[kind] += 1
            self.receipt(kind, place, first.partition(" ")[2], rest)
        for line in told:
            self.due[self.owners[line.split()[0]]].append(line)

    def receipt(self, kind, place, number, rest):
        """The receipt of a call that was made, and whose the number is that it was given."""
        if kind == "unlisten":
            self.due[place].append(f"unlistened {rest[0]}")
        elif number:
            word, letter = {"listen": ("listened", "L"), "onDisconnect": ("asked", "R")}.get(kind, ("wrote", "R"))
            self.due[place].append(f"{word} {number}")
            self.owners[letter + number] = place


def wrong_of_heard(thread, due):
    """What is wrong with what a thread's seat was told: one that was closed before it had heard all has heard the beginning of it."""
    heard, wanted = thread.heard, due[: len(thread.heard)] if thread.end == "left" else due
    at = len(os.path.commonprefix([heard, wanted]))
    if heard == wanted:
        return ""
    return f"seat {thread.place} was told {heard[at : at + 1]}, not {wanted[at : at + 1]}, as item line {at + 1} of {len(wanted)}"


def judged(threads, console):
    """What is wrong with a run, the steps that are done, by kind, and how often the thread changes from one step to the next."""
    steps, judge = steps_of(threads), Judge(threads)
    lost = [f"the thread at place {it.place} gave up" for it in threads if it.end == "lost"]
    if lost or not steps:
        return lost or ["a step has no number, or that of another"], judge.done, 0
    views = [(it, number, shown) for it in threads if it.end == "open" for number, shown in it.views.items()]
    asked = [text for _, number, _ in views for text in (f'["view",{number}]', BETWEEN)]
    printed = printed_by(console, [it[0] for it in steps] + [BETWEEN] + asked)
    if len(printed) != len(steps) + 1 + len(views):
        return [f"the console answers {len(printed)} lines, not {len(steps) + 1 + len(views)}"], judge.done, 0
    for step, lines in zip(steps, printed):
        judge.step(*step, lines)
    # What a view prints stands behind the refusal of the line before it.
    shows = [lines[1:] for lines in printed[len(steps) :]]
    wrong = judge.wrong + [why for it in threads for why in [wrong_of_heard(it, judge.due[it.place])] if why]
    wrong += [f"seat {it.place} shows {shown}, not {due}, of listener {number}" for (it, number, shown), due in zip(views, shows) if shown != due]
    return wrong, judge.done, sum(a[2] != b[2] for a, b in zip(steps, steps[1:]))


class Stress:
    """Runs of a program, judged by a console: how many steps, of which kinds, how often the thread changed, and what is wrong."""

    def __init__(self, console):
        self.console, self.wrong, self.ends = console, [], collections.Counter()
        self.done, self.steps, self.changes = collections.Counter(), 0, 0

    def judge(self, text):
        """Judges the runs that are printed, of which there is at least one."""
        runs = runs_in(text)
        self.wrong += [] if runs else ["nothing was run"]
        for seed, threads in runs.items():
            wrong, done, changes = judged(threads, self.console)
            self.wrong += [f"seed {seed}: {it}" for it in wrong]
            self.ends.update(it.end for it in threads)
            self.done.update(done)
            self.steps += sum(len(it.steps) for it in threads)
            self.changes += changes

    def run(self, program, first, count, calls):
        """Runs so many seeds from the first one on."""
        try:
            ran = subprocess.run([program, str(first), str(count), str(calls)], capture_output=True, text=True, timeout=SECONDS)
        except subprocess.TimeoutExpired:
            self.wrong.append(f"seeds {first} to {first + count - 1}: it does not end")
            return
        if ran.returncode or ran.stderr:
            self.wrong.append(f"seeds {first} to {first + count - 1}: status {ran.returncode}: {ran.stderr[:200]}")
        self.judge(ran.stdout)

    def lacking(self, steps):
        """What was not tried, if something was not."""
        few = [f"{self.steps} steps, not {steps}"] if self.steps < steps else []
        few += [f"only {self.changes} changes of thread"] if self.changes * STEPS < CHANGES * steps else []
        few += [f"no {it} was done" for it in KINDS if not self.done[it]]
        return few + [f"no seat ended {it}" for it in ("open", "emptied", "left") if not self.ends[it]]

    def __str__(self):
        kinds = ", ".join(f"{self.done[it]} {it}" for it in KINDS)
        return f"{self.steps} steps, {self.changes} changes of thread; done: {kinds}; seats: {dict(self.ends)}"


def stress_part(copy):
    """The programs as two compilers built them, judged by the console as one did."""
    for program in builds_of(copy, "rt_calls"):
        clock, stress = Clock(), Stress(builds_of(copy, "rt_console")[0])
        stress.run(program, 1, RUNS, CALLS)
        name = f"{os.path.basename(program)}: {stress.steps} steps of threads over one client"
        part(name, some_of(stress.wrong + stress.lacking(STEPS), stress.steps), clock)


def main():
    if len(sys.argv) not in (2, 3) or not all(it.isdigit() for it in sys.argv[1:]):
        print(__doc__.strip())
        sys.exit(2)
    wanted, first = int(sys.argv[1]), int(sys.argv[2]) if len(sys.argv) == 3 else 1
    program, stress = f"{ROOT}/crates/rt_calls/out/rt_calls", Stress(f"{ROOT}/crates/rt_console/out/rt_console")
    while stress.steps < wanted and not stress.wrong:
        stress.run(program, first, RUNS, CALLS)
        first += RUNS
    print(stress)
    print("\n".join(stress.wrong[:20] + stress.lacking(wanted)) or "each seat was told what it had to be told")
    sys.exit(bool(stress.wrong))


if __name__ == "__main__":
    main()
