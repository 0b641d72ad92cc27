"""The part of the gate that proves: rt ci over a copy, and what each crate takes in it."""
import bisect
import os
import re
import shutil
import subprocess
import threading
import time

import workspaces
from bodies import read, write
from parts import ROOT, count, counts_in, crates, crates_in, minutes, part

GB = 2**30
A_PROOF = 5 * GB  # the most that the proof of a crate takes of memory
NODE, ROOM = 20, 2**29  # the bytes of a node in the prover's arena of terms, and how many nodes it has room for
MAPPING = re.compile(r"(?m)^([0-9a-f]+)-([0-9a-f]+) (....) \S+ \S+ 0 *$")
A_PAGE, ENTRY = os.sysconf("SC_PAGE_SIZE"), 8  # the bytes of a page of memory, and of what /proc/PID/pagemap says of it


def copied(to, examples=workspaces.IN_GATE, only=None):
    """A copy of the repository without what was built, and without the wrong bodies, in which these examples are crates, and of its own crates all, or
    these alone."""
    shutil.copytree(ROOT, to, ignore=shutil.ignore_patterns("out", "must-fail", ".git", "target"))
    for it in set(crates()) - set(crates() if only is None else only):
        shutil.rmtree(f"{to}/crates/{it}")
    if only is not None:
        lines = read(f"{to}/crates.txt").splitlines(keepends=True)
        write(f"{to}/crates.txt", "".join(it for it in lines if set(crates_in(it)) <= set(only)))
    workspaces.add_examples(to, examples)
    return to


def arena_in(maps):
    """The pages of the prover's arena that are open, by what /proc says of a process's mappings: the part that is open and the part that is not
    yet are neighbours, and have the size of all of it together."""
    found = [(int(it[1], 16), int(it[2], 16), it[3]) for it in MAPPING.finditer(maps)]
    for (begin, middle, kind), (behind, end, rest) in zip(found, found[1:]):
        if (kind, rest) == ("rw-p", "---p") and middle == behind and end - begin == NODE * ROOM:
            return range(begin // A_PAGE, middle // A_PAGE)
    return range(0)


def nodes_in(arena, pagemap):
    """How many nodes a process has written in the prover's arena. It is written from its beginning on, so the first page that is not there, whose
    highest two bits in ``pagemap`` are not set, is found by halving; of a process that has ended none is there. The number is the same at any load."""

    def is_new(page):
        pagemap.seek(ENTRY * page)
        return not any(it >> 6 for it in pagemap.read(ENTRY)[-1:])

    return bisect.bisect_left(arena, True, key=is_new) * A_PAGE // NODE


class Watch(threading.Thread):
    """Reads in /proc what the processes below one took of a processor, and how many nodes of the prover's arena: for the proofs of each
    crate, and of its tests."""

    def __init__(self, top):
        super().__init__(daemon=True)
        self.top, self.taken, self.nodes = top, {}, {}

    @staticmethod
    def kind_of(words, above):
        """What a process with these words works on; where they don't tell, what the process above it works on."""
        if "--crate-name" not in words[:-1]:
            return above
        crate = words[words.index("--crate-name") + 1]
        return f"tests of {crate}" if any(it.endswith("_tests.o") for it in words) else crate

    def look(self, pid, above):
        try:
            with open(f"/proc/{pid}/cmdline", "rb") as it:
                words = it.read().decode(errors="replace").split("\0")
            fields = read(f"/proc/{pid}/stat").rpartition(")")[2].split()
            kind = self.kind_of(words, self.taken.get((pid, fields[19]), (above,))[0])  # one that has ended has no words any more
            self.taken[pid, fields[19]] = kind, int(fields[11]) + int(fields[12])
            if "--crate-name" in words and "--crate-checked" not in words:
                with open(f"/proc/{pid}/pagemap", "rb", buffering=0) as it:
                    self.nodes[kind] = max(self.nodes.get(kind, 0), nodes_in(arena_in(read(f"/proc/{pid}/maps")), it))
            tasks = os.listdir(f"/proc/{pid}/task")
            below = " ".join(read(f"/proc/{pid}/task/{it}/children") for it in tasks).split()
        except OSError:
            return
        for it in below:
            self.look(it, kind)

    def run(self):
        while os.path.isdir(f"/proc/{self.top}"):
            self.look(self.top, "the rest")
            time.sleep(0.5)

    def __str__(self):
        sums = {}
        for kind, ticks in self.taken.values():
            sums[kind] = sums.get(kind, 0) + ticks / os.sysconf("SC_CLK_TCK") / 60
        return ", ".join(f"{kind} {it:.1f}" for kind, it in sorted(sums.items(), key=lambda it: -it[1]) if it >= 0.05)


def lanes(processors, memory):
    """How many proofs there are room for side by side. A number that is given has rt ci make each proof by one process, whose nodes can be counted."""
    return max(1, min(processors, memory // A_PROOF))


def free_memory():
    found = re.search(r"MemAvailable: +(\d+) kB", read("/proc/meminfo"))
    return int(found[1]) * 1024 if found else 0


def rt_ci(copy, told=lambda line: None):
    """Runs rt ci in the copy. Its own lines are printed, and told, as they come, and all that it said only where it fails. It gives way to
    what runs beside it, whose clients don't wait for ever."""
    began, said = time.monotonic(), []
    environment = {**os.environ, "RT_JOBS": str(lanes(len(os.sched_getaffinity(0)), free_memory()))}
    streams = {"stdin": subprocess.DEVNULL, "stdout": subprocess.PIPE, "stderr": subprocess.STDOUT, "text": True, "errors": "replace"}
    ran = subprocess.Popen(["nice", "-n", "5", "rt", "ci"], cwd=copy, env=environment, **streams)
    watch = Watch(str(ran.pid))
    watch.start()
    for line in ran.stdout:
        said.append(line)
        if line.startswith("rt: "):
            told(line)
            print(f"        {line[4:].rstrip()[:160]}", flush=True)
    _, status, used = os.wait4(ran.pid, 0)
    ran.returncode = os.waitstatus_to_exitcode(status)
    counts = counts_in(said[-1] if said else "")
    is_well = ran.returncode == 0 and counts and counts[0] and not counts[1]
    if not is_well:
        print("".join(said))
    if counts:
        count(*counts)
    took = minutes(used.ru_utime + used.ru_stime, time.monotonic() - began)
    part("rt ci", "" if is_well else f"status {ran.returncode}, see above", took)
    print(f"        of these: {watch}", flush=True)
    if is_well:
        budget_part(watch.nodes)
    return is_well


# ---- the budget


PAGE, BEGIN, END = "docs/GATE.md", "<!-- budget -->\n", "<!-- end of budget -->"
MILLION, MORE = 1_000_000, 1.1
LEAST = 0.5  # the millions of nodes below which a crate needs no line: those of one that proves next to nothing may be seen or not


def budget_in(page):
    """The millions of nodes that a page grants each crate, and its tests."""
    lines = page.partition(BEGIN)[2].partition(END)[0]
    return {name: float(number) for name, number in re.findall(r"\| `?([\w ]+?)`? \| (\d+\.\d+)(?= \|)", lines)}


def over_budget(nodes, budget):
    """What each crate has that is more than a tenth above its line, or has no line and is no small one."""
    for kind, number in sorted(nodes.items()):
        taken, granted = number / MILLION, budget.get(kind)
        if granted is None and taken >= LEAST:
            yield f"{kind} has no line, and takes {taken:.2f} million nodes"
        elif granted is not None and taken > MORE * granted:
            yield f"{kind} takes {taken:.2f} million nodes, {100 * (taken / granted - 1):.0f} % more than its {granted:.2f}"


def budget_part(nodes):
    """Whether each crate that was proved anew keeps to its line of docs/GATE.md."""
    measured = {kind: number for kind, number in nodes.items() if number}
    if measured:
        part(f"{len(measured)} crates and tests keep to their lines of {PAGE}", "; ".join(over_budget(measured, budget_in(read(f"{ROOT}/{PAGE}")))))
        print("        nodes: " + ", ".join(f"{kind} {number}" for kind, number in sorted(measured.items())), flush=True)
