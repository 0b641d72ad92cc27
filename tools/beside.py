"""Parts of the gate that run beside the proofs of rt ci, each set in a process of its own, whose processor time is counted by itself: the central
wrong bodies, a crate's as soon as what it stands on is proved and built in the copy, and what needs the console alone, as soon as that is.

Usage: python3 tools/beside.py central COPY | console COPY     the gate starts both, and writes into COPY.proved what is proved"""
import os
import subprocess
import sys
import threading
import time

sys.path[:0] = [f"{os.path.dirname(os.path.realpath(__file__))}/sessions", os.path.dirname(os.path.realpath(__file__))]
sys.dont_write_bytecode = True
from bodies import read
from parts import Clock, count, counts_in, end, part

SETS = {"central": ["nice", "-n", "10"], "console": []}
ENDED = "ended"


class Beside:
    """The parts that run beside the proofs over a copy. Their lines are printed as they come."""

    def __init__(self, copy):
        self.proved = f"{copy}.proved"
        open(self.proved, "w", encoding="utf-8").close()
        self.runs = [self.started(words, name, copy) for name, words in SETS.items()]

    def started(self, words, name, copy):
        ran = subprocess.Popen([*words, sys.executable, os.path.realpath(__file__), name, copy], stdin=subprocess.DEVNULL, stdout=subprocess.PIPE, text=True)
        last = []
        thread = threading.Thread(target=self.show, args=(ran, last), daemon=True)
        thread.start()
        return name, ran, thread, last

    @staticmethod
    def show(ran, last):
        for line in ran.stdout:
            if last:
                print(last.pop(), end="", flush=True)
            last.append(line)

    def tell(self, name):
        with open(self.proved, "a", encoding="utf-8") as it:
            it.write(f"{name}\n")

    def told(self, line):
        """Takes a line of rt ci: what is proved there, or was, is proved."""
        words = line.split()
        if words[2:] == ["proved"] or words[2:4] == ["is", "kept:"]:
            self.tell(words[1])

    def end(self):
        """Waits for what can still run, and counts what passed and failed. What waits for a crate that is not proved fails."""
        self.tell(ENDED)
        for name, ran, thread, last in self.runs:
            ran.wait()
            thread.join()
            counts = counts_in(last[0]) if last else None
            if counts:
                count(*counts)
            if not counts or (ran.returncode == 0) != (not counts[1]):
                part(name, f"status {ran.returncode}: {''.join(last)[-200:].strip()}")


def until(copy, names):
    """Waits until these crates are proved and built in the copy, and answers which are not when all has ended."""
    while True:
        proved = read(f"{copy}.proved").split()
        lacking = [it for it in names if it not in proved]
        if not lacking or ENDED in proved:
            return lacking
        time.sleep(1)


def central_parts(copy):
    import judging

    judging.central_part(copy, [it for it in judging.all_edits() if it.central], lambda names: until(copy, names))


def console_parts(copy):
    import breaking
    import growth
    import lacking
    import rows
    import sockets

    lost = until(copy, [rows.CONSOLE])
    if lost:
        part("what the console shows", f"{rows.CONSOLE} is not proved")
        return
    rows.rows_part(copy, rows.CONSOLE)
    breaking.streams_part(copy)
    sockets.sockets_parts(copy)
    lacking.refusals_part(copy, [rows.CONSOLE])
    growth.growth_part(copy)


def main():
    clock, (name, copy) = Clock(), sys.argv[1:]
    {"central": central_parts, "console": console_parts}[name](copy)
    end(clock, f"{name}: ")


if __name__ == "__main__":
    main()
