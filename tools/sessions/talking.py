"""The applications of examples/: programs that meet at one `emulate`, as a talk in tests/talks/ says line by line.

A talk begins with the words that `emulate` is given. Then each line has a name and what becomes of that program:

  ann$ example_rooms PORT garden ann     it is started; PORT stands for the emulator's port
  ann< hello                             a line is typed into it
  ann> ann: hello                        the next line that it prints
  ann! not said: denied                  the next line that it says on standard error
  ann.                                   its input ends; it ends with status 0, and has printed nothing more

Lines are done in order: each waits for what it names. '#' starts a comment.

Usage: python3 tools/sessions/talking.py     every talk, by the programs that are built in this checkout
"""
import os
import queue
import re
import subprocess
import sys
import threading

HERE = os.path.dirname(os.path.realpath(__file__))
sys.path[:0] = [HERE, f"{HERE}/.."]
from bodies import read
from cutting import Wrong
from emulating import Emulator
from frames import SECONDS
from parts import ROOT
from rows import builds_of
from session import stop

TALKS = f"{ROOT}/tests/talks"
LINE = re.compile(r"(\w+)(?:([$<>!]) ?(.*)|\.)")


class Talker:
    """A program of a talk, with the lines that it has printed and said so far."""

    def __init__(self, words):
        pipes = {"stdin": subprocess.PIPE, "stdout": subprocess.PIPE, "stderr": subprocess.PIPE}
        self.ran = subprocess.Popen(words, **pipes)
        self.lines = {">": queue.Queue(), "!": queue.Queue()}
        for kind, stream in ((">", self.ran.stdout), ("!", self.ran.stderr)):
            threading.Thread(target=self.read, args=(stream, self.lines[kind]), daemon=True).start()

    @staticmethod
    def read(stream, lines):
        for line in stream:
            lines.put(line.decode(errors="replace").removesuffix("\n"))
        lines.put(None)

    def type(self, line):
        self.ran.stdin.write(line.encode() + b"\n")
        self.ran.stdin.flush()

    def next(self, kind):
        """The next line that it prints or says; None at the end."""
        try:
            return self.lines[kind].get(timeout=SECONDS)
        except queue.Empty:
            return "nothing"

    def end(self):
        """Ends its input, and answers how it ends: its status, and the next lines that it prints and says."""
        self.ran.stdin.close()
        self.ran.stdin = None
        return self.ran.wait(SECONDS), self.next(">"), self.next("!")


def lines_of(text):
    """The emulator's words, and the lines behind them: each with its name, its kind ('.' at the end) and its text."""
    lines = [line for line in text.splitlines() if line and not line.startswith("#")]
    first, *rest = lines or [""]
    if first.split()[:1] != ["emulate"]:
        raise Wrong("a talk begins with 'emulate'")
    found = [LINE.fullmatch(line) for line in rest]
    if None in found or not found:
        raise Wrong(f"no line of a talk: {rest[found.index(None)] if found else ''}")
    return first.split()[1:], [(it[1], it[2] or ".", it[3]) for it in found]


def talk(console, program_of, text):
    """Has a talk, over an emulator of this build."""
    words, lines = lines_of(text)
    with Emulator(console, *words) as emulator:
        talkers = {}
        try:
            for name, kind, line in lines:
                step(talkers, program_of, emulator.port, (name, kind, line))
            if talkers:
                raise Wrong(f"these have not ended: {sorted(talkers)}")
        finally:
            for one in talkers.values():
                stop(one.ran)


def step(talkers, program_of, port, line):
    name, kind, text = line
    if kind == "$":
        program, *words = text.split()
        talkers[name] = Talker([program_of(program), *(str(port) if it == "PORT" else it for it in words)])
    elif kind == "<":
        talkers[name].type(text)
    elif kind == ".":
        ended = talkers[name].end()
        if ended != (0, None, None):
            raise Wrong(f"{name} ends with {ended}")
        stop(talkers.pop(name).ran)
    else:
        found = talkers[name].next(kind)
        if found != text:
            raise Wrong(f"'{name}{kind} {text}': it is {found!r}")


def talks(programs=None):
    """The talks by their names: all, or those of these programs alone."""
    names = sorted(it for it in os.listdir(TALKS) if it.endswith(".talk"))
    texts = {it: read(f"{TALKS}/{it}") for it in names}
    return {it: text for it, text in texts.items() if programs is None or programs_of(text) <= set(programs)}


def programs_of(text):
    """The programs that a talk starts."""
    return {line.split()[0] for _, kind, line in lines_of(text)[1] if kind == "$"}


def wrong_of(copy, consoles, programs=None):
    """What is wrong with the talks, all or those of these programs, each by both builds of the console and of its programs, and how many there were."""
    wrong, count = [], 0
    for name, text in talks(programs).items():
        for number, console in enumerate(consoles):
            count += 1
            try:
                talk(console, lambda program, number=number: builds_of(copy, program)[number], text)
            except (Wrong, OSError, ValueError, KeyError, IndexError, subprocess.TimeoutExpired) as why:
                wrong.append(f"{name}: {why!r} ({os.path.basename(console)})")
    return wrong, count


if __name__ == "__main__":
    found, tried = wrong_of(ROOT, builds_of(ROOT, "rt_console"))
    print("\n".join(found) or f"{tried} talks are as they should be")
    sys.exit(1 if found or not tried else 0)
