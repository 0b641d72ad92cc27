"""Rows: scripts, each with what a program has to print for it."""
import os
import re
import subprocess

import keeping
from parts import ROOT, Clock, crates, part, some_of, with_below
from runs import differs

CONSOLE = "rt_console"
# The programs, each with the folders of its rows.
PROGRAMS = {
    CONSOLE: ("tests/scripts", "tests/rows"),
    "rt_calls": ("tests/calls/low", "tests/calls/mid", "tests/calls/high", "tests/calls/mail", "tests/calls/client", "tests/calls/peer"),
}


class Row:
    """A run of a program, the console or one of calls: NAME.script is its input, empty where there is none, and NAME.out what it prints, and where there are such files NAME.args
    its words, one a line, in place of 'script', NAME.status its exit status, and NAME.err what it says on standard error. NAME.unsaid is how many of its allocations may be refused and no
    answer shows it: those for the copy of a seat's call that the core refuses, those for the tree beside the pending writes, which is given
    up, those for the room that the list of a new view's children asks for at once, in whose place it grows bit by bit, and those for the sorted
    tags of a push of more than 64 parts and the sorted entries of a write of more than 8, in whose place each is compared with each."""

    def __init__(self, name):
        self.name = name
        args, self.script, self.out = self.bytes_of("args"), self.bytes_of("script"), self.bytes_of("out")
        self.words = args.split(b"\n")[:-1] if args is not None else [] if name.startswith("tests/calls/") else [b"script"]
        self.status, self.err = int(self.bytes_of("status") or b"0"), self.bytes_of("err") or b""
        self.unsaid = int(self.bytes_of("unsaid") or b"0")
        self.is_whole = args is not None or (self.script is not None and self.out is not None)

    def bytes_of(self, ending):
        try:
            with open(f"{ROOT}/{self.name}.{ending}", "rb") as it:
                return it.read()
        except OSError:
            return None

    def opened(self):
        """Its input, as a file."""
        return open(f"{ROOT}/{self.name}.script" if self.script is not None else os.devnull, "rb")

    def wrong(self, program):
        """Runs a program as the row says, and answers what is wrong, if anything is."""
        ran = subprocess.run([program, *self.words], input=self.script or b"", capture_output=True, timeout=60)
        return differs(self.name, (ran.returncode, ran.stdout, ran.stderr), (self.status, self.out or b"", self.err))


def rows(*folders):
    files = [f"{folder}/{file}" for folder in folders for file in os.listdir(f"{ROOT}/{folder}")]
    names = {os.path.splitext(it)[0] for it in files if not it.endswith((".c", ".lines"))}
    return [Row(name) for name in sorted(names)]


def builds_of(copy, name):
    """A program as each compiler built it."""
    folder = f"{copy}/crates/{name}/out"
    return [f"{folder}/{it}" for it in sorted(os.listdir(folder)) if re.fullmatch(rf"{name}(\.by-\w+)?", it)]


def rows_part(copy, name):
    """The rows of a program, by both of its builds."""
    clock, builds, all_rows = Clock(), builds_of(copy, name), rows(*PROGRAMS[name])
    wrong = [f"{it.name} has neither .args nor both .script and .out" for it in all_rows if not it.is_whole]
    wrong += [f"{text} ({os.path.basename(program)})" for it in all_rows for program in builds for text in [it.wrong(program)] if text]
    if len(builds) != 2:
        wrong.append(f"{name} was built by {len(builds)} compilers, not by two")
    part(f"{name}: {len(all_rows)} rows, {len(all_rows) * len(builds)} runs", some_of(wrong, all_rows), clock)


# The folders of tests/calls/ with the crates whose calls they make.
CALLS_OF = {
    "low": ("rt_map", "rt_tree", "rt_order", "rt_nodes", "rt_store"),
    "mid": ("rt_query", "rt_writes", "rt_cache", "rt_forms", "rt_cover"),
    "high": ("rt_view", "rt_wire", "rt_world", "rt_parts", "rt_sync"),
    "mail": ("rt_mail",),
    "client": ("rt_client", "rt_push"),
    "peer": ("rt_peer", "rt_hub"),
}


def folders_of(program, named, below):
    """The folders of a program's rows that show these crates."""
    if program == CONSOLE:
        return PROGRAMS[CONSOLE] if set(named) & set(with_below([CONSOLE], below)) else ()
    return tuple(f"tests/calls/{it}" for it, crates_of in CALLS_OF.items() if {*crates_of, program} & set(named))


def rows_of_crates_part(copy, named, room):
    """The rows that show these crates, by the programs that are proved in the copy, or else without proofs."""
    for program in PROGRAMS:
        folders = folders_of(program, named, crates())
        if not folders:
            continue
        clock, all_rows, why = Clock(), rows(*folders), ""
        builds = builds_of(copy, program) if os.path.isdir(f"{copy}/crates/{program}/out") else []
        is_proved = bool(builds)
        if not is_proved:
            builds, why = keeping.runner(program, room)
        wrong = [why] if why else [text for it in all_rows for build in builds for text in [it.wrong(build)] if text]
        part(f"{program}{'' if is_proved else ', without its proofs'}: {len(all_rows)} rows", some_of(wrong, all_rows), clock)
